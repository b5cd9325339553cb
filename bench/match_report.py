"""Tables of what match_beside_abc.py measured."""

KINDS = ("permuted", "negated", "other", "gate", "output")
MATCHES, MISSES = ("permuted", "negated", "other"), ("gate", "output")
WHY = {"supports": "supports", "unateness": "unateness", "symmetries": "symmetries", "counts": "counts of an output", "joint counts": "counts of outputs together",
       "drawn": "counts on drawn vectors",
       "twin": "another graph", "tried": "all matchings tried, none or a match", "unknown": "not known"}
START = {"bm": 0.028, "match": 0.003}  # processor seconds that a program takes to start
LEAST = 0.01  # less than that isn't told apart
SIZES = ((8, "to 8"), (16, "to 16"), (32, "to 32"), (64, "to 64"), (128, "to 128"), (256, "to 256"), (1024, "to 1,024"), (4096, "to 4,096"))


def is_decided(row, seconds):
    return row["said"] in ("matched", "none") and not row["wrong"] and row["seconds"] <= seconds


def cell(row):
    if row is None:
        return ""
    if row["wrong"]:
        return "WRONG"
    if row["said"] in ("matched", "none", "found"):
        return f"{row['seconds']:.2f}{'n' if row['said'] == 'none' else 'm'}"
    return row["said"][:7]


def table(rows, program):
    """A line for each circuit: the seconds of each kind and what was answered (m matched or found, n none)."""
    circuits, at = {}, {}
    for row in rows:
        circuits.setdefault(row["circuit"], row)
        at[row["program"], row["circuit"], row["kind"]] = row
    print(f"\n{program}\n{'circuit':<22}{'family':<17}{'in/out':>8}{'gates':>6}" + "".join(f"{it:>10}" for it in ("permuted", "bm", "negated", "other", "gate", "bm", "output")))
    for name, one in circuits.items():
        if not any((program, name, kind) in at for kind in KINDS):
            continue
        cells = []
        for kind in KINDS:
            cells.append(cell(at.get((program, name, kind))))
            if kind in ("permuted", "gate"):
                cells.append(cell(at.get(("bm", name, kind))))
        ports = f"{one['inputs']}/{one['outputs']}"
        print(f"{name:<22}{one['family']:<17}{ports:>8}{one['gates']:>6}" + "".join(f"{it:>10}" for it in cells))


def share(rows, seconds):
    return f"{sum(is_decided(row, seconds) for row in rows)}/{len(rows)}" if rows else "-"


def groups(rows, key, title, limit):
    """How many pairs are decided, by some key of the circuit."""
    order = list(dict.fromkeys(key(row) for row in rows))
    print(f"\n{title:<18}" + "".join(f"{it:>14}" for it in ("matches 1 s", f"{limit} s", "gate 1 s", f"{limit} s", "output 1 s", f"{limit} s")))
    for it in order:
        part = [row for row in rows if key(row) == it]
        cells = []
        for kinds in (MATCHES, ("gate",), ("output",)):
            some = [row for row in part if row["kind"] in kinds]
            cells += [share(some, 1), share(some, limit)]
        print(f"{it:<18}" + "".join(f"{c:>14}" for c in cells))


def size_of(row):
    return next(word for most, word in SIZES if row["inputs"] <= most)


def pairs_of_bm(rows, program):
    """The rows of bm, each with that of a program on the same pair."""
    ours = {(row["circuit"], row["kind"]): row for row in rows if row["program"] == program}
    return [(row, ours[row["circuit"], row["kind"]]) for row in rows if row["program"] == "bm" and (row["circuit"], row["kind"]) in ours]


def is_right(row):
    """Whether an answer of bm is the one that is known."""
    return row["said"] == ("found" if row["kind"] == "permuted" else "none")


def slower(rows, program, limit):
    """The pairs that bm answers rightly and on which a program is late or takes more than twice as long, starting aside, and longer
    with it too. Without the near misses that have a match with negated ports, which bm doesn't look for."""
    for row, our in pairs_of_bm(rows, program):
        taken = max(row["seconds"] - START["bm"], LEAST)
        is_slower = our["seconds"] > row["seconds"] and our["seconds"] - START["match"] > 2 * taken
        asks_more = row["said"] == "none" and our["said"] == "matched"
        if is_right(row) and not asks_more and (is_slower or not is_decided(our, limit)):
            yield row, our


def beside(rows, program, limit):
    """What bm answered, held against a program's answers to the same pairs."""
    pairs = pairs_of_bm(rows, program)
    for kind, wanted in (("permuted", "found"), ("gate", "none")):
        some = [(b, o) for b, o in pairs if b["kind"] == kind]
        answered = [(b, o) for b, o in some if b["said"] in ("found", "none")]
        both = [(b, o) for b, o in answered if is_decided(o, limit)]
        ours_alone = sum(is_decided(o, limit) for b, o in some if b["said"] not in ("found", "none"))
        faster = sum(o["seconds"] < b["seconds"] for b, o in both)
        print(f"  {kind}: bm answers {len(answered)} of {len(some)} ({sum(b['said'] == 'failed' for b, _ in some)} end without an answer); of these npnp decides {len(both)}, {faster} of them in less time;"
              f" of the others npnp decides {ours_alone}")
        left = [f"{b['circuit']} ({b['seconds']:.2f} s)" for b, o in answered if not is_decided(o, limit)]
        if left:
            print(f"    bm alone: {', '.join(left)}")
        odd = [b["circuit"] for b, o in answered if kind == "permuted" and b["said"] == "none" or kind == "gate" and b["said"] == "found" and o["known"] is False]
        if odd:
            print(f"    bm answers wrongly: {', '.join(odd)}")
    print("  bm takes less than half as long, starting aside: " + (", ".join(f"{b['circuit']} {b['kind']} ({b['seconds']:.2f} s and {cell(o)})" for b, o in slower(rows, program, limit)) or "never"))


def classes(rows, limit):
    """What isn't decided, by family and kind, with how large it is: inputs/outputs/gates."""
    left = [row for row in rows if not is_decided(row, limit)]
    print("\nnot decided, by family: circuit (inputs/outputs/gates, why there is no match)")
    for family in dict.fromkeys(row["family"] for row in rows):
        for kinds, word in ((MATCHES, "matches"), (("gate",), "gate"), (("output",), "output")):
            all_of = [row for row in rows if row["family"] == family and row["kind"] in kinds]
            some = [row for row in left if row["family"] == family and row["kind"] in kinds]
            size = lambda row: f"{row['inputs']}/{row['outputs']}/{row['gates']}"
            text = [f"{row['circuit']}{' ' + row['kind'] if word == 'matches' else ''} ({size(row)}{'' if word == 'matches' else ', ' + row['why']})" for row in some]
            if some:
                print(f"  {family}, {word}: {len(some)} of {len(all_of)}: {', '.join(text)}")


def summary(rows, program, limit):
    ours = [row for row in rows if row["program"] == program]
    print(f"\n== {program}: {len({row['circuit'] for row in ours})} circuits, {len(ours)} pairs, {limit} processor seconds each")
    for title, kinds in (("pairs that match", MATCHES), ("near misses", MISSES)):
        for kind in (kinds, *((it,) for it in kinds)):
            some = [row for row in ours if row["kind"] in kind]
            word = title if len(kind) > 1 else "  " + kind[0]
            taken = sum(min(row["seconds"], limit) for row in some)
            print(f"{word:<20}{share(some, 1):>10} in 1 s{share(some, limit):>10} in {limit} s{taken:>10.1f} s in all")
    misses = [row for row in ours if row["kind"] in MISSES]
    print(f"\n{'why a near miss has no match':<36}{'pairs':>6}{'1 s':>6}{str(limit) + ' s':>6}")
    for why, words in WHY.items():
        some = [row for row in misses if row["why"] == why]
        print(f"{words:<36}{len(some):>6}{sum(is_decided(row, 1) for row in some):>6}{sum(is_decided(row, limit) for row in some):>6}")
    print(f"near misses that are matched after all, with an accepted account: {', '.join(row['circuit'] + ' ' + row['kind'] for row in misses if row['said'] == 'matched' and not row['wrong']) or 'none'}")
    answered = [row for row in ours if row["said"] in ("matched", "none")]
    wrong = [row for row in ours if row["wrong"]]
    print(f"answers {len(answered)}, accounts accepted {sum('check' in row and not row['wrong'] for row in answered)}, wrong {len(wrong)}; check took longer than match {sum(row.get('check', 0) > row['seconds'] for row in answered)} times")
    for row in wrong:
        print(f"  WRONG {row['circuit']} {row['kind']}: {row['said']}: {row['wrong']}")
    others = {}
    for row in ours:
        if row["said"] not in ("matched", "none", "late"):
            others.setdefault(row["said"], []).append(f"{row['circuit']} {row['kind']}")
    for said, names in others.items():
        print(f"  said `{said}`: {', '.join(names)}")
    beside(rows, program, limit)
    groups(ours, lambda row: row["family"], "family", limit)
    groups(sorted(ours, key=lambda row: row["inputs"]), size_of, "inputs", limit)
    classes(ours, limit)
    return bool(wrong)


def compared(rows, one, other, limit):
    """What the second of two programs decides that the first doesn't, and the reverse, and their seconds."""
    at = {(row["program"], row["circuit"], row["kind"]): row for row in rows}
    keys = [key[1:] for key in at if key[0] == one and (other, *key[1:]) in at]
    print(f"\n== {other} beside {one}, on {len(keys)} pairs that both had")
    for kinds, word in ((MATCHES, "matches"), (MISSES, "near misses")):
        some = [(at[(one, *key)], at[(other, *key)]) for key in keys if key[1] in kinds]
        won = [f"{b['circuit']} {b['kind']}" for a, b in some if is_decided(b, limit) and not is_decided(a, limit)]
        lost = [f"{b['circuit']} {b['kind']}" for a, b in some if is_decided(a, limit) and not is_decided(b, limit)]
        both = [(a, b) for a, b in some if is_decided(a, limit) and is_decided(b, limit)]
        print(f"{word}: decided in 1 s {sum(is_decided(a, 1) for a, _ in some)} and now {sum(is_decided(b, 1) for _, b in some)}, in {limit} s {sum(is_decided(a, limit) for a, _ in some)} and now "
              f"{sum(is_decided(b, limit) for _, b in some)}, of {len(some)}; {len(both)} by both, in {sum(a['seconds'] for a, _ in both):.1f} s and now {sum(b['seconds'] for _, b in both):.1f} s")
        print(f"  now decided ({len(won)}): {', '.join(won)}\n  no longer ({len(lost)}): {', '.join(lost)}")
        slower = sorted(((b["seconds"] - a["seconds"], f"{b['circuit']} {b['kind']} {a['seconds']:.2f} to {b['seconds']:.2f}") for a, b in both if b["seconds"] > 1.5 * a["seconds"] + 0.05), reverse=True)
        if slower:
            print(f"  slower ({len(slower)}): {', '.join(it for _, it in slower[:12])}")


def markdown(rows, program, limit):
    """The same as tables of docs/MEASURED.md, by family, by how many inputs and by why there is no match; and docs/matching.tsv, by circuit."""
    ours = [row for row in rows if row["program"] == program]
    limits = sorted({1, limit})
    groups_of = (("matches", MATCHES), ("gate changed", ("gate",)), ("output replaced", ("output",)))

    def lines(title, key, part):
        heads = [f"{word}, {seconds} s" for word, _ in groups_of for seconds in limits]
        print(f"\n| {title} | circuits | {' | '.join(heads)} |\n|" + "---|" * (2 + len(heads)))
        for word in dict.fromkeys(key(row) for row in part):
            some = [row for row in part if key(row) == word]
            cells = [share([row for row in some if row["kind"] in kinds], seconds).replace("/", " of ") for _, kinds in groups_of for seconds in limits]
            print(f"| {word} | {len({row['circuit'] for row in some})} | {' | '.join(cells)} |")

    lines("family", lambda row: row["family"], ours)
    lines("inputs", size_of, sorted(ours, key=lambda row: row["inputs"]))
    lines("all", lambda row: "all", ours)
    print(f"\n| why a near miss has no match | pairs | {' | '.join(f'{it} s' for it in limits)} |\n|" + "---|" * (2 + len(limits)))
    misses = [row for row in ours if row["kind"] in MISSES]
    for why, words in WHY.items():
        some = [row for row in misses if row["why"] == why]
        print(f"| {words} | {len(some)} | {' | '.join(str(sum(is_decided(row, it) for row in some)) for it in limits)} |")
    print("\n| pair | `bm` | `match` |\n|---|---|---|")
    for row, our in slower(rows, program, limit):
        taken = f"{our['seconds']:.2f} s" if is_decided(our, limit) else our["said"]
        print(f"| `{row['circuit']}`, {row['kind']} | {row['seconds']:.2f} s | {taken} |")
    at = {(row["program"], row["circuit"], row["kind"]): row for row in rows}
    kinds = {"permuted": "permuted", "negated": "negated", "other architecture": "other", "gate changed": "gate", "output replaced": "output"}
    print("\ncircuit\tinputs\toutputs\tgates\t" + "\t".join(kinds))
    for name in dict.fromkeys(row["circuit"] for row in ours):
        one = next(row for row in ours if row["circuit"] == name)
        cells = [cell(at.get((program, name, kind))) for kind in kinds.values()]
        print("\t".join((name, *(str(one[it]) for it in ("inputs", "outputs", "gates")), *cells)))


def report(rows, programs, limit, in_markdown=False):
    """Prints all tables, and gives whether an answer was wrong."""
    failed = False
    if in_markdown:
        for program in programs:
            markdown(rows, program, limit)
        return any(row["wrong"] for row in rows)
    for program in programs:
        table(rows, program)
    for program in programs:
        failed |= summary(rows, program, limit)
    for other in programs[1:]:
        compared(rows, programs[0], other, limit)
    return failed
