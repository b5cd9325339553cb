"""Accounts of refusals for small netlists drawn by a seed, and the same accounts with one word changed, through the built program.

    refusals.py PROGRAM PAIRS [SEED]

For each pair without a match the account of refusal_of.py has to be accepted. For each pair, also one that has matches, the
account with one word changed has to be refused, or to be still right: what is left of it is read again here, and each ban
of it is held against all matchings. Prints how many there were of each.
"""
import itertools
import random
import re
import subprocess
import sys
import tempfile

from refusal_of import Circuit, refusal_of


def drawn(draws, inputs, outputs):
    """A netlist of a few gates, as the lines of a text AIGER file after its header: inputs, outputs, gates."""
    gates, signals = [], inputs
    for _ in range(draws.randint(1, 2 * inputs + outputs)):
        a, b = draws.sample(range(1, signals + 1), 2) if signals > 1 else (1, 1)
        signals += 1
        gates.append((2 * signals, 2 * a + draws.randint(0, 1), 2 * b + draws.randint(0, 1)))
    return gates, [2 * draws.randint(max(1, signals - outputs), signals) + draws.randint(0, 1) for _ in range(outputs)]


def written(path, inputs, gates, outputs):
    with open(path, "w") as out:
        out.write(f"aag {inputs + len(gates)} {inputs} 0 {len(outputs)} {len(gates)}\n")
        out.writelines(f"{2 * (i + 1)}\n" for i in range(inputs))
        out.writelines(f"{it}\n" for it in outputs)
        out.writelines(f"{' '.join(map(str, it))}\n" for it in gates)


def moved(draws, inputs, gates, outputs):
    """The same functions with the ports exchanged and inverted."""
    places = draws.sample(range(inputs), inputs)
    signs = [draws.randint(0, 1) for _ in range(inputs)]
    over = lambda it: 2 * (places[it // 2 - 1] + 1) + (it % 2 ^ signs[it // 2 - 1]) if 0 < it // 2 <= inputs else it
    return [(v, over(a), over(b)) for v, a, b in gates], [over(it) ^ draws.randint(0, 1) for it in draws.sample(outputs, len(outputs))]


def all_matches(first, second):
    """All matchings that are matches, each as a set of pairs."""
    n, m = first.inputs, len(first.outputs)
    for places, signs in itertools.product(itertools.permutations(range(n)), itertools.product((0, 1), repeat=n)):
        order = [sum((code >> i & 1 ^ signs[i]) << places[i] for i in range(n)) for code in range(1 << n)]
        goes = [
            [(j, flip) for j, flip in itertools.product(range(m), (0, 1)) if all(first.table[c][k] == second.table[order[c]][j] ^ flip for c in range(1 << n))]
            for k in range(m)
        ]
        for out in itertools.product(*goes):
            if len({j for j, _ in out}) == m:
                yield {f"i{i}{'+-'[signs[i]]}{places[i]}" for i in range(n)} | {f"o{k}{'+-'[flip]}{j}" for k, (j, flip) in enumerate(out)}


def answer(program, *files):
    ran = subprocess.run([program, "check", *files], capture_output=True, text=True, timeout=60)
    return ran.stdout.split("\n")[0]


def changed(draws, lines):
    """The lines with one word changed: a number near by, a sign, a bit, another word of the account."""
    lines = list(lines)
    at = draws.randrange(1, len(lines))
    words = lines[at].split(" ")
    k = draws.randrange(len(words))
    word = words[k]
    kinds = [lambda: draws.choice(draws.choice(lines).split(" "))]
    if re.search("[0-9]", word):
        digit = draws.choice([it.start() for it in re.finditer("[0-9]", word)])
        kinds.append(lambda: word[:digit] + str((int(word[digit]) + draws.choice((1, 9))) % 10) + word[digit + 1 :])
    if re.search("[-+]", word) and len(word) > 1:
        kinds.append(lambda: word.translate(str.maketrans("+-", "-+")))
    if word[:1] == "=" and len(word) > 1:
        place = draws.randrange(1, len(word))
        kinds.append(lambda: word[:place] + draws.choice("01x") + word[place + 1 :])
    words[k] = draws.choice(kinds)()
    lines[at] = " ".join(words)
    return lines


def main(program, pairs, seed=1):
    draws, counts = random.Random(seed), dict.fromkeys(("refusals accepted", "lines", "with a match", "changed and refused", "changed and still right"), 0)
    with tempfile.TemporaryDirectory() as folder:
        one, other, account = (f"{folder}/{it}" for it in ("one.aag", "other.aag", "account"))
        for _ in range(pairs):
            inputs, outputs = draws.choice(((1, 1), (2, 1), (2, 2), (3, 1), (3, 2), (4, 1), (4, 2)))
            gates, outs = drawn(draws, inputs, outputs)
            written(one, inputs, gates, outs)
            has_match = draws.random() < 0.4
            written(other, inputs, *(moved(draws, inputs, gates, outs) if has_match else drawn(draws, inputs, outputs)))
            lines, _ = refusal_of(one, other, draws.randrange(1 << 30))
            matches = list(all_matches(Circuit(one), Circuit(other)))
            told = lambda text: (open(account, "w").write("".join(line + "\n" for line in text)), answer(program, one, other, account))[1]
            if matches:
                counts["with a match"] += 1
                assert told(lines) == f"rejected line {len(lines) + 1} truncated", (told(lines), lines)
            else:
                counts["refusals accepted"] += 1
                assert told(lines) == "accepted refusal", (told(lines), lines)
            counts["lines"] += len(lines)
            for _ in range(12):
                text = changed(draws, lines)
                said = told(text)
                if said not in ("accepted refusal", f"rejected line {len(text) + 1} truncated"):
                    assert said.startswith("rejected line "), said
                    counts["changed and refused"] += 1
                    continue
                counts["changed and still right"] += text != lines
                assert not (matches and said == "accepted refusal"), text
                for line in text:
                    if line.startswith("ban "):
                        ban = set(line.split(" :")[0].split()[1:])
                        assert not any(ban <= match for match in matches), (line, text)
    for name, count in counts.items():
        print(f"{count:9} {name}")


if __name__ == "__main__":
    main(sys.argv[1], *map(int, sys.argv[2:]))
