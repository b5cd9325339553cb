"""Pairs of small circuits, drawn by a seed, matched by a program and by trying all matchings. See all_matchings.sh.

    all_matchings.py TOP [--pairs N] [--seed SEED] [--phase PHASE] [--program PATH] [--limit SECONDS] [--late FOLDER]
"""
import argparse
import os
import random
import subprocess
import sys
import tempfile
import netlists
from measured_run import matching_in, timed

KINDS = ("moved", "written anew", "gate changed", "vectors exchanged", "output from another", "drawn apart")


def drawn_table(draws, count):
    """A function: drawn evenly, rare, symmetric, linear, a threshold, or a product of few inputs."""
    vectors = range(1 << count)
    kind = draws.randrange(7)
    if kind == 0:
        return draws.getrandbits(1 << count)
    if kind == 1:
        return draws.getrandbits(1 << count) & draws.getrandbits(1 << count) & draws.getrandbits(1 << count)
    if kind == 2:
        by_count = draws.getrandbits(count + 1)
        return sum(1 << v for v in vectors if by_count >> v.bit_count() & 1)
    mask = draws.randrange(1 << count)
    if kind == 3:
        return sum(1 << v for v in vectors if (v & mask).bit_count() & 1)
    if kind == 4:
        weights, least = [draws.randrange(4) for _ in range(count)], draws.randrange(1, 6)
        return sum(1 << v for v in vectors if sum(w for i, w in enumerate(weights) if v >> i & 1) >= least)
    if kind == 5:
        return sum(1 << v for v in vectors if v & mask == mask)
    pairs = [draws.sample(range(count), 2) for _ in range(draws.randrange(1, 5))] if count > 1 else []
    return sum(1 << v for v in vectors if sum(v >> i & v >> j & 1 for i, j in pairs) & 1)


def of_tables(tables, count, draws):
    """A netlist of functions by decisions on the inputs in an order that is drawn; equal parts are shared."""
    order, gates, made = draws.sample(range(count), count), [], {}
    words, every = netlists.all_vectors(count)

    def gate(a, b):
        if a > b:
            a, b = b, a
        if a == 0 or a ^ 1 == b:
            return 0
        if a == 1 or a == b:
            return b
        if (a, b) not in made:
            gates.append((a, b))
            made[a, b] = 2 * (count + len(gates))
        return made[a, b]

    def built(f, left):
        if f in (0, every):
            return int(f == every)
        i, rest = left[0], left[1:]
        shift = 1 << i
        low, high = f & ~words[i] & every, f & words[i]
        low, high = low | low << shift, high | high >> shift
        zero, one, x = built(low, rest), built(high, rest), 2 * i + 2
        return gate(gate(x, one) ^ 1, gate(x ^ 1, zero) ^ 1) ^ 1

    outputs = [built(f, order) for f in tables]
    return count, gates, outputs


def drawn_gates(draws, count, outputs):
    """A netlist of a few gates."""
    gates, signals = [], count
    for _ in range(draws.randint(1, 3 * count + outputs)):
        a, b = draws.sample(range(1, signals + 1), 2) if signals > 1 else (1, 1)
        gates.append((2 * a + draws.randrange(2), 2 * b + draws.randrange(2)))
        signals += 1
    return count, gates, [2 * draws.randint(max(1, signals - outputs), signals) + draws.randrange(2) for _ in range(outputs)]


def tables_of(net):
    return netlists.outputs_on(net, *netlists.all_vectors(net[0]))


def second_of(draws, kind, first):
    """The second of a pair of a kind."""
    count, gates, outputs = first
    tables = tables_of(first)
    if kind == "moved":
        return netlists.moved(draws, first, True)
    if kind == "drawn apart":
        return drawn_first(draws, count, len(outputs))
    k = draws.randrange(len(outputs))
    if kind == "gate changed" and gates:
        place = draws.randrange(len(gates))
        a, b = gates[place]
        return netlists.moved(draws, (count, gates[:place] + [(a ^ 1, b)] + gates[place + 1 :], outputs), True)
    if kind == "vectors exchanged":
        ones = [v for v in range(1 << count) if tables[k] >> v & 1]
        zeros = [v for v in range(1 << count) if not tables[k] >> v & 1]
        if ones and zeros:
            tables[k] ^= 1 << draws.choice(ones) | 1 << draws.choice(zeros)
    if kind == "output from another":
        tables[k] = draws.choice(tables) if draws.randrange(2) else drawn_table(draws, count)
    return netlists.moved(draws, of_tables(tables, count, draws), True)


def drawn_first(draws, count, outputs):
    if draws.randrange(2):
        return drawn_gates(draws, count, outputs)
    return of_tables([drawn_table(draws, count) for _ in range(outputs)], count, draws)


def is_match(first, second, printed):
    """Whether the port table in a report makes two netlists equal on all vectors."""
    matching = matching_in(printed, first)
    if any(None in ways or sorted(to for to, _ in ways) != list(range(len(ways))) for ways in matching):
        return False
    return tables_of(netlists.renamed(first, *matching)) == tables_of(second)


def judged(program, first, second, limit, folder):
    """What a program says of a pair, its seconds, and what is wrong with that."""
    names = [os.path.join(folder, it) for it in ("first.aag", "second.aag", "account")]
    netlists.to_text(first, names[0])
    netlists.to_text(second, names[1])
    has_match = netlists.match_by_trying(first, second)
    printed, status, seconds, _ = timed(limit, folder, program, "match", *names)
    if status not in (0, 1):
        return "late" if status is None else printed.strip(), seconds, "" if status is None else f"status {status}"
    if (status == 0) != has_match:
        return printed, seconds, f"all matchings say {'matched' if has_match else 'none'}"
    if status == 0 and not is_match(first, second, printed):
        return printed, seconds, "not a match"
    accepted = subprocess.run([program, "check", *names], capture_output=True, text=True)
    wanted = "accepted match\n" + printed.split("\n", 1)[1] if status == 0 else "accepted refusal\n"
    if accepted.stdout != wanted or accepted.returncode != status:
        return printed, seconds, f"the account: {accepted.stdout[:80]}"
    return "matched" if status == 0 else "none", seconds, rewritten(program, names, wanted, folder)


def rewritten(program, names, wanted, folder):
    """What is wrong with an account's other forms: trimmed it has the same bytes, and so it has when it was converted there and back; in version 2 it is accepted too."""
    account, trimmed, binary, again = names[2], *(os.path.join(folder, it) for it in ("trimmed", "binary", "again"))
    for command in (["trim", *names, trimmed], ["convert", account, binary], ["convert", binary, again]):
        done = subprocess.run([program, *command], capture_output=True, text=True)
        if done.returncode != 0:
            return f"{command[0]}: {done.stdout.strip()}"
    if subprocess.run([program, "check", *names[:2], binary], capture_output=True, text=True).stdout != wanted:
        return "version 2 isn't accepted"
    same = open(account, "rb").read()
    return "".join(f"{name} has other bytes; " for name in (trimmed, again) if open(name, "rb").read() != same)


def judged_alone(program, phase, first, second, limit, folder):
    """The same of one phase of a plain copy. The first phase may miss a match; a matching that it finds is one, since it tries all vectors of so few inputs."""
    names = [os.path.join(folder, it) for it in ("first.aag", "second.aag")]
    netlists.to_text(first, names[0])
    netlists.to_text(second, names[1])
    has_match = netlists.match_by_trying(first, second)
    printed, status, seconds, _ = timed(limit, folder, program, phase, *names, "1")
    if status != 0:
        return "late" if status is None else printed.strip(), seconds, "" if status is None else f"status {status}"
    said = printed.split("\n")[0]
    if said in ("guess", "match"):
        return "matched", seconds, "" if is_match(first, second, printed) else "not a match"
    if said == "nothing":
        return "missed" if has_match else "nothing", seconds, ""
    return said, seconds, "all matchings say matched" if has_match else ""


def program_of(top, choices, folder):
    """What is asked: the given program, a plain copy where one phase alone is wanted, or the release."""
    if choices.program:
        return os.path.abspath(choices.program)
    if choices.phase:
        subprocess.run([sys.executable, os.path.join(top, "bench", "plain_copy.py"), os.path.join(top, "crates"), folder], check=True)
        return os.path.join(folder, "plain")
    return subprocess.run([os.path.join(top, "bench", "program.sh")], stdout=subprocess.PIPE, text=True, check=True).stdout.strip()


def main():
    words = argparse.ArgumentParser(prog="bench/all_matchings.sh", description="small pairs by a program and by trying all matchings")
    words.add_argument("top")
    words.add_argument("--pairs", type=int, default=2000)
    words.add_argument("--seed", type=int, default=1)
    words.add_argument("--phase", choices=("guess", "search"), help="the first or the second phase by itself, of a plain copy")
    words.add_argument("--program", help="the program, or with --phase the plain copy; without, the release, or one that is made")
    words.add_argument("--limit", type=int, default=10, help="processor seconds of a pair (10)")
    words.add_argument("--late", help="a folder where pairs that weren't decided are written")
    choices = words.parse_args()
    draws, counts, slowest, wrong = random.Random(choices.seed), {}, {}, 0
    with tempfile.TemporaryDirectory() as folder:
        program = program_of(choices.top, choices, folder)
        for number in range(choices.pairs):
            count, outputs, kind = draws.choice((1, 2, 3, 3, 4, 4, 5, 5, 5)), draws.randint(1, 3), KINDS[number % len(KINDS)]
            first = drawn_first(draws, count, outputs)
            second = second_of(draws, kind, first)
            if choices.phase:
                said, seconds, why = judged_alone(program, choices.phase, first, second, choices.limit, folder)
            else:
                said, seconds, why = judged(program, first, second, choices.limit, folder)
            counts[kind, said if not why else "wrong"] = counts.get((kind, said if not why else "wrong"), 0) + 1
            slowest[kind] = max(slowest.get(kind, (0, "")), (seconds, f"{count} inputs, {outputs} outputs"))
            if choices.late and said == "late":
                os.makedirs(choices.late, exist_ok=True)
                netlists.to_text(first, os.path.join(choices.late, f"{number}a.aag"))
                netlists.to_text(second, os.path.join(choices.late, f"{number}b.aag"))
            if why:
                wrong += 1
                print(f"WRONG pair {number}, {kind}: {why}\n  {first}\n  {second}", flush=True)
    answers = sorted({it for _, it in counts})
    print(f"{'second':<22}" + "".join(f"{it:>10}" for it in answers) + "  slowest")
    for kind in KINDS:
        seconds, ports = slowest.get(kind, (0, ""))
        print(f"{kind:<22}" + "".join(f"{counts.get((kind, it), 0):>10}" for it in answers) + f"  {seconds:.2f} s ({ports})")
    answered = sum(v for (_, it), v in counts.items() if it in ("matched", "none", "nothing"))
    print(f"{choices.pairs} pairs, {answered} answered as by all matchings{'' if choices.phase else ' with an accepted account'}, {wrong} wrong")
    sys.exit(wrong > 0)


main()
