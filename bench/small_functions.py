"""Functions of few inputs that don't match, and the cells of a library. See small_functions.sh.

    small_functions.py PROGRAM LIBRARY [OPTION ..]
"""
import argparse
import glob
import os
import random
import statistics
import subprocess
import sys
import tempfile

import netlists
from measured_run import timed

KINDS = ("near", "drawn")
REPORTS = {"matched": "accepted match", "no matching": "accepted refusal"}
RESYNTHESIZED = "strash; dch; balance; rewrite; refactor; balance"
COLUMNS = "{:<8}{:<8}{:>7}{:>9}{:>6}{:>10}{:>10}{:>12}"


# ---- pairs

def by_multiplexers(table, count):
    """A netlist of one output with this table: for each input from the last one on, a multiplexer of what is left of the table."""
    gates, known = [], {}

    def conjunction(a, b):
        if 0 in (a, b) or a == b ^ 1:
            return 0
        if a == 1 or a == b:
            return b
        if b == 1:
            return a
        gates.append((a, b))
        return 2 * (count + len(gates))

    def literal(part, left):
        every = (1 << (1 << left)) - 1
        if part in (0, every):
            return int(part == every)
        for sign, key in ((0, (part, left)), (1, (part ^ every, left))):
            if key in known:
                return known[key] ^ sign
        half = 1 << left - 1
        low, high = part & (1 << half) - 1, part >> half
        if low == high:
            return literal(low, left - 1)
        x, one, other = 2 * left, literal(high, left - 1), literal(low, left - 1)
        known[part, left] = conjunction(conjunction(x, one) ^ 1, conjunction(x ^ 1, other) ^ 1) ^ 1
        return known[part, left]

    return count, gates, [literal(table, count)]


def with_minterms_exchanged(rng, table, vectors):
    """The table with a true minterm made false and a false one made true, as long as it has both."""
    true, false = ([v for v in range(vectors) if table >> v & 1 == bit] for bit in (1, 0))
    return table ^ 1 << rng.choice(true) ^ 1 << rng.choice(false) if true and false else table


def with_as_many(rng, table, vectors):
    """A table with as many true minterms."""
    return sum(1 << v for v in rng.sample(range(vectors), table.bit_count()))


def pair(rng, count, kind):
    """Two netlists of one output: a drawn function, and one near it or another one, its ports permuted and negated."""
    vectors = 1 << count
    table = rng.getrandbits(vectors)
    other = (with_minterms_exchanged if kind == "near" else with_as_many)(rng, table, vectors)
    moved = netlists.moved(rng, by_multiplexers(other, count), True)
    return by_multiplexers(table, count), by_multiplexers(netlists.outputs_on(moved, *netlists.all_vectors(count))[0], count)


# ---- runs

class Runs:
    def __init__(self, program, choices, folder):
        self.program, self.limit, self.made, self.folder, self.wrong = program, choices.limit, not choices.multiplexers, folder, 0

    def match(self, first, second):
        """What `match` said, late where it took more than the limit, its seconds and the bytes of its account, which is checked."""
        account = os.path.join(self.folder, "account")
        printed, status, seconds, _ = timed(self.limit, self.folder, self.program, "match", first, second, account)
        if status is None:
            return "late", seconds, 0
        said = (printed.splitlines() or [""])[0]
        checked, _, _, _ = timed(60, self.folder, self.program, "check", first, second, account)
        if said not in REPORTS or not checked.startswith(REPORTS[said]):
            print(f"{first} {second}: {said} / {checked}", file=sys.stderr)
            self.wrong += 1
        return said, seconds, os.path.getsize(account)

    def drawn(self, rng, count, kind):
        paths = [os.path.join(self.folder, name) for name in ("first.aig", "second.aig")]
        for net, path in zip(pair(rng, count, kind), paths):
            netlists.to_binary(net, path)
        if self.made:
            script = "; ".join(f"read {path}; {RESYNTHESIZED}; write_aiger {path}" for path in paths)
            subprocess.run(["berkeley-abc", "-q", script], stdout=subprocess.DEVNULL, check=True)
        return self.match(*paths)


def row(inputs, kind, found):
    """Prints how many pairs there are and how many match or are late, and the seconds of those that don't match."""
    refused = [(seconds, size) for said, seconds, size in found if said == "no matching"]
    times, count = [seconds for seconds, _ in refused] or [0.0], lambda word: sum(said == word for said, _, _ in found)
    print(COLUMNS.format(inputs, kind, len(found), count("matched"), count("late"), f"{statistics.median(times):.4f}", f"{max(times):.4f}",
                         max([size for _, size in refused], default=0)), flush=True)


def main():
    words = argparse.ArgumentParser(prog="bench/small_functions.sh", description="refuses functions of few inputs that don't match")
    words.add_argument("released")
    words.add_argument("library")
    words.add_argument("--pairs", type=int, default=1000, help="of each number of inputs, half of each kind (1000)")
    words.add_argument("--inputs", type=lambda it: [int(word) for word in it.split(",")], default=[4, 5, 6, 7], help="4,5,6,7")
    words.add_argument("--seed", type=int, default=1, help="of what is drawn (1)")
    words.add_argument("--limit", type=int, default=10, help="processor seconds of a pair (10)")
    words.add_argument("--multiplexers", action="store_true", help="without ABC: netlists as they are made of multiplexers")
    words.add_argument("--no-cells", action="store_true", help="without the cells of the library")
    words.add_argument("--program", help="the program to measure; the release without")
    choices = words.parse_args()
    with tempfile.TemporaryDirectory() as folder:
        runs = Runs(choices.program or choices.released, choices, folder)
        print(COLUMNS.format("inputs", "kind", "pairs", "matched", "late", "median", "slowest", "bytes"), flush=True)
        for inputs in choices.inputs:
            for kind in KINDS:
                rng = random.Random(f"{choices.seed} {inputs} {kind}")
                row(inputs, kind, [runs.drawn(rng, inputs, kind) for _ in range(choices.pairs // len(KINDS))])
        if not choices.no_cells:
            first, second = (sorted(glob.glob(os.path.join(choices.library, side, "*.blif"))) for side in ("first", "second"))
            found = [runs.match(one, other) for one in first for other in second]
            row("cells", "library", found)
            print(f"all cells together: {sum(seconds for _, seconds, _ in found):.2f} s")
        sys.exit(1 if runs.wrong else 0)


if __name__ == "__main__":
    main()
