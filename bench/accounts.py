"""What accounts of either version cost. See accounts.sh.

    accounts.py PROGRAM [--folder FOLDER] [--runs N] [--limit SECONDS] [NAME ..]
"""
import argparse
import os
import random
import subprocess
import sys
import tempfile
from hostile import ands
from measured_run import measured
from netlists import to_text
from small_functions import pair

HERE = os.path.dirname(os.path.abspath(__file__))
# circuits and kinds of bench/match_beside_abc.sh, matches and near misses, from short accounts to long ones
PAIRS = (
    ("adder64", "negated"),
    ("adder128", "other"),
    ("hamming_correct57", "permuted"),
    ("hamming_correct57", "negated"),
    ("adder64", "output"),
    ("multiply10", "gate"),
    ("decoder7", "gate"),
)
FUNCTION = 8  # inputs of a near miss of bench/small_functions.sh, of multiplexers; of 9 it takes more than two minutes
ANDS = (512, 1024)  # as many of two inputs against one fewer and an exclusive or: more claims that hold than any other pair


HEADER = f"{'pair':28}{'answer':9}{'version 1':>13}{'xz -1':>13}{'version 2':>13}{'xz s':>8}" + f"{'1 s':>8}{'2 s':>8}{'part':>6}{'1 MiB':>7}{'2 MiB':>7}{'part':>6}"


def path(folder, name, what):
    return os.path.join(folder, f"{name}_{what}")


class Pairs:
    """The pairs that are wanted, which are written where they aren't there."""

    def __init__(self, folder, wanted):
        self.folder, self.wanted, self.names = folder, wanted, []

    def put(self, name, write):
        """Notes a pair by its name, and has it written."""
        if self.wanted and not name.startswith(tuple(self.wanted)):
            return
        self.names.append(name)
        files = [path(self.folder, name, it) for it in ("a.aag", "b.aag")]
        if not all(map(os.path.exists, files)):
            write(*files)

    def put_all(self):
        for circuit, kind in PAIRS:
            self.put(f"{circuit}_{kind}", lambda *_: self.of_verilog(circuit, kind))
        self.put(f"function{FUNCTION}_near", near_functions)
        for count in ANDS:
            self.put(f"ands{count}_xor", lambda *files: differing_ands(count, files))

    def of_verilog(self, circuit, kind):
        words = ["--no-bm", "--nets", os.path.join(self.folder, "nets"), "--kinds", kind, "--write", self.folder, circuit]
        subprocess.run([os.path.join(HERE, "match_beside_abc.sh"), *words], check=True)


def near_functions(*files):
    for net, file in zip(pair(random.Random(f"1 {FUNCTION} near"), FUNCTION, "near"), files):
        to_text(net, file)


def differing_ands(count, files):
    for file, last in zip(files, ("11 1\n", "10 1\n01 1\n")):
        with open(file, "w") as out:
            out.write(ands(count, last))


class Accounts:
    def __init__(self, choices, folder):
        self.program, self.runs, self.limit, self.folder = choices.program, choices.runs, choices.limit, folder
        told = subprocess.run([self.program, "--help"], capture_output=True, text=True).stdout
        self.converts = "convert " in told

    def match(self, name, account):
        """Has the account of a pair written, which is kept, and says what comes instead."""
        if os.path.exists(account):
            return ""
        files = [path(self.folder, name, it) for it in ("a.aag", "b.aag", "part")]
        said, status, _, _ = measured(self.limit, self.program, "match", *files)
        if status not in (0, 1):
            return "late" if status is None else said.split("\n")[0]
        os.replace(files[2], account)
        return ""

    def convert(self, old, new):
        """Writes an account in version 2, and says what that took, where the program did it."""
        if not self.converts:
            subprocess.run([sys.executable, os.path.join(HERE, "account_in_bytes.py"), old, new], check=True)
            return ""
        _, status, seconds, memory = measured(self.limit, self.program, "convert", old, new)
        return f"{seconds:11.2f}{memory:6.0f}" if status == 0 else " late"

    def check(self, name, account):
        """What a check says, the least seconds that it takes, and its memory at most."""
        files = [path(self.folder, name, it) for it in ("a.aag", "b.aag")]
        ran = [measured(self.limit, self.program, "check", *files, account) for _ in range(self.runs)]
        return ran[0][0].split("\n")[0], min(it[2] for it in ran), max(it[3] for it in ran)

    def row(self, name):
        """A line of the table, and whether both accounts are accepted."""
        old, new = (path(self.folder, name, it) for it in ("account", "account2"))
        late = self.match(name, old)
        if late:
            return f"{name:28}{late}", True
        converted = self.convert(old, new)
        one, other = self.check(name, old), self.check(name, new)
        right = one[0] == other[0] and one[0] in ("accepted match", "accepted refusal")
        _, _, packing, _ = measured(self.limit, "xz", "-1", "-k", "-f", old)
        sizes = [os.path.getsize(it) for it in (old, f"{old}.xz", new)]
        os.remove(f"{old}.xz")
        line = f"{name:28}{one[0].split(' ')[-1]:9}" + "".join(f"{size:13,}" for size in sizes)
        line += f"{packing:8.2f}{one[1]:8.2f}{other[1]:8.2f}{other[1] / max(one[1], 0.01):6.2f}"
        line += f"{one[2]:7.0f}{other[2]:7.0f}{other[2] / one[2]:6.2f}{converted}"
        return line if right else f"{line} WRONG: {one[0]}, {other[0]}", right


def main():
    words = argparse.ArgumentParser(prog="bench/accounts.sh", description="what accounts of either version cost")
    words.add_argument("program")
    words.add_argument("--folder", help="keeps the pairs and the accounts")
    words.add_argument("--runs", type=int, default=3, help="checks of which the least seconds count (3)")
    words.add_argument("--limit", type=int, default=600, help="seconds of a run (600)")
    words.add_argument("names", nargs="*", help="pairs by the first letters of their names; all without")
    choices = words.parse_intermixed_args()
    with tempfile.TemporaryDirectory() as made:
        folder = choices.folder or made
        os.makedirs(os.path.join(folder, "nets"), exist_ok=True)
        pairs, accounts, wrong = Pairs(folder, choices.names), Accounts(choices, folder), False
        pairs.put_all()
        print(HEADER + f"{'convert s':>11}{'MiB':>6}" * accounts.converts)
        for name in pairs.names:
            line, right = accounts.row(name)
            print(line, flush=True)
            wrong |= not right
    sys.exit(wrong)


if __name__ == "__main__":
    main()
