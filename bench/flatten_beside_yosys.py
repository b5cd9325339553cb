"""Flattens drawn hierarchies by `npnp flatten` and by yosys, and compares. See flatten_beside_yosys.sh.

    flatten_beside_yosys.py NPNP [--count N] [--seed N] [--keep FOLDER]
"""
import argparse
import os
import random
import sys
import tempfile
from measured_run import timed

# processor seconds of one process
LIMIT = 60
# so many of the hierarchies are matched with what yosys makes of them
MATCHED = 20


def cover(rng, known, defined):
    """A cover that defines a name by some of those that are known."""
    operands = rng.sample(known, min(len(known), rng.randint(1, 3)))
    rows = {"".join(rng.choice("01-") for _ in operands) for _ in range(rng.randint(1, 4))}
    value = rng.choice("01")
    return [f".names {' '.join(operands)} {defined}"] + [f"{row} {value}" for row in sorted(rows)]


def model(rng, name, below):
    """A model with instances of those below it: its lines, and how many inputs and outputs it has."""
    inputs = [f"p{k}" for k in range(rng.randint(1, 5))]
    outputs = [f"q{k}" for k in range(rng.randint(1, 4))]
    known, left, lines = list(inputs), list(outputs), []
    for step in range(rng.randint(2, 7)):
        if below and rng.random() < 0.6:
            other, takes, gives = rng.choice(below)
            bindings = [f"p{k}={rng.choice(known)}" for k in range(takes)]
            for k in range(gives):
                # an output may be left unbound
                if rng.random() < 0.85:
                    actual = left.pop() if left and rng.random() < 0.5 else f"w{step}_{k}"
                    bindings.append(f"q{k}={actual}")
                    known.append(actual)
            rng.shuffle(bindings)
            lines.append([f".subckt {other} {' '.join(bindings)}"])
        else:
            defined = left.pop() if left and rng.random() < 0.5 else f"w{step}"
            lines.append(cover(rng, known, defined))
            known.append(defined)
    lines += [cover(rng, known, defined) for defined in left]
    # definitions may stand in any order
    rng.shuffle(lines)
    head = [f".model {name}", f".inputs {' '.join(inputs)}", f".outputs {' '.join(outputs)}"]
    return head + [line for group in lines for line in group] + [".end"], (name, len(inputs), len(outputs))


def hierarchy(rng):
    """The text of a file of models, the top first."""
    below, models = [], []
    for k in range(rng.randint(2, 6)):
        lines, ports = model(rng, f"m{k}", below)
        below.append(ports)
        models.append(lines)
    return "\n".join(line for lines in reversed(models) for line in lines) + "\n", f"m{len(models) - 1}"


def blocks(instances, gates, width=32):
    """A chain of instances of a block of so many gates."""
    ports = lambda letter, count: " ".join(f"{letter}{k}" for k in range(count))
    lines = [".model top", f".inputs {ports('a', width)}", f".outputs {ports('y', width)}"]
    for i in range(instances):
        name = lambda at, k: f"a{k}" if at == 0 else f"y{k}" if at == instances else f"n{at}_{k}"
        lines.append(".subckt block " + " ".join(f"p{k}={name(i, k)} q{k}={name(i + 1, k)}" for k in range(width)))
    lines += [".end", ".model block", f".inputs {ports('p', width)}", f".outputs {ports('q', width)}"]
    names = [f"p{k}" for k in range(width)]
    for g in range(gates):
        defined = f"q{g - gates + width}" if g >= gates - width else f"g{g}"
        lines += [f".names {names[-1 - g % 7]} {names[-width + g % 5]} {defined}", ("11 0", "10 1", "01 1")[g % 3]]
        names.append(defined)
    return "\n".join([*lines, ".end", ""])


def doubled(depth):
    """Models each of which has two instances of the next one."""
    lines = []
    for k in range(depth):
        lines += [f".model m{k}", ".inputs a", ".outputs y", f".subckt m{k + 1} a=a y=t", f".subckt m{k + 1} a=t y=y", ".end"]
    return "\n".join([*lines, f".model m{depth}", ".inputs a", ".outputs y", ".names a y", "0 1", ".end", ""])


class Flattens:
    """Files of models in a folder, flattened."""

    def __init__(self, npnp, folder):
        self.npnp, self.folder, self.wrong = npnp, folder, 0

    def path(self, name):
        return os.path.join(self.folder, name)

    def run(self, *command):
        """What a command printed, its status and its seconds."""
        printed, status, seconds, _ = timed(LIMIT, self.folder, *command)
        return printed.strip(), status, seconds

    def tell(self, what, name):
        """Says what is wrong with a file, which is named."""
        self.wrong += 1
        print(f"{name}: {what}", flush=True)

    def write(self, name, text):
        with open(self.path(name), "w", encoding="utf-8") as file:
            file.write(text)
        return self.path(name)

    def compare(self, name, text, top, matched):
        """Flattens one file by both, and compares."""
        file, new, flat = self.write(name, text), self.path("new.aag"), self.path("flat.blif")
        printed, status, _ = self.run(self.npnp, "flatten", file, new)
        if status != 0:
            return self.tell(f"{printed}, status {status}", name)
        self.run("yosys", "-q", "-p", f"read_blif {file}; hierarchy -top {top}; flatten; opt_clean; techmap; aigmap; write_blif {flat}")
        self.run("yosys", "-q", "-p", f"read_aiger {new}; write_blif {self.path('new.blif')}")
        said, _, _ = self.run("berkeley-abc", "-q", f"cec {flat} {self.path('new.blif')}")
        # a net that is constant 0 has no driver in what yosys writes; of other differences, as in the ports, ABC warns too
        told = said.replace("Warning: Constant-0 drivers added", "")
        if "are equivalent" not in said or "arning" in told:
            return self.tell(f"cec: {said[:200]}", name)
        return self.match(name, flat, new) if matched else None

    def match(self, name, flat, new):
        """Matches what yosys made with what was written, and checks the account."""
        account = self.path("account")
        for word, wanted in (("match", "matched"), ("check", "accepted match")):
            printed, status, _ = self.run(self.npnp, word, flat, new, account)
            if status != 0 or printed.split("\n")[0] != wanted:
                self.tell(f"{word}: {printed[:80]}, status {status}", name)

    def timed_one(self, name, text, wanted):
        """Flattens one file, whose report has to be this, and prints the seconds."""
        printed, _, seconds = self.run(self.npnp, "flatten", self.write(name, text), self.path("new.aag"))
        print(f"{name}: {len(text):,} bytes, {printed}, {seconds:.2f} s", flush=True)
        if not printed.startswith(wanted):
            self.tell(f"wanted {wanted}", name)


def main():
    words = argparse.ArgumentParser(description=__doc__, formatter_class=argparse.RawDescriptionHelpFormatter)
    words.add_argument("npnp", type=os.path.realpath)
    words.add_argument("--count", type=int, default=200)
    words.add_argument("--seed", type=int, default=1)
    words.add_argument("--keep", type=os.path.realpath)
    words = words.parse_args()
    with tempfile.TemporaryDirectory() as room:
        flattens = Flattens(words.npnp, words.keep or room)
        for k in range(words.count):
            text, top = hierarchy(random.Random(f"{words.seed} {k}"))
            flattens.compare(f"{k}.blif", text, top, k < MATCHED)
        print(f"{words.count} hierarchies, {flattens.wrong} wrong", flush=True)
        flattens.timed_one("blocks.blif", blocks(1000, 1000), "flattened 2 1001 ")
        flattens.timed_one("doubled.blif", doubled(23), "malformed first 47 ")
    sys.exit(flattens.wrong > 0)


main()
