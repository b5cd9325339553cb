"""Counts the broken claims of each output of netlists by trying all vectors, and prints what part of them `workbench hunt` saw.

    hunt.py WORKBENCH NETLIST ..
"""
import subprocess
import sys
import time
from account_of import in_order

ROUNDS = (1, 4, 16, 64)
KINDS = ("up", "down", "swap")


class Tables:
    """Functions of some inputs as numbers: bit v of one is its value on the vector v, whose bit i is input i."""

    def __init__(self, inputs):
        self.inputs, self.all = inputs, (1 << (1 << inputs)) - 1
        self.wires = [((1 << (1 << i)) - 1 << (1 << i)) * (self.all // ((1 << (2 << i)) - 1)) for i in range(inputs)]

    def half(self, f, i, value):
        """The function where input i has the value, for all vectors."""
        kept = f & (self.wires[i] if value else self.all ^ self.wires[i])
        return kept | (kept >> (1 << i) if value else kept << (1 << i))

    def outputs(self, gates, outputs):
        values = [0, *self.wires]
        read = lambda literal: values[literal // 2] ^ (self.all if literal % 2 else 0)
        for a, b in gates:
            values.append(read(a) & read(b))
        return [read(it) for it in outputs]

    def broken(self, f):
        """How many claims of each kind some vector breaks."""
        found = dict.fromkeys(KINDS, 0)
        for i in range(self.inputs):
            low, high = self.half(f, i, 0), self.half(f, i, 1)
            found["up"] += low & ~high != 0
            found["down"] += high & ~low != 0
            for j in range(i):
                parts = [self.half(part, j, value) for part in (low, high) for value in (0, 1)]
                found["swap"] += sum(parts[k] & ~parts[3 - k] != 0 for k in range(4))
        return found


def seen(program, file, rounds):
    """How many claims of each kind the program saw broken, for each output, and the seconds that it took."""
    start = time.perf_counter()
    printed = subprocess.run([program, "hunt", file, str(rounds)], check=True, capture_output=True, text=True).stdout
    took = time.perf_counter() - start
    rows = [line.split() for line in printed.splitlines()]
    return [{kind: int(row[row.index(kind) + 1]) for kind in KINDS} for row in rows], took


def main(program, *files):
    failed = False
    for file in files:
        inputs, gates, outputs = in_order(file)
        tables = Tables(inputs)
        broken = [tables.broken(f) for f in tables.outputs(gates, outputs)]
        total = {kind: sum(it[kind] for it in broken) for kind in KINDS}
        print(f"{file.rsplit('/', 1)[-1]}: {inputs} inputs, {len(outputs)} outputs, {len(gates)} gates, broken: {total}")
        for rounds in ROUNDS:
            found, took = seen(program, file, rounds)
            failed |= len(found) != len(broken) or any(it[kind] > all_of[kind] for it, all_of in zip(found, broken) for kind in KINDS)
            parts = [f"{kind} {sum(it[kind] for it in found)} ({sum(it[kind] for it in found) / max(1, total[kind]):.1%})" for kind in KINDS]
            print(f"  {rounds:>3} rounds, {took:.2f} s: " + ", ".join(parts))
    return failed


if __name__ == "__main__":
    sys.exit(main(*sys.argv[1:]))
