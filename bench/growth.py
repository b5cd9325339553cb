"""How `match` and `check` grow with the gates. See growth.sh.

    growth.py NPNP FOLDER [LIMIT [SEED]]
"""
import math
import os
import random
import subprocess
import sys
import tempfile
import netlists
from account_of import in_order
from measured_run import measured

RESYNTHESIZE = "balance; rewrite; refactor; balance; rewrite; rewrite -z; balance; refactor -z; rewrite -z; balance"
COPIES = (1, 2, 4, 8, 16, 32, 64, 125, 250, 500)
GROUPS = 64  # of 64 inputs: as many as a netlist may have
SETS = 250  # of 16 outputs, for the same reason
WIDTHS = (2, 4, 8, 16, 32, 64, 128)
FACTORS = (2, 3, 4, 5, 6, 7)


def tool(*command):
    ran = subprocess.run(command, capture_output=True, text=True)
    if ran.returncode != 0:
        sys.exit(f"{command}: {ran.stdout} {ran.stderr}")
    return ran.stdout


def joined(nets, groups):
    """Netlists of 64 inputs and 32 outputs side by side: netlist b reads group b modulo `groups`, its outputs k and 16 + k are
    joined by an exclusive or, and those of the netlists that have the same b modulo `SETS` too: so there are fewer than
    4,096 outputs."""
    inputs, gates, outputs = 64 * min(len(nets), groups), [], []

    def gate(a, b):
        gates.append((a, b))
        return 2 * (inputs + len(gates))

    def exclusive_or(x, y):
        return gate(gate(x, y) ^ 1, gate(x ^ 1, y ^ 1) ^ 1)

    for b, (_, own, ends) in enumerate(nets):
        first = 64 * (b % groups)
        shift = inputs + len(gates) - 64

        def move(literal):
            signal = literal // 2
            return literal + 2 * (0 if signal == 0 else first if signal <= 64 else shift)

        gates.extend((move(x), move(y)) for x, y in own)
        ends = [move(it) for it in ends]
        for k in range(16):
            joined = exclusive_or(ends[k], ends[16 + k])
            if b < SETS:
                outputs.append(joined)
            else:
                at = 16 * (b % SETS) + k
                outputs[at] = exclusive_or(outputs[at], joined)
    return inputs, gates, outputs


def moved(rng, net, negated):
    """A netlist with its ports permuted, negated where that is wanted, and the operands of each gate exchanged."""
    inputs, gates, outputs = netlists.moved(rng, net, negated)
    return inputs, [(b, a) for a, b in gates], outputs


class Growth:
    def __init__(self, npnp, folder, limit, seed):
        self.npnp, self.folder, self.limit, self.rng = npnp, folder, limit, random.Random(seed)
        self.rows, self.wrong = [], False

    def path(self, name):
        return os.path.join(self.folder, name)

    def made(self, number):
        tool(self.npnp, "make", str(number), self.path("f"), self.path("g"))
        return in_order(self.path("f"))

    def of_yosys(self, body):
        """A circuit as Yosys makes it, and as ABC resynthesizes that."""
        with open(self.path("m.v"), "w") as file:
            file.write(f"module m({body} endmodule\n")
        tool("yosys", "-q", "-p", f"read_verilog {self.path('m.v')}; synth -flatten; aigmap; write_aiger {self.path('m.aig')}")
        script = f"read {self.path('m.aig')}; strash; write_aiger {self.path('one.aig')}; {RESYNTHESIZE}; write_aiger {self.path('two.aig')}"
        tool("berkeley-abc", "-q", script)
        return in_order(self.path("one.aig")), in_order(self.path("two.aig"))

    def pair(self, first, second, negated):
        netlists.to_binary(first, self.path("first.aig"))
        netlists.to_binary(moved(self.rng, second, negated), self.path("second.aig"))

    def bm(self, first, second):
        """The seconds of ABC's matcher, where it answers."""
        self.pair(first, second, False)
        for side in ("first", "second"):
            tool("berkeley-abc", "-q", f"read {self.path(side + '.aig')}; write_blif {self.path(side + '.blif')}")
        os.chdir(self.folder)  # it writes a file where it is called
        printed, status, seconds, _ = measured(self.limit, "berkeley-abc", "-q", f"bm {self.path('first.blif')} {self.path('second.blif')}")
        return seconds if status == 0 and "equivalent" in printed and "NOT equivalent" not in printed else None

    def row(self, family, first, second, with_bm):
        """One pair. Whether it was answered within the limit."""
        self.pair(first, second, True)
        names = [self.path(name) for name in ("first.aig", "second.aig", "account")]
        printed, status, seconds, memory = measured(self.limit, self.npnp, "match", *names)
        answer = "late" if status is None else printed.split("\n")[0]
        row = {"family": family, "inputs": first[0], "outputs": len(first[2]), "gates": len(first[1]), "answer": answer}
        if answer == "matched":
            row |= {"match s": seconds, "match MiB": memory}
            checked, status, seconds, memory = measured(self.limit, self.npnp, "check", *names)
            row |= {"check s": seconds, "check MiB": memory}
            self.wrong |= not checked.startswith("accepted match\n")
        self.wrong |= answer not in ("matched", "late")
        if with_bm:
            row["bm s"] = self.bm(first, second)
        self.rows.append(row)
        print(" | ".join(shown(row.get(it)) for it in COLUMNS), flush=True)
        return answer == "matched"

    def family_made(self, family, groups):
        nets = []
        for copies in COPIES:
            nets += [self.made(number) for number in range(len(nets), copies)]
            net = joined(nets, groups)
            if not self.row(family, net, net, copies <= 8):
                return

    def family_of_yosys(self, family, widths, body):
        for width in widths:
            if not self.row(family, *self.of_yosys(body(width)), width <= 32):
                return


COLUMNS = ("family", "inputs", "outputs", "gates", "answer", "match s", "match MiB", "check s", "check MiB", "bm s")
SERIES = (
    ("made, 64 inputs", "match s", "#1f77b4"),
    ("made, 64 inputs", "check s", "#9ecae1"),
    ("made, 64 inputs each", "match s", "#d62728"),
    ("made, 64 inputs each", "check s", "#ff9896"),
    ("adder", "match s", "#2ca02c"),
    ("multiplier", "match s", "#9467bd"),
    ("made, 64 inputs", "bm s", "#7f7f7f"),
)


def shown(value):
    return "" if value is None else f"{value:.3f}" if isinstance(value, float) else str(value)


def plot(rows):
    """The seconds against the gates, both by powers of ten, as SVG."""
    left, top, width, height = 60, 20, 560, 380
    low_x, high_x, low_y, high_y = 0, 6, -3, 3
    x = lambda gates: left + width * (math.log10(max(gates, 1)) - low_x) / (high_x - low_x)
    y = lambda seconds: top + height * (high_y - math.log10(max(seconds, 0.001))) / (high_y - low_y)
    out = ['<svg xmlns="http://www.w3.org/2000/svg" width="860" height="450" font-family="sans-serif" font-size="12">', '<rect width="860" height="450" fill="white"/>']
    for power in range(low_x, high_x + 1):
        at = x(10**power)
        out.append(f'<line x1="{at:.1f}" y1="{top}" x2="{at:.1f}" y2="{top + height}" stroke="#ddd"/>')
        out.append(f'<text x="{at:.1f}" y="{top + height + 18}" text-anchor="middle">{10**power:,}</text>')
    for power in range(low_y, high_y + 1):
        at = y(10**power)
        out.append(f'<line x1="{left}" y1="{at:.1f}" x2="{left + width}" y2="{at:.1f}" stroke="#ddd"/>')
        out.append(f'<text x="{left - 6}" y="{at + 4:.1f}" text-anchor="end">{10.0**power:g}</text>')
    out.append(f'<text x="{left + width / 2}" y="{top + height + 40}" text-anchor="middle">gates</text>')
    out.append(f'<text x="14" y="{top + height / 2}" transform="rotate(-90 14 {top + height / 2})" text-anchor="middle">seconds</text>')
    for k, (family, column, colour) in enumerate(SERIES):
        points = [(x(row["gates"]), y(row[column])) for row in rows if row["family"] == family and row.get(column) is not None]
        out.append(f'<polyline fill="none" stroke="{colour}" stroke-width="1.5" points="{" ".join(f"{a:.1f},{b:.1f}" for a, b in points)}"/>')
        out += [f'<circle cx="{a:.1f}" cy="{b:.1f}" r="3" fill="{colour}"/>' for a, b in points]
        out.append(f'<rect x="{left + width + 15}" y="{top + 20 * k}" width="12" height="12" fill="{colour}"/>')
        out.append(f'<text x="{left + width + 33}" y="{top + 20 * k + 10}">{family}: {column[:-2]}</text>')
    return "\n".join(out + ["</svg>"]) + "\n"


def main():
    npnp, docs = os.path.abspath(sys.argv[1]), os.path.abspath(sys.argv[2])
    limit = float(sys.argv[3]) if len(sys.argv) > 3 else 60
    seed = int(sys.argv[4]) if len(sys.argv) > 4 else 1
    print(" | ".join(COLUMNS))
    with tempfile.TemporaryDirectory() as folder:
        growth = Growth(npnp, folder, limit, seed)
        growth.family_made("made, 64 inputs", 1)
        growth.family_made("made, 64 inputs each", GROUPS)
        growth.family_of_yosys("adder", WIDTHS, lambda n: f"input [{n - 1}:0] a, b, output [{n}:0] y); assign y = a + b;")
        growth.family_of_yosys("multiplier", FACTORS, lambda n: f"input [{n - 1}:0] a, b, output [{2 * n - 1}:0] y); assign y = a * b;")
    with open(os.path.join(docs, "growth.tsv"), "w") as file:
        file.write("\t".join(COLUMNS) + "\n")
        file.write("".join("\t".join(shown(row.get(it)) for it in COLUMNS) + "\n" for row in growth.rows))
    with open(os.path.join(docs, "growth.svg"), "w") as file:
        file.write(plot(growth.rows))
    sys.exit(growth.wrong)


main()
