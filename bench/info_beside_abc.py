"""Compares the report of `npnp info` on one netlist with what ABC prints of it. See info_beside_abc.sh.

    info_beside_abc.py NPNP NETLIST
"""
import re
import subprocess
import sys
import time

LIMIT = 60


def run(command):
    """The lines that a command printed and the seconds that it took, or no lines past the limit."""
    start = time.perf_counter()
    try:
        ran = subprocess.run(command, capture_output=True, timeout=LIMIT)
        lines = ran.stdout.decode("latin-1").splitlines() if ran.returncode == 0 else None
    except subprocess.TimeoutExpired:
        lines = None
    return lines, time.perf_counter() - start


class Report:
    """A report: how many inputs there are, their names as far as they are told, and for each output a letter for each input of
    its support (p, n, or `.` where it is binate) and its symmetric pairs."""

    def __init__(self, lines):
        self.names, self.letters, self.pairs = {}, [], []
        counts = {}
        for line in lines:
            words = line.split(" ")
            if words[0] in ("inputs", "outputs", "gates"):
                counts[words[0]] = int(words[1])
            elif words[0] == "output":
                assert int(words[1]) == len(self.letters) and words[-2] == "support"
                self.letters.append({})
                self.pairs.append(set())
                supports = int(words[-1])
            elif words[0] == "input":
                self.names[int(words[1])] = " ".join(words[2:-1])
                self.letters[-1][int(words[1])] = {"positive": "p", "negative": "n", "binate": "."}[words[-1]]
                assert len(self.letters[-1]) <= supports
            elif words[0] == "pair":
                assert words[3] in ("symmetric", "skew", "both")
                if words[3] != "skew":
                    self.pairs[-1].add((int(words[1]), int(words[2])))
            else:
                raise ValueError(line)
        self.inputs = counts["inputs"]
        assert len(self.letters) == counts["outputs"]

    def compare_unate(self, lines):
        rows = [line.split(" : ", 1)[1] for line in lines if re.match(r"Out +\d+ : ", line)]
        assert len(rows) == len(self.letters)
        for output, row in enumerate(rows):
            told = {i: letter for i, letter in enumerate(row) if letter != " "}
            if told != self.letters[output]:
                yield f"output {output}: ABC has {told}, the report {self.letters[output]}"

    def compare_supports(self, lines):
        """An output that is an input, or constant, has no cone, and ABC's rows show no support of it."""
        cones = [int(found[1]) for found in (re.match(r" +\d+ .*Cone = +(\d+)\.", line) for line in lines) if found]
        rows = [line for line in lines if re.fullmatch("[01]+", line) and len(line) == self.inputs]
        assert len(cones) == len(rows) == len(self.letters)
        for output, (cone, row) in enumerate(zip(cones, rows)):
            told = {i for i, digit in enumerate(row) if digit == "1"}
            if cone and told != set(self.letters[output]):
                yield f"output {output}: ABC has the support {sorted(told)}, the report {sorted(self.letters[output])}"

    def compare_pairs(self, lines):
        place = {name: i for i, name in self.names.items()}
        rows = [line.split("): ", 1)[1] for line in lines if re.match(r"Output .*\(\d+\): ", line)]
        assert len(rows) == len(self.letters)
        for output, row in enumerate(rows):
            classes = [sorted(place[name] for name in group.split()) for group in re.findall(r"\{ (.*?) \}", row)]
            told = {(i, j) for group in classes for i in group for j in group if i < j}
            if told != self.pairs[output]:
                yield f"output {output}: ABC has the pairs {sorted(told - self.pairs[output])}, the report {sorted(self.pairs[output] - told)}"


def main(npnp, file):
    lines, took = run([npnp, "info", file])
    text, wrong = f"{file.rsplit('/', 1)[1]}: npnp info {took:.2f} s", []
    if lines is None:
        print(f"{text}: no report")
        return 1
    report = Report(lines)
    read = f"read_blif {file}" if file.endswith(".blif") else f"read_aiger {file}"
    for command, compare in (
        ("print_unate -v", report.compare_unate),
        ("print_supp -w", report.compare_supports),
        ("print_symm -b -v", report.compare_pairs),
    ):
        lines, took = run(["berkeley-abc", "-q", f"{read}; strash; {command}"])
        text += f", {command} {took:.2f} s" + (" without an answer" if lines is None else "")
        wrong += list(compare(lines)) if lines is not None else []
    pairs = sum(len(it) for it in report.pairs)
    print(f"{text}; {sum(len(it) for it in report.letters)} inputs of supports, {pairs} symmetric pairs", *wrong, sep="\n")
    return bool(wrong)


if __name__ == "__main__":
    sys.exit(main(*sys.argv[1:]))
