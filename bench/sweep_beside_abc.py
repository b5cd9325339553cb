"""Reduces netlists by `npnp sweep` and by ABC, and checks what comes. See sweep_beside_abc.sh.

    sweep_beside_abc.py NPNP [OPTIONS] [NAME ..]
"""
import argparse
import math
import os
import sys
import tempfile
import netlists
from account_of import in_order
from circuits import CIRCUITS
from match_beside_abc import MAPPED, SLOWER, Bench, NotMade, tool
from measured_run import timed

REDUCTIONS = (("fraig", "fraig"), ("&fraig", "&get; &fraig; &put"))


def beside(first, second):
    """A netlist with the outputs of two over the same inputs."""
    inputs, gates, outputs = first
    shift = lambda literal: literal if literal // 2 <= inputs else literal + 2 * len(gates)
    more = [(shift(a), shift(b)) for a, b in second[1]]
    return inputs, gates + more, outputs + [shift(it) for it in second[2]]


def named(net):
    """A name for each port, as an AIGER file's symbols give it."""
    return {**{f"i{k}": f"in_{k}" for k in range(net[0])}, **{f"o{k}": f"out_{k}" for k in range(len(net[2]))}}


def gates_of(path):
    """The number of gates that the header of an AIGER file has."""
    return int(open(path, "rb").readline().split()[5])


class Sweeps(Bench):
    """Netlists of two architectures, reduced."""

    def netlist(self, circuit):
        """Two architectures of a circuit side by side, or one beside itself resynthesized, hashed by ABC, in the binary form; nothing where
        the netlist is too large."""
        modules = list(circuit.architectures.items())
        first, kept = self.synthesized(circuit.name, modules[0][1])
        if len(modules) > 1:
            second, kept = self.synthesized(circuit.name, modules[1][1])
            second = self.resynthesized(kept, SLOWER)
        else:
            second = self.resynthesized(kept, MAPPED)
        net = beside(first, second)
        if not 0 < len(net[1]) <= self.choices.most:
            return None
        file = self.path("net.aig")
        netlists.to_binary(net, self.path("both.aig"))
        tool("berkeley-abc", "-q", f"read {self.path('both.aig')}; strash; write_aiger {file}")
        return file

    def wrong_for_abc(self, file, swept, word):
        """What is wrong with a netlist that was made of another one, by ABC; nothing where it isn't known within the limit. Where all
        signals were compared, `fraig` has to find no two in it that compute the same."""
        said, _, _, _ = timed(self.choices.limit, self.folder, "berkeley-abc", "-q", f"cec {file} {swept}")
        if said.strip() and "are equivalent" not in said and "UNDECIDED" not in said:
            return "cec: " + said.strip()[:80]
        again, _ = self.reduced(swept, "fraig; ")
        return "fraig merges gates of it" if word == "whole" and again is not None and again < gates_of(swept) else ""

    def reduced(self, file, script):
        """The gates that ABC leaves of a netlist by a script, nothing past the limit, and its seconds."""
        written = self.path("abc.aig")
        _, status, seconds, _ = timed(self.choices.limit, self.folder, "berkeley-abc", "-q", f"read {file}; strash; {script}write_aiger {written}")
        return (gates_of(written) if status == 0 else None), seconds

    def by_abc(self, file):
        """The gates that each of ABC's reductions leaves, and its seconds without those of reading and writing."""
        _, alone = self.reduced(file, "")
        for name, script in REDUCTIONS:
            gates, seconds = self.reduced(file, f"{script}; ")
            yield name, gates, max(0.0, seconds - alone)

    def matched(self, npnp, file, swept):
        """What is wrong with the answer of `match` for a netlist and the one that was made of it, and with its account."""
        names = (file, swept, self.path("account"))
        printed, status, _, _ = timed(self.choices.limit, self.folder, npnp, "match", *names)
        if status is None:
            return ""
        if status != 0:
            return "match: " + printed.strip()[:80]
        accepted, checked, _, _ = timed(self.choices.limit, self.folder, npnp, "check", *names)
        return "" if checked in (0, None) else "check: " + accepted.strip()[:80]

    def swept(self, npnp, file):
        """The gates before and after, the word, the seconds, and what is wrong. The netlist is given in the ASCII form, with names."""
        given, new, net = self.path("net.aag"), self.path("swept.aag"), in_order(file)
        netlists.to_text(net, given)
        with open(given, "a") as text:
            text.write("".join(f"{port} {name}\n" for port, name in named(net).items()))
        words = [str(self.choices.allowance)] if self.choices.allowance is not None else []
        printed, status, seconds, _ = timed(self.choices.limit, self.folder, npnp, "sweep", given, new, *words)
        if status is None:
            return None, None, "late", seconds, ""
        if status != 0:
            return None, None, printed.strip()[:20], seconds, f"status {status}"
        _, before, after, word = printed.split()
        wrong = "" if gates_of(new) == int(after) and gates_of(file) == int(before) else "its numbers of gates"
        if netlists.port_names(new) != named(net):
            wrong = wrong or "its names"
        # ABC reads the binary form alone
        binary = self.path("swept.aig")
        netlists.to_binary(in_order(new), binary)
        return int(before), int(after), word, seconds, wrong or self.wrong_for_abc(file, binary, word) or self.matched(npnp, given, new)


def summary(rows):
    """Prints sums of gates, and how seconds are beside ABC's."""
    whole = [row for row in rows if row["word"] == "whole"]
    print(f"{len(rows)} netlists: {len(whole)} whole, {sum(row['word'] == 'spent' for row in rows)} spent, {sum(row['word'] == 'late' for row in rows)} late")
    for name, _ in REDUCTIONS:
        both = [row for row in whole if row[name][0] is not None]
        ours, theirs = sum(row["after"] for row in both), sum(row[name][0] for row in both)
        fewer, more = sum(row["after"] < row[name][0] for row in both), sum(row["after"] > row[name][0] for row in both)
        # less than a hundredth of a second is a hundredth: what it takes to start isn't compared
        ratios = sorted(max(row["seconds"], 0.01) / max(row[name][1], 0.01) for row in both)
        mean = math.exp(sum(map(math.log, ratios)) / len(ratios)) if ratios else 0
        print(f"beside {name}: of {sum(row['before'] for row in both)} gates {ours} left, by ABC {theirs}; fewer on {fewer}, more on {more}; "
              f"seconds {sum(row['seconds'] for row in both):.2f} and {sum(row[name][1] for row in both):.2f}, "
              f"geometric mean of the ratios {mean:.2f}, largest {ratios[-1] if ratios else 0:.1f}")


def main():
    words = argparse.ArgumentParser(prog="bench/sweep_beside_abc.sh", description="reduces netlists by npnp and by ABC")
    words.add_argument("npnp")
    words.add_argument("circuits", nargs="*", help="circuits or families that are wanted, all without")
    words.add_argument("--limit", type=int, default=60, help="processor seconds of each run (60)")
    words.add_argument("--allowance", type=int, help="learned clauses (the program's own number)")
    words.add_argument("--most", type=int, default=4000, help="gates of a netlist at most (4,000)")
    words.add_argument("--count", type=int, default=100, help="how many netlists (100)")
    words.add_argument("--nets", help="the folder that keeps what Yosys and ABC made")
    words.add_argument("--keep", metavar="FOLDER", help="a folder for the netlists that are reduced")
    choices = words.parse_intermixed_args()
    npnp, rows, wrong = os.path.abspath(choices.npnp), [], False
    print(f"{'netlist':<22}{'before':>8}{'after':>8} {'':<6}{'s':>7}" + "".join(f"{name:>9}{'s':>7}" for name, _ in REDUCTIONS))
    with tempfile.TemporaryDirectory() as folder:
        bench = Sweeps(choices, folder)
        for circuit in CIRCUITS:
            if len(rows) == choices.count:
                break
            if choices.circuits and circuit.name not in choices.circuits and circuit.family not in choices.circuits:
                continue
            try:
                file = bench.netlist(circuit)
            except NotMade as ended:
                print(f"{circuit.name}: not made: {ended}", file=sys.stderr, flush=True)
                continue
            if file is None:
                continue
            if choices.keep:
                os.makedirs(choices.keep, exist_ok=True)
                tool("cp", file, os.path.join(choices.keep, f"{circuit.name}.aig"))
            before, after, word, seconds, fault = bench.swept(npnp, file)
            row = {"before": before, "after": after, "word": word, "seconds": seconds}
            for name, gates, took in bench.by_abc(file):
                row[name] = (gates, took)
            wrong = wrong or bool(fault)
            rows.append(row)
            number = lambda it: "-" if it is None else it
            print(f"{circuit.name:<22}{number(before):>8}{number(after):>8} {word:<6}{seconds:>7.2f}"
                  + "".join(f"{number(row[name][0]):>9}{row[name][1]:>7.2f}" for name, _ in REDUCTIONS) + (f"  {fault}" if fault else ""), flush=True)
    summary(rows)
    sys.exit(wrong)


if __name__ == "__main__":
    main()
