"""Matches pairs of circuits whose answer is known, and checks what comes. See match_beside_abc.sh.

    match_beside_abc.py RELEASE [OPTIONS] [NAME ..]
"""
import argparse
import hashlib
import json
import os
import random
import subprocess
import sys
import tempfile
import netlists
from account_of import in_order
from circuits import CIRCUITS
from match_report import report
from measured_run import limits, matching_in, timed

SLOWER = "balance; rewrite; refactor; balance; rewrite; rewrite -z; balance; refactor -z; rewrite -z; balance"
MAPPED = "strash; dch; if -K 5; strash; dc2; resub -K 8; rewrite -z; balance"
KINDS = ("permuted", "negated", "other", "gate", "output")
BESIDE = ("permuted", "gate")  # no port of these is negated, so that bm can answer them


class NotMade(Exception):
    """A tool that makes circuits was ended by a signal, as ABC of Debian 12 is by its own assertion on some."""


def tool(*command, seconds=600):
    ran = subprocess.run(command, capture_output=True, text=True, preexec_fn=lambda: limits(seconds))
    if ran.returncode < 0:
        raise NotMade(f"{command}: {ran.stdout} {ran.stderr}")
    if ran.returncode != 0:
        sys.exit(f"{command}: {ran.stdout} {ran.stderr}")
    return ran.stdout


class Bench:
    def __init__(self, choices, folder):
        self.choices, self.folder = choices, folder
        self.nets = choices.nets or os.path.join(folder, "nets")
        os.makedirs(self.nets, exist_ok=True)

    def path(self, name):
        return os.path.join(self.folder, name)

    # ---- what is matched

    def synthesized(self, name, module):
        """A module as Yosys makes it, as AND gates that ABC hashes, kept from run to run by its text."""
        kept = os.path.join(self.nets, f"{name}-{hashlib.sha256(module.encode()).hexdigest()[:16]}.aig")
        if not os.path.exists(kept):
            with open(self.path("m.v"), "w") as file:
                file.write(module)
            made = self.path("m.aig")
            tool("yosys", "-q", "-p", f"read_verilog {self.path('m.v')}; synth -flatten -noabc; aigmap; write_aiger -ascii -symbols {made}")
            netlists.to_binary(netlists.by_names(in_order(made), netlists.port_names(made)), self.path("named.aig"))
            tool("berkeley-abc", "-q", f"read {self.path('named.aig')}; strash; balance; write_aiger {self.path('kept.aig')}")
            os.replace(self.path("kept.aig"), kept)
        return in_order(kept), kept

    def resynthesized(self, kept, script):
        to = f"{kept[:-4]}-{hashlib.sha256(script.encode()).hexdigest()[:8]}.aig"
        if not os.path.exists(to):
            tool("berkeley-abc", "-q", f"read {kept}; strash; {script}; write_aiger {self.path('again.aig')}")
            os.replace(self.path("again.aig"), to)
        return in_order(to)

    def pair(self, circuit, kind):
        """Two netlists, what is known of them, and how; nothing where there is no pair of this kind."""
        rng = random.Random(f"{self.choices.seed} {circuit.name} {kind}")
        modules = list(circuit.architectures.items())
        if kind == "other" and len(modules) < 2:
            return None
        first, kept = self.synthesized(circuit.name, modules[0][1])
        if kind == "permuted":
            return first, netlists.moved(rng, self.resynthesized(kept, SLOWER), False), True, "made"
        if kind == "negated":
            return first, netlists.moved(rng, self.resynthesized(kept, MAPPED), True), True, "made"
        if kind == "other":
            second, kept = self.synthesized(circuit.name, modules[1][1])
            if not netlists.seem_equal(first, second, rng):
                sys.exit(f"{circuit.name}: its architectures differ")
            return first, netlists.moved(rng, self.resynthesized(kept, SLOWER), True), True, "made"
        if kind == "output" and circuit.twin:
            second, kept = self.synthesized(circuit.name, circuit.twin)
            return first, netlists.moved(rng, self.resynthesized(kept, SLOWER), True), False, "twin"
        again = self.resynthesized(kept, SLOWER)
        if not again[1]:
            return None
        if kind == "gate":
            changed, outputs = netlists.with_gate_changed(again, rng)
            why = netlists.known_apart(again, changed, outputs, rng)
        else:
            replaced = netlists.with_output_replaced(again, rng)
            if replaced is None:
                return None
            changed, outputs, why = replaced
        second = netlists.moved(rng, changed, kind == "output")
        if not why and first[0] <= 5:
            return first, second, netlists.match_by_trying(first, second), "tried"
        return first, second, False if why else None, why or "unknown"

    def covers(self, net):
        """A netlist as BLIF has it where ABC maps it to covers of at most so many operands, and as it is read there: row by row."""
        netlists.to_binary(net, self.path("plain.aig"))
        tool("berkeley-abc", "-q", f"read {self.path('plain.aig')}; strash; if -K {self.choices.covers}; write_blif {self.path('covers.blif')}")
        return in_order(self.path("covers.blif"))

    def made(self, circuit, kind):
        """The pair, and nothing where a tool ended without making it, which is said."""
        try:
            pair = self.pair(circuit, kind)
            if pair is None or not self.choices.covers:
                return pair
            first, second, known, why = pair
            return self.covers(first), self.covers(second), known, why
        except NotMade as ended:
            print(f"{circuit.name} {kind}: not made: {ended}", file=sys.stderr, flush=True)
            return None

    # ---- what is answered

    def is_match(self, first, second, printed):
        """Whether a printed port table makes the netlists equal: on all vectors where they are few, else as ABC finds, and where it doesn't
        in 10 seconds, on vectors that are drawn; and by which of these it was seen."""
        matching = matching_in(printed, first)
        for ways in matching:
            if None in ways or sorted(to for to, _ in ways) != list(range(len(ways))):
                return False, "shape"
        turned = netlists.renamed(first, *matching)
        if not netlists.seem_equal(turned, second, random.Random(1)):
            return False, "vectors"
        if first[0] <= netlists.ALL:
            return True, "all vectors"
        netlists.to_binary(turned, self.path("left.aig"))
        netlists.to_binary(second, self.path("right.aig"))
        said, _, _, _ = timed(10, self.folder, "berkeley-abc", "-q", f"cec {self.path('left.aig')} {self.path('right.aig')}")
        if "NOT EQUIVALENT" in said:
            return False, "cec"
        return True, "cec" if "are equivalent" in said else "drawn vectors"

    def bm(self, first, second):
        """What ABC's matcher says, which knows permutations alone, and its seconds."""
        for side, net in (("left", first), ("right", second)):
            netlists.to_binary(net, self.path(f"{side}.aig"))
            tool("berkeley-abc", "-q", f"read {self.path(side + '.aig')}; strash; write_blif {self.path(side + '.blif')}")
        script = f"bm {self.path('left.blif')} {self.path('right.blif')}"
        printed, status, seconds, _ = timed(self.choices.limit, self.folder, "berkeley-abc", "-q", script)
        # the system counts a limit by the ticks of its clock, of which `bm`, which writes a file over and over, sees few
        if status is None or seconds > self.choices.limit:
            return "late", seconds
        differ = ("NOT equivalent" in printed) or "circuits different" in printed
        said = "none" if differ else "found" if "are equivalent" in printed and status == 0 else "failed"
        return said, seconds

    def answer(self, program, first, second, known):
        account = self.path("account")
        if os.path.exists(account):
            os.remove(account)
        names = (self.path("first.aag"), self.path("second.aag"), account)
        printed, status, seconds, memory = timed(self.choices.limit, self.folder, program, "match", *names)
        row = {"seconds": round(seconds, 4), "memory": memory, "wrong": ""}
        if status is None:
            return {**row, "said": "late"}
        if status not in (0, 1):
            return {**row, "said": printed.strip().split("\n")[0] or f"status {status}"}
        row["said"] = "matched" if status == 0 else "none"
        if status == 0:
            right, row["seen"] = self.is_match(first, second, printed)
            row["wrong"] = "" if right else "not a match"
            if right and known is False:
                row["wrong"] = "a match that can't be" if row["seen"] != "drawn vectors" else ""
        elif printed != "no matching\n" or known is True:
            row["wrong"] = "there is a match"
        accepted, checked, check_seconds, _ = timed(self.choices.check_limit, self.folder, program, "check", *names)
        wanted = "accepted match\n" + printed.split("\n", 1)[1] if status == 0 else "accepted refusal\n"
        if checked is None:
            row["wrong"] = row["wrong"] or "check is late"
        elif checked != status or accepted != wanted:
            row["wrong"] = row["wrong"] or "the account: " + accepted.strip()[:100]
        return {**row, "check": round(check_seconds, 4), "bytes": os.path.getsize(account)}

    def write(self, circuit, folder):
        """Writes the pairs of a circuit as files, for other programs, and what is known of them into a list."""
        for kind in self.choices.kinds:
            pair = self.made(circuit, kind)
            if pair is None:
                continue
            first, second, known, why = pair
            for side, net in (("a", first), ("b", second)):
                netlists.to_text(net, os.path.join(folder, f"{circuit.name}_{kind}_{side}.aag"))
            with open(os.path.join(folder, "known.jsonl"), "a") as file:
                file.write(json.dumps({**self.base(circuit, kind, first, second), "known": known, "why": why}) + "\n")

    def base(self, circuit, kind, first, second):
        """What a row says of a pair."""
        return {"circuit": circuit.name, "family": circuit.family, "kind": kind, "inputs": first[0], "outputs": len(first[2]),
                "gates": len(first[1]), "gates_second": len(second[1])}

    def rows(self, circuit, done):
        """Measures what is missing of a circuit, and yields a row for each answer."""
        programs = self.choices.programs
        for kind in self.choices.kinds:
            wanted = [label for label in programs if not self.choices.bm_alone and (label, circuit.name, kind) not in done]
            beside = not self.choices.no_bm and kind in BESIDE and ("bm", circuit.name, kind) not in done
            if not wanted and not beside:
                continue
            pair = self.made(circuit, kind)
            if pair is None:
                continue
            first, second, known, why = pair
            base = {**self.base(circuit, kind, first, second), "known": known, "why": why, "limit": self.choices.limit,
                    "seed": self.choices.seed, "covers": self.choices.covers}
            netlists.to_text(first, self.path("first.aag"))
            netlists.to_text(second, self.path("second.aag"))
            for label in wanted:
                yield {"program": label, **base, **self.answer(programs[label], first, second, known)}
            if beside:
                said, seconds = self.bm(first, second)
                yield {"program": "bm", **base, "said": said, "seconds": round(seconds, 4), "wrong": ""}


def labelled(release, given):
    """The programs by their labels, which name a part of the checksum too, so that rows of another program aren't taken for theirs."""
    found = {}
    for word in given or [f"release={release}"]:
        label, _, path = word.rpartition("=")
        path = os.path.abspath(path)
        sum_of = hashlib.sha256(open(path, "rb").read()).hexdigest()[:8]
        found[f"{label or os.path.basename(os.path.dirname(path))}:{sum_of}"] = path
    return found


def main():
    words = argparse.ArgumentParser(prog="bench/match_beside_abc.sh", description="matches pairs of circuits whose answer is known")
    words.add_argument("release")
    words.add_argument("names", nargs="*", help="circuits or families that are wanted, all without")
    words.add_argument("--limit", type=int, default=10, help="processor seconds of a pair (10)")
    words.add_argument("--check-limit", type=int, default=60, help="processor seconds of a check (60)")
    words.add_argument("--seed", type=int, default=1, help="of permutations, negations and changes (1)")
    words.add_argument("--covers", type=int, default=0, metavar="K", help="map both netlists to covers of at most K operands, as a BLIF file would have them")
    words.add_argument("--every", type=int, default=1, help="every Nth circuit alone (1)")
    words.add_argument("--start", type=int, default=0, help="the first of these (0)")
    words.add_argument("--program", action="append", dest="programs", metavar="[LABEL=]PATH", help="a program to measure, more than once to compare; the release without")
    words.add_argument("--kinds", type=lambda it: it.split(","), default=list(KINDS), help=",".join(KINDS))
    words.add_argument("--results", help="the file of results, a line each, which is gone on with; a new one without")
    words.add_argument("--nets", help="the folder that keeps what Yosys and ABC made")
    words.add_argument("--no-bm", action="store_true", help="without ABC's matcher")
    words.add_argument("--bm-alone", action="store_true", help="ABC's matcher alone")
    words.add_argument("--report", action="store_true", help="measure nothing, print what the file of results has")
    words.add_argument("--write", metavar="FOLDER", help="measure nothing, write the pairs as files into a folder, and known.jsonl, a line for each")
    words.add_argument("--markdown", action="store_true", help="print the tables of docs/MEASURED.md and docs/matching.tsv")
    choices = words.parse_intermixed_args()
    choices.programs = labelled(choices.release, choices.programs)
    chosen = [it for it in CIRCUITS if not choices.names or it.name in choices.names or it.family in choices.names][choices.start :: choices.every]
    with tempfile.TemporaryDirectory() as folder:
        results = choices.results or os.path.join(folder, "results")
        rows = [json.loads(line) for line in open(results)] if os.path.exists(results) else []
        # what was answered within another limit stands, and what wasn't within a larger one
        of_run = lambda row: row["seed"] == choices.seed and row.get("covers", 0) == choices.covers and (row["said"] != "late" or row["limit"] >= choices.limit)
        done = {(row["program"], row["circuit"], row["kind"]) for row in rows if of_run(row)}
        bench = Bench(choices, folder)
        if choices.write:
            os.makedirs(choices.write, exist_ok=True)
            open(os.path.join(choices.write, "known.jsonl"), "w").close()
            for circuit in chosen:
                bench.write(circuit, choices.write)
            sys.exit(0)
        for circuit in [] if choices.report else chosen:
            for row in bench.rows(circuit, done):
                rows.append(row)
                with open(results, "a") as file:
                    file.write(json.dumps(row) + "\n")
                print(f"{row['program']:<18}{row['circuit']:<22}{row['kind']:<10}{row['said']:<10}{row['seconds']:>8.3f} {row['wrong']}", file=sys.stderr, flush=True)
        names = {it.name for it in chosen}
        wanted = {(row["program"], row["circuit"], row["kind"]): row for row in sorted(rows, key=lambda row: row["limit"])
                  if of_run(row) and row["circuit"] in names and row["kind"] in choices.kinds}
        order = {it.name: place for place, it in enumerate(chosen)}
        wanted = sorted(wanted.values(), key=lambda row: (order[row["circuit"]], KINDS.index(row["kind"])))
        sys.exit(report(wanted, list(choices.programs), choices.limit, choices.markdown))


if __name__ == "__main__":
    main()
