"""What each part of the search is worth: plain copies with and without it, on pairs whose answer is known. See parts.sh.

    parts.py TOP [OPTIONS] [PART ..]
"""
import argparse
import json
import os
import subprocess
import sys
import tempfile
from circuits import CIRCUITS
from measured_run import timed

PARTS = ("first_phase", "similarity", "gate_pairs", "sums", "exchanges", "settling", "tables", "vectors", "learned_bans", "weights", "covers", "xor_covers")
WHOLE = "nothing"
MATCHES = ("permuted", "negated", "other")
SEED = "1"  # of `npnp match`, where none is given


def python(*command):
    if subprocess.run([sys.executable, *command]).returncode != 0:
        sys.exit(f"{command[0]} failed")


class Parts:
    def __init__(self, top, choices, folder):
        self.top, self.choices, self.folder = top, choices, folder
        self.pairs_at = choices.pairs or os.path.join(folder, "pairs")
        self.results = choices.results or os.path.join(folder, "results")

    def script(self, name):
        return os.path.join(self.top, "bench", name)

    def edit(self, part):
        return self.script(os.path.join("parts", f"{part}.edit"))

    def title(self, part):
        """What a part is, by the first line of its edit."""
        return part if part == WHOLE else open(self.edit(part)).readline().lstrip("# ").strip()

    def pairs(self):
        """The pairs that are wanted, which are made where no folder has them."""
        choices = self.choices
        if not choices.pairs:
            kept = ["--nets", choices.nets] if choices.nets else []
            sample = ["--every", str(choices.every), "--start", str(choices.start)]
            # the program that it asks for isn't run where pairs are written alone
            python(self.script("match_beside_abc.py"), sys.executable, *sample, *kept, "--write", self.pairs_at)
        wanted = {it.name for it in CIRCUITS[choices.start :: choices.every]}
        rows = map(json.loads, open(os.path.join(self.pairs_at, "known.jsonl")))
        return [row for row in rows if row["circuit"] in wanted]

    def copy(self, part):
        """The program without a part."""
        to = os.path.join(self.folder, part)
        without = [] if part == WHOLE else ["--edit", self.edit(part)]
        python(self.script("plain_copy.py"), os.path.join(self.top, "crates"), to, *without)
        return os.path.join(to, "plain")

    def answer(self, program, pair):
        """What a program says of a pair within the limit, and its processor seconds."""
        name = os.path.join(self.pairs_at, f"{pair['circuit']}_{pair['kind']}")
        words = ("decide", f"{name}_a.aag", f"{name}_b.aag", SEED)
        printed, status, seconds, _ = timed(self.choices.limit, self.folder, program, *words)
        said = "late" if status is None else printed.split("\n")[0] if status == 0 else f"status {status}"
        wanted = {True: "match", False: "none", None: said}[pair["known"]]
        if said in ("match", "none") and said != wanted:
            sys.exit(f"{name}: {program} says {said}")
        return {"circuit": pair["circuit"], "kind": pair["kind"], "said": said, "seconds": round(seconds, 4)}

    def measure(self, parts, pairs):
        """Adds the rows that are missing to the file of results. All parts take turns on each pair, so that what else the machine does
        is spread over them."""
        done = self.rows()
        left = [(part, pair) for pair in pairs for part in parts if (part, pair["circuit"], pair["kind"]) not in done]
        programs = {part: self.copy(part) for part in parts if part in {of for of, _ in left}}
        for part, pair in left:
            row = {"part": part, "limit": self.choices.limit, **self.answer(programs[part], pair)}
            with open(self.results, "a") as file:
                file.write(json.dumps(row) + "\n")
            print(f"{part:<16}{row['circuit']:<22}{row['kind']:<10}{row['said']:<8}{row['seconds']:>8.3f}", file=sys.stderr, flush=True)

    def rows(self):
        """What was measured with this limit, by part, circuit and kind."""
        if not os.path.exists(self.results):
            return {}
        rows = [row for row in map(json.loads, open(self.results)) if row["limit"] == self.choices.limit]
        return {(row["part"], row["circuit"], row["kind"]): row for row in rows}

    def is_answered(self, row):
        return row["said"] in ("match", "none") and row["seconds"] <= self.choices.limit

    def report(self, parts, pairs):
        """The table of docs/MEASURED.md, and which pairs come in and go without each part."""
        rows, limit = self.rows(), self.choices.limit
        answered, seconds = {}, {}
        for part in parts:
            found = [rows[part, pair["circuit"], pair["kind"]] for pair in pairs]
            answered[part] = {(row["circuit"], row["kind"]) for row in found if self.is_answered(row)}
            seconds[part] = sum(min(row["seconds"], limit) for row in found)
        count = lambda names, matches: sum((kind in MATCHES) == matches for _, kind in names)
        all_of = {(pair["circuit"], pair["kind"]) for pair in pairs}
        print(f"| without | of {count(all_of, True)} pairs that match | of {count(all_of, False)} near misses | seconds |\n|---|---|---|---|")
        for part in parts:
            names = answered[part]
            print(f"| {self.title(part)} | {count(names, True)} | {count(names, False)} | {seconds[part]:.1f} |")
        words = lambda names: ", ".join(f"{circuit} {kind}" for circuit, kind in sorted(names)) or "none"
        for part in [part for part in parts if part != WHOLE and WHOLE in parts]:
            print(f"\nwithout {self.title(part)}\n  go: {words(answered[WHOLE] - answered[part])}\n  come: {words(answered[part] - answered[WHOLE])}")


def main():
    words = argparse.ArgumentParser(prog="bench/parts.sh", description="measures the search without each of its parts")
    words.add_argument("top")
    words.add_argument("parts", nargs="*", metavar="PART", help=f"the parts that are wanted, all without: {', '.join(PARTS)}")
    words.add_argument("--limit", type=int, default=1, help="processor seconds of a pair (1)")
    words.add_argument("--every", type=int, default=4, help="every Nth circuit alone (4)")
    words.add_argument("--start", type=int, default=0, help="the first of these (0)")
    words.add_argument("--pairs", metavar="FOLDER", help="the folder of the pairs, which are made without")
    words.add_argument("--nets", metavar="FOLDER", help="the folder that keeps what Yosys and ABC made")
    words.add_argument("--results", metavar="FILE", help="the file of results, a line each, which is gone on with; a new one without")
    choices = words.parse_intermixed_args()
    parts = (WHOLE, *(choices.parts or PARTS))
    with tempfile.TemporaryDirectory() as folder:
        bench = Parts(choices.top, choices, folder)
        pairs = bench.pairs()
        bench.measure(parts, pairs)
        bench.report(parts, pairs)


main()
