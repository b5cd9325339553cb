#!/usr/bin/env bash
# Prints what four changes prove again: the crates above the one that is changed, and their processor minutes, by crates.txt
# and by a table of minutes, as bench/gate_times.sh prints it: a row is a crate's name and its minutes of proofs, tests and
# must-fail edits, which are added up. The table is docs/gate.txt of a commit, by default of the files that lie here; of a
# commit that hasn't got it, the last one in its documents. Each change names the crate that it is made in.
#
#   bench/proves_anew.sh [--minutes FILE] [--proofs] [COMMIT]
#
# --minutes takes the table from a file, --proofs the first number of each row alone.
set -u
cd "$(dirname "${BASH_SOURCE[0]}")/.." || exit 1
exec python3 - "$@" <<'PYTHON'
import argparse, pathlib, re, subprocess

CHANGES = [  # what is changed, and where: the first of these crates that there is
    ("a new kind of AIGER fault", ["net_file", "net_core"]),
    ("a new step of an account", ["account_core"]),
    ("another choice of the next port", ["search_guide", "match_search"]),
    ("a new command", ["command_words", "check_steps"]),
]
words = argparse.ArgumentParser(prog="bench/proves_anew.sh")
words.add_argument("--minutes", metavar="FILE")
words.add_argument("--proofs", action="store_true")
words.add_argument("commit", nargs="?")
words = words.parse_args()


def read(path):
    if words.commit:
        shown = subprocess.run(["git", "show", f"{words.commit}:{path}"], capture_output=True, text=True)
        return shown.stdout
    file = pathlib.Path(path)
    return file.read_text() if file.exists() else ""


def last_table(text, crates):
    """The minutes of the last rows that follow one another."""
    table, in_table = {}, False
    for line in text.splitlines():
        row = re.fullmatch(r"([a-z_0-9]+)((?:\s+[0-9.]+)+)\s*", line)
        if row and row[1] in crates:
            if not in_table:
                table, in_table = {}, True
            minutes = [float(it) for it in row[2].split()]
            table[row[1]] = minutes[0] if words.proofs else sum(minutes[:3])
        else:
            in_table = False
    return table


below = {}
for line in read("crates.txt").splitlines():
    line = line.split("#")[0]
    if ":" in line:
        name, deps = line.split(":")
        below[name.split()[0]] = deps.split()
documents = pathlib.Path(words.minutes).read_text() if words.minutes else read("docs/gate.txt") or read("docs/MEASURED.md") or read("docs/MAP.md")
minutes = last_table(documents, below)


def stands_on(crate, base, seen):
    if crate not in seen:
        seen[crate] = crate == base or any(stands_on(it, base, seen) for it in below.get(crate, []))
    return seen[crate]


whole = sum(minutes.values())
for change, crates in CHANGES:
    base = next((it for it in crates if it in below), None)
    if base is None:
        continue
    seen = {}
    above = [it for it in below if stands_on(it, base, seen)]
    unknown = sum(it not in minutes for it in above)
    known = f"{sum(minutes.get(it, 0) for it in above):.0f} of {whole:.0f} processor minutes"
    print(f"{change} ({base}): {len(above)} of {len(below)} crates, {known}" + (f", without {unknown} crates that weren't measured" if unknown else ""))
PYTHON
