#!/usr/bin/env bash
# Runs the gate (`rt ci`, or what is given after it) and prints, after its output, where its processor minutes went: of each
# crate the proof, the proof of its tests, and its must-fail edits, of which the first one costs a proof of the crate; then
# the programs and tests that ran, and the longest chain of crates, by the proofs' minutes. The gate prints no times, so this
# looks twice a second at the processes that it started. What the gate kept from an earlier run takes none. The row
# `not seen` is what the system counted beyond that: processes that began and ended between two looks, and the ends of others.
# `bench/gate_times.sh --prove` does the same of `./npnp --prove`, which tries no edits and proves no tests. Not part of the gate.
set -u
cd "$(dirname "${BASH_SOURCE[0]}")/.." || exit 1
exec python3 - "$@" <<'PYTHON'
import collections, os, resource, signal, subprocess, sys, time

TICKS = os.sysconf("SC_CLK_TCK")
seen = {}  # process that the gate started: (crate, what), where it works, when it began, seconds so far with all that it started


def processes():
    """Each process: its parent, when it began, its own seconds, and those of the ones that it started and saw end."""
    found = {}
    for pid in filter(str.isdigit, os.listdir("/proc")):
        try:
            words = open(f"/proc/{pid}/stat").read().rsplit(")", 1)[1].split()
        except OSError:
            continue
        own, ended = sum(map(int, words[11:13])) / TICKS, sum(map(int, words[13:15])) / TICKS
        found[int(pid)] = int(words[1]), int(words[19]), own, ended
    return found


def told(pid):
    """The crate that a process proves, what of it, and the folder where it works; None where it is no prover."""
    try:
        words = open(f"/proc/{pid}/cmdline").read().split("\0")
        folder = os.readlink(f"/proc/{pid}/cwd")
    except OSError:
        return None
    if not words[0].endswith("/rattle") or "--crate-name" not in words:
        return None
    what = "tests" if "--test" in words else "edits" if "rt-edit-" in folder else "proof"
    return (words[words.index("--crate-name") + 1], what), folder


def look():
    """Adds up each prover with all that it started, and the same of what else the gate runs."""
    table = processes()
    below = collections.defaultdict(list)
    for pid, (parent, *_) in table.items():
        below[parent].append(pid)

    def seconds(pid):
        _, _, own, ended = table[pid]
        return own + ended + sum(map(seconds, below[pid]))

    def walk(pid):
        for child in below[pid]:
            key = child, table[child][1]
            prover = seen[key][:2] if key in seen and seen[key][0][0] else told(child)
            if prover:
                seen[key] = *prover, table[child][1], seconds(child)
            elif is_gate(child):
                walk(child)
            else:
                seen[key] = ("", "programs"), "", table[child][1], seconds(child)

    walk(gate.pid)


def is_gate(pid):
    """Whether a process is one of the gate's own scripts."""
    try:
        return any(word.endswith(("/rt", "/npnp", "/prove")) for word in open(f"/proc/{pid}/cmdline").read().split("\0")[:3])
    except OSError:
        return False


command = ["./npnp", "--prove"] if sys.argv[1:] == ["--prove"] else ["rt", "ci", *sys.argv[1:]]
gate = subprocess.Popen(command, stdin=subprocess.DEVNULL)
for it in (signal.SIGINT, signal.SIGTERM):
    signal.signal(it, lambda *_: gate.terminate())  # what was seen until then is printed
begun = time.time()
while True:
    look()
    try:
        gate.wait(0.5)
        break
    except subprocess.TimeoutExpired:
        pass
took = (time.time() - begun) / 60
usage = resource.getrusage(resource.RUSAGE_CHILDREN)
whole = (usage.ru_utime + usage.ru_stime) / 60
minutes = collections.Counter()
edits = collections.defaultdict(lambda: collections.defaultdict(lambda: [0, 0]))  # crate: folder of an edit: began, minutes
for (crate, what), folder, began, seconds in seen.values():
    minutes[crate, what] += seconds / 60
    if what == "edits":
        edit = edits[crate][folder]
        edit[0], edit[1] = began, edit[1] + seconds / 60
below = {}
for line in open("crates.txt"):
    line = line.split("#")[0]
    if ":" in line:
        name, deps = line.split(":")
        below[name.split()[0]] = deps.split()
below = {name: [it for it in deps if it in below] for name, deps in below.items()}
print(f"\n{'crate':<16}{'proof':>8}{'tests':>8}{'edits':>8}{'first':>8}{'checks':>8}   processor minutes")
firsts = 0
for crate in below:
    tried = sorted(edits[crate].values())
    first = tried[0][1] if tried else 0
    firsts += first
    row = [minutes[crate, what] for what in ("proof", "tests", "edits")]
    print(f"{crate:<16}" + "".join(f"{it:8.1f}" for it in (*row, first)) + f"{len(tried):8}")
kinds = [sum(minutes[crate, what] for crate in below) for what in ("proof", "tests", "edits")]
checks = sum(len(tried) for tried in edits.values())
print(f"{'all':<16}" + "".join(f"{it:8.1f}" for it in (*kinds, firsts)) + f"{checks:8}")
print(f"{'programs':<16}{minutes['', 'programs']:8.1f}")
print(f"{'not seen':<16}{whole - sum(kinds) - minutes['', 'programs']:8.1f}")
print(f"{'whole':<16}{whole:8.1f}   in {took:.1f} minutes")


def chain(crate):
    longest = max((chain(it) for it in below[crate]), default=(0, []))
    return longest[0] + minutes[crate, "proof"], longest[1] + [crate]


length, crates = max(chain(it) for it in below)
print(f"longest chain, {length:.1f} minutes of proofs: {' '.join(crates)}")
sys.exit(gate.returncode)
PYTHON
