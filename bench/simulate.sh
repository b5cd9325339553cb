#!/usr/bin/env bash
# How many words of gates `word_sim::simulate` evaluates a second (64 vectors a word), beside the same loop in C (simulate.c,
# compiled by `cc -O3 -march=native`): on a multiplier that ABC makes, about 100,000 gates where nothing else is asked for, in
# the same order of gates and on the same words, eight at once. Reading the file isn't counted: the time of no rounds is taken
# off. ABC's `&sim` simulates the same gates on as many random vectors, its words being of 32 bits; it takes no netlist without
# a latch, so one is added that nothing reads, and its own clock is read. Each is run several times, in turn, and the shortest
# time of each counts. Needs Debian's berkeley-abc and a C compiler. Not part of the gate. Ends with status 1 where the program
# and C print different words.
#
#     bench/simulate.sh [BITS [WORDS [ROUNDS]]]
set -eu
top=$(cd "$(dirname "${BASH_SOURCE[0]}")/.." && pwd)
bits=${1-112} words=${2-64} rounds=${3-20}
work=$(mktemp -d)
trap 'rm -rf "$work"' EXIT
program=$("$top/bench/build_workbench.sh")
berkeley-abc -q "gen -m -N $bits $work/made.blif; read_blif $work/made.blif; strash; write_aiger $work/multiplier.aig" >/dev/null
cc -O3 -march=native -o "$work/simulate" "$top/bench/simulate.c"
python3 - "$program" "$work" "$words" "$rounds" <<'PYTHON'
import re, subprocess, sys, time

program, work, words, rounds = sys.argv[1], sys.argv[2], int(sys.argv[3]), int(sys.argv[4])
file = f"{work}/multiplier.aig"
gates = int(open(file, "rb").readline().split()[5])
commands = {"workbench": [program, "simulate", file], "C": [f"{work}/simulate", file]}


def seconds(command, count):
    start = time.perf_counter()
    printed = subprocess.run([*command, str(words), str(count)], check=True, capture_output=True, text=True).stdout
    return time.perf_counter() - start, printed


def with_latch(text):
    """The first model of a BLIF file, with a latch of its first input that is an output."""
    first = re.search(r"^\.inputs\s+(\S+)", text, re.M).group(1)
    text = text.replace(".outputs", ".outputs held", 1)
    return text.replace(".end", f".latch {first} held 0\n.end", 1)


def seconds_of_abc():
    """The time that ABC tells of as many vectors, without what it takes for one frame."""
    told = []
    for frames in (1, rounds + 1):
        command = f"read_blif {work}/latched.blif; strash; &get; &sim -F {frames} -W {2 * words}"
        out = subprocess.run(["berkeley-abc", "-q", command], check=True, capture_output=True, text=True).stdout
        told.append(float(re.search(r"Time =\s*([0-9.]+) sec\s*$", out).group(1)))
    return told[1] - told[0]


with open(f"{work}/latched.blif", "w") as latched:
    latched.write(with_latch(open(f"{work}/made.blif").read()))
best, printed = {}, {}
for _ in range(7):
    best["ABC"] = min(seconds_of_abc(), best.get("ABC", 1e9))
    for name, command in commands.items():
        for count in (0, rounds):
            took, printed[name, count] = seconds(command, count)
            best[name, count] = min(took, best.get((name, count), took))
print(f"{gates} gates, {words} words, {rounds} rounds")
rate = {}
for name in commands:
    took = max(best[name, rounds] - best[name, 0], 1e-6)
    rate[name] = gates * words * rounds / took
    print(f"{name:<10}{took:8.3f} s {rate[name] / 1e6:10.1f} million words of gates a second: {printed[name, rounds].strip()}")
print(f"{'ABC':<10}{best['ABC']:8.3f} s {gates * words * rounds / max(best['ABC'], 1e-6) / 1e6:10.1f} million words of gates a second")
print(f"workbench does {rate['workbench'] / rate['C']:.2f} of what C does")
sys.exit(printed["workbench", rounds] != printed["C", rounds])
PYTHON
