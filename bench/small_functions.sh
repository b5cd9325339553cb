#!/usr/bin/env bash
# Functions of few inputs that don't match, through a program: the seconds of `match`, the median and the slowest, for each number of
# inputs and each of two kinds. A function is drawn, each table as likely as any other, and the second of a pair is
#   near     the first with two minterms exchanged, a true one and a false one, its ports permuted and negated;
#   drawn    another one that is drawn, with as many minterms.
# Either netlist is made of multiplexers, by its own order of inputs, and resynthesized by ABC unless --multiplexers is given: as they
# are, fewer cubes have a value by their gates. Few pairs match by chance, which are counted by themselves. Then all cells of
# examples/library/first against all of second, as `make` there asks them. `check` has to accept each account. Seconds are of processor time,
# with those of starting the program. Ends with status 1 where an account isn't accepted. Needs Debian's berkeley-abc. Not part of the gate.
#
#     bench/small_functions.sh [--pairs N] [--inputs N,..] [--seed SEED] [--limit SECONDS] [--multiplexers] [--no-cells] [--program PATH]
set -eu
top=$(cd "$(dirname "${BASH_SOURCE[0]}")/.." && pwd)
exec python3 "$top/bench/small_functions.py" "$("$top/bench/program.sh")" "$top/examples/library" "$@"
