#!/usr/bin/env bash
# Makes a *plain copy*: the crates of the search as one program in plain Rust, without contracts and proofs. What runs is the same, so that a
# change can be measured in minutes before it is proved; nothing is promised of what it answers. rustc takes a minute or two. The copy is
# FOLDER/plain, its sources FOLDER/src, of which bench/plain has what no crate has. It is asked
#   plain guess FIRST SECOND SEED           the first phase alone: `guess` and the port table of a matching that may be a match, or `nothing`
#   plain search FIRST SECOND SEED          the second phase alone: `match` and its port table, or `none`
#   plain decide FIRST SECOND SEED          both, as `npnp match` asks them
#   plain matching FIRST SECOND SEED FILE   whether a matching is a match: `match`, or `differs`. FILE has a line for each port, inputs
#                                           before outputs: the place where it goes, and 1 where it is inverted there, else 0
#   plain ask FIRST SECOND OUTPUT VALUE BUDGET   as `workbench ask`, but lines aren't derived again
#   plain check FIRST SECOND ACCOUNT        the verdict of an account, and the seconds without the time to read the files
#   plain claims FILE ROUNDS                as `workbench claims`: of each output and each of its inputs whether the output may fall where the
#                                           input goes up, in some rounds, each time again
# of files in the ASCII form of AIGER, in order, as `bench/match_beside_abc.sh --write` writes them. An edit changes one line of a crate first, and
# has the form of those in crates/NAME/must-fail with a path from crates/ on; bench/parts has some. Needs rustc. Not part of the gate.
#
#     bench/plain_copy.sh FOLDER [--edit FILE].. [--no-build]
set -eu
top=$(cd "$(dirname "${BASH_SOURCE[0]}")/.." && pwd)
exec python3 "$top/bench/plain_copy.py" "$top/crates" "$@"
