#!/usr/bin/env bash
# How the time and memory of `match` and `check` grow with the gates. Pairs of three families, each with more and more gates: netlists of
# `npnp make` set side by side, on the same 64 inputs or on 64 inputs each, up to 1,000,000 gates, whose seconds are the same netlist with
# ports permuted and negated and the operands of each gate exchanged; and adders and multipliers of Yosys, beside a copy that ABC
# resynthesized, with ports permuted and negated. Prints for each pair the ports and gates, the answer, the processor seconds and the memory of
# `match` and of `check`, and the seconds of ABC's `bm` on the pair without negations, which it doesn't know. A family ends with its first pair
# that isn't answered within the limit. Writes the numbers to docs/growth.tsv and a plot of them to docs/growth.svg. Needs Debian's yosys and
# berkeley-abc and time. Not part of the gate. Ends with status 1 where an answer isn't `matched` or an account isn't accepted.
#
#     bench/growth.sh [LIMIT [SEED]]      LIMIT: the seconds of a pair, 60
set -eu
top=$(cd "$(dirname "${BASH_SOURCE[0]}")/.." && pwd)
program=$("$top/bench/program.sh")
exec python3 "$top/bench/growth.py" "$program" "$top/docs" "$@"
