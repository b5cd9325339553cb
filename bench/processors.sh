#!/usr/bin/env bash
# Small processors of 8, 16 and 32 bits through a program, as bench/match_beside_abc.sh does it: each beside itself resynthesized and
# permuted, and negated too, and beside two near misses, of which one has a wire crossed on the way into a register. Their registers
# are cut: what these hold stands among the inputs, and what they are to hold next among the outputs. Not part of the gate.
#
#     bench/processors.sh [OPTIONS as of bench/match_beside_abc.sh] [processor16x8 ..]
set -eu
top=$(cd "$(dirname "${BASH_SOURCE[0]}")/.." && pwd)
exec python3 "$top/bench/processors.py" "$("$top/bench/program.sh")" "$@"
