#!/usr/bin/env bash
# Prints what questions take that learn many lines, since no clause is let go: whether the middle output of Yosys's multiplier
# can be 1 where that of ABC's array multiplier isn't, for more and more bits. For each the seconds and the memory at most of
# `workbench ask`, which derives each line again before it answers, and how many lines it learned. Needs Debian's yosys and
# berkeley-abc. Not part of the gate.
#
#     bench/long_questions.sh [BITS ..]      BITS: 5 6 7 8
set -eu
top=$(cd "$(dirname "${BASH_SOURCE[0]}")/.." && pwd)
[ $# -gt 0 ] || set -- 5 6 7 8
work=$(mktemp -d)
trap 'rm -rf "$work"' EXIT
program=$("$top/bench/build_workbench.sh")
for bits in "$@"; do
  most=$((bits - 1))
  base=$work/multiply$bits
  echo "module m(input [$most:0] a, input [$most:0] b, output [$((2 * bits - 1)):0] y); assign y = a * b; endmodule" >"$base.v"
  yosys -q -p "read_verilog $base.v; synth; aigmap; write_aiger $base.yosys.aig" >/dev/null
  berkeley-abc -q "read $base.yosys.aig; strash; write_aiger $base.aig" >/dev/null
  berkeley-abc -q "gen -m -N $bits $base.blif; read_blif $base.blif; strash; write_aiger $base.other.aig" >/dev/null
  echo -n "$bits bits: "
  python3 "$top/bench/measure.py" "$program" ask "$base.aig" "$base.other.aig" "$bits" 1 1000000000
done
