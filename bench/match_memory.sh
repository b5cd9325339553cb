#!/usr/bin/env bash
# Prints what memory `match` takes at most, beside the bytes of the account that it writes: for circuits that Yosys makes of
# Verilog, each beside a copy that ABC resynthesized. Needs Debian's yosys and berkeley-abc. Not part of the gate.
#
#     bench/match_memory.sh [NPNP [NAME ..]]      by default that of bench/program.sh, and all circuits
set -eu
top=$(cd "$(dirname "${BASH_SOURCE[0]}")/.." && pwd)
npnp=${1-$("$top/bench/program.sh")}
[ $# -eq 0 ] || shift
work=$(mktemp -d)
trap 'rm -rf "$work"' EXIT
resynthesize='balance; rewrite; refactor; balance; rewrite; rewrite -z; balance; refactor -z; rewrite -z; balance; dch; if -K 6; strash'
declare -A verilog=(
  [adder64]='module m(input [63:0] a, input [63:0] b, output [64:0] y); assign y = a + b; endmodule'
  [adder128]='module m(input [127:0] a, input [127:0] b, output [128:0] y); assign y = a + b; endmodule'
  [multiply6]='module m(input [5:0] a, input [5:0] b, output [11:0] y); assign y = a * b; endmodule'
  [multiply7]='module m(input [6:0] a, input [6:0] b, output [13:0] y); assign y = a * b; endmodule'
)
[ $# -gt 0 ] || set -- adder64 adder128 multiply6 multiply7
for name in "$@"; do
  base=$work/$name
  echo "${verilog[$name]}" >"$base.v"
  yosys -q -p "read_verilog $base.v; synth; aigmap; write_aiger $base.aig" >/dev/null
  berkeley-abc -q "read $base.aig; $resynthesize; write $base.again.aig" >/dev/null
  measured=$(python3 "$top/bench/measure.py" "$npnp" match "$base.aig" "$base.again.aig" "$base.account")
  printf '%s: account of %d bytes, %s\n' "$name" "$(stat -c %s "$base.account")" "${measured%%:*}"
done
