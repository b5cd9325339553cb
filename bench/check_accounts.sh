#!/usr/bin/env bash
# Times `check` on accounts of real circuits: netlists that Yosys makes of Verilog, each beside a copy that ABC resynthesized,
# with logs from picosat (bench/account_of.py). Prints lines, bytes, lines a second and memory of the check, and beside it what
# ABC's `cec` takes to decide the same question again. Needs Debian's yosys, berkeley-abc and picosat. Not part of the gate.
#
#     bench/check_accounts.sh [FOLDER]      FOLDER keeps the netlists and accounts, which take minutes to write
set -eu
top=$(cd "$(dirname "${BASH_SOURCE[0]}")/.." && pwd)
work=${1-$(mktemp -d)}
mkdir -p "$work"
[ $# -gt 0 ] || trap 'rm -rf "$work"' EXIT
resynthesize='balance; rewrite; refactor; balance; rewrite; rewrite -z; balance; refactor -z; rewrite -z; balance; dch; if -K 6; strash'
declare -A verilog=(
  [adder96]='module m(input [95:0] a, input [95:0] b, output [96:0] y); assign y = a + b; endmodule'
  [compare48]='module m(input [47:0] a, input [47:0] b, output l, output e); assign l = a < b; assign e = a == b; endmodule'
  [alu16]='module m(input [15:0] a, input [15:0] b, input [1:0] f, output [15:0] y); assign y = f == 0 ? a + b : f == 1 ? a - b : f == 2 ? (a & b) : (a ^ b); endmodule'
  [multiply6]='module m(input [5:0] a, input [5:0] b, output [11:0] y); assign y = a * b; endmodule'
  [multiply7]='module m(input [6:0] a, input [6:0] b, output [13:0] y); assign y = a * b; endmodule'
)
program=$("$top/bench/program.sh")
for name in adder96 compare48 alu16 multiply6 multiply7; do
  base=$work/$name
  if [ ! -e "$base.account" ]; then
    echo "${verilog[$name]}" >"$base.v"
    yosys -q -p "read_verilog $base.v; synth; aigmap; write_aiger $base.aig" >/dev/null
    berkeley-abc -q "read $base.aig; $resynthesize; write $base.again.aig" >/dev/null
    python3 "$top/bench/account_of.py" "$base.aig" "$base.again.aig" "$base.part" >/dev/null
    mv "$base.part" "$base.account"
  fi
  lines=$(wc -l <"$base.account")
  printf '%s, %d lines, %d bytes: ' "$name" "$lines" "$(stat -c %s "$base.account")"
  python3 "$top/bench/measure.py" "$program" check "$base.aig" "$base.again.aig" "$base.account" |
    awk -v lines="$lines" '{ printf "%s (%d lines a second)\n", $0, lines / ($1 > 0 ? $1 : 0.01) }'
  printf '  beside cec: '
  python3 "$top/bench/measure.py" berkeley-abc -q "cec -n $base.aig $base.again.aig"
done
# many facts over one circuit of 4,864 gates: the account has no conclusion, so the last line that is told is the one after it
for kind in fails holds; do
  base=$work/many_$kind
  [ -e "$base.account" ] || python3 "$top/bench/many_facts.py" "$kind" 100000 "$base.aag" "$base.account"
  printf '100000 facts, %s, %d bytes: ' "$kind" "$(stat -c %s "$base.account")"
  python3 "$top/bench/measure.py" "$program" check "$base.aag" "$base.aag" "$base.account"
done
