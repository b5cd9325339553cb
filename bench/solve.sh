#!/usr/bin/env bash
# Asks questions of pairs of circuits of up to two thousand gates, each output and either value, and prints for each pair
# how many had a vector and how many were refuted, how many lines were learned (in all, and for the question that took most),
# and the processor seconds of `workbench ask`, which derives each line again before it answers, beside minisat and picosat on
# the same clauses: the sum, in parentheses the longest question, and how many had no answer within the limit; and ABC's `&cec`
# on all outputs at once. The circuits
# are those of Yosys and of ABC, each beside a copy that ABC resynthesized, beside one of another structure, or beside a copy
# of which one gate is changed. Needs Debian's yosys, berkeley-abc, minisat and picosat. Not part of the gate. Ends with
# status 1 where an answer is wrong.
#
#     bench/solve.sh [LIMIT [NAME ..]]      LIMIT: the processor seconds of a question, 20; NAME ..: the circuits that are wanted
#
# By the environment: AFTER_MINISAT=SECONDS asks minisat each question with LIMIT, and of those that it answers the program, with
# SECONDS; ONLY=other, again or at leaves out other pairs; PROGRAM=FILE is asked in place of `workbench`, as a plain copy
# (bench/plain_copy.sh), which doesn't derive the lines again.
set -eu
top=$(cd "$(dirname "${BASH_SOURCE[0]}")/.." && pwd)
limit=${1-20}
[ $# -eq 0 ] || shift
work=$(mktemp -d)
trap 'rm -rf "$work"' EXIT
program=${PROGRAM:-$("$top/bench/build_workbench.sh")}
resynthesize='balance; rewrite; refactor; balance; rewrite; rewrite -z; balance; refactor -z; rewrite -z; balance'
declare -A verilog=(
  [adder8]='module m(input [7:0] a, input [7:0] b, output [8:0] y); assign y = a + b; endmodule'
  [adder32]='module m(input [31:0] a, input [31:0] b, output [32:0] y); assign y = a + b; endmodule'
  [adder64]='module m(input [63:0] a, input [63:0] b, output [64:0] y); assign y = a + b; endmodule'
  [adder128]='module m(input [127:0] a, input [127:0] b, output [128:0] y); assign y = a + b; endmodule'
  [compare16]='module m(input [15:0] a, input [15:0] b, output l, output e); assign l = a < b; assign e = a == b; endmodule'
  [compare32]='module m(input [31:0] a, input [31:0] b, output l, output e); assign l = a < b; assign e = a == b; endmodule'
  [compare64]='module m(input [63:0] a, input [63:0] b, output l, output e); assign l = a < b; assign e = a == b; endmodule'
  [multiply3]='module m(input [2:0] a, input [2:0] b, output [5:0] y); assign y = a * b; endmodule'
  [multiply4]='module m(input [3:0] a, input [3:0] b, output [7:0] y); assign y = a * b; endmodule'
  [multiply5]='module m(input [4:0] a, input [4:0] b, output [9:0] y); assign y = a * b; endmodule'
  [multiply6]='module m(input [5:0] a, input [5:0] b, output [11:0] y); assign y = a * b; endmodule'
  [multiply7]='module m(input [6:0] a, input [6:0] b, output [13:0] y); assign y = a * b; endmodule'
  [multiply8]='module m(input [7:0] a, input [7:0] b, output [15:0] y); assign y = a * b; endmodule'
  [multiply9]='module m(input [8:0] a, input [8:0] b, output [17:0] y); assign y = a * b; endmodule'
  [multiply10]='module m(input [9:0] a, input [9:0] b, output [19:0] y); assign y = a * b; endmodule'
  [parity16]='module m(input [15:0] a, output y); assign y = ^a; endmodule'
  [parity32]='module m(input [31:0] a, output y); assign y = ^a; endmodule'
  [parity64]='module m(input [63:0] a, output y); assign y = ^a; endmodule'
  [majority15]='module m(input [14:0] a, output y); wire [3:0] s = a[0] + a[1] + a[2] + a[3] + a[4] + a[5] + a[6] + a[7] + a[8] + a[9] + a[10] + a[11] + a[12] + a[13] + a[14]; assign y = s > 7; endmodule'
  [majority31]='module m(input [30:0] a, output y); integer i; reg [4:0] s; always @* begin s = 0; for (i = 0; i < 31; i = i + 1) s = s + a[i]; end assign y = s > 15; endmodule'
  [priority32]='module m(input [31:0] a, output reg [4:0] y, output v); integer i; assign v = |a; always @* begin y = 0; for (i = 0; i < 32; i = i + 1) if (a[i]) y = i; end endmodule'
  [priority64]='module m(input [63:0] a, output reg [5:0] y, output v); integer i; assign v = |a; always @* begin y = 0; for (i = 0; i < 64; i = i + 1) if (a[i]) y = i; end endmodule'
  [crc16]='module m(input [15:0] s, input [31:0] d, output reg [15:0] y); integer i; always @* begin y = s; for (i = 31; i >= 0; i = i - 1) y = {y[14:0], 1'"'b0} ^ (y[15] ^ d[i] ? 16'h1021 : 16'"'b0); end endmodule'
  [crc32]='module m(input [31:0] s, input [31:0] d, output reg [31:0] y); integer i; always @* begin y = s; for (i = 31; i >= 0; i = i - 1) y = {y[30:0], 1'"'b0} ^ (y[31] ^ d[i] ? 32'h04c11db7 : 32'"'b0); end endmodule'
  [sbox]='module m(input [7:0] a, output [7:0] y); function [7:0] mul(input [7:0] p, input [7:0] q); integer k; begin mul = 0; for (k = 7; k >= 0; k = k - 1) mul = {mul[6:0], 1'"'b0} ^ (mul[7] ? 8'h1b : 8'b0) ^ (q[k] ? p : 8'"'b0); end endfunction wire [7:0] b2 = mul(a, a); wire [7:0] b3 = mul(b2, a); wire [7:0] b6 = mul(b3, b3); wire [7:0] b12 = mul(b6, b6); wire [7:0] b15 = mul(b12, b3); wire [7:0] b30 = mul(b15, b15); wire [7:0] b60 = mul(b30, b30); wire [7:0] b120 = mul(b60, b60); wire [7:0] b240 = mul(b120, b120); wire [7:0] x = mul(mul(b240, b12), b2); assign y = x ^ {x[6:0], x[7]} ^ {x[5:0], x[7:6]} ^ {x[4:0], x[7:5]} ^ {x[3:0], x[7:4]} ^ 8'"'h63"'; endmodule'
  [count8]='module m(input [7:0] a, output reg [3:0] y); integer i; always @* begin y = 0; for (i = 0; i < 8; i = i + 1) y = y + a[i]; end endmodule'
  [count16]='module m(input [15:0] a, output reg [4:0] y); integer i; always @* begin y = 0; for (i = 0; i < 16; i = i + 1) y = y + a[i]; end endmodule'
  [count32]='module m(input [31:0] a, output reg [5:0] y); integer i; always @* begin y = 0; for (i = 0; i < 32; i = i + 1) y = y + a[i]; end endmodule'
  [shift8]='module m(input [7:0] a, input [2:0] s, output [7:0] y); assign y = a << s; endmodule'
  [shift16]='module m(input [15:0] a, input [3:0] s, output [15:0] y); assign y = a << s; endmodule'
  [shift32]='module m(input [31:0] a, input [4:0] s, output [31:0] y); assign y = a << s; endmodule'
  [rotate8]='module m(input [7:0] a, input [2:0] s, output [7:0] y); wire [15:0] w = {a, a} << s; assign y = w[15:8]; endmodule'
  [rotate16]='module m(input [15:0] a, input [3:0] s, output [15:0] y); wire [31:0] w = {a, a} << s; assign y = w[31:16]; endmodule'
  [rotate32]='module m(input [31:0] a, input [4:0] s, output [31:0] y); wire [63:0] w = {a, a} << s; assign y = w[63:32]; endmodule'
  [alu8]='module m(input [7:0] a, input [7:0] b, input [1:0] f, output [7:0] y); assign y = f == 0 ? a + b : f == 1 ? a - b : f == 2 ? (a & b) : (a ^ b); endmodule'
)
# the same functions by other structures: what ABC makes of a word and of a number of bits, or of decision diagrams; or other
# Verilog, which isn't optimized
declare -A made=(
  [adder8]='gen -a -N 8' [adder32]='gen -a -N 32' [adder64]='gen -a -N 64' [adder128]='gen -a -N 128'
  [multiply3]='gen -m -N 3' [multiply4]='gen -m -N 4' [multiply5]='gen -m -N 5' [multiply6]='gen -m -N 6'
  [multiply7]='gen -m -N 7' [multiply8]='gen -m -N 8' [multiply9]='gen -m -N 9' [multiply10]='gen -m -N 10'
  [sbox]='collapse' [majority15]='collapse' [count8]='collapse'
)
declare -A written=(
  [count16]='module m(input [15:0] a, output [4:0] y); wire [15:0] b = (a & 21845) + ((a >> 1) & 21845); wire [15:0] c = (b & 13107) + ((b >> 2) & 13107); wire [15:0] d = (c & 3855) + ((c >> 4) & 3855); assign y = d[7:0] + d[15:8]; endmodule'
  [count32]='module m(input [31:0] a, output [5:0] y); wire [31:0] b = (a & 1431655765) + ((a >> 1) & 1431655765); wire [31:0] c = (b & 858993459) + ((b >> 2) & 858993459); wire [31:0] d = (c & 252645135) + ((c >> 4) & 252645135); wire [31:0] e = (d & 16711935) + ((d >> 8) & 16711935); assign y = e[15:0] + e[31:16]; endmodule'
  [shift8]='module m(input [7:0] a, input [2:0] s, output [7:0] y); wire [7:0] b = s[2] ? a << 4 : a; wire [7:0] c = s[1] ? b << 2 : b; assign y = s[0] ? c << 1 : c; endmodule'
  [shift16]='module m(input [15:0] a, input [3:0] s, output [15:0] y); wire [15:0] b = s[3] ? a << 8 : a; wire [15:0] c = s[2] ? b << 4 : b; wire [15:0] d = s[1] ? c << 2 : c; assign y = s[0] ? d << 1 : d; endmodule'
  [shift32]='module m(input [31:0] a, input [4:0] s, output [31:0] y); wire [31:0] b = s[4] ? a << 16 : a; wire [31:0] c = s[3] ? b << 8 : b; wire [31:0] d = s[2] ? c << 4 : c; wire [31:0] e = s[1] ? d << 2 : d; assign y = s[0] ? e << 1 : e; endmodule'
  [rotate8]='module m(input [7:0] a, input [2:0] s, output [7:0] y); wire [7:0] b = s[2] ? {a[3:0], a[7:4]} : a; wire [7:0] c = s[1] ? {b[5:0], b[7:6]} : b; assign y = s[0] ? {c[6:0], c[7]} : c; endmodule'
  [rotate16]='module m(input [15:0] a, input [3:0] s, output [15:0] y); wire [15:0] b = s[3] ? {a[7:0], a[15:8]} : a; wire [15:0] c = s[2] ? {b[11:0], b[15:12]} : b; wire [15:0] d = s[1] ? {c[13:0], c[15:14]} : c; assign y = s[0] ? {d[14:0], d[15]} : d; endmodule'
  [rotate32]='module m(input [31:0] a, input [4:0] s, output [31:0] y); wire [31:0] b = s[4] ? {a[15:0], a[31:16]} : a; wire [31:0] c = s[3] ? {b[23:0], b[31:24]} : b; wire [31:0] d = s[2] ? {c[27:0], c[31:28]} : c; wire [31:0] e = s[1] ? {d[29:0], d[31:30]} : d; assign y = s[0] ? {e[30:0], e[31]} : e; endmodule'
  [parity32]='module m(input [31:0] a, output y); wire [31:0] s = {s[30:0], 1'"'b0"'} ^ a; assign y = s[31]; endmodule'
  [parity64]='module m(input [63:0] a, output y); wire [63:0] s = {s[62:0], 1'"'b0"'} ^ a; assign y = s[63]; endmodule'
)
[ $# -gt 0 ] || set -- adder8 adder32 adder64 adder128 compare16 compare32 compare64 parity16 parity32 parity64 majority15 \
  majority31 count8 count16 count32 shift8 shift16 shift32 rotate8 rotate16 rotate32 alu8 priority32 priority64 crc16 crc32 \
  sbox multiply3 multiply4 multiply5 multiply6 multiply7 multiply8 multiply9 multiply10
failed=0
python3 "$top/bench/solve.py" --head
# Makes the same function by another structure, if there is one.
make_other() {
  case ${made[$1]-} in
    gen*) berkeley-abc -q "${made[$1]} $base.blif; read_blif $base.blif; strash; write_aiger $base.other.aig" >/dev/null ;;
    ?*) berkeley-abc -q "read $base.aig; ${made[$1]}; strash; write_aiger $base.other.aig" >/dev/null ;;
    *)
      [ -n "${written[$1]-}" ] || return 1
      echo "${written[$1]}" >"$base.other.v"
      yosys -q -p "read_verilog $base.other.v; proc; aigmap; write_aiger $base.other.yosys.aig" >/dev/null
      berkeley-abc -q "read $base.other.yosys.aig; strash; write_aiger $base.other.aig" >/dev/null
      ;;
  esac
}
ask() {
  case ${ONLY-} in ?*) [[ $1 == *" $ONLY"* ]] || return 0 ;; esac
  python3 "$top/bench/solve.py" "$program" "$1" "$2" "$3" "$limit" ${AFTER_MINISAT:+--after-minisat "$AFTER_MINISAT"} || failed=1
}
for name in "$@"; do
  base=$work/$name
  echo "${verilog[$name]}" >"$base.v"
  yosys -q -p "read_verilog $base.v; synth; aigmap; write_aiger $base.yosys.aig" >/dev/null
  berkeley-abc -q "read $base.yosys.aig; strash; write_aiger $base.aig; $resynthesize; write_aiger $base.again.aig" >/dev/null
  ask "$name again" "$base.aig" "$base.again.aig"
  if make_other "$name"; then
    ask "$name other" "$base.aig" "$base.other.aig"
  fi
  for place in 0 500 900; do
    python3 "$top/bench/change_gate.py" "$base.again.aig" "$base.changed.aag" "$place"
    ask "$name at $place" "$base.aig" "$base.changed.aag"
  done
done
exit "$failed"
