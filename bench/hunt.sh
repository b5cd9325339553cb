#!/usr/bin/env bash
# How many of the claims of an output that some vector breaks are seen broken by simulation: `workbench hunt` on circuits of at
# most 16 inputs that Yosys makes, after 1, 4, 16 and 64 rounds, beside all that are broken, counted by trying all vectors.
# A claim is that the output never falls where an input rises (up), where it falls (down), or where two inputs with given
# values are inverted (swap). Needs Debian's yosys and berkeley-abc. Not part of the gate. Ends with status 1 where more is
# seen than there is.
#
#     bench/hunt.sh [NETLIST ..]
set -eu
top=$(cd "$(dirname "${BASH_SOURCE[0]}")/.." && pwd)
program=$("$top/bench/build_workbench.sh")
if [ $# -eq 0 ]; then
  work=$(mktemp -d)
  trap 'rm -rf "$work"' EXIT
  make() {
    echo "module $1($2 endmodule" >"$work/$1.v"
    yosys -q -p "read_verilog $work/$1.v; synth -flatten; aigmap; write_aiger $work/$1.yosys.aig" >/dev/null
    berkeley-abc -q "read $work/$1.yosys.aig; strash; balance; write_aiger $work/$1.aig" >/dev/null
    rm "$work/$1.yosys.aig"
  }
  make adder7 'input [6:0] a, b, output [7:0] y); assign y = a + b;'
  make compare8 'input [7:0] a, b, output l, e); assign l = a < b; assign e = a == b;'
  make multiply6 'input [5:0] a, b, output [11:0] y); assign y = a * b;'
  make shift12 'input [11:0] a, input [3:0] s, output [11:0] y); assign y = a << s;'
  make all16 'input [15:0] a, output all, odd, most); assign all = &a; assign odd = ^a; assign most = a[15] ? |a[14:7] : &a[6:0];'
  set -- "$work"/*.aig
fi
python3 "$top/bench/hunt.py" "$program" "$@"
