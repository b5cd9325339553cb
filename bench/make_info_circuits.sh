#!/usr/bin/env bash
# Makes netlists whose supports, unateness and symmetries are of interest, by Yosys and ABC (Debian's yosys and berkeley-abc),
# each as NAME.aig with the names of its ports and as NAME.blif: adders of 32 and of 64 bits, a multiplier of 4, a priority encoder
# of 32 inputs, an ALU of 8 bits, a decoder with 64 outputs, majorities and parities of 9 inputs, and a netlist of 328 inputs
# and 392 outputs. Not part of the gate.
#
#     bench/make_info_circuits.sh FOLDER
set -eu
work=${1:?a folder for the netlists}
mkdir -p "$work"
make() {
  echo "$2" >"$work/$1.v"
  yosys -q -p "read_verilog $work/$1.v; synth -flatten; aigmap; write_aiger -symbols $work/$1.yosys.aig" >/dev/null
  berkeley-abc -q "read $work/$1.yosys.aig; strash; balance; write_aiger -s $work/$1.aig; write_blif $work/$1.blif" >/dev/null
  rm "$work/$1.yosys.aig"
  echo "$1: $(head -c 60 "$work/$1.aig" | head -n 1)"
}
make adder32 'module adder32(input [31:0] a, b, output [32:0] y); assign y = a + b; endmodule'
make adder64 'module adder64(input [63:0] a, b, output [64:0] y); assign y = a + b; endmodule'
make multiply4 'module multiply4(input [3:0] a, b, output [7:0] y); assign y = a * b; endmodule'
make priority32 'module priority32(input [31:0] a, output reg [4:0] y, output any);
  integer k;
  always @* begin y = 0; for (k = 0; k < 32; k = k + 1) if (a[k]) y = k; end
  assign any = |a;
endmodule'
make alu8 'module alu8(input [7:0] a, b, input [2:0] f, output reg [7:0] y, output zero);
  always @* case (f)
    0: y = a + b; 1: y = a - b; 2: y = a & b; 3: y = a | b; 4: y = a ^ b; 5: y = ~a; 6: y = a < b; 7: y = {a[6:0], a[7]};
  endcase
  assign zero = y == 0;
endmodule'
make decoder64 'module decoder64(input [5:0] a, input enable, output [63:0] y); assign y = enable << a; endmodule'
make counts9 'module counts9(input [8:0] a, output most, odd, some, all);
  wire [3:0] ones = a[0] + a[1] + a[2] + a[3] + a[4] + a[5] + a[6] + a[7] + a[8];
  assign most = ones > 4; assign odd = ^a; assign some = |a; assign all = &a;
endmodule'
# selections and exclusive ors of single bits, and sums of bytes
make wide 'module wide(input [127:0] a, b, input [63:0] s, input [7:0] t, output [127:0] pick, differ, sum, output [7:0] held);
  assign pick = (a & {2{s}}) | (b & ~{2{s}});
  assign differ = a ^ b;
  genvar k;
  generate for (k = 0; k < 16; k = k + 1) begin : bytes
    assign sum[8*k +: 8] = a[8*k +: 8] + b[8*k +: 8];
  end endgenerate
  assign held = ~t;
endmodule'
