"""Writes a copy of a netlist in the ASCII form of AIGER in which one operand of one gate is negated: of the gate that is
PLACE thousandths of all gates after the first one.

    change_gate.py NETLIST COPY PLACE
"""
import sys
from account_of import in_order

inputs, gates, outputs = in_order(sys.argv[1])
place = len(gates) * int(sys.argv[3]) // 1000
gates[place] = (gates[place][0] ^ 1, gates[place][1])
with open(sys.argv[2], "w") as file:
    file.write(f"aag {inputs + len(gates)} {inputs} 0 {len(outputs)} {len(gates)}\n")
    file.write("".join(f"{2 * (1 + k)}\n" for k in range(inputs)))
    file.write("".join(f"{it}\n" for it in outputs))
    file.write("".join(f"{2 * (1 + inputs + t)} {a} {b}\n" for t, (a, b) in enumerate(gates)))
