"""Matches small processors: see processors.sh. What `match_beside_abc.py` does, of processors that are written here."""
import circuits
import match_beside_abc

# bits of a word, and registers
SIZES = ((8, 4), (8, 8), (16, 4), (16, 8), (16, 16), (32, 8), (32, 16))


def processor(bits, registers, crossed=False):
    """One step of a processor with a register file, a program counter and two flags, as Verilog. What its registers hold stands among
    the inputs, and what they are to hold next among the outputs, as where ABC's `comb` cuts a circuit at its registers. Crossed: two bits
    are exchanged on the way into one register."""
    word, number = f"[{bits - 1}:0]", max(1, (registers - 1).bit_length())
    state = [f"r{k}" for k in range(registers)] + ["pc"]
    ports = [f"input {word} {it}" for it in state] + ["input z", "input c", "input [15:0] op", f"input {word} read"]
    ports += [f"output {word} next_{it}" for it in state] + ["output next_z", "output next_c", f"output {word} address", "output write"]
    chosen = lambda field: "".join(f"{field} == {k} ? r{k} : " for k in range(registers - 1)) + f"r{registers - 1}"
    body = [
        f"wire [{number - 1}:0] d = op[{number - 1}:0];",
        f"wire [{number - 1}:0] s = op[{2 * number - 1}:{number}];",
        "wire [3:0] f = op[15:12];",
        f"wire {word} a = {chosen('d')};",
        f"wire {word} b = {chosen('s')};",
        f"wire [{bits}:0] sum = a + (f[0] ? ~b : b) + (f[0] ^ (f[1] & c));",
        f"wire {word} logic = f[1:0] == 0 ? a & b : f[1:0] == 1 ? a | b : f[1:0] == 2 ? a ^ b : ~a;",
        f"wire {word} shifted = f[0] ? {{c, a[{bits - 1}:1]}} : {{a[{bits - 2}:0], c}};",
        f"wire {word} result = f[3:2] == 0 ? sum[{bits - 1}:0] : f[3:2] == 1 ? logic : f[3:2] == 2 ? shifted : read;",
        "wire kept = f == 15 | f == 14 & ~z;",
        "assign address = b; assign write = f == 15;",
        f"assign next_z = kept ? z : result == 0; assign next_c = kept ? c : f[3:2] == 0 ? sum[{bits}] : f[3:2] == 2 ? (f[0] ? a[0] : a[{bits - 1}]) : c;",
        "assign next_pc = f == 14 & z ? b : pc + 1;",
    ]
    for k in range(registers):
        given = f"{{result[{bits - 1}:2], result[0], result[1]}}" if crossed and k == 1 else "result"
        body.append(f"assign next_r{k} = ~kept & d == {k} ? {given} : r{k};")
    return ", ".join(ports), " ".join(body)


circuits.CIRCUITS.clear()
for bits, registers in SIZES:
    ports, body = processor(bits, registers)
    circuits.add(f"processor{bits}x{registers}", "processors", ports, twin=processor(bits, registers, crossed=True)[1], plain=body)
match_beside_abc.main()
