#!/usr/bin/env python3
"""Writes two cell libraries: first/ has some thirty standard cells as BLIF, second/ the same functions with other names, in
another order, with some ports negated, synthesized again by ABC. Needs yosys with ABC; what it writes stands in the
repository, so nobody has to run it. The word is a seed, by default 1."""
import pathlib, random, subprocess, sys, tempfile

CELLS = {  # name: (inputs, {output: expression})
    'inv': ('a', {'y': '~a'}),
    'buf': ('a', {'y': 'a'}),
    'nand2': ('a b', {'y': '~(a & b)'}),
    'nand3': ('a b c', {'y': '~(a & b & c)'}),
    'nand4': ('a b c d', {'y': '~(a & b & c & d)'}),
    'nor2b': ('a b', {'y': '~(a | ~b)'}),
    'xor2': ('a b', {'y': 'a ^ b'}),
    'xor3': ('a b c', {'y': 'a ^ b ^ c'}),
    'aoi21': ('a1 a2 b', {'y': '~((a1 & a2) | b)'}),
    'aoi22': ('a1 a2 b1 b2', {'y': '~((a1 & a2) | (b1 & b2))'}),
    'aoi211': ('a1 a2 b c', {'y': '~((a1 & a2) | b | c)'}),
    'aoi221': ('a1 a2 b1 b2 c', {'y': '~((a1 & a2) | (b1 & b2) | c)'}),
    'aoi222': ('a1 a2 b1 b2 c1 c2', {'y': '~((a1 & a2) | (b1 & b2) | (c1 & c2))'}),
    'aoi31': ('a1 a2 a3 b', {'y': '~((a1 & a2 & a3) | b)'}),
    'aoi33': ('a1 a2 a3 b1 b2 b3', {'y': '~((a1 & a2 & a3) | (b1 & b2 & b3))'}),
    'ao2bb1': ('a1 a2 b', {'y': '(~a1 & ~a2) | (a1 & b)'}),
    'mux2': ('d0 d1 s', {'y': 's ? d1 : d0'}),
    'mux4': ('d0 d1 d2 d3 s0 s1', {'y': 's1 ? (s0 ? d3 : d2) : (s0 ? d1 : d0)'}),
    'maj3': ('a b c', {'y': '(a & b) | (a & c) | (b & c)'}),
    'min3x': ('a b c d', {'y': '~((a & b) | (a & c) | (b & c)) ^ d'}),
    'ha': ('a b', {'s': 'a ^ b', 'co': 'a & b'}),
    'fa': ('a b ci', {'s': 'a ^ b ^ ci', 'co': '(a & b) | (ci & (a ^ b))'}),
    'fs': ('a b bi', {'d': 'a ^ b ^ bi', 'bo': '(~a & b) | (bi & ~(a ^ b)) | (~a & bi)'}),
    'dec2': ('a0 a1 en', {'y0': 'en & ~a1 & ~a0', 'y1': 'en & ~a1 & a0', 'y2': 'en & a1 & ~a0', 'y3': 'en & a1 & a0'}),
    'comp22': ('a b c d ci', {'s': 'a ^ b ^ c ^ d ^ ci', 'co': '((a ^ b ^ c) & d) | ((a ^ b ^ c ^ d) & ci)'}),
    'gp': ('g1 p1 g0 p0', {'g': 'g1 | (p1 & g0)', 'p': 'p1 & p0'}),
    'isoand': ('d iso', {'y': 'd & ~iso'}),
    'oai2bb': ('a b c d', {'y': '~((a | b) & (~c | ~d) | (a & c & d))'}),
    'booth': ('x2 x1 x0 a b', {'y': '((x1 ^ x0) & a | (~(x1 ^ x0) & (x2 ^ x1)) & b) ^ x2'}),
    'sel3': ('a b c s t', {'y': 's ? a : t ? b : c'}),
}


def verilog(name, inputs, outputs):
    ports = ', '.join(['input ' + p for p in inputs] + ['output ' + p for p in outputs])
    lines = ''.join(f'  assign {p} = {e};\n' for p, e in outputs.items())
    return f'module \\{name} ({ports});\n{lines}endmodule\n'


def synthesize(name, text, script, path):
    with tempfile.TemporaryDirectory() as folder:
        source = pathlib.Path(folder, 'cell.v')
        source.write_text(text)
        commands = f'read_verilog {source}; synth -flatten -top {name}; abc -g {script}; opt_clean; write_blif {folder}/cell.blif'
        subprocess.run(['yosys', '-q', '-p', commands], check=True)
        lines = pathlib.Path(folder, 'cell.blif').read_text().splitlines()
        body = [line for line in lines if line and not line.startswith('#')]
        path.write_text('\n'.join(body) + '\n')


def moved(draw, inputs, outputs):
    """The same functions with other names, in another order, with some ports negated."""
    renamed = {p: (f'in{k}', draw.random() < 0.5) for k, p in enumerate(draw.sample(inputs, len(inputs)))}
    wires = ''.join(f'  wire {p} = {"~" if flip else ""}{new};\n' for p, (new, flip) in renamed.items())
    order = draw.sample(list(outputs), len(outputs))
    lines = ''.join(f'  assign out{k} = {"~" if draw.random() < 0.5 else ""}({outputs[p]});\n' for k, p in enumerate(order))
    ports = ', '.join(['input ' + f'in{k}' for k in range(len(inputs))] + ['output ' + f'out{k}' for k in range(len(order))])
    return ports, wires + lines


def main():
    here = pathlib.Path(__file__).resolve().parent
    draw = random.Random(int(sys.argv[1]) if len(sys.argv) > 1 else 1)
    for folder in ('first', 'second'):
        (here / folder).mkdir(exist_ok=True)
    numbers = draw.sample(range(len(CELLS)), len(CELLS))
    for number, (name, (inputs, outputs)) in zip(numbers, CELLS.items()):
        inputs = inputs.split()
        synthesize(name, verilog(name, inputs, outputs), 'AND,NAND,NOR,XOR,MUX', here / 'first' / f'{name}.blif')
        other = f'u{number:02}'
        ports, body = moved(draw, inputs, outputs)
        synthesize(other, f'module {other}({ports});\n{body}endmodule\n', 'AND', here / 'second' / f'{other}.blif')


main()
