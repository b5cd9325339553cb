"""Circuits that the measurements of matching use: for each a name, a family, one or two architectures of the same function as
Verilog, and for some a twin, which is known to have no match with it.

    circuits.py            lists them
"""
import random


class Circuit:
    """One function: its architectures as Verilog modules `m`, by name, and a twin without a match, where one is known."""

    def __init__(self, name, family, architectures, twin=None):
        self.name, self.family, self.architectures, self.twin = name, family, architectures, twin


CIRCUITS = []


def add(name, family, ports, twin=None, **bodies):
    """Notes a circuit whose bodies, by the names of their architectures, have the same ports."""
    module = lambda body: f"module m({ports}); {body} endmodule\n"
    CIRCUITS.append(Circuit(name, family, {kind: module(body) for kind, body in bodies.items()}, twin and module(twin)))


class Wires:
    """Verilog that is written a wire at a time."""

    def __init__(self):
        self.text, self.count = [], 0

    def wire(self, formula):
        self.count += 1
        self.text.append(f"wire t{self.count} = {formula};")
        return f"t{self.count}"

    def half(self, a, b):
        return self.wire(f"{a} ^ {b}"), self.wire(f"{a} & {b}")

    def full(self, a, b, c):
        return self.wire(f"{a} ^ {b} ^ {c}"), self.wire(f"{a} & {b} | {c} & ({a} ^ {b})")

    def ripple(self, left, right, carry=None):
        """The bits of a sum of words of one length, the carry last."""
        found = []
        for a, b in zip(left, right):
            s, carry = self.half(a, b) if carry is None else self.full(a, b, carry)
            found.append(s)
        return found + [carry]

    def compressed(self, columns):
        """The bits of a sum of bits, given by weight, by rounds of full adders and a ripple carry at last (Wallace)."""
        columns = [list(it) for it in columns]
        while any(len(it) > 2 for it in columns):
            after = [[] for _ in range(len(columns) + 1)]
            for weight, bits in enumerate(columns):
                while len(bits) > 2:
                    s, c = self.full(*bits[:3])
                    del bits[:3]
                    after[weight].append(s)
                    after[weight + 1].append(c)
                after[weight] += bits
            columns = after if after[-1] else after[:-1]
        found, carry = [], None
        for bits in columns:
            bits = bits + ([carry] if carry else [])
            if len(bits) > 1:
                s, carry = self.full(*bits) if len(bits) == 3 else self.half(*bits)
            else:
                s, carry = bits[0] if bits else "1'b0", None
            found.append(s)
        return found + ([carry] if carry else [])

    def tree(self, operator, items):
        while len(items) > 1:
            items = [self.wire(f"{items[k]} {operator} {items[k + 1]}") if k + 1 < len(items) else items[k] for k in range(0, len(items), 2)]
        return items[0]

    def chain(self, operator, items):
        found = items[0]
        for it in items[1:]:
            found = self.wire(f"{found} {operator} {it}")
        return found

    def done(self, word, bits):
        return " ".join(self.text + [f"assign {word}[{k}] = {it};" for k, it in enumerate(bits)])

    def done_bit(self, name, bit):
        return " ".join(self.text + [f"assign {name} = {bit};"])


def bits(word, count):
    return [f"{word}[{k}]" for k in range(count)]


def table_body(values, width, word="a", out="y"):
    """A function given by a table, as a case."""
    rows = " ".join(f"{k}: {out} = {v};" for k, v in enumerate(values))
    return f"always @* begin case ({word}) {rows} default: {out} = 0; endcase end"


def polynomials(values, inputs, width, word="a", out="y"):
    """A function given by a table, as sums of products modulo 2 (algebraic normal form)."""
    made, found = Wires(), []
    product = {0: "1'b1"}
    for code in range(1, 1 << inputs):
        low = code & -code
        product[code] = f"{word}[{low.bit_length() - 1}]" if code == low else None
    def term(code):
        if product[code] is None:
            low = code & -code
            product[code] = made.wire(f"{term(code ^ low)} & {word}[{low.bit_length() - 1}]")
        return product[code]
    for k in range(width):
        column = [v >> k & 1 for v in values]
        for i in range(inputs):
            column = [column[c] ^ (column[c ^ 1 << i] if c >> i & 1 else 0) for c in range(1 << inputs)]
        terms = [term(c) for c in range(1 << inputs) if column[c]]
        found.append(made.tree("^", terms) if terms else "1'b0")
    return made.done(out, found)


def add_table(name, family, values, inputs, width):
    ports = f"input [{inputs - 1}:0] a, output {{}}[{width - 1}:0] y"
    CIRCUITS.append(Circuit(name, family, {
        "table": f"module m({ports.format('reg ')}); {table_body(values, width)} endmodule\n",
        "polynomial": f"module m({ports.format('')}); {polynomials(values, inputs, width)} endmodule\n"}))


# ---- cells

def cells():
    one = lambda name, ports, body, **more: add(name, "cell", f"input {ports}, output y", yosys=f"assign y = {body};", **more)
    one("nand2", "a, b", "~(a & b)")
    one("xor2", "a, b", "a ^ b")
    one("nor4", "a, b, c, d", "~(a | b | c | d)")
    one("aoi21", "a, b, c", "~(a & b | c)")
    one("aoi22", "a, b, c, d", "~(a & b | c & d)")
    one("oai221", "a, b, c, d, e", "~((a | b) & (c | d) & e)")
    one("aoi222", "a, b, c, d, e, f", "~(a & b | c & d | e & f)")
    one("oai333", "a, b, c, d, e, f, g, h, i", "~((a | b | c) & (d | e | f) & (g | h | i))")
    one("ao32", "a, b, c, d, e", "a & b & c | d & e")
    one("mux2", "a, b, s", "s ? b : a", gates="assign y = a & ~s | b & s;")
    one("xor3", "a, b, c", "a ^ b ^ c", gates="assign y = a & b & c | a & ~b & ~c | ~a & b & ~c | ~a & ~b & c;")
    one("majority3", "a, b, c", "a & b | a & c | b & c", gates="assign y = a ^ b ? c : a;")
    add("half_adder", "cell", "input a, b, output s, c", yosys="assign {c, s} = a + b;")
    add("full_adder", "cell", "input a, b, c, output s, d", yosys="assign {d, s} = a + b + c;",
        gates="assign s = a ^ b ^ c; assign d = a & b | a & c | b & c;")
    add("compressor42", "cell", "input a, b, c, d, e, output s, f, g",
        chained="wire t = a ^ b ^ c; assign g = a & b | c & (a ^ b); assign s = t ^ d ^ e; assign f = t & d | e & (t ^ d);",
        muxed="wire p = a ^ b, q = c ^ d, r = p ^ q; assign g = p ? c : a; assign s = r ^ e; assign f = r ? e : d;")


# ---- multiplexers, decoders, encoders

def decoded(word, count, width):
    """The conditions that a word has each of the values below a count."""
    return [f"({word} == {width}'d{k})" for k in range(count)]


def multiplexers():
    for width in (2, 3, 4, 5, 6):
        count = 1 << width
        made = Wires()
        terms = [made.wire(f"a[{k}] & {it}") for k, it in enumerate(decoded("s", count, width))]
        add(f"mux{count}", "multiplexer", f"input [{count - 1}:0] a, input [{width - 1}:0] s, output y",
            tree="assign y = a[s];", decoded=made.done_bit("y", made.tree("|", terms)))
    for words, size in ((4, 8), (8, 16), (16, 8), (2, 64)):
        width = (words - 1).bit_length()
        made, found = Wires(), []
        picked = [made.wire(it) for it in decoded("s", words, width)]
        for k in range(size):
            found.append(made.tree("|", [made.wire(f"a[{w * size + k}] & {it}") for w, it in enumerate(picked)]))
        add(f"mux{words}x{size}", "multiplexer", f"input [{words * size - 1}:0] a, input [{width - 1}:0] s, output [{size - 1}:0] y",
            tree=f"assign y = a >> s * {size};" if words > 2 else f"assign y = s ? a[{2 * size - 1}:{size}] : a[{size - 1}:0];",
            decoded=made.done("y", found))


def decoders():
    for width in (2, 3, 4, 5, 6, 7):
        count = 1 << width
        made = Wires()
        halves = [["1'b1"], ["1'b1"]]
        for at, word in enumerate((range(width // 2), range(width // 2, width))):
            for k in word:
                halves[at] = [made.wire(f"{it} & {neg}s[{k}]") for neg in ("~", "") for it in halves[at]]
        found = [made.wire(f"{high} & {low} & e") for high in halves[1] for low in halves[0]]
        add(f"decoder{width}", "decoder", f"input [{width - 1}:0] s, input e, output [{count - 1}:0] y",
            shifted="assign y = e << s;", split=made.done("y", found))
    add("demux8x4", "decoder", "input [3:0] a, input [2:0] s, output [31:0] y", shifted="assign y = a << s * 4;",
        decoded=" ".join(f"assign y[{4 * k + 3}:{4 * k}] = s == {k} ? a : 0;" for k in range(8)))


def priority_chain(count, width, first="high"):
    order = range(count) if first == "high" else range(count - 1, -1, -1)
    return "integer i; always @* begin y = 0; " + " ".join(f"if (a[{k}]) y = {k};" for k in order) + " end assign any = |a;"


def priority_tree(count, width):
    made = Wires()
    nodes = [(f"a[{k}]", []) for k in range(count)]
    while len(nodes) > 1:
        after = []
        for low, high in zip(nodes[::2], nodes[1::2]):
            some = made.wire(f"{low[0]} | {high[0]}")
            bits_of = [made.wire(f"{high[0]} ? {h} : {l}") for l, h in zip(low[1], high[1])] + [high[0]]
            after.append((some, bits_of))
        nodes = after
    return made.done("y", nodes[0][1]) + f" assign any = {nodes[0][0]};"


def encoders():
    for count in (8, 16, 64):
        width = (count - 1).bit_length()
        rows = [[f"a[{k}]" for k in range(count) if k >> b & 1] for b in range(width)]
        chained, treed = Wires(), Wires()
        add(f"encoder{count}", "encoder", f"input [{count - 1}:0] a, output [{width - 1}:0] y",
            chained=chained.done("y", [chained.chain("|", it) for it in rows]), treed=treed.done("y", [treed.tree("|", it) for it in rows]))
    for count in (4, 8, 16, 32, 64, 128):
        width = (count - 1).bit_length()
        ports = f"input [{count - 1}:0] a, output {{}}[{width - 1}:0] y, output any"
        CIRCUITS.append(Circuit(f"priority{count}", "encoder", {
            "chained": f"module m({ports.format('reg ')}); {priority_chain(count, width)} endmodule\n",
            "treed": f"module m({ports.format('')}); {priority_tree(count, width)} endmodule\n"}))


# ---- comparators

def comparators():
    for n in (2, 4, 8, 16, 32, 64):
        made = Wires()
        low = made.wire("~a[0] & b[0]")
        for k in range(1, n):
            low = made.wire(f"a[{k}] ^ b[{k}] ? b[{k}] : {low}")
        add(f"compare{n}", "comparator", f"input [{n - 1}:0] a, b, output l, e",
            yosys="assign l = a < b; assign e = a == b;", chained=made.done_bit("l", low) + " assign e = ~|(a ^ b);")
    for n in (8, 24):
        add(f"signed_compare{n}", "comparator", f"input signed [{n - 1}:0] a, b, output l",
            yosys="assign l = a < b;", subtracted=f"wire signed [{n}:0] d = a - b; assign l = d[{n}];")
    for n in (8, 32, 128):
        made = Wires()
        add(f"equal{n}", "comparator", f"input [{n - 1}:0] a, b, output e", yosys="assign e = a == b;",
            chained=made.done_bit("e", made.chain("&", [made.wire(f"~(a[{k}] ^ b[{k}])") for k in range(n)])))
    for n in (8, 16):
        add(f"minmax{n}", "comparator", f"input [{n - 1}:0] a, b, output [{n - 1}:0] y, z",
            yosys="assign y = a < b ? a : b; assign z = a < b ? b : a;",
            subtracted=f"wire [{n}:0] d = b - a; wire g = d[{n}]; assign y = {{{n}{{g}}}} & b | {{{n}{{~g}}}} & a; assign z = {{{n}{{g}}}} & a | {{{n}{{~g}}}} & b;")


# ---- adders

def adder_bodies(n):
    """The four architectures of an adder of n bits: ripple carry, Kogge and Stone's, carry select, Brent and Kung's."""
    made = Wires()
    ripple = made.done("y", made.ripple(bits("a", n), bits("b", n)))
    lines, at, d = [f"wire [{n - 1}:0] p0 = a ^ b, g0 = a & b;"], 0, 1
    while d < n:
        lines.append(f"wire [{n - 1}:0] g{at + 1} = g{at} | p{at} & (g{at} << {d}), p{at + 1} = p{at} & (p{at} << {d});")
        at, d = at + 1, 2 * d
    kogge = " ".join(lines) + f" assign y = {{g{at}, 1'b0}} ^ {{1'b0, p0}};"
    lines, carry = [], "1'b0"
    for k in range(0, n, 4):
        top = min(n, k + 4) - 1
        size = top - k + 1
        lines.append(f"wire [{size}:0] z{k} = a[{top}:{k}] + b[{top}:{k}], o{k} = a[{top}:{k}] + b[{top}:{k}] + 1'b1;")
        lines.append(f"assign y[{top}:{k}] = {carry} ? o{k}[{size - 1}:0] : z{k}[{size - 1}:0]; wire c{k} = {carry} ? o{k}[{size}] : z{k}[{size}];")
        carry = f"c{k}"
    select = " ".join(lines) + f" assign y[{n}] = {carry};"
    return ripple, kogge, select, "assign y = a + b;"


def adders():
    for n in (2, 4, 8, 16, 32, 64, 128):
        ripple, kogge, select, brent = adder_bodies(n)
        ports = f"input [{n - 1}:0] a, b, output [{n}:0] y"
        add(f"adder{n}", "adder", ports, ripple=ripple, kogge_stone=kogge)
        if n > 4:
            add(f"adder{n}_select", "adder", ports, carry_select=select, brent_kung=brent)
    for n in (8, 32):
        made = Wires()
        found = made.ripple(bits("a", n), [f"~b[{k}]" for k in range(n)], "1'b1")
        found[-1] = made.wire(f"~{found[-1]}")
        add(f"subtract{n}", "adder", f"input [{n - 1}:0] a, b, output [{n}:0] y", brent_kung="assign y = a - b;", ripple=made.done("y", found))
    for n in (8, 24):
        add_addsub(n)
    for n in (8, 32, 128):
        made = Wires()
        found, carry = ["~a[0]"], "a[0]"
        for k in range(1, n):
            found.append(made.wire(f"a[{k}] ^ {carry}"))
            carry = made.wire(f"a[{k}] & {carry}")
        add(f"increment{n}", "adder", f"input [{n - 1}:0] a, output [{n}:0] y", yosys="assign y = a + 1'b1;", chained=made.done("y", found + [carry]))
    for words, n in ((3, 6), (4, 16)):
        made = Wires()
        columns = [[f"a{w}[{k}]" for w in range(words)] for k in range(n)]
        found = made.compressed(columns)[: n + 2]
        ports = ", ".join(f"input [{n - 1}:0] a{w}" for w in range(words)) + f", output [{n + 1}:0] y"
        chain = Wires()
        total = [f"a0[{k}]" for k in range(n)]
        for w in range(1, words):
            right = [f"a{w}[{k}]" if k < n else "1'b0" for k in range(len(total))]
            total = chain.ripple(total, right)
        add(f"add{words}x{n}", "adder", ports, compressed=made.done("y", found), chained=chain.done("y", total[: n + 2]))


def add_addsub(n):
    add(f"addsub{n}", "adder", f"input [{n - 1}:0] a, b, input s, output [{n - 1}:0] y", chosen="assign y = s ? a - b : a + b;",
        shared=f"assign y = a + (b ^ {{{n}{{s}}}}) + s;")


# ---- multipliers, dividers, square roots

def array_product(n, left="a", right="b", m=None):
    made, m = Wires(), m or n
    total = [made.wire(f"{left}[{i}] & {right}[0]") for i in range(n)] + ["1'b0"]
    found = []
    for k in range(1, m):
        found.append(total[0])
        total = made.ripple(total[1:], [made.wire(f"{left}[{i}] & {right}[{k}]") for i in range(n)])
    return made.done("y", (found + total)[: n + m])


def wallace_product(n, left="a", right="b", m=None):
    made, m = Wires(), m or n
    columns = [[] for _ in range(n + m - 1)]
    for i in range(n):
        for k in range(m):
            columns[i + k].append(made.wire(f"{left}[{i}] & {right}[{k}]"))
    return made.done("y", made.compressed(columns)[: n + m])


def multipliers():
    for n in (2, 3, 4, 5, 6, 7, 8, 10, 12):
        add(f"multiply{n}", "multiplier", f"input [{n - 1}:0] a, b, output [{2 * n - 1}:0] y", array=array_product(n), wallace=wallace_product(n))
    add("multiply8x3", "multiplier", "input [7:0] a, input [2:0] b, output [10:0] y", array=array_product(8, m=3), wallace=wallace_product(8, m=3))
    add("signed_multiply6", "multiplier", "input signed [5:0] a, b, output signed [11:0] y", yosys="assign y = a * b;",
        chosen="wire [5:0] u = a[5] ? -a : a, v = b[5] ? -b : b; wire [11:0] p = u * v; assign y = a[5] ^ b[5] ? -p : p;")
    for n in (4, 7, 10):
        add(f"square{n}", "multiplier", f"input [{n - 1}:0] a, output [{2 * n - 1}:0] y", array=array_product(n, "a", "a"), wallace=wallace_product(n, "a", "a"))
    for n in (4, 6):
        add_multiply_add(n)
    add("times_seven8", "multiplier", "input [7:0] a, output [10:0] y", shifted="assign y = (a << 3) - a;", added="assign y = (a << 2) + ((a << 1) + a);")
    add("times_hundred12", "multiplier", "input [11:0] a, output [18:0] y", yosys="assign y = a * 7'd100;", added="assign y = (a << 6) + ((a << 5) + (a << 2));")


def add_multiply_add(n):
    add(f"multiply_add{n}", "multiplier", f"input [{n - 1}:0] a, b, input [{2 * n - 1}:0] c, output [{2 * n}:0] y", yosys="assign y = a * b + c;",
        wallace=multiply_add(n))


def multiply_add(n):
    made = Wires()
    columns = [[f"c[{k}]"] for k in range(2 * n)]
    for i in range(n):
        for k in range(n):
            columns[i + k].append(made.wire(f"a[{i}] & b[{k}]"))
    return made.done("y", made.compressed(columns)[: 2 * n + 1])


def restoring(n):
    """Division by subtracting where it can be: what a division by zero gives is what Yosys gives."""
    return (f"integer i; reg [{n}:0] t; always @* begin t = 0; for (i = {n - 1}; i >= 0; i = i - 1) begin t = {{t[{n - 1}:0], a[i]}}; "
            f"q[i] = t >= b; if (t >= b) t = t - b; end r = t[{n - 1}:0]; end")


def dividers():
    for n in (3, 4, 6, 8, 12):
        ports = f"input [{n - 1}:0] a, b, output {{}}[{n - 1}:0] q, r"
        CIRCUITS.append(Circuit(f"divide{n}", "divider", {
            "yosys": f"module m({ports.format('')}); assign q = a / b; assign r = a % b; endmodule\n",
            "restoring": f"module m({ports.format('reg ')}); {restoring(n)} endmodule\n"}))
    for n, by in ((8, 3), (16, 5), (12, 10)):
        w = (by - 1).bit_length()
        CIRCUITS.append(Circuit(f"mod{by}_of{n}", "divider", {
            "yosys": f"module m(input [{n - 1}:0] a, output [{w - 1}:0] r); assign r = a % {by}; endmodule\n",
            "steps": f"module m(input [{n - 1}:0] a, output [{w - 1}:0] r); reg [{w}:0] t; integer i; always @* begin t = 0; for (i = {n - 1}; i >= 0; "
                     f"i = i - 1) begin t = {{t[{w - 1}:0], a[i]}}; if (t >= {by}) t = t - {by}; end end assign r = t[{w - 1}:0]; endmodule\n"}))


def roots():
    for n in (8, 12, 16, 24):
        half = n // 2
        ports = f"input [{n - 1}:0] a, output [{half - 1}:0] y"
        subtracting = (f"reg [{half - 1}:0] q; reg [{half + 1}:0] t; integer i; always @* begin q = 0; t = 0; for (i = {half - 1}; i >= 0; i = i - 1) begin "
                       f"t = {{t[{half - 1}:0], a[2 * i +: 2]}}; if (t >= {{q, 2'b01}}) begin t = t - {{q, 2'b01}}; q = {{q[{half - 2}:0], 1'b1}}; end "
                       f"else q = {{q[{half - 2}:0], 1'b0}}; end end assign y = q;")
        squaring = (f"reg [{half - 1}:0] q, u; reg [{n - 1}:0] s; integer i; always @* begin q = 0; for (i = {half - 1}; i >= 0; i = i - 1) begin "
                    f"u = q | (1 << i); s = u * u; if (s <= a) q = u; end end assign y = q;")
        bodies = dict(subtracting=subtracting, squaring=squaring) if n <= 16 else dict(subtracting=subtracting)
        add(f"root{n}", "square root", ports, **bodies)


# ---- shifters

def shifters():
    def by_bits(n, width, source):
        made, found = Wires(), []
        picked = [made.wire(it) for it in decoded("s", n, width)]
        for i in range(n):
            terms = [made.wire(f"{picked[k]} & {source(i, k)}") for k in range(n) if source(i, k)]
            found.append(made.tree("|", terms))
        return made.done("y", found)

    for n in (4, 8, 16, 32, 64):
        width = (n - 1).bit_length()
        ports = f"input [{n - 1}:0] a, input [{width - 1}:0] s, output [{n - 1}:0] y"
        small = n <= 32
        add(f"shift_left{n}", "shifter", ports, barrel="assign y = a << s;",
            **(dict(decoded=by_bits(n, width, lambda i, k: f"a[{i - k}]" if i >= k else "")) if small else {}))
        add(f"rotate{n}", "shifter", ports, barrel=f"wire [{2 * n - 1}:0] t = {{a, a}} << s; assign y = t[{2 * n - 1}:{n}];",
            **(dict(decoded=by_bits(n, width, lambda i, k: f"a[{(i - k) % n}]")) if small else {}))
        if n in (8, 32):
            add(f"shift_signed{n}", "shifter", f"input signed [{n - 1}:0] a, input [{width - 1}:0] s, output [{n - 1}:0] y", barrel="assign y = a >>> s;",
                decoded=by_bits(n, width, lambda i, k: f"a[{min(n - 1, i + k)}]"))
    add("funnel16", "shifter", "input [30:0] a, input [3:0] s, output [15:0] y", barrel="assign y = a >> s;",
        decoded=by_bits(16, 4, lambda i, k: f"a[{i + k}]"))


# ---- parities, counts, majorities, sorters

def sorted_bits(made, items, network):
    """The items from the greatest down, by exchanges: odd-even transposition, or Batcher's odd-even merge sort."""
    items, n = list(items), len(items)

    def exchange(i, j):
        items[i], items[j] = made.wire(f"{items[i]} | {items[j]}"), made.wire(f"{items[i]} & {items[j]}")

    if network == "transposition":
        for r in range(n):
            for i in range(r % 2, n - 1, 2):
                exchange(i, i + 1)
        return items
    p = 1
    while p < n:
        k = p
        while k >= 1:
            for j in range(k % p, n - k, 2 * k):
                for i in range(min(k, n - j - k)):
                    if (i + j) // (2 * p) == (i + j + k) // (2 * p):
                        exchange(i + j, i + j + k)
            k //= 2
        p *= 2
    return items


def counted(n):
    """The count of n bits by full adders."""
    made = Wires()
    return made, made.compressed([bits("a", n)])


def symmetric():
    for n in (4, 8, 16, 32, 64, 128, 256):
        chained, treed = Wires(), Wires()
        add(f"parity{n}", "parity", f"input [{n - 1}:0] a, output y", chained=chained.done_bit("y", chained.chain("^", bits("a", n))),
            treed=treed.done_bit("y", treed.tree("^", bits("a", n))))
    for n in (5, 7, 8, 15, 32, 63, 128):
        made, found = counted(n)
        width = n.bit_length()
        add(f"count{n}", "count", f"input [{n - 1}:0] a, output [{width - 1}:0] y", compressed=made.done("y", found[:width]),
            summed="assign y = " + " + ".join(bits("a", n)) + ";" if n < 64 else "integer i; reg [7:0] t; always @* begin t = 0; for (i = 0; i < %d; i = i + 1) t = t + a[i]; end assign y = t;" % n)
    for n in (5, 7, 9, 15, 25, 51):
        made, found = counted(n)
        sort = Wires()
        half = n // 2
        add(f"majority{n}", "majority", f"input [{n - 1}:0] a, output y",
            counted=" ".join(made.text) + f" wire [{len(found) - 1}:0] c = {{{', '.join(reversed(found))}}}; assign y = c > {half};",
            sorted=sort.done_bit("y", sorted_bits(sort, bits("a", n), "merge")[half]))
    for n, k in ((8, 2), (12, 3), (20, 7)):
        made, found = counted(n)
        sort = Wires()
        order = sorted_bits(sort, bits("a", n), "merge")
        add(f"exactly{k}_of{n}", "majority", f"input [{n - 1}:0] a, output y",
            counted=" ".join(made.text) + f" wire [{len(found) - 1}:0] c = {{{', '.join(reversed(found))}}}; assign y = c == {k};",
            sorted=sort.done_bit("y", f"{order[k - 1]} & ~{order[k]}"))
    for n in (4, 6, 8, 12, 16, 32):
        one, two = Wires(), Wires()
        add(f"sort{n}", "sorter", f"input [{n - 1}:0] a, output [{n - 1}:0] y", transposition=one.done("y", sorted_bits(one, bits("a", n), "transposition")),
            merge=two.done("y", sorted_bits(two, bits("a", n), "merge")))
    for words, size in ((3, 3), (4, 4), (8, 8)):
        def exchanges(order):
            lines, at = [f"wire [{size - 1}:0] " + ", ".join(f"w{k} = a[{size * k + size - 1}:{size * k}]" for k in range(words)) + ";"], list(range(words))
            used = words
            for i, j in order:
                lines.append(f"wire c{used} = w{at[i]} < w{at[j]}; wire [{size - 1}:0] w{used} = c{used} ? w{at[i]} : w{at[j]}, w{used + 1} = c{used} ? w{at[j]} : w{at[i]};")
                at[i], at[j] = used, used + 1
                used += 2
            return " ".join(lines) + " assign y = {" + ", ".join(f"w{k}" for k in reversed(at)) + "};"
        plain = [(i, i + 1) for r in range(words) for i in range(r % 2, words - 1, 2)]
        bubbles = [(i, i + 1) for top in range(words - 1, 0, -1) for i in range(top)]
        add(f"sort{words}x{size}", "sorter", f"input [{words * size - 1}:0] a, output [{words * size - 1}:0] y",
            transposition=exchanges(plain), bubbles=exchanges(bubbles))


# ---- codes

def rows_of_sums(rows, word="a"):
    """Two bodies of a linear function over the bits of a word, its outputs given by the inputs that each sums."""
    chained, treed = Wires(), Wires()
    return (chained.done("y", [chained.chain("^", [f"{word}[{k}]" for k in row]) for row in rows]),
            treed.done("y", [treed.tree("^", [f"{word}[{k}]" for k in reversed(row)]) for row in rows]))


def hamming_places(data):
    """The positions of the data bits in a Hamming code, which are the numbers that are no powers of 2."""
    places, k = [], 1
    while len(places) < data:
        k += 1
        if k & (k - 1):
            places.append(k)
    return places


def codes():
    for data in (4, 11, 26, 64):
        places = hamming_places(data)
        checks = places[-1].bit_length()
        rows = [[d for d, place in enumerate(places) if place >> c & 1] for c in range(checks)]
        chained, treed = rows_of_sums(rows)
        add(f"hamming_encode{data}", "code", f"input [{data - 1}:0] a, output [{checks - 1}:0] y", chained=chained, treed=treed)
    for data in (4, 11, 26, 57):
        add_correcting(data)
    # a (15, 7) BCH code's remainder by its generator
    chained, treed = rows_of_sums(crc_rows(7, 8, 0b111010001))
    add("bch15_7", "code", "input [6:0] a, output [7:0] y", chained=chained, treed=treed)
    for width, data, polynomial in ((4, 8, 0x13), (8, 16, 0x107), (16, 32, 0x11021), (32, 32, 0x104C11DB7), (32, 96, 0x104C11DB7)):
        rows = crc_rows(data, width, polynomial)
        _, treed = rows_of_sums(rows)
        add(f"crc{width}_of{data}", "crc", f"input [{data - 1}:0] a, output [{width - 1}:0] y", treed=treed,
            serial=f"reg [{width - 1}:0] t; reg f; integer i; always @* begin t = 0; for (i = {data - 1}; i >= 0; i = i - 1) begin f = t[{width - 1}] ^ a[i]; "
                   f"t = {{t[{width - 2}:0], 1'b0}} ^ ({{{width}{{f}}}} & {width}'d{polynomial & (1 << width) - 1}); end end assign y = t;")


def add_correcting(data):
    """A circuit that corrects an error in one data bit of a Hamming code."""
    places = hamming_places(data)
    checks = places[-1].bit_length()

    def corrected(join, match):
        made = Wires()
        sums = [getattr(made, join)("^", [f"a[{d}]" for d, place in enumerate(places) if place >> c & 1] + [f"c[{c}]"]) for c in range(checks)]
        return made, [made.wire(match(sums, d, place)) for d, place in enumerate(places)]

    one, first = corrected("chain", lambda s, d, place: f"a[{d}] ^ ({is_number(s, place)})")
    two, second = corrected("tree", lambda s, d, place: f"({{{', '.join(reversed(s))}}} == {checks}'d{place}) ? ~a[{d}] : a[{d}]")
    add(f"hamming_correct{data}", "code", f"input [{data - 1}:0] a, input [{checks - 1}:0] c, output [{data - 1}:0] y", chained=one.done("y", first), treed=two.done("y", second))


def is_number(bits_of, number):
    """That bits are those of a number, as an AND."""
    return " & ".join(("" if number >> c & 1 else "~") + bit for c, bit in enumerate(bits_of))


def add_detecting(data):
    """The same of a Hamming code with a bit more, the parity of all: two errors are told from one, and the last output says so (SEC-DED)."""
    places = hamming_places(data)
    checks = places[-1].bit_length()

    def corrected(join, match):
        made = Wires()
        joined = lambda items: getattr(made, join)("^", items)
        sums = [joined([f"a[{d}]" for d, place in enumerate(places) if place >> c & 1] + [f"c[{c}]"]) for c in range(checks)]
        odd = joined(bits("a", data) + bits("c", checks) + ["p"])
        found = [made.wire(match(sums, odd, d, place)) for d, place in enumerate(places)]
        return made.done("y", found + [made.wire(f"({' | '.join(sums)}) & ~{odd}")])

    one = corrected("chain", lambda s, odd, d, place: f"a[{d}] ^ ({odd} & {is_number(s, place)})")
    two = corrected("tree", lambda s, odd, d, place: f"({odd} && {{{', '.join(reversed(s))}}} == {checks}'d{place}) ? ~a[{d}] : a[{d}]")
    add(f"secded{data}", "code", f"input [{data - 1}:0] a, input [{checks - 1}:0] c, input p, output [{data}:0] y", chained=one, treed=two)


def crc_rows(data, width, polynomial):
    """The data bits that each bit of a remainder sums, the highest first."""
    state = [0] * width
    for i in range(data - 1, -1, -1):
        back = state[-1] ^ 1 << i
        state = [0] + state[:-1]
        state = [s ^ (back if polynomial >> k & 1 else 0) for k, s in enumerate(state)]
    return [[i for i in range(data) if s >> i & 1] for s in state]


# ---- S-boxes

def times(a, b, polynomial=0x11B):
    found = 0
    while b:
        found ^= a if b & 1 else 0
        a, b = a << 1, b >> 1
        a ^= polynomial if a & 256 else 0
    return found


def aes_box():
    inverse = [0] + [next(b for b in range(256) if times(a, b) == 1) for a in range(1, 256)]
    turn = lambda b, k: (b << k | b >> 8 - k) & 255
    return inverse, [b ^ turn(b, 1) ^ turn(b, 2) ^ turn(b, 3) ^ turn(b, 4) ^ 0x63 for b in inverse]


def aes_by_powers():
    """The S-box of AES by the power 254 of its input."""
    made = Wires()

    def product(left, right):
        columns = [[made.wire(f"{left[i]} & {right[k - i]}") for i in range(8) if 0 <= k - i < 8] for k in range(15)]
        return reduced([made.tree("^", it) for it in columns])

    def reduced(terms):
        terms = list(terms)
        for k in range(14, 7, -1):
            if terms[k]:
                for shift in (8, 7, 5, 4):  # x^8 = x^4 + x^3 + x + 1
                    at = k - shift
                    terms[at] = made.wire(f"{terms[at]} ^ {terms[k]}") if terms[at] else terms[k]
        return terms[:8]

    def square(word):
        terms = [None] * 15
        for i in range(8):
            terms[2 * i] = word[i]
        return [it or "1'b0" for it in reduced(terms)]

    x = bits("a", 8)
    x2 = square(x)
    x3 = product(x2, x)
    x12 = square(square(x3))
    x15 = product(x12, x3)
    x240 = square(square(square(square(x15))))
    x252 = product(x240, x12)
    x254 = product(x252, x2)
    found = [made.wire(" ^ ".join(x254[(k - t) % 8] for t in range(5)) + f" ^ 1'b{0x63 >> k & 1}") for k in range(8)]
    return made.done("y", found)


DES1 = [14, 4, 13, 1, 2, 15, 11, 8, 3, 10, 6, 12, 5, 9, 0, 7, 0, 15, 7, 4, 14, 2, 13, 1, 10, 6, 12, 11, 9, 5, 3, 8,
        4, 1, 14, 8, 13, 6, 2, 11, 15, 12, 9, 7, 3, 10, 5, 0, 15, 12, 8, 2, 4, 9, 1, 7, 5, 11, 3, 14, 10, 0, 6, 13]
PRESENT = [12, 5, 6, 11, 9, 0, 10, 13, 3, 14, 15, 8, 4, 7, 1, 2]
SERPENT = [3, 8, 15, 1, 10, 6, 5, 11, 14, 13, 4, 2, 7, 0, 9, 12]


def boxes():
    add_table("sbox_present", "S-box", PRESENT, 4, 4)
    add_table("sbox_serpent", "S-box", SERPENT, 4, 4)
    add_table("sbox_des1", "S-box", [DES1[(k >> 5 << 1 | k & 1) * 16 + (k >> 1 & 15)] for k in range(64)], 6, 4)
    chi = lambda a, n: sum(((a >> i ^ (~(a >> (i + 1) % n) & a >> (i + 2) % n)) & 1) << i for i in range(n))
    add_table("sbox_chi5", "S-box", [chi(a, 5) for a in range(32)], 5, 5)
    inverse, box = aes_box()
    CIRCUITS.append(Circuit("sbox_aes", "S-box", {
        "table": f"module m(input [7:0] a, output reg [7:0] y); {table_body(box, 8)} endmodule\n",
        "powers": f"module m(input [7:0] a, output [7:0] y); {aes_by_powers()} endmodule\n"}))
    back = [box.index(k) for k in range(256)]
    add_table("sbox_aes_inverse", "S-box", back, 8, 8)
    rows = []
    for i in range(32):
        at, b = i // 8, i % 8
        row = []
        for j in range(4):
            by = {0: 2, 1: 3}.get((j - at) % 4, 1)
            row += [8 * j + k for k in range(8) if times(1 << k, by) >> b & 1]
        rows.append(row)
    chained, treed = rows_of_sums(rows)
    add("mix_column", "S-box", "input [31:0] a, output [31:0] y", chained=chained, treed=treed)
    add("chi64", "S-box", "input [63:0] a, output [63:0] y", gates="assign y = a ^ (~{a[0], a[63:1]} & {a[1:0], a[63:2]});",
        chosen=" ".join(f"assign y[{i}] = a[{(i + 1) % 64}] ? a[{i}] : a[{i}] ^ a[{(i + 2) % 64}];" for i in range(64)))
    plain = []
    for k in range(16):
        part = f"[{4 * k + 3}:{4 * k}]"
        plain.append(f"always @* begin case (a{part} ^ k{part}) " + " ".join(f"{i}: t{part} = {v};" for i, v in enumerate(PRESENT)) + f" default: t{part} = 0; endcase end")
    moved = "assign y = {" + ", ".join(f"t[{(4 * k) % 63 if k < 63 else 63}]" for k in range(63, -1, -1)) + "};"
    add("present_round", "S-box", "input [63:0] a, k, output [63:0] y", table="reg [63:0] t; " + " ".join(plain) + " " + moved)


# ---- arithmetic units, arbiters, crossbars

def units():
    for n in (4, 8, 16, 32):
        add(f"alu{n}", "arithmetic unit", f"input [{n - 1}:0] a, b, input [1:0] f, output [{n - 1}:0] y, output c",
            chosen=f"wire [{n}:0] s = a + b, d = a - b; assign y = f == 0 ? s : f == 1 ? d : f == 2 ? a & b : a ^ b; assign c = f == 0 ? s[{n}] : f == 1 ? d[{n}] : 0;",
            shared=f"wire [{n}:0] s = a + (b ^ {{{n}{{f[0]}}}}) + f[0]; assign y = f[1] ? (f[0] ? a ^ b : a & b) : s[{n - 1}:0]; assign c = ~f[1] & (s[{n}] ^ f[0]);")
    add("ttl181", "arithmetic unit", "input [3:0] a, b, s, input m, c, output [3:0] f, output e, o",
        chosen="wire [3:0] u = a | b & {4{s[0]}} | ~b & {4{s[1]}}, v = a & ~b & {4{s[2]}} | a & b & {4{s[3]}}; "
               "wire [4:0] t = u + v + c; assign f = m ? u ^ v : t[3:0]; assign o = t[4]; assign e = &f;",
        ripple="wire [3:0] u, v; wire [4:0] k; assign k[0] = c; genvar i; generate for (i = 0; i < 4; i = i + 1) begin : g "
               "assign u[i] = a[i] | (b[i] ? s[0] : s[1]); assign v[i] = a[i] & (b[i] ? s[3] : s[2]); assign k[i + 1] = u[i] & v[i] | k[i] & (u[i] | v[i]); "
               "assign f[i] = u[i] ^ v[i] ^ (k[i] & ~m); end endgenerate assign o = k[4]; assign e = &f;")
    add("alu_shift8", "arithmetic unit", "input [7:0] a, b, input [2:0] f, output reg [7:0] y, output z",
        chosen="always @* case (f) 0: y = a + b; 1: y = a - b; 2: y = a & b; 3: y = a | b; 4: y = a ^ b; 5: y = a << b[2:0]; 6: y = a >> b[2:0]; 7: y = a < b; endcase assign z = y == 0;",
        shared="wire [8:0] s = a + (b ^ {8{f[0] & (f[1] == f[2])}} ) + (f[0] & (f[1] == f[2])); always @* if (f < 2) y = s[7:0]; else if (f == 7) y = a < b; "
               "else if (f == 5) y = a << b[2:0]; else if (f == 6) y = a >> b[2:0]; else y = f == 2 ? a & b : f == 3 ? a | b : a ^ b; assign z = ~|y;")
    for n in (8, 16):
        add(f"absolute{n}", "arithmetic unit", f"input [{n - 1}:0] a, output [{n - 1}:0] y", chosen=f"assign y = a[{n - 1}] ? -a : a;",
            masked=f"assign y = (a ^ {{{n}{{a[{n - 1}]}}}}) + a[{n - 1}];")
        add(f"saturate{n}", "arithmetic unit", f"input [{n - 1}:0] a, b, output [{n - 1}:0] y", chosen=f"wire [{n}:0] s = a + b; assign y = s[{n}] ? {{{n}{{1'b1}}}} : s;",
            masked=f"wire [{n}:0] s = a + b; assign y = s[{n - 1}:0] | {{{n}{{s[{n}]}}}};")


def arbiters():
    for n in (4, 8, 16, 32, 64):
        made = Wires()
        found, none = ["r[0]"], "~r[0]"
        for k in range(1, n):
            found.append(made.wire(f"r[{k}] & {none}"))
            none = made.wire(f"{none} & ~r[{k}]")
        add(f"arbiter{n}", "arbiter", f"input [{n - 1}:0] r, output [{n - 1}:0] y", subtracted="assign y = r & (~r + 1'b1);", chained=made.done("y", found))
    for n in (4, 8, 16):
        width = (n - 1).bit_length()
        made, found = Wires(), []
        for k in range(n):
            terms = []
            for p in range(n):
                held = [f"r[{(p + t) % n}]" for t in range((k - p) % n)]
                terms.append(made.wire(f"(p == {width}'d{p})" + "".join(f" & ~{it}" for it in held)))
            found.append(made.wire(f"r[{k}] & {made.tree('|', terms)}"))
        add(f"round_robin{n}", "arbiter", f"input [{n - 1}:0] r, input [{width - 1}:0] p, output [{n - 1}:0] y",
            masked=f"wire [{n - 1}:0] h = r & ({{{n}{{1'b1}}}} << p), u = h & (~h + 1'b1), v = r & (~r + 1'b1); assign y = |h ? u : v;", decoded=made.done("y", found))
    for n, size in ((4, 4), (8, 8), (16, 8)):
        add(f"content_match{n}x{size}", "arbiter", f"input [{n * size - 1}:0] a, input [{size - 1}:0] k, output [{n - 1}:0] y",
            equal=" ".join(f"assign y[{w}] = a[{w * size + size - 1}:{w * size}] == k;" for w in range(n)),
            chained=" ".join(f"assign y[{w}] = " + " & ".join(f"(a[{w * size + b}] ? k[{b}] : ~k[{b}])" for b in range(size)) + ";" for w in range(n)))


def crossbars():
    for ports, size in ((2, 4), (4, 1), (4, 4), (8, 1), (8, 4), (16, 4)):
        width = (ports - 1).bit_length()
        picks = [f"s[{width * j + width - 1}:{width * j}]" for j in range(ports)]
        tree = " ".join(f"wire [{ports * size - 1}:0] t{j} = a >> {it} * {size}; assign y[{size * j + size - 1}:{size * j}] = t{j}[{size - 1}:0];" for j, it in enumerate(picks))
        made, found = Wires(), []
        for it in picks:
            picked = [made.wire(f"{it} == {width}'d{k}") for k in range(ports)]
            for b in range(size):
                found.append(made.tree("|", [made.wire(f"{p} & a[{k * size + b}]") for k, p in enumerate(picked)]))
        add(f"crossbar{ports}x{size}", "crossbar", f"input [{ports * size - 1}:0] a, input [{ports * width - 1}:0] s, output [{ports * size - 1}:0] y",
            tree=tree, decoded=made.done("y", found))


# ---- graphs

def cubic(n, seed):
    """A graph of n vertices with three edges each, drawn."""
    draws = random.Random(seed)
    while True:
        ends = [v for v in range(n) for _ in range(3)]
        draws.shuffle(ends)
        edges = {frozenset(it) for it in zip(ends[::2], ends[1::2])}
        if len(edges) == 3 * n // 2 and all(len(it) == 2 for it in edges):
            return sorted(tuple(sorted(it)) for it in edges)


def by_rule(n, rule):
    return [(u, v) for u in range(n) for v in range(u + 1, n) if rule(u, v)]


def switched(edges, part):
    """A graph switched at a set of vertices (Seidel): pairs that cross it are exchanged."""
    n = 1 + max(max(it) for it in edges)
    return by_rule(n, lambda u, v: ((u, v) in set(edges)) != ((u in part) != (v in part)))


def cliques(edges, size):
    near = {}
    for u, v in edges:
        near.setdefault(u, set()).add(v)
        near.setdefault(v, set()).add(u)
    count = lambda kept, left: 1 if left == 0 else sum(count({w for w in kept if w > v} & near[v], left - 1) for v in kept)
    return count(set(near), size)


def profile(edges):
    """What isomorphic graphs share: for each vertex how many vertices and edges are at each distance; and how many cliques there are."""
    near, n = {}, 1 + max(max(it) for it in edges)
    for u, v in edges:
        near.setdefault(u, []).append(v)
        near.setdefault(v, []).append(u)
    rows = []
    for start in range(n):
        far, queue = {start: 0}, [start]
        for u in queue:
            for v in near.get(u, ()):
                if v not in far:
                    far[v] = far[u] + 1
                    queue.append(v)
        at = [sorted(far.values()), sorted((far.get(u, -1), far.get(v, -1)) if far.get(u, -1) < far.get(v, -1) else (far.get(v, -1), far.get(u, -1)) for u, v in edges)]
        rows.append(str(at))
    return sorted(rows), [cliques(edges, k) for k in (3, 4, 5)]


def graph_bodies(edges, n, kind):
    """The circuit of a graph by its edges, one by one and by vertices."""
    pairs = [f"a[{u}] & a[{v}]" for u, v in edges]
    if kind == "edges":
        return dict(gates=" ".join(f"assign y[{k}] = {it};" for k, it in enumerate(pairs)))
    sign = {"or": "|", "xor": "^"}[kind]
    later = {u: [v for w, v in edges if w == u] for u in range(n)}
    made = Wires()
    by_vertex = [made.wire(f"a[{u}] & {made.chain(sign, [f'a[{v}]' for v in vs])}") for u, vs in later.items() if vs]
    flat = Wires()
    return dict(flat=flat.done_bit("y", flat.tree(sign, [flat.wire(it) for it in pairs])), by_vertex=made.done_bit("y", made.chain(sign, by_vertex)))


def add_graph(name, edges, kind="or", twin=None):
    n = 1 + max(max(it) for it in edges)
    ports = f"input [{n - 1}:0] a, output y" if kind != "edges" else f"input [{n - 1}:0] a, output [{len(edges) - 1}:0] y"
    if twin is not None:
        assert profile(edges) != profile(twin), f"{name}: the twin isn't known apart"
        twin = next(iter(graph_bodies(twin, n, kind).values()))
    add(f"{name}_{kind}", "graph", ports, twin, **graph_bodies(edges, n, kind))


def latin(table):
    """The graph of the cells of a Latin square: two are joined that share a row, a column or a symbol."""
    n = len(table)
    cell = lambda c: (c // n, c % n, table[c // n][c % n])
    return by_rule(n * n, lambda u, v: any(a == b for a, b in zip(cell(u), cell(v))))


def graphs():
    ring = lambda n: by_rule(n, lambda u, v: (v - u) % n in (1, n - 1))
    for n, two in ((8, (3, 5)), (16, (7, 9)), (64, (31, 33))):
        apart = ring(two[0]) + [(u + two[0], v + two[0]) for u, v in ring(two[1])]
        add_graph(f"ring{n}", ring(n), "or", apart)
    for n, kind in ((10, "or"), (16, "or"), (24, "or"), (24, "xor"), (40, "or"), (24, "edges"), (64, "edges")):
        one = cubic(n, 1)
        seed = next(s for s in range(2, 50) if profile(cubic(n, s)) != profile(one))
        add_graph(f"cubic{n}", one, kind, cubic(n, seed))
    subsets = [(a, b) for a in range(5) for b in range(a + 1, 5)]
    petersen = by_rule(10, lambda u, v: not set(subsets[u]) & set(subsets[v]))
    add_graph("petersen", petersen, "or", by_rule(10, lambda u, v: (v - u) % 10 in (1, 5, 9)))
    cube = lambda d: by_rule(1 << d, lambda u, v: (u ^ v).bit_count() == 1)
    add_graph("cube3", cube(3), "or", by_rule(8, lambda u, v: (v - u) % 8 in (1, 4, 7)))
    add_graph("cube4", cube(4), "or")
    add_graph("cube5", cube(5), "edges")
    for q in (13, 17, 29):
        squares = {x * x % q for x in range(1, q)}
        add_graph(f"paley{q}", by_rule(q, lambda u, v: (u - v) % q in squares), "or")
    rook = by_rule(16, lambda u, v: u // 4 == v // 4 or u % 4 == v % 4)
    steps = {(0, 1), (0, 3), (1, 0), (3, 0), (1, 1), (3, 3)}
    shrikhande = by_rule(16, lambda u, v: ((u // 4 - v // 4) % 4, (u % 4 - v % 4) % 4) in steps)
    for kind in ("or", "xor", "edges"):
        add_graph("rook16", rook, kind, shrikhande)
    clebsch = by_rule(16, lambda u, v: (u ^ v) in (1, 2, 4, 8, 15))
    add_graph("clebsch", clebsch, "or")
    pairs8 = [(a, b) for a in range(8) for b in range(a + 1, 8)]
    triangular = by_rule(28, lambda u, v: len(set(pairs8[u]) & set(pairs8[v])) == 1)
    part = {pairs8.index(it) for it in ((0, 1), (2, 3), (4, 5), (6, 7))}
    for kind in ("or", "edges"):
        add_graph("triangular8", triangular, kind, switched(triangular, part))
    four = [[(i + j) % 4 for j in range(4)] for i in range(4)]
    add_graph("latin4", latin(four), "or", latin([[i ^ j for j in range(4)] for i in range(4)]))
    five = [[(i + j) % 5 for j in range(5)] for i in range(5)]
    add_graph("latin5", latin(five), "or")
    add_graph("torus36", by_rule(36, lambda u, v: (u // 6 == v // 6 and (u - v) % 6 in (1, 5)) or (u % 6 == v % 6 and (u // 6 - v // 6) % 6 in (1, 5))), "or")


# ---- others

C17 = "wire {p}d = ~({b} & {d}), {p}e = ~({a} & {b}), {p}f = ~({c} & {p}d), {p}g = ~({p}d & {e}); assign {y} = ~({p}e & {p}f); assign {z} = ~({p}f & {p}g);"


def drawn_logic(inputs, outputs, gates, seed):
    """Gates drawn over signals of which later ones are likelier, ANDs, exclusive ors and multiplexers."""
    draws, made = random.Random(seed), Wires()
    signals = bits("a", inputs)
    for _ in range(gates):
        pick = lambda: draws.choice(("", "~")) + signals[-1 - min(int(draws.expovariate(1 / (inputs * 0.8))), len(signals) - 1)]
        form = draws.choice(("{0} & {1}", "{0} & {1}", "{0} ^ {1}", "{0} ? {1} : {2}"))
        signals.append(made.wire(form.format(pick(), pick(), pick())))
    return made.done("y", signals[-outputs:])


def others():
    for n in (4, 16, 64):
        add(f"gray{n}", "other", f"input [{n - 1}:0] a, output [{n - 1}:0] y", gates="assign y = a ^ (a >> 1);")
    for n in (8, 32):
        made = Wires()
        found = [f"a[{n - 1}]"]
        for k in range(n - 2, -1, -1):
            found.append(made.wire(f"{found[-1]} ^ a[{k}]"))
        add(f"from_gray{n}", "other", f"input [{n - 1}:0] a, output [{n - 1}:0] y", chained=made.done("y", found[::-1]),
            doubled=f"wire [{n - 1}:0] t0 = a ^ (a >> 1), t1 = t0 ^ (t0 >> 2), t2 = t1 ^ (t1 >> 4), t3 = t2 ^ (t2 >> 8), t4 = t3 ^ (t3 >> 16); assign y = t4;")
    segments = [63, 6, 91, 79, 102, 109, 125, 7, 127, 111, 119, 124, 57, 94, 121, 113]
    add_table("seven_segments", "other", segments, 4, 7)
    for n in (6, 32, 128):
        add(f"ring_of_ands{n}", "other", f"input [{n - 1}:0] a, output [{n - 1}:0] y", gates=f"assign y = a & {{a[0], a[{n - 1}:1]}};")
    one = lambda p, i, o: C17.format(p=p, **{w: f"a[{5 * i + k}]" for k, w in enumerate("abcde")}, y=f"y[{2 * i}]", z=f"y[{2 * i + 1}]")
    for n in (1, 4, 16):
        add(f"c17x{n}", "other", f"input [{5 * n - 1}:0] a, output [{2 * n - 1}:0] y", gates=" ".join(one(f"w{i}", i, i) for i in range(n)))
    for n in (4, 16, 64):
        add(f"full_adders{n}", "other", f"input [{3 * n - 1}:0] a, output [{2 * n - 1}:0] y",
            gates=" ".join(f"assign {{y[{2 * i + 1}], y[{2 * i}]}} = a[{3 * i}] + a[{3 * i + 1}] + a[{3 * i + 2}];" for i in range(n)))
    add("bcd_adder", "other", "input [3:0] a, b, input c, output reg [3:0] y, output d",
        compared="wire [4:0] s = a + b + c; assign d = s > 9; always @* y = d ? s + 6 : s;",
        gates="wire [4:0] s = a + b + c; assign d = s[4] | s[3] & (s[2] | s[1]); wire [3:0] t = s[3:0] + {1'b0, d, d, 1'b0}; always @* y = t;")
    add("to_bcd8", "other", "input [7:0] a, output [9:0] y", divided="assign y = {2'd0, a / 100} << 8 | ((a / 10) % 10) << 4 | a % 10;",
        doubled="integer i; reg [11:0] t; always @* begin t = 0; for (i = 7; i >= 0; i = i - 1) begin if (t[3:0] > 4) t[3:0] = t[3:0] + 3; if (t[7:4] > 4) t[7:4] = t[7:4] + 3; t = {t[10:0], a[i]}; end end assign y = t[9:0];")
    for inputs, outputs, gates, seed in ((6, 2, 30, 1), (10, 4, 80, 2), (16, 8, 250, 3), (32, 16, 700, 4), (64, 32, 1200, 5), (128, 64, 1700, 6), (256, 100, 2000, 7)):
        add(f"drawn{inputs}", "drawn logic", f"input [{inputs - 1}:0] a, output [{outputs - 1}:0] y", gates=drawn_logic(inputs, outputs, gates, seed))
    add("and_parity256", "other", "input [255:0] a, output y", gates="assign y = &a[127:0] | ^a[255:128];")
    add("products_of_ten", "other", "input [99:0] a, output y", gates="assign y = " + " | ".join(f"&a[{10 * k + 9}:{10 * k}]" for k in range(10)) + ";")


# ---- more of some families, at the end, so that each fourth circuit stays the same

def plane(q):
    """The points of each line of the projective plane over the field of q elements, a prime."""
    points = [(1, b, c) for b in range(q) for c in range(q)] + [(0, 1, c) for c in range(q)] + [(0, 0, 1)]
    return [[k for k, point in enumerate(points) if sum(x * y for x, y in zip(point, line)) % q == 0] for line in points]


def add_plane(q, kind, operator):
    rows = plane(q)
    chained, treed = Wires(), Wires()
    add(f"plane{len(rows)}_{kind}", "plane", f"input [{len(rows) - 1}:0] a, output [{len(rows) - 1}:0] y",
        chained=chained.done("y", [chained.chain(operator, [f"a[{k}]" for k in row]) for row in rows]),
        treed=treed.done("y", [treed.tree(operator, [f"a[{k}]" for k in reversed(row)]) for row in rows]))


def add_present(size, rounds):
    """Rounds of PRESENT on a smaller block, each with a key of its own among the inputs."""
    boxes_of = [f"function [3:0] s(input [3:0] x); case (x) {' '.join(f'{k}: s = {v};' for k, v in enumerate(PRESENT))} default: s = 0; endcase endfunction"]
    word = "a"
    for r in range(rounds):
        parts = ", ".join(f"s(u{r}[{k + 3}:{k}])" for k in range(size - 4, -1, -4))
        # bit i goes to place i size / 4 modulo size - 1, and the last one stays
        comes = sorted(range(size), key=lambda i: i * size // 4 % (size - 1) if i < size - 1 else i)
        boxes_of.append(f"wire [{size - 1}:0] u{r} = {word} ^ k[{size * r + size - 1}:{size * r}], v{r} = {{{parts}}}; "
                        f"wire [{size - 1}:0] w{r} = {{{', '.join(f'v{r}[{i}]' for i in reversed(comes))}}};")
        word = f"w{r}"
    add(f"present{size}_rounds{rounds}", "block cipher", f"input [{size - 1}:0] a, input [{rounds * size - 1}:0] k, output [{size - 1}:0] y",
        table=" ".join(boxes_of) + f" assign y = {word};")


def further():
    for data in (32, 64):
        add_correcting(data)
        add_detecting(data)
    add_plane(7, "and", "&")
    add_plane(7, "xor", "^")
    add_addsub(32)
    add_multiply_add(8)
    add_present(32, 2)


for made in (cells, multiplexers, decoders, encoders, comparators, adders, multipliers, dividers, roots, shifters, symmetric, codes, boxes, units, arbiters, crossbars, graphs, others, further):
    made()

if __name__ == "__main__":
    for it in CIRCUITS:
        print(f"{it.name:<24}{it.family:<18}{' '.join(it.architectures)}{' and a twin' if it.twin else ''}")
    print(len(CIRCUITS))
