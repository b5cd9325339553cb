"""Writes an account that refuses two small netlists, AIGER or BLIF, by trying all matchings: facts, bans by vectors,
mismatches, tallies and covers, and the conclusion. It shares nothing with the program: claims are decided by all vectors,
and logs are made by splitting on each input. docs/FORMATS.md says what the lines mean.

    refusal_of.py FIRST SECOND ACCOUNT [SEED]

SEED draws which kind of reason is tried first. Ends with status 1, and without a conclusion in the account, where some matching is a match.
"""
import itertools
import random
import sys

from account_of import in_order


class Circuit:
    """A netlist in order, with its outputs on all vectors."""

    def __init__(self, path):
        self.inputs, self.gates, self.outputs = in_order(path)
        self.table = [self.on([code >> i & 1 for i in range(self.inputs)]) for code in range(1 << self.inputs)]

    def on(self, bits):
        """The outputs on bits, of which None stands for either."""
        value = [0, *bits]
        literal = lambda it: None if value[it // 2] is None else value[it // 2] ^ it % 2
        for a, b in self.gates:
            a, b = literal(a), literal(b)
            value.append(0 if 0 in (a, b) else None if None in (a, b) else 1)
        return [literal(it) for it in self.outputs]

    def breaking(self, output, shape):
        """A vector that breaks the claim that the output doesn't fall where the shape's inputs go to the opposite values."""
        flipped = sum(1 << i for i, _ in shape)
        for code, row in enumerate(self.table):
            if all(code >> i & 1 == bit for i, bit in shape) and row[output] > self.table[code ^ flipped][output]:
                return [code >> i & 1 for i in range(self.inputs)]
        return None


def clauses_of_claim(circuit, output, shape):
    """The clauses of a claim's query, by number, and how many there are."""
    n, count, fixed = circuit.inputs, len(circuit.gates), dict(shape)
    reaches = [False] + [i in fixed for i in range(n)]
    for a, b in circuit.gates:
        reaches.append(reaches[a // 2] or reaches[b // 2])

    def literals(values, is_right):
        found = [1]
        for i in range(n):
            found.append((0 if values[i] else 1) if i in values else 2 * (i + 1))
        for t in range(count):
            found.append(2 * (n + 1 + t + (count if is_right and reaches[n + 1 + t] else 0)))
        return found

    found = {0: [0]}
    units = 1 + 6 * count
    for is_right, values, value in ((False, fixed, 1), (True, {i: 1 - bit for i, bit in shape}, 0)):
        stand = literals(values, is_right)
        over = lambda it: stand[it // 2] ^ it % 2
        base = 1 + 3 * count * is_right
        for t, (a, b) in enumerate(circuit.gates):
            v = stand[n + 1 + t]
            found[base + 3 * t], found[base + 3 * t + 1] = [v ^ 1, over(a)], [v ^ 1, over(b)]
            found[base + 3 * t + 2] = [v, over(a) ^ 1, over(b) ^ 1]
        found[units + is_right] = [over(circuit.outputs[output]) ^ 1 ^ value]
    return found, units + 2


def hints_of(clauses, literals):
    """The clauses that propagate where these literals are false, in order, up to a false one; None where none gets false."""
    value, reason, order = {}, {}, []
    for it in literals:
        value[it], value[it ^ 1] = False, True
    going = True
    while going:
        going = False
        for name, clause in clauses.items():
            free = {it for it in clause if value.get(it) is not False}
            if not free:
                wanted, stack = set(), list(clause)
                while stack:
                    it = stack.pop() // 2
                    if it in reason and it not in wanted:
                        wanted.add(it)
                        stack.extend(clauses[reason[it]])
                return [reason[it] for it in order if it in wanted] + [name]
            if len(free) == 1 and not any(value.get(it) for it in free):
                it = free.pop()
                value[it], value[it ^ 1] = True, False
                reason[it // 2] = name
                order.append(it // 2)
                going = True
    return None


def log_of_claim(circuit, output, shape):
    """The lines of a log for a claim that holds, by splitting on each input that no feed fixes."""
    clauses, first = clauses_of_claim(circuit, output, shape)
    free = [i for i in range(circuit.inputs) if i not in dict(shape)]
    lines = []

    def split(decided):
        """Adds lines up to the clause that says that not all these literals are true."""
        literals = [it ^ 1 for it in decided]
        if hints_of(clauses, literals) is None:
            for negated in (0, 1):
                split(decided + [2 * (free[len(decided)] + 1) + negated])
        hints = hints_of(clauses, literals)
        clauses[first + len(lines)] = literals
        lines.append(" ".join(["l", *map(str, literals), ":", *map(str, hints)]))

    split([])
    return lines


def spelled(shape):
    """A shape as an account writes it."""
    if len(shape) == 1:
        return f"{'down' if shape[0][1] else 'up'} {shape[0][0]}"
    (i, a), (j, b) = shape
    return f"swap {i} {j} {a}{b}"


class Account:
    """The lines of an account, with the facts and bans that it has given."""

    def __init__(self, first, second, seed):
        self.sides, self.lines, self.facts, self.bans = (first, second), ["npnp 1"], {}, []
        self.draws = random.Random(seed)

    def fact(self, side, output, shape):
        """The number of a claim's fact, and whether it holds; the fact is given where it wasn't."""
        key = side, output, shape
        if key not in self.facts:
            circuit, head = self.sides[side], f"{'ab'[side]} {output} {spelled(shape)}"
            bits = circuit.breaking(output, shape)
            if bits is None:
                self.lines += [f"holds {head}", *log_of_claim(circuit, output, shape)]
            else:
                self.lines.append(f"fails {head} ={''.join(map(str, bits))}")
            self.facts[key] = len(self.facts), bits is None
        return self.facts[key]

    def ban(self, pairs, step):
        pairs = sorted(pairs)
        self.bans.append(pairs)
        self.lines.append(" ".join(["ban", *(f"{kind}{a}{'-' if flip else '+'}{b}" for kind, a, b, flip in pairs), ":", step]))
        return len(self.bans) - 1


def is_impossible(pairs, way):
    return any(it[0] == way[0] and it != way and (it[1] == way[1] or it[2] == way[2]) for it in pairs)


class Search:
    """Bans for all ways to pair the ports, outputs first."""

    def __init__(self, first, second, seed):
        self.account = Account(first, second, seed)
        self.first, self.second, self.matches = first, second, []
        self.ports = [("o", k) for k in range(len(first.outputs))] + [("i", k) for k in range(first.inputs)]
        self.counts = {"i": first.inputs, "o": len(first.outputs)}

    def shapes(self, i):
        return (((i, 0),), ((i, 1),))

    def tally(self, pair):
        """A ban of an output pair by counting inputs, where one fits."""
        n, outputs = self.first.inputs, (pair[1], pair[2])
        for kind, side in itertools.product(("support", "binate"), (0, 1)):
            fails = lambda s, shape: self.account.sides[s].breaking(outputs[s], shape) is not None
            has = lambda s, i: (any if kind == "support" else all)(fails(s, it) for it in self.shapes(i))
            have = [i for i in range(n) if has(side, i)]
            lack = [i for i in range(n) if not has(1 - side, i)]
            if have and lack and len(have) + len(lack) > n:
                def numbers(s, inputs, wanted, both):
                    shapes = [[it for it in self.shapes(i) if fails(s, it) == wanted][: 2 if both else 1] for i in inputs]
                    return [self.account.fact(s, outputs[s], it)[0] for one in shapes for it in one]
                haves = numbers(side, have, True, kind == "binate")
                lacks = numbers(1 - side, lack, False, kind == "support")
                return self.account.ban([pair], " ".join(["tally", kind, *map(str, haves), "/", *map(str, lacks)]))
        return None

    def mismatch(self, held, way):
        """A ban by a claim that fails while its image, or whose image fails while it, holds."""
        pairs = {(it[0], it[1]): it for it in [*held, way]}
        outputs = [it for it in pairs.values() if it[0] == "o"]
        inputs = sorted(it for it in pairs.values() if it[0] == "i")
        shapes = [it for one in inputs for it in self.shapes(one[1])]
        shapes += [((one[1], a), (other[1], b)) for one, other in itertools.combinations(inputs, 2) for a in (0, 1) for b in (0, 1)]
        self.account.draws.shuffle(shapes)
        for out, shape in itertools.product(outputs, shapes):
            if way != out and all(i != way[1] for i, _ in shape):
                continue
            used = [pairs["i", i] for i, _ in shape]
            image = tuple(sorted((it[2], bit ^ it[3] ^ out[3]) for it, (_, bit) in zip(used, shape)))
            fails = self.first.breaking(out[1], shape) is not None
            if fails != (self.second.breaking(out[2], image) is not None):
                one, other = self.account.fact(0, out[1], shape)[0], self.account.fact(1, out[2], image)[0]
                return self.account.ban([out, *used], f"mismatch {one if fails else other} {other if fails else one}")
        return None

    def vector(self, held):
        """A ban of a whole matching by a vector, with as few bits and pairs as do; None where it is a match."""
        inputs, outputs = ([it for it in held if it[0] == kind] for kind in "io")
        for code, row in enumerate(self.first.table):
            bits = [code >> i & 1 for i in range(self.first.inputs)]
            for out in outputs:
                if not self.differs(bits, inputs, out):
                    continue
                for i in self.account.draws.sample(range(len(bits)), len(bits)):
                    tried = [*bits[:i], None, *bits[i + 1 :]]
                    bits = tried if self.differs(tried, inputs, out) else bits
                used = list(inputs)
                for it in inputs:
                    fewer = [other for other in used if other != it]
                    used = fewer if self.differs(bits, fewer, out) else used
                word = "".join("x" if it is None else str(it) for it in bits)
                return self.account.ban([*used, out], f"vector {out[1]} ={word}")
        return None

    def differs(self, bits, inputs, out):
        sent = [None] * self.first.inputs
        for _, i, j, flip in inputs:
            sent[j] = None if bits[i] is None else bits[i] ^ flip
        one, other = self.first.on(bits)[out[1]], self.second.on(sent)[out[2]]
        return None not in (one, other) and one != other ^ out[3]

    def excluded(self, held, way):
        """A ban within the pairs held and a way, given before or now; None where some match has them all."""
        pairs = [*held, way]
        for number, ban in enumerate(self.account.bans):
            if set(ban) <= set(pairs):
                return number
        if way[0] == "o" and self.account.draws.random() < 0.7:
            found = self.tally(way)
            if found is not None:
                return found
        if way[0] == "i" and self.account.draws.random() < 0.6:
            found = self.mismatch(held, way)
            if found is not None:
                return found
        return self.refute(pairs)

    def refute(self, held):
        """A ban within the pairs held; None where some match has them all."""
        if len(held) == len(self.ports):
            found = self.vector(held)
            if found is None:
                self.matches.append(held)
            return found
        kind, port = self.ports[len(held)]
        ways = [(kind, port, to, flip) for to in range(self.counts[kind]) for flip in (0, 1)]
        found = {way: None if is_impossible(held, way) else self.excluded(held, way) for way in ways}
        pairs = set()
        for way in ways:
            if is_impossible(held, way):
                pairs.add(next(it for it in held if is_impossible([it], way)))
            elif found[way] is None:
                return None
            else:
                pairs |= set(self.account.bans[found[way]]) - {way}
        refs = ["-" if is_impossible(pairs, way) else str(found[way]) for way in ways]
        tos = " ".join(map(str, range(self.counts[kind])))
        return self.account.ban(pairs, f"cover {'in' if kind == 'i' else 'out'} {port} / {tos} / {' '.join(refs)}")


def refusal_of(first, second, seed):
    """The lines of an account up to its conclusion, and the matches that were met."""
    one, other = Circuit(first), Circuit(second)
    if (one.inputs, len(one.outputs)) != (other.inputs, len(other.outputs)):
        return ["npnp 1", "none ports", "end"], []
    search = Search(one, other, seed)
    found = search.refute([])
    if found is not None:
        search.account.lines += [f"none ban {found}", "end"]
    return search.account.lines, search.matches


if __name__ == "__main__":
    made, met = refusal_of(sys.argv[1], sys.argv[2], int(sys.argv[4]) if len(sys.argv) > 4 else 1)
    with open(sys.argv[3], "w") as out:
        out.write("".join(line + "\n" for line in made))
    print(f"{len(made)} lines, {len(met)} matches met")
    sys.exit(1 if met else 0)
