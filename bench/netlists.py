"""Netlists of AND gates for the measurements: a netlist is how many inputs it has, its gates as pairs of literals, and its outputs as
literals; literal 0 is false, 2 i + 2 input i, and the odd ones the complements. They are written, moved, changed and simulated
here, on many vectors at once as bits of a number, and what netlists that match share is counted.
"""
import itertools
import random

DRAWN = 1 << 14
ALL = 16  # up to this number of inputs all vectors are tried
FEATURES = ("supports", "unateness", "symmetries", "counts")


def to_text(net, path):
    """Writes a netlist in the ASCII form of AIGER."""
    inputs, gates, outputs = net
    with open(path, "w") as file:
        file.write(f"aag {inputs + len(gates)} {inputs} 0 {len(outputs)} {len(gates)}\n")
        file.write("".join(f"{2 * (1 + k)}\n" for k in range(inputs)))
        file.write("".join(f"{it}\n" for it in outputs))
        file.write("".join(f"{2 * (1 + inputs + t)} {a} {b}\n" for t, (a, b) in enumerate(gates)))


def to_binary(net, path):
    """Writes a netlist in the binary form of AIGER, which ABC reads."""
    inputs, gates, outputs = net
    with open(path, "wb") as file:
        file.write(f"aig {inputs + len(gates)} {inputs} 0 {len(outputs)} {len(gates)}\n".encode())
        file.write("".join(f"{it}\n" for it in outputs).encode())
        for t, operands in enumerate(gates):
            high, low = max(operands), min(operands)
            for delta in (2 * (1 + inputs + t) - high, high - low):
                while delta > 127:
                    file.write(bytes([128 + delta % 128]))
                    delta //= 128
                file.write(bytes([delta]))


def port_names(path):
    """The names that an AIGER file in the ASCII form gives its inputs and outputs."""
    found = {}
    for line in open(path, "rb").read().split(b"\n"):
        words = line.split(b" ")
        if len(words) == 2 and words[0][:1] in (b"i", b"o") and words[0][1:].isdigit():
            found[words[0].decode()] = words[1].decode()
    return found


def by_names(net, names):
    """A netlist with its ports in the order of their names, so that those of two architectures correspond."""
    def key(name):
        word, _, rest = name.partition("[")
        return word, int(rest.rstrip("]") or 0)
    inputs, gates, outputs = net
    orders = {kind: sorted(range(count), key=lambda k: key(names[f"{kind}{k}"])) for kind, count in (("i", inputs), ("o", len(outputs)))}
    to = [0] * inputs
    for place, i in enumerate(orders["i"]):
        to[i] = place
    moved = renamed(net, [(it, 0) for it in to], [(k, 0) for k in range(len(outputs))])
    return moved[0], moved[1], [moved[2][k] for k in orders["o"]]


def renamed(net, inputs_to, outputs_to):
    """The netlist whose input `inputs_to[i]` is the given one's input i, negated where the entry says so; outputs alike."""
    inputs, gates, outputs = net
    place = [0] * (1 + inputs + len(gates))
    for i, (to, flip) in enumerate(inputs_to):
        place[1 + i] = 2 * (1 + to) + flip
    for t in range(len(gates)):
        place[1 + inputs + t] = 2 * (1 + inputs + t)
    move = lambda literal: place[literal // 2] ^ literal % 2
    moved = [0] * len(outputs)
    for k, (to, flip) in enumerate(outputs_to):
        moved[to] = move(outputs[k]) ^ flip
    return inputs, [(move(a), move(b)) for a, b in gates], moved


def draw(rng, count, negated):
    """A bijection of `count` ports, signed where negations are wanted."""
    order = rng.sample(range(count), count)
    return [(to, rng.randrange(2) if negated else 0) for to in order]


def moved(rng, net, negated):
    """A netlist with its ports permuted, and negated where that is wanted."""
    return renamed(net, *(draw(rng, count, negated) for count in (net[0], len(net[2]))))


def cone(net, literals):
    """The gates and the inputs that literals reach."""
    inputs, gates, _ = net
    reached, stack = set(), [it // 2 for it in literals]
    while stack:
        signal = stack.pop()
        if signal not in reached:
            reached.add(signal)
            if signal > inputs:
                stack.extend(it // 2 for it in gates[signal - 1 - inputs])
    return sorted(it - 1 - inputs for it in reached if it > inputs), sorted(it - 1 for it in reached if 0 < it <= inputs)


# ---- values on many vectors

def all_vectors(count):
    """The values of `count` inputs on all vectors, and a number with a bit for each vector."""
    every = (1 << (1 << count)) - 1
    return [((1 << (1 << i)) - 1 << (1 << i)) * (every // ((1 << (2 << i)) - 1)) for i in range(count)], every


def drawn_vectors(count, rng, vectors=DRAWN):
    """The values of `count` inputs on vectors that are drawn: half of them evenly, a quarter mostly 0, a quarter mostly 1."""
    part = vectors // 4
    words = []
    for _ in range(count):
        low = rng.getrandbits(part) & rng.getrandbits(part) & rng.getrandbits(part)
        high = rng.getrandbits(part) | rng.getrandbits(part) | rng.getrandbits(part)
        words.append(rng.getrandbits(2 * part) | low << 2 * part | high << 3 * part)
    return words, (1 << 4 * part) - 1


def values(net, words, every):
    """The values of all signals, where the inputs have these values."""
    found = [0, *words]
    for a, b in net[1]:
        x, y = found[a >> 1], found[b >> 1]
        found.append((x ^ every if a & 1 else x) & (y ^ every if b & 1 else y))
    return found


def outputs_on(net, words, every):
    found = values(net, words, every)
    return [found[it >> 1] ^ (every if it & 1 else 0) for it in net[2]]


def seem_equal(first, second, rng):
    """Whether two netlists are equal, port by port, on all vectors where these are few, else on drawn ones."""
    count = first[0]
    words, every = all_vectors(count) if count <= ALL else drawn_vectors(count, rng)
    return outputs_on(first, words, every) == outputs_on(second, words, every)


# ---- what matches preserve

def tables_over(net, outputs, reached):
    """The functions of outputs over the inputs that they reach, as numbers."""
    words, every = all_vectors(len(reached))
    value = {0: 0, **{1 + i: words[k] for k, i in enumerate(reached)}}
    read = lambda it: value[it >> 1] ^ (every if it & 1 else 0)
    for t in cone(net, [net[2][k] for k in outputs])[0]:
        a, b = net[1][t]
        value[1 + net[0] + t] = read(a) & read(b)
    return [read(net[2][k]) for k in outputs]


def table_of(net, output):
    """An output's function over the inputs that it depends on, as a number, and these inputs; None where it reaches too many."""
    _, reached = cone(net, [net[2][output]])
    if len(reached) > ALL + 2:
        return None
    (f,), count = tables_over(net, [output], reached), len(reached)
    words, every = all_vectors(count)
    for i in range(count - 1, -1, -1):
        if (f ^ f >> (1 << i)) & (every & ~words[i]) == 0:
            f, count = without(f, i, count), count - 1
            del reached[i]
            words, every = all_vectors(count)
    return f, reached


def without(f, i, count):
    """A function of `count` inputs that doesn't depend on input i, over the others."""
    found, block = 0, 1 << i
    for k in range(1 << count - 1 - i):
        found |= (f >> 2 * k * block & (1 << block) - 1) << k * block
    return found


def invariant(f, count):
    """Numbers of a function that permutations and negations of its inputs, and its negation, keep: its weight, and for each
    input and each pair of inputs on how many vectors it changes, and for each input the weights of its halves."""
    words, every = all_vectors(count)
    change = [(f ^ f >> (1 << i)) & (every & ~words[i]) for i in range(count)]
    weight = f.bit_count()
    total = 1 << count
    both = []
    for g, w in ((f, weight), (f ^ every, total - weight)):
        halves = sorted((tuple(sorted(((g & words[i]).bit_count(), (g & ~words[i]).bit_count()))), change[i].bit_count()) for i in range(count))
        both.append((w, tuple(halves)))
    second = lambda i, j: (change[i] ^ change[i] >> (1 << j)) & (every & ~words[i] & ~words[j])
    pairs = sorted(second(i, j).bit_count() for i in range(count) for j in range(i)) if count <= 12 else []
    return min(both), tuple(pairs)


def kept_features(f, count):
    """What of a function is the same in its matches, by words from what is seen at once to what takes counting: how many inputs it
    depends on, in how many it is binate, how large the sets of inputs are that may be exchanged (plain or negated), and `invariant`."""
    words, every = all_vectors(count)
    low = [f & ~words[i] for i in range(count)]
    high = [(f & words[i]) >> (1 << i) for i in range(count)]
    binate = sum(bool(low[i] & ~high[i]) and bool(high[i] & ~low[i]) for i in range(count))
    group = list(range(count))
    for i in range(count):
        for j in range(i):
            if group[i] == i:
                zero = every & ~words[i] & ~words[j]
                parts = [f >> ((a << i) + (b << j)) & zero for a in (0, 1) for b in (0, 1)]
                if parts[1] == parts[2] or parts[0] == parts[3]:
                    group[i] = group[j]
    sizes = sorted(group.count(g) for g in set(group))
    return {"supports": count, "unateness": binate, "symmetries": sizes, "counts": invariant(f, count)}


def joint_counts(net):
    """Counts of all outputs together that matches keep: for each output, and for each input, how often it differs from, or changes, each output."""
    words, every = all_vectors(net[0])
    least = lambda f: min(f.bit_count(), (f ^ every).bit_count())
    tables = outputs_on(net, words, every)
    weights = [least(f) for f in tables]
    of_outputs = sorted((weights[k], sorted((weights[l], least(f ^ tables[l])) for l in range(len(tables)))) for k, f in enumerate(tables))
    of_inputs = sorted(sorted((weights[k], ((f ^ f >> (1 << i)) & (every & ~words[i])).bit_count()) for k, f in enumerate(tables)) for i in range(net[0]))
    return of_outputs, of_inputs


def pair_counts(net, changed):
    """How often the outputs that were changed differ from others that reach inputs of theirs, where both reach few."""
    cones, found = [set(cone(net, [it])[1]) for it in net[2]], []
    for k in changed:
        for l in range(len(net[2])):
            reached = sorted(cones[k] | cones[l])
            if l == k or l in changed and l < k or not cones[k] & cones[l] or len(reached) > ALL - 4:
                continue
            least = lambda f: min(f.bit_count(), (1 << len(reached)) - f.bit_count()) << ALL - len(reached)
            f, g = tables_over(net, (k, l), reached)
            found.append((*sorted((least(f), least(g))), least(f ^ g)))
    return sorted(found)


def sampled(net, output, words, every):
    """The same counts of one output on drawn vectors, evenly drawn: its weight and on how many it changes with each input, sorted."""
    part, reached = cone(net, [net[2][output]])
    base = values(net, words, every)
    literal = net[2][output]
    changes = []
    above = {}
    for i in reached:
        value = {1 + i: base[1 + i] ^ every}
        for t in part:
            a, b = net[1][t]
            if a >> 1 in value or b >> 1 in value:
                x, y = value.get(a >> 1, base[a >> 1]), value.get(b >> 1, base[b >> 1])
                new = (x ^ every if a & 1 else x) & (y ^ every if b & 1 else y)
                if new != base[1 + net[0] + t]:
                    value[1 + net[0] + t] = new
        changes.append((value.get(literal >> 1, base[literal >> 1]) ^ base[literal >> 1]).bit_count())
    weight = base[literal >> 1].bit_count()
    return min(weight, every.bit_length() - weight), sorted(it for it in changes if it)


def far_apart(one, other, vectors):
    """Whether two outputs' drawn counts differ by 8 standard deviations, which are at most half the root of the vectors."""
    limit = 8 * vectors ** 0.5 / 2 * 2 ** 0.5
    (w, left), (v, right) = one, other
    size = max(len(left), len(right))
    left, right = [0] * (size - len(left)) + left, [0] * (size - len(right)) + right
    return abs(w - v) > limit or any(abs(a - b) > limit for a, b in zip(left, right))


def known_apart(first, second, outputs, rng):
    """Why two netlists that can differ in these outputs alone, ports in the same places, have no match: by `counts` on all vectors,
    by counts on vectors that are `drawn`, else nothing. The other outputs' counts are in both alike, so those of these decide."""
    left, right = ([table_of(net, k) for k in outputs] for net in (first, second))
    if None not in left and None not in right:
        one, other = ([kept_features(f, len(reached)) for f, reached in side] for side in (left, right))
        found = next((word for word in FEATURES if sorted(it[word] for it in one) != sorted(it[word] for it in other)), "")
        if found or first[0] <= ALL:
            return found or ("joint counts" if joint_counts(first) != joint_counts(second) else "")
        few = len(outputs) * len(first[2]) <= 4096
        return "joint counts" if few and pair_counts(first, outputs) != pair_counts(second, outputs) else ""
    if len(outputs) > 8:
        return ""
    words, every = [rng.getrandbits(DRAWN) for _ in range(first[0])], (1 << DRAWN) - 1
    left, right = ([sampled(net, k, words, every) for k in outputs] for net in (first, second))
    return "drawn" if any(all(far_apart(one, other, DRAWN) for other in right) for one in left) else ""


def match_by_trying(first, second):
    """Whether some matching makes two netlists of few inputs equal, by trying every signed bijection of the inputs."""
    count = first[0]
    words, every = all_vectors(count)
    least = lambda it: min(it, it ^ every)
    wanted = sorted(least(it) for it in outputs_on(second, words, every))
    for order in itertools.permutations(range(count)):
        for signs in itertools.product((0, 1), repeat=count):
            given = [words[to] ^ (every if flip else 0) for to, flip in zip(order, signs)]
            if sorted(least(it) for it in outputs_on(first, given, every)) == wanted:
                return True
    return False


# ---- near misses

def with_gate_changed(net, rng):
    """A netlist of which one operand of one gate is negated, and the outputs that reach that gate. Another gate is drawn where no
    output differs on vectors, up to eight times."""
    inputs, gates, outputs = net
    words, every = all_vectors(inputs) if inputs <= ALL else drawn_vectors(inputs, rng)
    before = outputs_on(net, words, every)
    for _ in range(8):
        place = rng.randrange(len(gates))
        a, b = gates[place]
        changed = inputs, gates[:place] + [(a ^ 1, b) if rng.randrange(2) else (a, b ^ 1)] + gates[place + 1:], outputs
        if outputs_on(changed, words, every) != before:
            break
    return changed, [k for k, it in enumerate(outputs) if place in set(cone(net, [it])[0])]


def with_output_replaced(net, rng):
    """A netlist of which one output has another function with the same support and weight: its function where the exclusive or of
    an input and the AND of two others stands for that input, which exchanges vectors. The output is one that is known to have
    no match with the first, where one of 24 draws is, and says why; None where no output depends on three inputs."""
    inputs, gates, outputs = net
    cones = [cone(net, [it]) for it in outputs]
    wide = [k for k in range(len(outputs)) if len(cones[k][1]) > 2]
    found = None
    for _ in range(24 if wide else 0):
        k = rng.choice(wide)
        i, j, l = rng.sample(cones[k][1], 3)
        a, b, c = 2 * i + 2, (2 * j + 2) ^ rng.randrange(2), (2 * l + 2) ^ rng.randrange(2)
        more = list(gates)

        def gate(x, y):
            more.append((x, y))
            return 2 * (inputs + len(more))

        product = gate(b, c)
        stands = {1 + i: gate(gate(a, product ^ 1) ^ 1, gate(a ^ 1, product) ^ 1) ^ 1}
        over = lambda it: stands.get(it >> 1, it & ~1) ^ it & 1
        for t in cones[k][0]:
            x, y = gates[t]
            if x >> 1 in stands or y >> 1 in stands:
                stands[1 + inputs + t] = gate(over(x), over(y))
        made = inputs, more, [over(it) if o == k else it for o, it in enumerate(outputs)]
        left, right = table_of(net, k), table_of(made, k)
        if left and right and len(left[1]) != len(right[1]):
            continue
        why = known_apart(net, made, [k], rng)
        if why:
            return made, [k], why
        if found is None or not left:
            found = made, [k], ""
    return found
