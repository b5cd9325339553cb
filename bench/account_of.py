"""Writes an account for two netlists, AIGER or BLIF: `npnp 1`, a matching, for each output and either value a log that refutes the
question whether its partner differs, and `end`. The matching is what is given as `i0+2 i1-0 .. o0-1 ..`, in an account's form,
each kind in ascending order; without it the ports correspond by position.

    account_of.py FIRST SECOND ACCOUNT [PAIRS]

The refutations are those of picosat (Debian's picosat): the clauses that it learns. The hints of each are the clauses that
propagate, in order, and last the one that is false. docs/FORMATS.md says how clauses are numbered. Ends with status 1 where an output differs.
"""
import re
import subprocess
import sys
import tempfile


class And:
    """The AND of two literals over signals."""

    def __init__(self, a, b):
        self.a, self.b, self.names = a, b, [a // 2, b // 2]

    def expand(self, literal_of, gate):
        return gate(*(literal_of[it // 2] ^ it % 2 for it in (self.a, self.b)))


class Cover:
    """Rows over named signals, of the on-set or the off-set."""

    def __init__(self, names, rows, on):
        self.names, self.rows, self.on = names, rows, on

    def expand(self, literal_of, gate):
        value = None
        for row in self.rows:
            literals = [literal_of[name] ^ (trit == "0") for name, trit in zip(self.names, row) if trit != "-"]
            made = literals[0] if literals else 1
            for literal in literals[1:]:
                made = gate(made, literal)
            value = made if value is None else gate(value ^ 1, made ^ 1) ^ 1
        return 0 if value is None else value if self.on else value ^ 1


def read_aiger(data):
    """How many inputs, the definitions in the file's order, and the outputs as literals: signal 0 is false, then come the
    inputs, then the definitions."""
    head, rest = data.split(b"\n", 1)
    words = head.split()
    _, inputs, latches, outputs, gates = map(int, words[1:6])
    assert latches == 0
    if words[0] == b"aag":
        rows = [[int(word) for word in line.split()] for line in rest.split(b"\n")[: inputs + outputs + gates]]
        defined = [row[0] // 2 for row in rows[:inputs]] + [row[0] // 2 for row in rows[inputs + outputs :]]
        found, outs = [row[1:] for row in rows[inputs + outputs :]], [row[0] for row in rows[inputs : inputs + outputs]]
    else:
        lines = rest.split(b"\n", outputs)
        defined, found, at = list(range(1, inputs + gates + 1)), [], 0
        for k in range(gates):
            operands = [2 * (inputs + k + 1)]
            for _ in range(2):
                delta = shift = 0
                while True:
                    byte = lines[outputs][at]
                    at += 1
                    delta |= (byte & 127) << shift
                    shift += 7
                    if byte < 128:
                        break
                operands.append(operands[-1] - delta)
            found.append(operands[1:])
        outs = [int(line) for line in lines[:outputs]]
    signal = {0: 0, **{variable: 1 + k for k, variable in enumerate(defined)}}
    literal = lambda it: 2 * signal[it // 2] + it % 2
    return inputs, [And(literal(a), literal(b)) for a, b in found], [literal(it) for it in outs]


def read_blif(data):
    """The same of a BLIF file."""
    lines, joined = [], ""
    for line in data.decode("latin-1").split("\n"):
        joined += line.split("#")[0].rstrip()
        if joined.endswith("\\"):
            joined = joined[:-1] + " "
            continue
        lines.append(joined.split())
        joined = ""
    inputs, outputs, covers = [], [], []
    for words in filter(None, lines):
        if words[0] == ".end":
            break
        if words[0] == ".inputs":
            inputs += words[1:]
        elif words[0] == ".outputs":
            outputs += words[1:]
        elif words[0] == ".names":
            covers.append((words[1:], []))
        elif words[0][0] != ".":
            covers[-1][1].append(words)
    signal = {name: 1 + k for k, name in enumerate(inputs + [names[-1] for names, _ in covers])}
    defs = [
        Cover([signal[it] for it in names[:-1]], [row[0] if names[1:] else "" for row in rows], not rows or rows[0][-1] == "1")
        for names, rows in covers
    ]
    return len(inputs), defs, [2 * signal[it] for it in outputs]


def in_order(path):
    """The netlist in order, by level and then by place: how many inputs, the gates and the outputs over signals."""
    data = open(path, "rb").read()
    inputs, defs, outputs = (read_aiger if data[:4] in (b"aag ", b"aig ") else read_blif)(data)
    level = {signal: 0 for signal in range(inputs + 1)}
    for start in range(inputs + 1, inputs + 1 + len(defs)):
        stack = [start]
        while stack:
            top = stack[-1]
            names = defs[top - inputs - 1].names
            missing = [it for it in names if it not in level]
            if top in level or not missing:
                level.setdefault(top, 1 + max((level[it] for it in names), default=0))
                stack.pop()
            stack.extend(missing)
    gates, literal_of = [], {signal: 2 * signal for signal in range(inputs + 1)}

    def gate(a, b):
        gates.append((a, b))
        return 2 * (inputs + len(gates))

    for d in sorted(range(len(defs)), key=lambda d: level[inputs + 1 + d]):
        literal_of[inputs + 1 + d] = defs[d].expand(literal_of, gate)
    return inputs, gates, [literal_of[it // 2] ^ it % 2 for it in outputs]


class Question:
    """The clauses of one output and value, by their numbers in an account."""

    def __init__(self, first, second, pairs):
        (self.inputs, self.left, self.left_outputs), (_, self.right, self.right_outputs) = first, second
        entries = [(int(re.split("[+-]", it)[1]), "-" in it) for it in pairs]
        self.feed = {to: 2 * (i + 1) + flip for i, (to, flip) in enumerate(entries[: self.inputs])}
        self.partners = entries[self.inputs :]
        self.units = 1 + 3 * (len(self.left) + len(self.right))
        self.variables = 1 + self.inputs + len(self.left) + len(self.right)

    def variable(self, signal, is_right):
        return signal + len(self.left) if is_right and signal > self.inputs else signal

    def over_variables(self, literal, is_right):
        signal, negated = literal // 2, literal % 2
        if signal == 0:  # signal 0 is false, and variable 0 is true
            return literal ^ 1
        if is_right and signal <= self.inputs:
            return self.feed[signal - 1] ^ negated
        return 2 * self.variable(signal, is_right) + negated

    def cone(self, literal, gates):
        reached, stack = set(), [literal // 2]
        while stack:
            gate = stack.pop() - 1 - self.inputs
            if gate >= 0 and gate not in reached:
                reached.add(gate)
                stack.extend(it // 2 for it in gates[gate])
        return sorted(reached)

    def clauses(self, output, value):
        found = {0: [0]}
        partner, flip = self.partners[output]
        sides = ((self.left, self.left_outputs[output], False, 1), (self.right, self.right_outputs[partner], True, 1 + 3 * len(self.left)))
        for gates, reached, is_right, base in sides:
            for t in self.cone(reached, gates):
                v = 2 * self.variable(1 + self.inputs + t, is_right)
                a, b = (self.over_variables(it, is_right) for it in gates[t])
                found[base + 3 * t], found[base + 3 * t + 1], found[base + 3 * t + 2] = [v ^ 1, a], [v ^ 1, b], [v, a ^ 1, b ^ 1]
        found[self.units] = [self.over_variables(self.left_outputs[output], False) ^ (0 if value else 1)]
        found[self.units + 1] = [self.over_variables(self.right_outputs[partner], True) ^ (1 if value else 0) ^ flip]
        return found


def dimacs(literal):
    return (literal // 2 + 1) * (-1 if literal % 2 else 1)


def from_dimacs(number):
    return 2 * (abs(number) - 1) + (number < 0)


def learned_clauses(clauses, folder):
    """The clauses that picosat learns on the way to the empty one, each derived from those before by propagation."""
    with open(f"{folder}/formula", "w") as out:
        out.write(f"p cnf {1 + max(it // 2 for clause in clauses.values() for it in clause)} {len(clauses)}\n")
        for name in sorted(clauses):
            out.write(" ".join(str(dimacs(literal)) for literal in clauses[name]) + " 0\n")
    ran = subprocess.run(["picosat", "-R", f"{folder}/learned", f"{folder}/formula"], stdout=subprocess.DEVNULL)
    if ran.returncode != 20:
        sys.exit("an output differs from its partner")
    for line in open(f"{folder}/learned"):
        if line[0] not in "%d":
            yield [from_dimacs(int(word)) for word in line.split()[:-1]]


class Propagation:
    """Clauses with two watched literals each; what follows from the clauses of one literal stays assigned."""

    def __init__(self, variables):
        self.clauses, self.watches = {}, [[] for _ in range(2 * variables)]
        self.value, self.reason, self.trail, self.walked = [None] * (2 * variables), [None] * variables, [], 0

    def assign(self, literal, reason):
        self.value[literal], self.value[literal ^ 1], self.reason[literal // 2] = True, False, reason
        self.trail.append(literal)

    def back_to(self, length):
        for literal in self.trail[length:]:
            self.value[literal] = self.value[literal ^ 1] = None
        del self.trail[length:]
        self.walked = min(self.walked, length)

    def add(self, name, literals):
        """Takes a clause; the answer is a clause that is false then, if there is one."""
        literals = sorted(set(literals), key=lambda it: self.value[it] is False)
        if any(it ^ 1 in literals for it in literals):
            return None
        self.clauses[name] = literals
        for it in literals[:2]:
            self.watches[it].append(name)
        if not literals or self.value[literals[0]] is False:
            return name
        if len(literals) == 1 or self.value[literals[1]] is False:
            if self.value[literals[0]] is None:
                self.assign(literals[0], name)
                return self.propagate()
        return None

    def propagate(self):
        while self.walked < len(self.trail):
            false = self.trail[self.walked] ^ 1
            self.walked += 1
            kept, names = [], self.watches[false]
            for k, name in enumerate(names):
                clause = self.clauses[name]
                if clause[0] == false and len(clause) > 1:
                    clause[0], clause[1] = clause[1], clause[0]
                other = next((j for j in range(2, len(clause)) if self.value[clause[j]] is not False), None)
                if self.value[clause[0]] is not True and other is not None:
                    clause[1], clause[other] = clause[other], clause[1]
                    self.watches[clause[1]].append(name)
                    continue
                kept.append(name)
                if self.value[clause[0]] is False:
                    self.watches[false] = kept + names[k + 1 :]
                    return name
                if self.value[clause[0]] is None:
                    self.assign(clause[0], name)
            self.watches[false] = kept
        return None

    def hints(self, false):
        """The clauses that made literals true on the way to a false clause, in order, and last that one."""
        wanted, stack = set(), list(self.clauses[false])
        while stack:
            variable = stack.pop() // 2
            if variable not in wanted:
                wanted.add(variable)
                if self.reason[variable] is not None:
                    stack.extend(self.clauses[self.reason[variable]])
        names = [self.reason[it // 2] for it in self.trail if it // 2 in wanted]
        return [it for it in names if it is not None] + [false]

    def hints_for(self, literals):
        """The hints of a clause that follows by propagation."""
        length = len(self.trail)
        for it in literals:
            if self.value[it] is None:
                self.assign(it ^ 1, None)
        false = self.propagate()
        if false is None:
            # what is true already makes a clause of the same literals false
            false = next(self.reason[it // 2] for it in literals if self.value[it] is True)
        found = self.hints(false)
        self.back_to(length)
        return found


def log_of(question, output, value, folder):
    """The lines of a log: the learned clauses with their hints, up to the empty one."""
    clauses = question.clauses(output, value)
    state = Propagation(question.variables)
    false = None
    for name in sorted(clauses):
        false = false if false is not None else state.add(name, clauses[name])
    lines, first = [], question.units + 2
    put = lambda literals, hints: lines.append("l" + "".join(f" {it}" for it in literals) + " :" + "".join(f" {it}" for it in hints))
    for literals in learned_clauses(clauses, folder) if false is None else ():
        if not literals:
            break
        if any(state.value[it] is True for it in literals):
            continue
        put(literals, state.hints_for(literals))
        false = state.add(first + len(lines) - 1, literals)
        if false is not None:
            break
    put([], state.hints(false))
    return lines


def main(first, second, account, pairs=None):
    one, other = in_order(first), in_order(second)
    if pairs is None:
        pairs = " ".join([f"i{k}+{k}" for k in range(one[0])] + [f"o{k}+{k}" for k in range(len(one[2]))])
    question = Question(one, other, pairs.split())
    count = 0
    with tempfile.TemporaryDirectory() as folder, open(account, "w") as out:
        out.write("npnp 1\n" + " ".join(["match", *pairs.split()]) + "\n")
        for output in range(len(question.left_outputs)):
            for value in (True, False):
                lines = log_of(question, output, value, folder)
                count += len(lines)
                out.write("\n".join(lines) + "\n")
        out.write("end\n")
    print(count)


if __name__ == "__main__":
    main(*sys.argv[1:])
