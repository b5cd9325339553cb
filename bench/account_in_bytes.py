"""Writes an account of version 1 in version 2, with a drop of each fact and ban directly after the last record that names it, as
`npnp convert` does; for measurements by a program that doesn't know that command. docs/FORMATS.md says what the bytes are. It
takes the account as right in form, and goes over the file twice.

    account_in_bytes.py OLD NEW
"""
import struct
import sys

FAILS, HOLDS, LINE, BAN, NONE_PORTS, NONE_BAN, MATCH, END, DROP_FACT, DROP_BAN = range(1, 11)
SHAPES = {b"up": 0, b"down": 1, b"swap": 2}
STEPS = {b"vector": 0, b"mismatch": 1, b"support": 2, b"binate": 3, b"in": 4, b"out": 5}
VALUES = bytes.maketrans(b"01x", b"\0\1\2")


def framed(tag, body=b""):
    return struct.pack(">BQ", tag, len(body)) + body


def listed(code, items):
    """A list of numbers, of 4 bytes by the code I or of 8 by the code Q."""
    return struct.pack(f">Q{len(items)}{code}", len(items), *map(int, items))


def values(word):
    """A list of bits, as `=01x` has them."""
    return struct.pack(">Q", len(word) - 1) + word[1:].translate(VALUES)


def split(words, mark):
    """The words between those that are this mark."""
    parts = [[]]
    for word in words:
        if word == mark:
            parts.append([])
        else:
            parts[-1].append(word)
    return parts


def claim(words):
    side, output, shape, first, *second = words
    body = struct.pack(">BIBI", side == b"b", int(output), SHAPES[shape], int(first))
    return body + struct.pack(">IBB", int(second[0]), *(bit - 48 for bit in second[1])) if second else body


def pairs(words):
    body = [struct.pack(">Q", len(words))]
    for word in words:
        sign = b"-" if b"-" in word else b"+"
        first, second = word[1:].split(sign)
        body.append(struct.pack(">BIIB", word[:1] == b"o", int(first), int(second), sign == b"-"))
    return b"".join(body)


def references(words):
    return struct.pack(">Q", len(words)) + b"".join(b"\0" if word == b"-" else struct.pack(">BQ", 1, int(word)) for word in words)


def step(words):
    kind, *rest = words
    if kind == b"vector":
        return struct.pack(">BI", STEPS[kind], int(rest[0])) + values(rest[1])
    if kind == b"mismatch":
        return struct.pack(">BQQ", STEPS[kind], *map(int, rest))
    code = "Q" if kind == b"tally" else "I"
    lists = split(rest[1:], b"/")
    body = bytes([STEPS[rest[0]]]) + listed(code, lists[0]) + listed(code, lists[1])
    return body if kind == b"tally" else body + references(lists[2])


def entry(line):
    """A line of the account in bytes."""
    words = line.split()
    if words[0] == b"l":
        literals, hints = split(words[1:], b":")
        return framed(LINE, listed("Q", literals) + listed("Q", hints))
    if words[0] == b"fails":
        return framed(FAILS, claim(words[1:-1]) + values(words[-1]))
    if words[0] == b"holds":
        return framed(HOLDS, claim(words[1:]))
    if words[0] == b"ban":
        given, way = split(words[1:], b":")
        return framed(BAN, pairs(given) + step(way))
    if words[0] == b"none":
        return framed(NONE_PORTS) if words[1] == b"ports" else framed(NONE_BAN, struct.pack(">Q", int(words[2])))
    return framed(MATCH, pairs(words[1:])) if words[0] == b"match" else framed(END)


def named(line):
    """The facts and the bans that a record names."""
    if line.startswith(b"none ban "):
        return [], [int(line[9:])]
    if not line.startswith(b"ban "):
        return [], []
    kind, *rest = line.split(b": ", 1)[1].split()
    if kind == b"mismatch":
        return list(map(int, rest)), []
    if kind == b"tally":
        return [int(word) for word in rest[1:] if word != b"/"], []
    return [], [int(word) for word in split(rest[1:], b"/")[2] if word != b"-"] if kind == b"cover" else []


class Numbered:
    """Facts or bans as they are given, each with the record after which it is dropped."""

    def __init__(self, tag):
        self.tag, self.last, self.due = tag, [], {}

    def given(self, record):
        self.last.append(record)

    def name(self, numbers, record):
        for number in numbers:
            self.last[number] = record

    def drops(self, record):
        """The drops that stand after a record, the lowest number first."""
        return b"".join(framed(self.tag, struct.pack(">Q", number)) for number in self.due.get(record, ()))

    def settle(self):
        for number, record in enumerate(self.last):
            self.due.setdefault(record, []).append(number)


def is_given(line, in_log):
    """Whether a fact is given by this line: the last one of its log, where it holds."""
    return line.startswith(b"fails ") or (in_log and line.startswith(b"l :"))


def last_named(path):
    """The facts and the bans of an account, and the record of its conclusion."""
    facts, bans, in_log, conclusion = Numbered(DROP_FACT), Numbered(DROP_BAN), False, None
    with open(path, "rb") as file:
        for record, line in enumerate(file):
            in_log |= line.startswith(b"holds ")
            if is_given(line, in_log):
                facts.given(record)
                in_log = False
            elif line.startswith(b"ban "):
                bans.given(record)
            elif line.startswith((b"none ", b"match")):
                conclusion = record
            of_facts, of_bans = named(line)
            facts.name(of_facts, record)
            bans.name(of_bans, record)
    facts.settle()
    bans.settle()
    return facts, bans, conclusion


def main(old, new):
    facts, bans, conclusion = last_named(old)
    with open(old, "rb") as file, open(new, "wb") as out:
        for record, line in enumerate(file):
            out.write(b"NPNPACC2" if record == 0 else entry(line))
            if record < conclusion:
                out.write(facts.drops(record) + bans.drops(record))


if __name__ == "__main__":
    main(*sys.argv[1:])
