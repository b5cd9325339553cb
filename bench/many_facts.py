"""Writes a netlist of 256 inputs and 256 outputs, each the AND of 20 inputs (4,864 gates), and an account of it and itself with
COUNT facts: claims that fail, each by its vector, or claims that hold, each with a log of one line. The account has no
conclusion, so a check that finds each line good ends at the line after the last (`truncated`).

    many_facts.py fails|holds COUNT NETLIST ACCOUNT
"""
import itertools
import sys

PORTS, WIDTH = 256, 20
GATES = PORTS * (WIDTH - 1)


def support(output):
    return [(output + k) % PORTS for k in range(WIDTH)]


def put_netlist(out):
    literal, lines, outputs = 2 * (PORTS + 1), [[] for _ in range(WIDTH - 1)], []
    # gates stand by level, as accounts number them
    for level in range(WIDTH - 1):
        for output in range(PORTS):
            inputs = [2 * (i + 1) for i in support(output)]
            a = inputs[0] if level == 0 else 2 * (PORTS + 1 + (level - 1) * PORTS + output)
            lines[level].append(f"{2 * (PORTS + 1 + level * PORTS + output)} {a} {inputs[level + 1]}\n")
    outputs = [f"{2 * (PORTS + 1 + (WIDTH - 2) * PORTS + output)}\n" for output in range(PORTS)]
    out.write(f"aag {PORTS + GATES} {PORTS} 0 {PORTS} {GATES}\n")
    out.writelines(f"{2 * (i + 1)}\n" for i in range(PORTS))
    out.writelines(outputs)
    out.writelines(itertools.chain(*lines))


def failing():
    """Exchanges of an input of the support, which goes from 1 to 0, with one outside it."""
    for output in range(PORTS):
        inside = set(support(output))
        for i, j, bit in itertools.product(sorted(inside), range(PORTS), "01"):
            if j not in inside:
                bits = "".join("1" if k in inside or (k == j and bit == "1") else "0" for k in range(PORTS))
                shape = f"swap {i} {j} 1{bit}" if i < j else f"swap {j} {i} {bit}1"
                yield f"fails a {output} {shape} ={bits}\n"


def holding():
    """Inputs outside the support: the output and itself with the input inverted are one variable."""
    units = 1 + 6 * GATES
    for word, output, i in itertools.product(("up", "down"), range(PORTS), range(PORTS)):
        if i not in support(output):
            yield f"holds a {output} {word} {i}\nl : {units} {units + 1}\n"


def main(kind, count, netlist, account):
    with open(netlist, "w") as out:
        put_netlist(out)
    with open(account, "w") as out:
        out.write("npnp 1\n")
        out.writelines(itertools.islice({"fails": failing, "holds": holding}[kind](), int(count)))


if __name__ == "__main__":
    main(*sys.argv[1:])
