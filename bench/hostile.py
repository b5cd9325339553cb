"""What files of a stranger cost. See hostile.sh.

    hostile.py PROGRAM [--limit SECONDS] [NAME ..]
"""
import argparse
import os
import sys
import tempfile
import threading
from measured_run import timed

ZERO, ONE = ".names {}\n", ".names {}\n1\n"


def blif(inputs, outputs, lines):
    """A BLIF netlist with these names and covers."""
    return f".model m\n.inputs {' '.join(inputs)}\n.outputs {' '.join(outputs)}\n{''.join(lines)}.end\n"


def names(letter, count):
    return [f"{letter}{i}" for i in range(count)]


def constants(count, cover):
    """A circuit of as many inputs as outputs, all of which are one constant."""
    return blif(names("i", count), names("o", count), [cover.format(f"o{k}") for k in range(count)])


def ands(count, last="11 1\n"):
    """As many ANDs of two inputs each, of which the last one may be another gate."""
    covers = [f".names i{2 * k} i{2 * k + 1} o{k}\n" + ("11 1\n" if k + 1 < count else last) for k in range(count)]
    return blif(names("i", 2 * count), names("o", count), covers)


def chain(count, gate, inputs=None):
    """Gates in a row, each over the one before it and an input."""
    inputs = inputs or count
    lines, last = [], "i0"
    for k in range(1, count):
        lines.append(f".names {last} i{k % inputs} {'o' if k + 1 == count else f's{k}'}\n{gate}")
        last = f"s{k}"
    return blif(names("i", inputs), ["o"], lines)


def turned(text):
    """A BLIF netlist with its inputs and its outputs in the opposite order, under the names that they had."""
    lines = text.split("\n")
    return "\n".join(" ".join([it.split(" ")[0], *it.split(" ")[:0:-1]]) if it.startswith((".inputs", ".outputs")) else it for it in lines)


OR, AND, XOR = "1- 1\n-1 1\n", "11 1\n", "10 1\n01 1\n"


def pairs(count):
    return " ".join(f"o{k}+{k}" for k in range(count))


def cover_account(ports):
    """A ban of all outputs' pairs by a vector of unknowns, and one by a cover over half of the inputs, each way of which names it."""
    half = ports // 2
    ways = " ".join(["0"] * (2 * half * (ports - half + 1)))
    lists = f"{' '.join(map(str, range(half)))} / {' '.join(map(str, range(ports - half + 1)))}"
    return f"npnp 1\nban {pairs(ports)} : vector 0 ={'x' * ports}\nban {pairs(ports)} : cover in {lists} / {ways}\nend\n"


def vector_account(ports):
    """As many bans by a vector as there are ports."""
    line = f"ban {pairs(ports)} : vector 0 ={'x' * ports}\n"
    return "npnp 1\n" + line * ports + "end\n"


def fails_account(lines):
    return "npnp 1\n" + "fails a 0 down 0 =1111\n" * lines + "end\n"


def each_fails_account(outputs):
    """A line for each output that ends a chain of an even number of gates."""
    return "npnp 1\n" + "".join(f"fails a {k} down 3 =1111\n" for k in range(outputs)) + "end\n"


def holds_account(claims, gates):
    """Claims of one input that their output doesn't reach, in a circuit of this many gates, by outputs and inputs. The last two clauses
    of each query, of the same literal, refute it."""
    log = f"l : {1 + 6 * gates} {2 + 6 * gates}\n"
    return "npnp 1\n" + "".join(f"holds a {k} up {i}\n{log}" for k, i in claims) + "end\n"


def long_chain(gates):
    """A long chain of gates over four inputs, from input 0 to the signal p."""
    lines, last = [], "i0"
    for k in range(gates):
        lines.append(f".names {last} i{k % 4} {'p' if k + 1 == gates else f's{k}'}\n" + (AND if k % 2 else OR))
        last = f"s{k}"
    return lines


def beside_chain(gates):
    """An output of four inputs, and another one over a long chain of gates."""
    return blif(names("i", 4), ["o", "p"], [".names i0 i1 i2 i3 o\n1--- 1\n", *long_chain(gates)])


def over_chain(gates, outputs):
    """Outputs that all have what a long chain of gates ends in."""
    return blif(names("i", 4), names("o", outputs), [*long_chain(gates), *(f".names p o{k}\n1 1\n" for k in range(outputs))])


def own_chains(outputs, last):
    """Outputs that each end a chain of a hundred gates of their own over 16 inputs."""
    lines = []
    for k in range(outputs):
        signals = ["i0", *(f"s{k}_{t}" for t in range(99)), f"o{k}"]
        lines += [f".names {signals[t]} i{t % 16} {signals[t + 1]}\n" + (AND if t < 99 else last) for t in range(100)]
    return blif(names("i", 16), names("o", outputs), lines)


def own_vector_account(outputs):
    """A hundred bans for each output, by a vector of all inputs."""
    inputs = " ".join(f"i{k}+{k}" for k in range(16))
    return "npnp 1\n" + "".join(f"ban {inputs} o{k}+{k} : vector {k} ={'1' * 16}\n" for k in range(outputs)) * 100 + "end\n"


def rows_netlist(count):
    """One cover with this many rows."""
    return ".model m\n.inputs a b\n.outputs o\n.names a b o\n" + "01 1\n" * count + ".end\n"


class Pipe:
    """A file that is a pipe, through which so many bytes come."""

    def __init__(self, count):
        self.left = count

    def fill(self, path):
        piece = b"y\n" * 32_768
        try:
            with open(path, "wb", buffering=0) as it:
                while self.left > 0:
                    self.left -= it.write(piece[: self.left])
        except BrokenPipeError:
            pass  # the rest isn't wanted


# a name; the two sizes; what is written, by size; the words; the first line that is wanted, or the status alone
def rows():
    both = ("first", "second", "account")
    checked = ("check", *both)
    yield "cover between ports, one ban named by each way (check)", (512, 1024), lambda n: (constants(n, ZERO), constants(n, ONE), cover_account(n)), checked, "rejected line 4 order"
    yield "vector bans over all ports (check)", (256, 512), lambda n: (constants(n, ZERO), constants(n, ONE), vector_account(n)), checked, "rejected line"
    yield "vector bans of outputs in turn, of 100 gates each (check)", (32, 64), lambda n: (own_chains(n, AND), own_chains(n, "0- 1\n-0 1\n"), own_vector_account(n)), checked, "rejected line"
    yield "fails, each beside 200,000 gates (check)", (50_000, 100_000), lambda n: (beside_chain(200_000),) * 2 + (fails_account(n),), checked, "rejected line"
    yield "fails, each of another output over 20,000 gates (check)", (500, 1000), lambda n: (over_chain(20_000, n),) * 2 + (each_fails_account(n),), checked, "rejected line"
    yield "holds, of each AND and each input that it doesn't have (check)", (256, 512), lambda n: (ands(n),) * 2 + (holds_account([(k, i) for k in range(n) for i in range(2 * n) if i // 2 != k], n),), checked, "rejected line"
    yield "holds, each beside 200,000 gates (check)", (50_000, 100_000), lambda n: (beside_chain(200_000),) * 2 + (holds_account([(0, 3)] * n, 200_000),), checked, "rejected line"
    yield "ANDs against as many with one XOR (match)", (256, 512), lambda n: (ands(n), ands(n, XOR), ""), ("match", *both), "no matching"
    yield "ANDs with themselves (match)", (256, 512), lambda n: (ands(n), ands(n), ""), ("match", *both), "matched"
    yield "XOR of all inputs with itself (match)", (512, 1024), lambda n: (chain(n, XOR),) * 2 + ("",), ("match", *both), "matched"
    yield "names of ANDs in the opposite order (match)", (256, 512), lambda n: (ands(n), turned(ands(n)), ""), ("match", *both), "matched"
    yield "names of an XOR in the opposite order (match)", (512, 1024), lambda n: (chain(n, XOR), turned(chain(n, XOR)), ""), ("match", *both), "matched"
    yield "rows of one cover with themselves (match)", (250_000, 500_000), lambda n: (rows_netlist(n),) * 2 + ("",), ("match", *both), "matched"
    yield "OR of all inputs (info)", (128, 256), lambda n: (chain(n, OR),), ("info", "first"), "inputs"
    yield "XOR of all inputs (info)", (128, 256), lambda n: (chain(n, XOR),), ("info", "first"), "inputs"
    yield "chain over eight inputs (info)", (25_000, 50_000), lambda n: (chain(n, AND, 8),), ("info", "first"), "inputs"
    yield "rows of one cover (info)", (125_000, 250_000), lambda n: (rows_netlist(n),), ("info", "first"), "inputs"
    yield "bytes of a file that isn't a netlist (info)", (30_000_000, 60_000_000), lambda n: ("a" * n,), ("info", "first"), "malformed"
    # more than a netlist may have: what comes after that isn't read, so the larger one costs as much
    yield "bytes of a pipe (info)", (75_000_000, 150_000_000), lambda n: (Pipe(n),), ("info", "first"), "too large"


def run(program, limit, folder, texts, words):
    for name, text in zip(("first", "second", "account"), texts):
        path = os.path.join(folder, name)
        if isinstance(text, Pipe):
            os.mkfifo(path)
            threading.Thread(target=text.fill, args=(path,), daemon=True).start()
            continue
        with open(path, "w", encoding="ascii") as it:
            it.write(text)
    paths = [os.path.join(folder, it) if it in ("first", "second", "account") else it for it in words]
    printed, status, seconds, memory = timed(limit, folder, program, *paths)
    return printed.split("\n")[0] if status is not None else None, seconds, memory


def main():
    words = argparse.ArgumentParser(prog="bench/hostile.sh", description="what files of a stranger cost")
    words.add_argument("program")
    words.add_argument("--limit", type=int, default=60, help="processor seconds of a run (60)")
    words.add_argument("names", nargs="*", help="rows by their first words")
    choices = words.parse_intermixed_args()
    failed = False
    print(f"{'file':58}{'size':>10}{'seconds':>10}{'MiB':>7}{'size':>10}{'seconds':>10}{'MiB':>7}{'growth':>8}")
    for name, sizes, texts, command, wanted in rows():
        if choices.names and not any(name.startswith(it) for it in choices.names):
            continue
        told, line = [], f"{name:58}"
        for size in sizes:
            with tempfile.TemporaryDirectory() as folder:
                first, seconds, memory = run(choices.program, choices.limit, folder, texts(size), command)
            told.append(seconds if first is not None else None)
            line += f"{size:>10,}" + (f"{seconds:>10.2f}{memory / 1024:>7.0f}" if first is not None else f"{'late':>10}{'':>7}")
            if first is not None and wanted is not None and not first.startswith(wanted):
                line += f" WRONG: {first}"
                failed = True
        growth = f"{told[1] / told[0]:8.1f}" if all(told) else f"{'':8}"
        print(line + growth, flush=True)
    sys.exit(failed)


if __name__ == "__main__":
    main()
