"""Pairs with as many ports as circuits may have, no two of which are alike. See many_ports.sh.

    many_ports.py PROGRAM [--ports N,..] [--seed SEED] [--limit SECONDS]
"""
import argparse
import os
import random
import sys
import tempfile
import netlists
from measured_run import matching_in, timed

READ = 11  # inputs of an output: draws show an output of more on too few vectors


def mixed(count, draws):
    """A circuit of `count` inputs and as many outputs. Output k joins inputs that are drawn, one for each of the ten lowest bits of
    k and one more: by AND where the bit is 1, by OR where it is 0. So of 1,024 outputs no two are true on as many vectors, of
    4,096 four are, which read other inputs, and inputs are at other places of other outputs."""
    gates, outputs = [], []

    def gate(one, other):
        gates.append((one, other))
        return 2 * (count + len(gates))

    for k in range(count):
        first, *others = (2 + 2 * i for i in draws.sample(range(count), READ))
        joined = first
        for bit, literal in enumerate(others):
            joined = gate(joined, literal) if k >> bit & 1 else gate(joined ^ 1, literal ^ 1) ^ 1
        outputs.append(joined)
    return count, gates, outputs


def row(program, count, draws, limit, folder):
    """What is said of a circuit beside itself, its ports permuted and negated, in a line; and whether that is right."""
    names = [os.path.join(folder, it) for it in ("first.aag", "second.aag", "account")]
    first = mixed(count, draws)
    second = netlists.moved(draws, first, True)
    netlists.to_text(first, names[0])
    netlists.to_text(second, names[1])
    printed, status, seconds, memory = timed(limit, folder, program, "match", *names)
    sizes = f"{count:>6}{len(first[1]):>8}"
    if status is None:
        return f"{sizes}  late", True
    if status != 0:
        return f"{sizes}  {printed.strip()}", False
    is_equal = netlists.seem_equal(netlists.renamed(first, *matching_in(printed, first)), second, draws)
    checked, _, check_seconds, _ = timed(limit, folder, program, "check", *names)
    right = is_equal and checked.startswith("accepted match\n")
    return f"{sizes}{seconds:>10.2f}{memory / 1024:>8.0f}{check_seconds:>10.2f}{os.path.getsize(names[2]):>12,}", right


def main():
    words = argparse.ArgumentParser(prog="bench/many_ports.sh", description="matches circuits with many ports, no two of which are alike")
    words.add_argument("program")
    words.add_argument("--ports", type=lambda it: [int(word) for word in it.split(",")], default=[256, 512, 1024, 2048, 4096], help="how many inputs, and as many outputs (256,512,1024,2048,4096)")
    words.add_argument("--seed", type=int, default=1, help="of the circuit and of where its ports go (1)")
    words.add_argument("--limit", type=int, default=60, help="processor seconds of a pair (60)")
    choices = words.parse_args()
    draws, wrong = random.Random(choices.seed), False
    print(f"{'ports':>6}{'gates':>8}{'match s':>10}{'MiB':>8}{'check s':>10}{'account':>12}")
    with tempfile.TemporaryDirectory() as folder:
        for count in choices.ports:
            line, right = row(os.path.abspath(choices.program), count, draws, choices.limit, folder)
            print(line if right else f"{line} WRONG", flush=True)
            wrong |= not right
    sys.exit(wrong)


main()
