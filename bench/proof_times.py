"""Prints what the proofs of crates took, part by part and function by function, by the times at which their files were written into
`crates/NAME/out/incremental`. It tells what it should only where a crate was proved from nothing by one job, as by
`bench/prove.py build`.
With --sizes it prints which borrow parts are the largest, in megabytes of their files: these don't hang on what else the machine
does, and tell of a single function that was proved again too. Then what those of a size took.

    proof_times.py [--sizes] [--most N] [NAME ..]      NAME: crates; all that were proved, without names
"""
import argparse
import collections
import os
import re

TOP = os.path.join(os.path.dirname(os.path.abspath(__file__)), "..", "crates")
# the last words of a file's name, and the part of a proof that was made before it was written
SIZES = (0.5, 1, 1.5, 2, 3, 4, 6, 99)  # in megabytes, up to which borrow parts are taken together; none is larger than the last
PARTS = {"Lts": "borrow part", "Proof": "goals", "Answers": "goals", "Goals": "goals", "Kinds": "kinds", "Layout": "layout"}


def written(folder):
    """The files below a folder with the times at which they were written, in order, and their sizes in megabytes."""
    found = []
    for at, _, names in os.walk(folder):
        stats = [(os.stat(os.path.join(at, name)), name) for name in names if name.endswith(".oantt")]
        found += [(stat.st_mtime, name, stat.st_size / 1e6) for stat, name in stats]
    return sorted(found)


def part_and_function(crate, name):
    """What a file has, and of which function or file of lemmas it is."""
    words = re.sub(rf"^Rattle-{crate}-(proofs|specs)\.|(\.decls)?\.oantt$", "", name).split(".")
    if words[0] == "contracts":
        words = words[1:]
    for place, word in enumerate(words):
        for key, part in PARTS.items():
            if word.split("-")[0] == key and place:
                return part, ".".join(words[:place])
    return "the rest", ".".join(words[:2])


def print_sizes(crates, most):
    """The largest borrow parts, and what those up to each of some sizes took for a megabyte."""
    found = []
    for crate in crates:
        files = [file for file in written(os.path.join(TOP, crate, "out", "incremental")) if ".decls." not in file[1]]
        for (before, _, _), (now, name, size) in zip(files, files[1:]):
            if name.endswith(".Lts.oantt"):
                _, function = part_and_function(crate, name)
                found.append((size, now - before, f"{crate}::{function.replace('.', '::')}"))
    print(f"{'function':70} megabytes")
    for size, _, name in sorted(found, reverse=True)[:most]:
        print(f"{name:70} {size:7.1f}")
    print(f"{'megabytes':11} functions megabytes seconds  each")
    for least, bound in zip((0, *SIZES), SIZES):
        these = [(size, seconds) for size, seconds, _ in found if least <= size < bound]
        size, seconds = (sum(column) for column in zip(*these)) if these else (0, 0)
        print(f"up to {bound:5} {len(these):9} {size:9.1f} {seconds:7.0f} {seconds / max(len(these), 1):5.1f}")


def main():
    parser = argparse.ArgumentParser()
    parser.add_argument("--sizes", action="store_true")
    parser.add_argument("--most", type=int, default=30)
    parser.add_argument("names", nargs="*")
    choices = parser.parse_args()
    names = choices.names or sorted(os.listdir(TOP))
    if choices.sizes:
        print_sizes(names, choices.most)
        return
    parts, functions, crates = collections.Counter(), collections.Counter(), collections.Counter()
    for crate in names:
        files = written(os.path.join(TOP, crate, "out", "incremental"))
        for (before, _, _), (now, name, _) in zip(files, files[1:]):
            part, function = part_and_function(crate, name)
            parts[part] += now - before
            functions[f"{crate}::{function.replace('.', '::')}"] += now - before
            crates[crate] += now - before
    for title, counter in (("part", parts), ("crate", crates), ("function", functions)):
        print(f"{title:50} seconds")
        for name, seconds in counter.most_common(choices.most):
            print(f"{name:50} {seconds:7.1f}")
    print(f"{'all':50} {sum(parts.values()):7.1f}")


main()
