"""One refused call after the other. See refuse_each.sh.

    refuse_each.py PROGRAM FOLDER      FOLDER has refuse.so
"""
import collections
import os
import subprocess
import sys
import time

NETLISTS = {
    "a": b"aag 3 2 0 2 1\n2\n4\n6\n2\n6 2 4\n",
    "b": b"aag 3 2 0 2 1\n2\n4\n5\n7\n6 5 2\n",
    "and": b"aag 3 2 0 1 1\n2\n4\n6\n6 2 4\n",
    "xor": b"aag 5 2 0 1 3\n2\n4\n10\n6 2 4\n8 3 5\n10 7 9\n",
    "mixed": b".names a b y\n11 0\n.names one\n1\n.names zero\n.inputs a \\ # more\nb\n.outputs y one zero\n",
}
OLD = b"what the file held before\n"
KINDS = {"one": "allocations, one refused", "all": "allocations, all refused from one on", "system": "calls of the system, one refused"}
MEMORY = ["one", "all", "system"]

# the words of a run, the files that it writes, what these hold before (None: they aren't there), and what is refused
RUNS = [
    ("match a b account", ["account"], None, MEMORY),
    ("match a b account", ["account"], OLD, MEMORY),
    ("check a b whole", [], None, MEMORY),
    ("match and xor account", ["account"], None, MEMORY),
    ("match and xor account", ["account"], OLD, MEMORY),
    ("check and xor whole", [], None, MEMORY),
    ("info mixed", [], None, MEMORY),
    ("info mixed 0", [], None, MEMORY),
    ("make 7 first second", ["first", "second"], None, ["system"]),
    ("make 7 first second", ["first", "second"], OLD, ["system"]),
]

Ended = collections.namedtuple("Ended", "status said files allocations calls refused")


def lay_out(folder, written, before):
    """The files as they are before a run."""
    for name in written:
        path = f"{folder}/{name}"
        if before is not None:
            with open(path, "wb") as file:
                file.write(before)
        elif os.path.exists(path):
            os.remove(path)


def files_in(folder):
    held = {}
    for name in os.listdir(folder):
        with open(f"{folder}/{name}", "rb") as file:
            held[name] = file.read()
    return held


def run(program, work, words, refuse=""):
    """Runs the program; `refuse` says what is refused."""
    counts, folder = f"{work}/counts", f"{work}/files"
    env = {"LD_PRELOAD": f"{work}/refuse.so", "REFUSE": refuse, "REFUSE_COUNTS": counts}
    ran = subprocess.run([program, *words.split()], cwd=folder, env=env, stdin=subprocess.DEVNULL, capture_output=True, check=False)
    with open(counts, encoding="utf-8") as file:
        allocations, calls, refused = file.read().split()
    return Ended(ran.returncode, ran.stdout, files_in(folder), int(allocations), int(calls), refused)


def leaves_parts(before, whole, ended, written):
    """No file changed but those that are written, which hold what they held, or a first part of what the whole run writes. An account
    that isn't whole has no last line, and one that is whole comes with its report or with none; of two files the second changed only where
    the first is whole."""
    for name in set(whole.files) | set(ended.files):
        held, final = ended.files.get(name), whole.files.get(name)
        if held == before.get(name):
            continue
        if name not in written or held is None or not final.startswith(held):
            return False
        if name == "account" and held != final and held.endswith(b"\nend\n"):
            return False
        if name == "account" and held == final and ended.said not in (whole.said, b""):
            return False
        if name == "second" and ended.files["first"] != whole.files["first"]:
            return False
    return True


def how(kind, whole, ended):
    """How a run ended in which something was refused, or None where it may not end so."""
    if kind != "system" and ended.status == 7:
        return {b"out of memory\n": "out of memory", b"": "nothing said"}.get(ended.said)
    if kind == "system" and ended.status == 6:
        return {b"read fault\n": "read fault", b"": "write fault"}.get(ended.said)
    if kind != "all" and (ended.status, ended.said, ended.files) == (whole.status, whole.said, whole.files):
        return "as without it" if kind == "one" else f"as without {ended.refused}"
    return None


def refuse_each(program, work, words, written, held, kind):
    """Refuses each call of a kind in turn: how often the runs ended in which way, how often a part was written, and which ended as
    they shouldn't."""
    folder = f"{work}/files"
    lay_out(folder, written, held)
    before = files_in(folder)
    whole = run(program, work, words)
    ends, parts, wrong = collections.Counter(), 0, []
    for number in range(1, (whole.calls if kind == "system" else whole.allocations) + 1):
        lay_out(folder, written, held)
        ended = run(program, work, words, f"{kind}:{number}")
        end = how(kind, whole, ended)
        late = end == "nothing said" and ends["out of memory"] > 0
        if end is None or late or not leaves_parts(before, whole, ended, written):
            wrong.append(f"{words}: {kind}:{number} ({ended.refused}): status {ended.status}, said {ended.said!r}")
            continue
        ends[end] += 1
        parts += ended.files != before and not end.startswith("as without")
    return ends, parts, wrong


def main():
    program, work = os.path.abspath(sys.argv[1]), sys.argv[2]
    folder = f"{work}/files"
    os.mkdir(folder)
    for name, text in NETLISTS.items():
        with open(f"{folder}/{name}", "wb") as file:
            file.write(text)
    start, runs, all_wrong = time.monotonic(), 0, []
    for words, written, held, kinds in RUNS:
        if words.startswith("check"):
            os.rename(f"{folder}/account", f"{folder}/whole")
        for kind in kinds:
            ends, parts, wrong = refuse_each(program, work, words, written, held, kind)
            told = ", ".join(f"{number} {end}" for end, number in sorted(ends.items()) if number)
            wrote = f"; in {parts} a file had changed" if written else ""
            over = "" if held is None else ", over files that are there"
            print(f"{words}{over}: {sum(ends.values()) + len(wrong)} {KINDS[kind]}: {told}{wrote}", flush=True)
            runs += sum(ends.values()) + len(wrong)
            all_wrong += wrong
        # whole files for the check that comes next
        lay_out(folder, written, None)
        run(program, work, words)
    print(f"{runs} runs in {time.monotonic() - start:.0f} s, {len(all_wrong)} of them ended otherwise than they should")
    for line in all_wrong:
        print(line)
    sys.exit(bool(all_wrong))


main()
