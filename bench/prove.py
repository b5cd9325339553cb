#!/usr/bin/env python3
"""Proves crates by the prover's own command, for whoever works on them: over what earlier proofs of the same crate checked, without locks, several
crates side by side. It gives no verdict on the repository: that is `rt ci`'s.

    bench/prove.py [--over TREE] [--at-once N] build [CRATE ..]      libraries (without names: all that the program stands on)
    bench/prove.py [--over TREE] check CRATE [FLAG ..]               one crate, with flags of `rattle check`, as --only FUNCTION --allow-holes
    bench/prove.py [--over TREE] test CRATE                          the tests of a crate, proved, built and run
    bench/prove.py [--over TREE] edits CRATE [EDIT ..]               must-fail edits: each has to be refused

What a crate stands on is proved first where it isn't. Libraries stand in out/libraries, each with the checksum of what it was made from; what a
proof checked is kept in crates/CRATE/out/incremental. Another clone's are taken by --over where they are of the same sources, so that several people
work side by side over one whole build.
"""
import argparse
import concurrent.futures
import hashlib
import os
import shutil
import subprocess
import sys
import tempfile
import time

TOP = os.path.realpath(os.path.join(os.path.dirname(__file__), ".."))
KIT = os.path.dirname(subprocess.run(["rt", "doc"], capture_output=True, text=True, check=True).stdout.strip())
VERSION = subprocess.run(["rt", "version"], capture_output=True, text=True, check=True).stdout
PROGRAM = "npnp_cli"
PARTS = ("src", "specs", "proofs")
# a proof of a large crate takes 2 to 3 GiB, the largest 4
GIB_EACH = 3


def read_crates():
    """What each crate's line in crates.txt names."""
    crates = {}
    for line in open(f"{TOP}/crates.txt", encoding="utf-8"):
        name, colon, names = line.split("#")[0].partition(":")
        if colon:
            crates[name.split()[0]] = names.split()
    return crates


CRATES = read_crates()


def below(name):
    """The crates of this repository on which one stands, lowest first."""
    found = []
    for it in CRATES[name]:
        if it in CRATES:
            found += [below_it for below_it in [*below(it), it] if below_it not in found]
    return found


def checksums(top):
    """The checksum of all that each crate's library is made from: its sources, what it stands on, and the kit."""
    sums = {}

    def sum_of(name):
        if name not in sums:
            whole = hashlib.sha256(f"{VERSION}{name}: {CRATES[name]}".encode())
            for at, folders, files in sorted((at, folders, files) for part in PARTS for at, folders, files in os.walk(f"{top}/crates/{name}/{part}")):
                for file in sorted(files):
                    with open(f"{at}/{file}", "rb") as it:
                        whole.update(f"{os.path.relpath(f'{at}/{file}', top)}\0".encode() + hashlib.sha256(it.read()).digest())
            for it in CRATES[name]:
                whole.update((sum_of(it) if it in CRATES else it).encode())
            sums[name] = whole.hexdigest()
        return sums[name]

    return {name: sum_of(name) for name in CRATES}


class Tree:
    """The libraries of this clone, and of the one that it works over."""

    def __init__(self, over):
        self.over, self.sums = over, checksums(TOP)
        self.kept = f"{TOP}/out/libraries"
        os.makedirs(self.kept, exist_ok=True)

    def folder_of(self, name):
        """Where the library of a crate's present sources stands, if it was made."""
        for folder in filter(None, (self.kept, self.over and f"{self.over}/out/libraries")):
            sum_file = f"{folder}/{name}.sum"
            if os.path.exists(sum_file) and open(sum_file, encoding="utf-8").read() == self.sums[name]:
                return folder
        return None

    def words(self, name, tests=False):
        """The words by which the prover is told a crate and what it stands on."""
        root = "src/main.rt" if os.path.exists(f"{TOP}/crates/{name}/src/main.rt") else "src/lib.rt"
        words = ["--crate-name", name, root, "--links", f"{name}=", "--jobs", os.environ.get("JOBS", "1")]
        words += ["--antt-project", f"{KIT}/rattle/logic/antt-project.json", "--logic-built", f"{KIT}/logic_built", "-L", f"dependency={KIT}/rlibs"]
        # the prover finds what isn't named in the first folder that has it: here each library's own folder, by links
        links = f"{TOP}/out/links/{name}{'_tests' if tests else ''}"
        shutil.rmtree(links, ignore_errors=True)
        os.makedirs(links)
        for it in below(name):
            os.symlink(f"{self.folder_of(it)}/{it}.rlib", f"{links}/{it}.rlib")
        words += ["-L", f"dependency={links}"]
        for it in ["std", *CRATES[name]]:
            words += ["--extern", f"{it}={links if it in CRATES else KIT + '/rlibs'}/{it}.rlib"]
        return words

    def incremental(self, name):
        """The folder of what was checked of a crate, which begins as a copy of the other clone's."""
        kept, others = f"{TOP}/crates/{name}/out/incremental", f"{self.over}/crates/{name}/out/incremental"
        if not os.path.isdir(kept):
            os.makedirs(os.path.dirname(kept), exist_ok=True)
            if self.over and os.path.isdir(others) and os.path.exists(f"{self.over}/out/libraries/{name}.sum"):
                subprocess.run(["cp", "-a", others, kept], check=True)
            os.makedirs(kept, exist_ok=True)
        return ["--incremental", kept]

    def build(self, name):
        """Proves a crate and keeps its library. Says whether it is proved."""
        library = f"{self.kept}/{name}.rlib"
        shutil.rmtree(f"{self.kept}/{name}.sum", ignore_errors=True)
        words = ["build", *self.words(name), *self.incremental(name), "-o", library]
        if not prover(words, name, f"{TOP}/out/logs/{name}"):
            return False
        with open(f"{self.kept}/{name}.sum", "w", encoding="utf-8") as it:
            it.write(self.sums[name])
        return True

    def build_all(self, names, at_once):
        """Proves those of the crates whose libraries aren't there, each once those below it are, first those with the most code above them."""
        left = [it for it in names if not self.folder_of(it)]
        size = {it: sum(os.path.getsize(f"{at}/{file}") for at, _, files in os.walk(f"{TOP}/crates/{it}/src") for file in files) for it in names}
        chain = {}
        for it in reversed(names):
            chain[it] = size[it] + max([chain[up] for up in names if up in chain and it in CRATES[up]], default=0)
        running, well = {}, True
        with concurrent.futures.ThreadPoolExecutor(at_once) as pool:
            while running or (left and well):
                ready = [it for it in left if all(self.folder_of(down) for down in below(it))] if well else []
                for it in sorted(ready, key=lambda it: -chain[it])[: at_once - len(running)]:
                    left.remove(it)
                    running[pool.submit(self.build, it)] = it
                for done in concurrent.futures.wait(running, return_when=concurrent.futures.FIRST_COMPLETED).done:
                    running.pop(done)
                    well = well and done.result()
        return well


def prover(words, name, log=None, folder=None):
    """Runs the prover in a crate's folder. Its output goes to a log where one is named, of which the end is shown where it fails."""
    begun = time.time()
    env = {**os.environ, "MIMALLOC_PURGE_DELAY": "-1"}
    if log:
        os.makedirs(os.path.dirname(log), exist_ok=True)
    with open(log, "w", encoding="utf-8") if log else tempfile.TemporaryFile("w+") as out:
        to = out if log else None
        status = subprocess.run([f"{KIT}/bin/rattle", *words], cwd=folder or f"{TOP}/crates/{name}", stdin=subprocess.DEVNULL, stdout=to, stderr=to, env=env).returncode
    if log and status:
        print("".join(open(log, encoding="utf-8", errors="replace").readlines()[-40:]), end="")
    print(f"{name}: {'proved' if status == 0 else f'status {status}'}, {time.time() - begun:.0f} s", flush=True)
    return status == 0


def run_tests(tree, name):
    """Proves, builds and runs the tests of a crate."""
    made = f"{TOP}/out/tests/{name}"
    os.makedirs(os.path.dirname(made), exist_ok=True)
    words = ["build", *tree.words(name, tests=True), "--test", "--toolchain", f"{KIT}/toolchain", "--backend", "llvm", "-o", f"{made}.o"]
    if not prover(words, name):
        return False
    link = ["--target", "x86_64-unknown-linux-gnu", "--toolchain", f"{KIT}/toolchain", "-o", made, f"{made}.o", f"{KIT}/c/libos_c.a", f"{KIT}/c/liblibc_c.a"]
    subprocess.run([f"{KIT}/bin/rattle-link", *link], check=True)
    return subprocess.run([f"{KIT}/bin/rattle-test", "--seconds", "60", made]).returncode == 0


def edited(name, edit, room):
    """Copies a crate with an edit applied. Says whether each of its texts stood there once."""
    for part in PARTS:
        if os.path.isdir(f"{TOP}/crates/{name}/{part}"):
            shutil.copytree(f"{TOP}/crates/{name}/{part}", f"{room}/{part}")
    file = old = ""
    for line in open(edit, encoding="utf-8").read().split("\n"):
        key, _, rest = line.partition(":")
        if key == "file":
            file = rest.strip()
        elif key == "old":
            old = rest[1:]
        elif key == "new":
            text = open(f"{room}/{file}", encoding="utf-8").read()
            if text.count(old) != 1:
                return False
            with open(f"{room}/{file}", "w", encoding="utf-8") as it:
                it.write(text.replace(old, rest[1:]))
    return True


def try_edits(tree, name, names):
    """Tries must-fail edits over what is kept of the crate, each in a copy."""
    folder, well = f"{TOP}/crates/{name}/must-fail", True
    for edit in names or sorted(it for it in os.listdir(folder) if it.endswith(".edit")):
        with tempfile.TemporaryDirectory(prefix="edit-") as room:
            applies = edited(name, f"{folder}/{edit}", room)
            log = f"{room}/log"
            if applies:
                subprocess.run(["cp", "-a", tree.incremental(name)[1], f"{room}/incremental"], check=True)
                prover(["check", *tree.words(name), "--incremental", f"{room}/incremental"], f"{name}, {edit}", log, room)
            said = open(log, encoding="utf-8", errors="replace").read().strip().split("\n") if applies else [""]
            refused = applies and said[-1].startswith("logic=not-proved")
            print(f"{name}/{edit}: {'refused' if refused else 'NOT REFUSED' if applies else 'a text of it stands not once'}", flush=True)
            well = well and refused
    return well


def main():
    words = argparse.ArgumentParser(prog="bench/prove.py", description=__doc__, formatter_class=argparse.RawDescriptionHelpFormatter)
    words.add_argument("--over", metavar="TREE", type=os.path.realpath)
    words.add_argument("--at-once", metavar="N", type=int)
    words.add_argument("what", choices=("build", "check", "test", "edits"))
    words.add_argument("names", nargs=argparse.REMAINDER)
    words = words.parse_args()
    tree = Tree(words.over)
    memory = int(next(line.split()[1] for line in open("/proc/meminfo") if line.startswith("MemAvailable"))) >> 20
    at_once = words.at_once or max(1, min(os.cpu_count(), memory // GIB_EACH))
    if words.what == "build":
        names = words.names or below(PROGRAM)
        wanted = [it for name in names for it in [*below(name), name]]
        sys.exit(not tree.build_all(list(dict.fromkeys(wanted)), at_once))
    name, flags = words.names[0], words.names[1:]
    if not tree.build_all(below(name), at_once):
        sys.exit(1)
    if words.what == "check":
        sys.exit(not prover(["check", *tree.words(name), *tree.incremental(name), *flags], name))
    sys.exit(not (run_tests(tree, name) if words.what == "test" else try_edits(tree, name, flags)))


if __name__ == "__main__":
    main()
