"""The crates of the search as one program in plain Rust: what proves is taken away, and what runs stays. See plain_copy.sh.

    plain_copy.py CRATES FOLDER [--edit FILE].. [--mode MODE]
"""
import argparse
import os
import re
import subprocess
import sys

HERE = os.path.join(os.path.dirname(os.path.abspath(__file__)), "plain")
CALLED = ("match_search", "fact_tests", "account_check")  # by plain/program.rs, with all that they stand on
IN_PRELUDE = ("items", "indexmap", "rand_core", "rand_pcg", "itoa", "byteorder")  # plain/prelude.rs has what is used of these
NOT_IN_RUST = ("std::alloc", "std::simd", "std::marker::Model", "std::convert::AsSlice", "std::ops::DerefSlice", "std::snapshot", "thiserror")
CLAUSE = re.compile(r"^[ \t]*(requires|ensures\*?|decreases|ghost|returns)\b", re.M)

HEAD = """#![allow(unused, mixed_script_confusables, private_interfaces)]

#[macro_use]
mod prelude;
mod program;
"""
TAIL = """
fn main() -> Result<(), Box<dyn std::error::Error>> {
    program::main()
}
"""


# ---- which crates, and where their files are

def crates_below(top, called):
    """The crates that some stand on, and these, lowest first: crates.txt has a line for each crate, after those below it."""
    below = {}
    for line in open(os.path.join(top, "..", "crates.txt")):
        name, _, words = line.partition("#")[0].partition(":")
        if name.strip():
            below[name.strip()] = words.split()
    wanted, left = set(), list(called)
    while left:
        name = left.pop()
        if name in below and name not in wanted and name not in IN_PRELUDE:
            wanted.add(name)
            left += below[name]
    return [name for name in below if name in wanted]


def sources_of(top, name):
    """The paths of a crate's sources, within its folder `src`."""
    folder = os.path.join(top, name, "src")
    for at, _, files in os.walk(folder):
        for file in sorted(files):
            if file.endswith(".rt"):
                yield os.path.relpath(os.path.join(at, file), folder)


# ---- edits, in the form of crates/NAME/must-fail

def edits_in(paths):
    """What is to be changed: by a source's path from crates/ on, the lines that stand there and those that come in their place."""
    edits = {}
    for path in paths:
        words = dict(line.split(": ", 1) for line in open(path).read().splitlines() if line and not line.startswith("#"))
        edits.setdefault(words["file"], []).append((words["old"].strip(), words["new"].strip(), path))
    return edits


def edited(text, edits):
    for old, new, path in edits:
        if text.count(old) != 1:
            sys.exit(f"{path}: its old text stands {text.count(old)} times in its file")
        text = text.replace(old, new)
    return text


# ---- from Rattle to Rust

def after_block(text, at):
    """The place after the brace that closes the one at a place."""
    depth = 0
    while True:
        depth += (text[at] == "{") - (text[at] == "}")
        at += 1
        if depth == 0:
            return at


def without_clauses(text):
    """Without contracts and ghost items. A clause ends with its block; a ghost item with a
    semicolon, after a block or without one. Their lines go with them."""
    kept, at = [], 0
    while found := CLAUSE.search(text, at):
        kept.append(text[at : found.start()])
        at = next(place for place in range(found.end(), len(text)) if text[place] in "{;")
        at = at + 1 if text[at] == ";" else after_block(text, at)
        if found[1] == "ghost" and text[at - 1] == "}" and text[at] == ";":
            at += 1
        at += text[at] == "\n"
    return "".join(kept) + text[at:]


def without_models(text):
    """Without what a type means to contracts, of which nothing is left once the clauses are gone, and without texts of types."""
    text = re.sub(r"^impl(<.*>)? (std::marker::)?Model for [^{]*\{(?:\s|//[^\n]*\n)*\}\n", "", text, flags=re.M)
    return re.sub(r"^(?:///.*\n)*impl fmt::Display for \w+ \{\n(?:(?!\}).*\n)*\}\n", "", text, flags=re.M)


def without_drop(text):
    """Without the trait `Drop`, which each type has there that may be let go, and which is another one in Rust; with Rust's own
    derives alone."""
    text = re.sub(r"^(?://.*\n)*impl(?:<.*>)? Drop for [^{]*\{\n(?:(?!\}).*\n)*\}\n", "", text, flags=re.M)
    text = re.sub(r"\s*where\s+\w+: Drop,", "", text)
    text = re.sub(r": Drop\b(?! \+)| \+ Drop\b", "", text)

    def derive(found):
        names = [name for name in re.split(r",\s*", found[1]) if name not in ("Drop", "Error")]
        return f"#[derive({', '.join(names)})]" if names else ""

    return re.sub(r"#\[derive\(([^)]*)\)\]", derive, text)


def without_attributes(text):
    return re.sub(r"#!?\[(tactic|error)\([^\]]*\)\]", "", text)


def with_plain_calls(text):
    """With what Rust has, or the prelude, in place of what takes an allocator or refuses memory."""
    own = r"fn clone\(&self\) -> Result<(\w+), AllocError> \{(.*?)^    \}"
    text = re.sub(own, r"fn clone(&self) -> \1 { let made = || -> Result<\1, AllocError> {\2}; made().unwrap() }", text, flags=re.M | re.S)
    text = text.replace(".clone()", ".try_clone()")
    text = text.replace("fn fmt<W: fmt::Write>(&self, f: &mut fmt::Formatter<W>)", "fn fmt(&self, f: &mut fmt::Formatter<'_>)")
    return text.replace(".collect(alloc)", ".collect_in(alloc)").replace(".to_vec(alloc)", ".copied_in(alloc)")


def without_imports(text):
    names = "|".join(IN_PRELUDE + NOT_IN_RUST)
    return re.sub(rf"^use ({names})\b[^;]*;\n", "", text, flags=re.M)


def with_paths(text, name, crates):
    """With paths that begin at the program, of which each crate is a module."""
    def path(found):
        return f"crate::{name}::" if found[1] == "crate" else f"crate::{found[1]}::"

    return re.sub(rf"(?<![\w:])({'|'.join(['crate', *crates])})::", path, text)


def with_prelude(text):
    """With the prelude's names, after the comment on the whole file, which has to come first."""
    lines = text.split("\n")
    first = next(place for place, line in enumerate(lines) if not line.startswith("//!"))
    return "\n".join([*lines[:first], "use crate::prelude::*;", *lines[first:]])


def plain(text, name, crates):
    for step in (without_clauses, without_models, without_attributes, without_drop, with_plain_calls, without_imports):
        text = step(text)
    return with_prelude(with_paths(text, name, crates))


# ---- the program

def put(path, text):
    os.makedirs(os.path.dirname(path), exist_ok=True)
    with open(path, "w") as file:
        file.write(text)


def write_sources(top, to, edits):
    crates = crates_below(top, CALLED)
    for name in crates:
        for source in sources_of(top, name):
            text = open(os.path.join(top, name, "src", source)).read()
            text = edited(text, edits.pop(f"{name}/src/{source}", []))
            made = "mod.rs" if source == "lib.rt" else source[:-3] + ".rs"
            put(os.path.join(to, name, made), plain(text, name, crates))
    for file in ("prelude.rs", "program.rs"):
        put(os.path.join(to, file), open(os.path.join(HERE, file)).read())
    put(os.path.join(to, "main.rs"), HEAD + "".join(f"pub mod {name};\n" for name in crates) + TAIL)
    if edits:
        sys.exit(f"no such files: {', '.join(edits)}")


def build(folder):
    """Has Rust's compiler make the program, as fast as it can on this machine."""
    command = ["rustc", "--edition", "2024", "-C", "opt-level=3", "-C", "target-cpu=native", "-C", "codegen-units=1"]
    command += [os.path.join(folder, "src", "main.rs"), "-o", os.path.join(folder, "plain")]
    ran = subprocess.run(command, stderr=subprocess.PIPE, text=True)
    if ran.returncode != 0:
        sys.exit(ran.stderr)


def main():
    words = argparse.ArgumentParser(prog="bench/plain_copy.sh", description="makes a program in plain Rust of the crates of the search")
    words.add_argument("crates", help="the folder of the crates")
    words.add_argument("folder", help="where the sources go, and the program `plain`")
    words.add_argument("--edit", action="append", default=[], dest="edits", metavar="FILE", help="a change, more than one by more of these")
    words.add_argument("--no-build", action="store_true", help="write the sources alone")
    choices = words.parse_args()
    write_sources(choices.crates, os.path.join(choices.folder, "src"), edits_in(choices.edits))
    if not choices.no_build:
        build(choices.folder)


if __name__ == "__main__":
    main()
