#!/usr/bin/env python3
"""What stands twice in specs/ and proofs/, and what nothing names. Run at the top; prints a line for each find, and reads nothing but sources.

    bench/twice.py

- lemmas and definitions of one text but for the names of what they are and of their variables
- lemmas of proofs/ that no other text names

A find is a place to look, not a fault: short forms of two formats may be alike by chance.
"""
import collections
import pathlib
import re

NAME = r"[^\s(){}\[\],;.:]+"
DECLARED = re.compile(rf"^((?:unfoldable |abbrev |pub )*)({NAME}) : ")


def sources():
    return sorted(it for it in pathlib.Path("crates").glob("**/*") if it.suffix in (".rt", ".antt") and "out" not in it.parts)


def blocks(text):
    """Each declaration at the left margin: its name, its line and its text with all equations."""
    lines = text.split("\n")
    for place, line in enumerate(lines):
        found = DECLARED.match(line)
        if not found or "goal." in line:
            continue
        own = re.compile(re.escape(found[2]) + r"(?= |$)")
        end = place + 1
        while end < len(lines) and (lines[end].startswith((" ", "}")) or own.match(lines[end])):
            end += 1
        yield found[2], place + 1, [line[len(found[1]):], *lines[place + 1:end]]


def variables(name, lines):
    """The names that a declaration binds: in its type, under lambdas and on the left of its equations."""
    text = " ".join(lines)
    bound = {it for group in re.findall(r"[({]([^(){}:]+) :", text) for it in group.split()}
    for group in re.findall(r"λ ([^.]+)\.", text):
        bound.update(re.findall(r"[a-z_][\w']*", group))
    for line in lines:
        left = re.match(re.escape(name) + r" (.*?) =( |$)", line)
        if left:
            bound.update(re.findall(r"[a-z_][\w']*", left[1]))
    return bound


def form(name, lines):
    """The declaration's text with numbers in place of the names that don't matter."""
    bound, number = variables(name, lines), {name: "self"}
    words = re.findall(NAME + r"|[(){}\[\],;.:]", " ".join(it.strip() for it in lines))
    return " ".join(number.setdefault(it, str(len(number))) if it in bound or it == name else it for it in words)


def main():
    texts = {it: re.sub(r"^[ \t]*(--|//).*$", "", it.read_text(), flags=re.M) for it in sources()}
    named = collections.Counter(word for text in texts.values() for word in re.findall(NAME, text))
    forms = collections.defaultdict(list)
    for path, text in texts.items():
        if path.suffix != ".antt":
            continue
        for name, line, lines in blocks(text):
            forms[form(name, lines)].append(f"{path}:{line} {name}")
            inside = re.findall(NAME, "\n".join(lines)).count(name)
            if "proofs" in path.parts and path.name not in ("Answers.antt", "Invariants.antt") and named[name] <= inside:
                print(f"nothing names {path}:{line} {name}")
    for found in sorted(forms.values(), key=lambda it: it[0]):
        if len(found) > 1:
            print("twice " + " ~ ".join(found))


main()
