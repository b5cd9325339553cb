"""Says of accounts of refusals how many of their facts and bans the conclusion reaches, which should be all of them.

    reached.py ACCOUNT ..
"""
import sys


def named(words):
    """The facts and the bans that a ban's step names."""
    step = words[words.index(":") + 1 :]
    if step[0] == "mismatch":
        return [int(it) for it in step[1:]], []
    if step[0] == "tally":
        return [int(it) for it in step[2:] if it != "/"], []
    if step[0] == "cover":
        last = len(step) - step[::-1].index("/")
        return [], [int(it) for it in step[last:] if it != "-"]
    return [], []


def reached(path):
    """How many facts and bans there are, and how many of either are reached; nothing where there is no `none ban`."""
    facts, bans, conclusion = 0, [], None
    for line in open(path):
        words = line.split()
        if words[0] in ("fails", "holds"):
            facts += 1
        elif words[0] == "ban":
            bans.append(named(words))
        elif words[:2] == ["none", "ban"]:
            conclusion = int(words[2])
    if conclusion is None:
        return None
    of_facts, of_bans = set(), {conclusion}
    for k in range(conclusion, -1, -1):
        if k in of_bans:
            of_facts |= set(bans[k][0])
            of_bans |= set(bans[k][1])
    return facts, len(bans), len(of_facts), len(of_bans)


missed = 0
for path in sys.argv[1:]:
    counts = reached(path)
    if counts is None:
        print(f"{path}: no refusal by a ban")
        continue
    facts, bans, of_facts, of_bans = counts
    missed += facts - of_facts + bans - of_bans
    print(f"{path}: {of_facts} of {facts} facts and {of_bans} of {bans} bans are reached")
sys.exit(missed > 0)
