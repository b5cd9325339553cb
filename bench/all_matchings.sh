#!/usr/bin/env bash
# Answers of `match` against trying all matchings: pairs of circuits of at most 5 inputs and 3 outputs, drawn by a seed. The second is
# the first with its ports moved, the first's functions written anew, the first with a gate changed, with a 0 and a 1 of an output
# exchanged, with an output taken from another place, or drawn by itself; the latter may match by chance. Each answer has to be the
# one that trying all signed bijections gives, each matching a match on all vectors, and `check` has to accept each account, in either
# version; `trim` has to give the bytes of each account again, and so has `convert` there and back. Prints the answers by kind. Not part of the gate. Ends with status 1 where an answer is wrong.
# With --phase one of the two phases is asked by itself, of a plain copy (bench/plain_copy.sh), which is made first where --program doesn't name one:
# `search` has to answer as all matchings do, of which there is no account; `guess` may miss a match, and what it finds has to be one.
#
#     bench/all_matchings.sh [--pairs N] [--seed SEED] [--phase guess|search] [--program PATH] [--limit SECONDS] [--late FOLDER]
set -eu
top=$(cd "$(dirname "${BASH_SOURCE[0]}")/.." && pwd)
exec python3 "$top/bench/all_matchings.py" "$top" "$@"
