#!/usr/bin/env bash
# What each part of the search is worth: plain copies of the crates (bench/plain_copy.sh), the whole and each without one part, decide the pairs
# of bench/match_beside_abc.sh. bench/parts has an edit for each part, whose first line says what it is. Prints the table of docs/MEASURED.md:
# how many pairs are answered within the limit, and the seconds of all together, where each counts for the limit at most; and which pairs
# come and go without a part. Seconds are those of the processor. Ends where an answer is wrong. Needs rustc, and Debian's yosys and berkeley-abc
# where the pairs aren't made yet. Not part of the gate.
#
#     bench/parts.sh [--limit SECONDS] [--every K] [--start FIRST] [--pairs FOLDER] [--nets FOLDER] [--results FILE] [PART ..]
#                    PAIRS: what `bench/match_beside_abc.sh --write` wrote; all that the sample has. RESULTS: where a stopped run goes on
set -eu
top=$(cd "$(dirname "${BASH_SOURCE[0]}")/.." && pwd)
exec python3 "$top/bench/parts.py" "$top" "$@"
