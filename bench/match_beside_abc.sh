#!/usr/bin/env bash
# Pairs of circuits of which the answer is known, through a program: `match` finds a match or says that there is none, and `check`
# accepts the account. bench/circuits.py has the circuits, of 2 to 256 inputs and of up to 5,000 gates, made by Yosys, most in two architectures. The
# second of a pair is
#   permuted   the first as ABC resynthesized it, its ports permuted;
#   negated    resynthesized otherwise, by mapping to lookup tables, its ports permuted and negated;
#   other      another architecture, resynthesized, its ports permuted and negated;
#   gate       a near miss: resynthesized, an operand of a gate negated, its ports permuted;
#   output     a near miss: an output replaced by another function with the same support and weight (an exclusive or with a
#              product before an input), or, of some graphs, another graph with the same degrees; its ports permuted and negated.
# With `--covers K` both netlists are as a BLIF file has them whose covers, of at most K operands, ABC mapped them to.
# Each match is held against the netlists, on all vectors to 16 inputs, else by ABC's `cec`. That a near miss has no match is known
# by counts that matches preserve, by trying all matchings to 5 inputs, or by construction; where it isn't known, an accepted account
# counts alone. ABC's `bm` (Katebi and Markov, DATE 2010), which knows permutations alone, is run on the pairs of `permuted` and
# `gate`. Limits and seconds are of processor time. Prints the seconds by circuit (m: matched, n: none) and a summary; with more than one program a
# comparison too. With a file of results it goes on where it was stopped. Needs Debian's yosys and berkeley-abc. Not part of the gate.
# Ends with status 1 where an answer is wrong or an account isn't accepted.
#
#     bench/match_beside_abc.sh [--limit SECONDS] [--seed SEED] [--covers K] [--every N] [--start FIRST] [--program [LABEL=]PATH].. [--kinds KIND,..]
#                               [--results FILE] [--nets FOLDER] [--no-bm] [--bm-alone] [--report] [--markdown] [--write FOLDER] [CIRCUIT or FAMILY ..]
set -eu
top=$(cd "$(dirname "${BASH_SOURCE[0]}")/.." && pwd)
exec python3 "$top/bench/match_beside_abc.py" "$("$top/bench/program.sh")" "$@"
