#!/usr/bin/env bash
# Netlists with gates that compute the same, through `npnp sweep` and through ABC's functional reduction: `fraig` (Mishchenko, Chatterjee,
# Jiang and Brayton, 2005) and `&fraig`. Each has two architectures of one function over the same inputs, of bench/circuits.py, or where there
# is one architecture the circuit and itself as ABC resynthesized it; each is hashed by ABC's `strash` before. The first 100 circuits
# whose netlist has at most 4,000 gates are taken. Prints for each the gates before, and gates after and processor seconds of each of
# the three, and sums of them; seconds are those of whole processes, reading and writing included, those of `fraig` and `&fraig` without
# what ABC takes to read, hash and write alone. What is written has to have the netlist's port names and to be equal to it for ABC's
# `cec`; `match` of the two has to be `matched`, and `check` to accept its account; and where the allowance wasn't spent `fraig` has to find no
# more gates in it that compute the same. Gates are merged into the first of a class, which is another one for ABC, whose order is another: so
# either may leave fewer of the gates before those. Needs Debian's yosys and berkeley-abc. Not part of the gate. Ends with status 1 where one of these isn't so.
#
#     bench/sweep_beside_abc.sh [--limit SECONDS] [--allowance N] [--most GATES] [--count N] [--nets FOLDER] [--keep FOLDER] [CIRCUIT or FAMILY ..]
set -eu
top=$(cd "$(dirname "${BASH_SOURCE[0]}")/.." && pwd)
exec python3 "$top/bench/sweep_beside_abc.py" "$("$top/bench/program.sh")" "$@"
