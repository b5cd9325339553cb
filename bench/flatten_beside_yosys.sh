#!/usr/bin/env bash
# Drawn hierarchies in BLIF, flattened by `npnp flatten` and by yosys: both netlists have to have the same ports and to be equal for ABC's
# `cec`. For the first 20, `match` of the two has to be `matched`, and `check` to accept its account. Then 1,000 instances of a block of
# 1,000 gates, whose seconds are printed, and 2^23 instances, of which there are too many: that has to be said at once. Needs Debian's
# yosys and berkeley-abc. Not part of the gate. Ends with status 1 where one of these isn't so.
#
#     bench/flatten_beside_yosys.sh [--count N] [--seed N] [--keep FOLDER]
set -eu
top=$(cd "$(dirname "${BASH_SOURCE[0]}")/.." && pwd)
exec python3 "$top/bench/flatten_beside_yosys.py" "$("$top/bench/program.sh")" "$@"
