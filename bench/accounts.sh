#!/usr/bin/env bash
# What accounts cost in either version: accounts that `match` writes of pairs of the other benches, matches and refusals of 1 to 150 MB, and
# the same records in version 2, with drops. Prints the bytes of either, beside those of `xz -1` of the first, the processor seconds (the
# least of three) and the memory at most of `check`, and what part of version 1's seconds and memory version 2 takes. Version 2 is made by
# `npnp convert`, whose seconds and memory are told too, or by bench/account_in_bytes.py where the program doesn't know that. Needs Debian's
# yosys, berkeley-abc, xz-utils and time. Not part of the gate. Ends with status 1 where an account isn't accepted in either version.
#
#     bench/accounts.sh [--folder FOLDER] [--runs N] [--limit SECONDS] [NAME ..]      FOLDER keeps the pairs and the accounts
set -eu
top=$(cd "$(dirname "${BASH_SOURCE[0]}")/.." && pwd)
exec python3 "$top/bench/accounts.py" "$("$top/bench/program.sh")" "$@"
