#!/usr/bin/env bash
# What files of a stranger cost: generates each kind of file in two sizes, one the double of the other, has the program read it, and prints
# processor seconds, memory at most, and by what factor the seconds grew. Not part of the gate. Ends with status 1 where a run ends
# otherwise than it should.
#
#     bench/hostile.sh [--limit SECONDS] [NAME ..]      NAME: rows by their first words, as `cover`; by default all
set -eu
top=$(cd "$(dirname "${BASH_SOURCE[0]}")/.." && pwd)
exec python3 "$top/bench/hostile.py" "$("$top/bench/program.sh")" "$@"
