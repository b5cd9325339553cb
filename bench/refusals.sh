#!/usr/bin/env bash
# Accounts of refusals for small netlists drawn by a seed, made by trying all matchings, through the program: each is
# accepted, and each with one word changed is refused or still right (bench/refusals.py says how that is seen). Prints the
# counts. Not part of the gate.
#
#     bench/refusals.sh [PAIRS [SEED]]
set -eu
top=$(cd "$(dirname "${BASH_SOURCE[0]}")/.." && pwd)
exec python3 "$top/bench/refusals.py" "$("$top/bench/program.sh")" "${1-400}" "${2-1}"
