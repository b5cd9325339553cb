#!/usr/bin/env bash
# Compares what `npnp info` says of netlists with what ABC says of them (Debian's berkeley-abc): the supports and the unateness
# of the outputs with `print_unate`, which goes by BDDs, and with `print_supp`; the symmetric pairs with `print_symm` by BDDs.
# ABC doesn't tell skew symmetries, so those aren't compared. Prints the seconds of either and what ABC didn't answer within
# the limit of 60 seconds, and ends with status 1 where the two differ. Without names it makes the netlists of
# make_info_circuits.sh and takes each as AIGER and as BLIF. Not part of the gate.
#
#     bench/info_beside_abc.sh [NETLIST ..]
set -eu
top=$(cd "$(dirname "${BASH_SOURCE[0]}")/.." && pwd)
if [ $# -eq 0 ]; then
  work=$(mktemp -d)
  trap 'rm -rf "$work"' EXIT
  "$top/bench/make_info_circuits.sh" "$work"
  set -- "$work"/*.aig "$work"/*.blif
fi
npnp=$("$top/bench/program.sh")
failed=0
for file in "$@"; do
  python3 "$top/bench/info_beside_abc.py" "$npnp" "$file" || failed=1
done
exit "$failed"
