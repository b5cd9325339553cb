#!/usr/bin/env bash
# Prints the path of the program that scripts here run: NPNP_PROGRAM, if that is given; else the released one, where it is of the
# sources that lie here and this machine runs it; else the one that is proved and built of them, which is done first.
set -eu
script=$(readlink -f -- "${BASH_SOURCE[0]}")
top=${script%/bench/*}
. "$top/release/sums.sh"
if [ -n "${NPNP_PROGRAM-}" ]; then
  echo "$NPNP_PROGRAM"
elif "$top/release/check" 2>/dev/null && runs_here "$released"; then
  echo "$released"
else
  "$top/release/prove" >&2
  echo "$built"
fi
