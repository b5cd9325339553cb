#!/usr/bin/env bash
# Runs `npnp trial` on each number of a range, one process each, as many at once as there are processors, and stops at the first
# whose answer isn't right: each has to print `trial N matched accepted 64 32 2000` with status 0. Prints how many were right, and in how
# many seconds. Not part of the gate. Ends with status 1 where one isn't right.
#
#     bench/trials.sh FROM TO [PROCESSES]
set -eu
[ $# -ge 2 ] || { sed -n '2,/^set/{/^#/s/^# \{0,1\}//p}' "$0" >&2 && exit 2; }
top=$(cd "$(dirname "${BASH_SOURCE[0]}")/.." && pwd)
from=$1 to=$2 processes=${3-$(nproc)}
program=$("$top/bench/program.sh")
export program

# the trial of one number. Status 255 has xargs start no further one.
try_one() {
  local said status=0
  said=$("$program" trial "$1") || status=$?
  if [ "$status" -eq 0 ] && [ "$said" = "trial $1 matched accepted 64 32 2000" ]; then
    echo right
  else
    echo "wrong: trial $1: status $status: $said"
    return 255
  fi
}
export -f try_one

start=$(date +%s.%N)
answers=$(seq "$from" "$to" | xargs -P "$processes" -I {} bash -c 'try_one {}' 2>/dev/null) || true
end=$(date +%s.%N)
right=$(grep -c '^right$' <<<"$answers" || true)
wrong=$(grep '^wrong: ' <<<"$answers" || true)
awk -v from="$from" -v to="$to" -v right="$right" -v start="$start" -v end="$end" -v processes="$processes" 'BEGIN {
  printf "%d of %d trials from %s to %s right, in %.1f s with %d at once\n", right, to - from + 1, from, to, end - start, processes
}'
[ -z "$wrong" ] || echo "$wrong"
[ "$right" -eq $((to - from + 1)) ]
