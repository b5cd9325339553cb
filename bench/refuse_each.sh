#!/usr/bin/env bash
# What a run leaves where memory or a call of the system is refused. Runs `match`, `check` and `info` on small netlists once for each
# allocation that is refused, once for each from which on all are, and once for each call of the system that opens, describes, reads,
# writes, empties, syncs or closes a file and is refused; and `make` for the latter (refuse.c is preloaded, which counts and refuses). Where
# all memory is refused from a place on, the run has to end with status 7 and `out of memory`, or saying nothing where not even the
# words were read; where one allocation is, so or as if it hadn't been, since a list that grows asks for less then. A call of the system has
# to end it with status 6, and `read fault` or nothing, or not at all where the run does without it. No file may have changed but the
# account and the two files of `make`, and these hold what they held, or a first part of what the whole run writes; an account that
# isn't whole has no last line. Needs a C compiler. Not part of the gate. Prints how the runs ended. Ends with status 1 where one ended
# otherwise.
#
#     bench/refuse_each.sh
set -eu
top=$(cd "$(dirname "${BASH_SOURCE[0]}")/.." && pwd)
work=$(mktemp -d)
trap 'rm -rf "$work"' EXIT
cc -O2 -shared -fPIC -o "$work/refuse.so" "$top/bench/refuse.c"
python3 "$top/bench/refuse_each.py" "$("$top/bench/program.sh")" "$work"
