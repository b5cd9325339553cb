#!/usr/bin/env bash
# Shows what a long run says of what it is at: nothing where that isn't asked for, and about a line a second on standard error
# where it is, or where standard error is a terminal; the report is the same. Words: the program, by default that of bench/program.sh.
# Ends with status 1 where something isn't as it is said. Not part of the gate, since it takes some seconds.
set -u
unset NPNP_PROGRESS NPNP_EXPLAIN
here=$(cd "$(dirname "${BASH_SOURCE[0]}")" && pwd)
npnp=${1-$("$here/../bench/program.sh")}
. "$here/multiplier.sh"
work=$(mktemp -d)
trap 'rm -rf "$work"' EXIT
failed=0

holds() { # WHAT COMMAND ..: whether the command ends with status 0
  local what=$1
  shift
  if "$@"; then
    echo "ok: $what"
  else
    echo "WRONG: $what"
    failed=1
  fi
}

# the rows of the two are added in opposite orders, so that few of their gates are equal, and the proof is long
multiplier 7 0 1 2 3 4 5 6 >"$work/up.blif"
multiplier 7 6 5 4 3 2 1 0 >"$work/down.blif"
NPNP_PROGRESS=1 "$npnp" match "$work/up.blif" "$work/down.blif" "$work/told.account" >"$work/told" 2>"$work/lines"
"$npnp" match "$work/up.blif" "$work/down.blif" "$work/account" >"$work/untold" 2>"$work/nothing"
cat "$work/lines"
holds 'a long run says which output it proves' grep -q '^npnp: [0-9]* s: proving output [0-9]* of 14; [0-9]* clauses learned$' "$work/lines"
holds 'it says nothing else' [ "$(grep -cv '^npnp: [0-9]* s: ' "$work/lines")" -eq 0 ]
holds 'it says so once a second at most' [ -z "$(cut -d : -f 2 "$work/lines" | uniq -d)" ]
holds 'the report is the same' cmp "$work/told" "$work/untold"
holds 'the account is the same' cmp "$work/told.account" "$work/account"
holds 'nothing is said where nobody asks' [ ! -s "$work/nothing" ]
NPNP_PROGRESS=1 "$npnp" info "$here/full_adder.blif" >"$work/short" 2>"$work/nothing"
holds 'a short run says nothing' [ ! -s "$work/nothing" ]
if command -v script >/dev/null; then
  # standard error is a terminal there, and standard output a file
  on_terminal() { # VARIABLE=VALUE
    script -qec "$1 '$npnp' match '$work/up.blif' '$work/down.blif' '$work/account' >'$work/told'" /dev/null >"$work/lines" </dev/null
  }
  on_terminal ''
  holds 'on a terminal a long run says so by itself' grep -q '^npnp: [0-9]* s: ' "$work/lines"
  holds 'the report is the same there' cmp "$work/told" "$work/untold"
  on_terminal NPNP_PROGRESS=0
  holds 'unless it is forbidden' [ "$(grep -c '^npnp: ' "$work/lines")" -eq 0 ]
fi
exit "$failed"
