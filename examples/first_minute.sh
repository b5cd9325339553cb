#!/usr/bin/env bash
# Shows what a new user meets: the first answer at once, by the release; the version and the manual; errors explained with
# their line; the program installed; the library matched cell by cell. Ends with status 1 where something isn't as it is said.
# Not part of the gate, which compares the release with what it built.
set -u
unset NPNP_EXPLAIN NPNP_PROGRESS
here=$(cd "$(dirname "${BASH_SOURCE[0]}")" && pwd)
npnp=$here/../npnp
work=$(mktemp -d)
trap 'rm -rf "$work"' EXIT
failed=0

# whether the text that is wanted is in what was printed
shows() { # WHAT WANTED PRINTED
  if [[ $3 == *"$2"* ]]; then
    echo "ok: $1"
  else
    echo "WRONG: $1: wanted '$2', printed '$3'"
    failed=1
  fi
}

# the milliseconds that twenty calls of a command take at the least and on average
time_calls() { # COMMAND ..
  local call begun
  for call in {1..20}; do
    begun=$(date +%s%N)
    "$@" >/dev/null 2>&1
    echo $(($(date +%s%N) - begun))
  done | awk '{ sum += $1; if (NR == 1 || $1 < least) least = $1 } END { printf "%.0f ms at the least, %.0f on average", least / 1e6, sum / NR / 1e6 }'
}

"$here/../release/check" || exit 1
begun=$(date +%s%N)
report=$("$npnp" match "$here/oai221.blif" "$here/oai221_lost.blif" "$work/account")
milliseconds=$((($(date +%s%N) - begun) / 1000000))
shows 'the first command finds the match' 'matched' "$report"
[ "$milliseconds" -lt 1000 ] || failed=1
echo "the first command took $milliseconds ms"
echo "info of a full adder by the script: $(time_calls "$npnp" info "$here/full_adder.blif");" \
  "by the program: $(time_calls "$here/../release/npnp-x86_64-linux" info "$here/full_adder.blif")"
shows 'the version names the kit' "npnp 0.4.0 ($(cat "$here/../release/KIT"))" "$("$npnp" --version)"
shows 'the help has the statuses' 'status' "$("$npnp" --help)"
shows 'the manual is there' 'NPNP' "$(man "$here/../docs/npnp.1" 2>/dev/null | head -n 1)"

# the forms of the words: README's block, the first lines of the help, and the manual's synopsis without its marks
forms=$(sed -n '/^npnp match/,/^```$/p' "$here/../README.md" | grep '^npnp')
same() { # WHAT FORMS
  if [ "$forms" = "$2" ]; then echo "ok: $1 has README's forms"; else echo "WRONG: $1 has other forms than README: $2" && failed=1; fi
}
same 'the help' "$("$npnp" --help | sed '/^$/,$d')"
same 'the manual' "$(sed -n '/^\.SH SYNOPSIS/,/^\.SH DESC/p' "$here/../docs/npnp.1" |
  sed '/^\.SH/d; /^\.RI/s/ //g; s/^\.RI/ /; s/^\.[BI] *//; s/\\//g; s/^\.br/;/' | tr '\n' ' ' | sed 's/ *; */\n/g; s/  */ /g; s/ $//')"

printf '.model m\n.inputs a b\n.outputs y\n.names a b y\n111 1\n.end\n' >"$work/row.blif"
shows 'a malformed netlist is explained' "$work/row.blif:5:1: " "$(NPNP_EXPLAIN=1 "$npnp" info "$work/row.blif" 2>&1 >/dev/null)"
sed 4d "$here/and-or.account" >"$work/order.account"
shows 'a rejected account is explained' "$work/order.account:4: " \
  "$(NPNP_EXPLAIN=1 "$npnp" check "$here/and.blif" "$here/or.blif" "$work/order.account" 2>&1 >/dev/null)"
shows 'the report stays as it is' 'rejected line 4 order' \
  "$("$npnp" check "$here/and.blif" "$here/or.blif" "$work/order.account" 2>/dev/null)"

"$npnp" --install "$work/prefix" >/dev/null
shows 'the installed program runs' 'inputs 3' "$("$work/prefix/bin/npnp" info "$here/full_adder.blif")"
shows 'the installed manual is found' 'NPNP' "$(man -M "$work/prefix/share/man" npnp 2>/dev/null | head -n 1)"
shows 'a command is completed in bash' 'match' "$(bash -c '. "$1" && COMP_WORDS=(npnp mat) COMP_CWORD=1 && _npnp npnp mat npnp && echo "${COMPREPLY[@]}"' \
  bash "$work/prefix/share/bash-completion/completions/npnp")"
for file in share/zsh/site-functions/_npnp share/doc/npnp/LICENSE; do
  [ -s "$work/prefix/$file" ] || { echo "WRONG: $file isn't installed" && failed=1; }
done

cp -r "$here/library" "$work/library"
begun=$(date +%s)
table=$(make -s -C "$work/library" -j"$(nproc)" NPNP="$work/prefix/bin/npnp" answers/table)
shows "each of the 30 cells is found in the other library ($(($(date +%s) - begun)) s)" '30' "$(cut -d' ' -f1 <<<"$table" | sort -u | wc -l)"
sed -i 's/^\.end/.gate/' "$work/library/first/inv.blif"
rm "$work"/library/answers/inv--*
shows 'a malformed cell shows its line' 'first/inv.blif:' "$(make -s -C "$work/library" -k NPNP="$work/prefix/bin/npnp" 2>&1)"
exit "$failed"
