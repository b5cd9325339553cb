#!/usr/bin/env bash
# Runs the program on files of the machine, and compares its status, its first line and what it explains on standard error with what
# is wanted. Words: the program, by default that of bench/program.sh. Ends with status 1 where one differs. Not part of the gate, which
# runs the same program on files in memory.
set -u
unset NPNP_EXPLAIN NPNP_PROGRESS
here=$(cd "$(dirname "${BASH_SOURCE[0]}")" && pwd)
npnp=${1-$("$here/../bench/program.sh")}
npnp=$(readlink -f -- "$npnp")
. "$here/multiplier.sh"
. "$here/processor.sh"
work=$(mktemp -d)
trap 'rm -rf "$work"' EXIT
cp "$here"/*.aag "$here"/*.aig "$here"/*.blif "$here"/*.account "$work"
cd "$work" || exit 1
sed 's/i0-1/i0+1/' a-b.account >sign.account
sed 's/i1+0/i1+1/' a-b.account >twice.account
sed '/end/d' a-b.account >cut.account
sed 4d and-or.account >order.account
sed '3s/1 2 6/1 2/' and-or.account >hint.account
sed 's/6 5 2/6 5 3/' b.aag >other.aag
sed 's/npnp 1/npnp 9/' a-b.account >header.account
sed '10s/0 1$/0/' and-xor.account >plain.account
sed '7s/0 7 1/0 7/' and-xor.account >line.account
mkdir folder
printf 'aig 3 2 0 2 1\n6\n2\n\2\2' >a.aig
failed=0

# says that something is as it is wanted, or isn't
tell() { # WHETHER WHAT WANTED SEEN
  if [ "$1" -eq 0 ]; then
    echo "ok: $2: $3"
  else
    echo "WRONG: $2: '$4'; wanted '$3'"
    failed=1
  fi
}

# the status and the first line of what is printed
wants() { # STATUS FIRST-LINE WORDS..
  local wanted="$2, status $1" printed status
  printed=$("$npnp" "${@:3}" 2>/dev/null)
  status=$?
  printed="${printed%%$'\n'*}, status $status"
  [ "$printed" = "$wanted" ]
  tell $? "npnp ${*:3}" "$wanted" "$printed"
}

# a text that is in what is explained on standard error; the report is the same as without
explains() { # TEXT WORDS..
  local report
  report=$("$npnp" "${@:2}" 2>/dev/null)
  NPNP_EXPLAIN=1 "$npnp" "${@:2}" 2>explained >explained.report
  [[ $(<explained) == *"$1"* ]]
  tell $? "npnp ${*:2} explains" "$1" "$(<explained)"
  [ "$report" = "$(<explained.report)" ] || tell 1 "npnp ${*:2} with NPNP_EXPLAIN=1" "$report" "$(<explained.report)"
}

# nothing is explained where nobody asks
silent() { # WORDS..
  "$npnp" "$@" 2>explained >/dev/null
  [ ! -s explained ]
  tell $? "npnp $* on a standard error that is no terminal" '' "$(<explained)"
}

wants 0 'accepted match' check a.aag b.aag a-b.account
wants 0 'accepted match' check and.blif or.blif and-or.account
wants 0 'accepted match' check c17.blif c17_moved.aig c17.account
wants 0 'accepted match' check alu4.aig alu4_lost.aig alu4.account
wants 1 'accepted refusal' check and.blif xor.blif and-xor.account
wants 0 'inputs 3' info full_adder.blif
wants 0 'inputs 5' info c17.blif
wants 3 'spent 0' info mixed.blif 0
wants 2 'rejected line 10 rule' check and.blif xor.blif plain.account
wants 2 'rejected line 7 refutation' check and.blif xor.blif line.account
wants 2 'rejected line 3 refutation' check a.aag b.aag sign.account
wants 2 'rejected line 2 conclusion' check a.aag b.aag twice.account
wants 2 'rejected line 7 truncated' check a.aag b.aag cut.account
wants 2 'rejected line 4 order' check and.blif or.blif order.account
wants 2 'rejected line 3 refutation' check and.blif or.blif hint.account
wants 2 'rejected line 1 header' check a.aag b.aag header.account
wants 2 'rejected line 1 header' check a.aag b.aag a.aag
wants 2 'rejected line 3 refutation' check a.aag other.aag a-b.account
wants 2 'rejected line 3 refutation' check a.aag a.aig a-b.account
wants 5 'absent account' check a.aag b.aag absent.account
wants 5 'absent first' check absent.aag b.aag a-b.account
wants 5 'malformed second 27 0' check a.aag a-b.account a-b.account
# what match writes is accepted; where it has no answer it writes nothing
wants 0 'matched' match a.aag b.aag made.account
wants 0 'accepted match' check a.aag b.aag made.account
wants 0 'matched' match oai221.blif oai221_lost.blif made.account
wants 0 'accepted match' check oai221.blif oai221_lost.blif made.account
wants 0 'matched' match c17.blif c17_moved.aig made.account
wants 0 'accepted match' check c17.blif c17_moved.aig made.account
wants 1 'no matching' match and.blif xor.blif made.account
wants 1 'accepted refusal' check and.blif xor.blif made.account
wants 1 'no matching' match and.blif c17.blif made.account
wants 1 'accepted refusal' check and.blif c17.blif made.account
{ echo 'aag 1024 1024 0 0 0'; seq 2 2 2048; } >wide.aag
wants 0 'matched' match wide.aag wide.aag made.account 0
wants 0 'accepted match' check wide.aag wide.aag made.account
# as many inputs as may be, paired in order; and one more
echo 'aig 4096 4096 0 0 0' >widest.aig
{ echo 'npnp 1'; seq 0 4095 | awk '{ printf " i%d+%d", $1, $1 }' | sed 's/^/match/'; echo; echo 'end'; } >widest.account
wants 0 'accepted match' check widest.aig widest.aig widest.account
echo 'aig 4097 4097 0 0 0' >too_wide.aig
wants 5 'malformed first 4 0' check too_wide.aig widest.aig widest.account
wants 3 'spent 0' match a.aag b.aag unwritten.account 0
wants 5 'absent second' match a.aag absent.aag unwritten.account
wants 5 'absent account' check a.aag b.aag unwritten.account
wants 4 'usage' match a.aag b.aag a.aag
wants 4 'usage' match a.aag b.aag made.account 1 2 3
wants 6 '' match a.aag b.aag folder
# an account's name that leads to a netlist, by another path or a link, is refused, and the netlist stays
ln -s a.aag link.account
ln b.aag other.account
wants 6 '' match a.aag b.aag ./a.aag
wants 6 '' match a.aag b.aag link.account
wants 6 '' match a.aag b.aag other.account
wants 0 'accepted match' check a.aag b.aag a-b.account
# a device or a pipe takes an account as it can
wants 6 '' match a.aag b.aag /dev/full
wants 4 'usage'
wants 4 'usage' info c17.blif 18446744073709551616
wants 6 'read fault' check folder b.aag a-b.account
wants 6 'read fault' check a.aag b.aag folder
# what comes through a pipe is read to its end; a device without an end is too large for a netlist, and a fault as an account
wants 0 'accepted match' check <(cat a.aag) <(cat b.aag) <(cat a-b.account)
mkfifo named_pipe
cat c17.blif >named_pipe &
wants 0 'accepted match' check named_pipe c17_moved.aig c17.account
wants 5 'malformed first 28 0' check /dev/null b.aag a-b.account
wants 5 'too large first' check /dev/zero b.aag a-b.account
wants 5 'too large first' info /dev/zero
wants 6 'read fault' check a.aag b.aag /dev/zero

# names are given back by an account of a match; a refusal and a rejected account leave the new file
wants 0 'restored 1' restore a.aag b.aag a-b.account named.aig
wants 0 'restored 1' restore and.blif or.blif and-or.account named.aig
wants 0 'restored 6' restore c17.blif c17_moved.aig c17.account named.aig
wants 0 'inputs 5' info named.aig
wants 1 'accepted refusal' restore and.blif xor.blif and-xor.account unnamed.aig
wants 2 'rejected line 3 refutation' restore a.aag b.aag sign.account unnamed.aig
wants 5 'absent account' restore a.aag b.aag absent.account unnamed.aig
[ ! -e unnamed.aig ]
tell $? 'a netlist that is not restored' '' unnamed.aig
wants 4 'usage' restore a.aag b.aag a-b.account a.aag
wants 6 '' restore a.aag b.aag a-b.account ./a.aag
wants 6 '' restore a.aag b.aag a-b.account folder
wants 0 'accepted match' check a.aag b.aag a-b.account
explains 'npnp restore a.aag b.aag made.account NEW' match a.aag b.aag made.account

# an account is trimmed and converted, there and back; one that isn't accepted leaves the new file
wants 0 'trimmed 5 5' trim and.blif or.blif and-or.account trimmed.account
cmp -s and-or.account trimmed.account
tell $? 'an account that is trimmed to itself' '' trimmed.account
wants 0 'converted 1 2 12' convert and-xor.account bytes.account
wants 1 'accepted refusal' check and.blif xor.blif bytes.account
wants 0 'trimmed 19 12' trim and.blif xor.blif bytes.account trimmed.account
wants 0 'converted 2 1 19' convert bytes.account text.account
cmp -s and-xor.account text.account
tell $? 'an account that is converted there and back' '' text.account
wants 2 'rejected line 3 refutation' trim a.aag b.aag sign.account untrimmed.account
wants 5 'absent account' convert absent.account untrimmed.account
[ ! -e untrimmed.account ]
tell $? 'an account that is not trimmed' '' untrimmed.account
wants 4 'usage' convert and-xor.account and-xor.account
wants 6 '' convert and-xor.account ./and-xor.account

# a file of models is flattened: the AND by two NANDs; a file with a fault leaves the new file
printf '.model top\n.inputs a b\n.outputs y\n.subckt nd p=a q=b r=t\n.subckt nd p=t q=t r=y\n.end\n' >nands.blif
printf '.model nd\n.inputs p q\n.outputs r\n.names p q r\n11 0\n.end\n' >>nands.blif
wants 0 'flattened 2 3 2' flatten nands.blif flat.aag
wants 0 'matched' match and.blif flat.aag flat.account
wants 0 'accepted match' check and.blif flat.aag flat.account
sed s/q=b// nands.blif >unbound.blif
wants 5 'malformed first 45 34' flatten unbound.blif unflat.aag
wants 5 'absent first' flatten absent.blif unflat.aag
[ ! -e unflat.aag ]
tell $? 'a netlist that is not flattened' '' unflat.aag
wants 4 'usage' flatten nands.blif nands.blif
wants 6 '' flatten nands.blif ./nands.blif
explains 'unbound.blif:4:1: an input that is not bound' flatten unbound.blif unflat.aag

# a netlist is swept: two gates that compute the same are one; a file that is none leaves the new file
printf 'aag 4 2 0 2 2\n2\n4\n6\n8\n6 2 4\n8 6 2\n' >twice.aag
wants 0 'swept 2 1 whole' sweep twice.aag swept.aag
wants 0 'swept 2 2 spent' sweep twice.aag spent.aag 0
wants 0 'matched' match twice.aag swept.aag swept.account
wants 0 'accepted match' check twice.aag swept.aag swept.account
wants 5 'absent first' sweep absent.aag unswept.aag
[ ! -e unswept.aag ]
tell $? 'a netlist that is not swept' '' unswept.aag
wants 4 'usage' sweep twice.aag twice.aag
wants 6 '' sweep twice.aag ./twice.aag
explains 'the allowance of 0 learned clauses was spent' sweep twice.aag spent.aag 0

# ABC finds the netlist that was restored equal to the first one, port by port, by their names
is_equal() { # FIRST RESTORED
  local answer
  answer=$(berkeley-abc -q "cec $1 $2" 2>&1)
  [[ $answer == *'Networks are equivalent'* && $answer != *'warning'* ]]
  tell $? "cec of $1 and $2" 'Networks are equivalent' "$answer"
}

# looks for a match, and gives the names back
restores() { # FIRST SECOND NEW
  wants 0 'matched' match "$1" "$2" restored.account
  [ "$("$npnp" restore "$1" "$2" restored.account "$3" | cut -d' ' -f1)" = restored ]
  tell $? "npnp restore $1 $2 restored.account $3" restored other
}

processor 4 >processor.blif
lose 7 <processor.blif >lost.blif
restores oai221.blif oai221_lost.blif oai221.aig
restores processor.blif lost.blif processor.aig
if command -v berkeley-abc >/dev/null; then
  is_equal c17.blif named.aig
  is_equal oai221.blif oai221.aig
  is_equal processor.blif processor.aig
  # the processor with its ports lost, resynthesized
  berkeley-abc -q 'read_blif lost.blif; strash; dch; if -K 5; strash; dc2; write_aiger lost.aig' >/dev/null
  restores processor.blif lost.aig processor_again.aig
  is_equal processor.blif processor_again.aig
  # a whole cell library
  cp -r "$here/library" library
  make -s -C library -j"$(nproc)" NPNP="$npnp" named >/dev/null
  for cell in library/first/*.blif; do
    is_equal "$cell" "library/named/$(basename -s .blif "$cell").aig"
  done
else
  echo 'skipped: no berkeley-abc compares the netlists that were restored'
fi
if command -v yosys >/dev/null; then
  inputs=$(yosys -p 'read_aiger named.aig; stat; select -count i:*' 2>/dev/null | grep -o '^5 objects')
  [ "$inputs" = '5 objects' ]
  tell $? 'yosys reads named.aig' '5 objects' "$inputs"
fi

# what the program says of itself
wants 0 'npnp match FIRST SECOND ACCOUNT [BUDGET [SEED]]' --help
wants 0 'npnp match FIRST SECOND ACCOUNT [BUDGET [SEED]]' -h
wants 0 "npnp 0.4.0 ($(cat "$here/../release/KIT"))" --version

# names that begin with `-` are names
cp and.blif ./-and.blif
cp xor.blif ./--help.blif
wants 0 'inputs 2' info -and.blif
wants 1 'no matching' match -and.blif --help.blif -made.account
wants 1 'accepted refusal' check -and.blif --help.blif -made.account

# on standard error a malformed netlist is explained with its line, and what to do about it
printf '.model m\n.inputs a b\n.outputs y\n.names a b y\n111 1\n.end\n' >-row.blif
explains '-row.blif:5:1: ' info -row.blif
explains '111 1' info -row.blif
silent info -row.blif
printf '.model m\n.inputs a\n.outputs y\n.gate inv a=a y=y\n.end\n' >gate.blif
explains 'gate.blif:4:1: ' info gate.blif
explains 'unmap' info gate.blif
printf '.model m\n.inputs a\n.outputs y\n.subckt n a=a y=y\n.end\n.model n\n.inputs a\n.outputs y\n.names a y\n1 1\n.end\n' >subckt.blif
explains 'flatten' info subckt.blif
sed 4s/.*/'.names a y\n1 1'/ subckt.blif >models.blif
explains 'flatten' info models.blif
printf '.model m\n.inputs a\n.outputs y\n.latch a y 0\n.end\n' >latch.blif
explains 'cut it at the registers' info latch.blif
printf 'aag 2 1 1 1 0\n2\n4 2\n4\n' >latch.aag
explains 'cut it at the registers' info latch.aag
printf '// a comment\nmodule m(input a, output y);\nassign y = a;\nendmodule\n' >module.v
explains 'Verilog' info module.v
printf 'library (cells) {\n}\n' >cells.lib
explains 'Liberty' info cells.lib
gzip -nc and.blif >and.blif.gz
explains 'gzip' info and.blif.gz
{ printf '\xef\xbb\xbf'; cat and.blif; } >mark.blif
explains 'byte order mark' info mark.blif
: >empty.blif
explains 'empty' match and.blif empty.blif made.account
# so are a rejected account, a file that isn't there or can't be read, and words of no form
explains 'order.account:4: ' check and.blif or.blif order.account
explains 'absent.aag: ' check a.aag absent.aag a-b.account
explains 'folder: ' check a.aag folder a-b.account
explains 'made.account' match a.aag b.aag made.account 1 2 made.account
explains 'frobnicate' frobnicate a.aag
# `no matching` is followed by one line of why: the port counts, or a port that has no partner
explains 'output' match and.blif xor.blif made.account
tell $(($(wc -l <explained) != 1)) 'why there is no matching is one line' 1 "$(wc -l <explained)"
explains 'inputs' match and.blif c17.blif made.account
silent match and.blif xor.blif made.account
# names are printed without control characters
cp ./-row.blif $'a\x1b[2Jb.blif'
explains '2Jb.blif:5:1: ' info $'a\x1b[2Jb.blif'
! grep -q $'\x1b' explained
tell $? 'a name with a control character' '' "$(cat -v explained)"

# a folder that isn't there is said at once, before the search, and the answer's status is that of a failed write
wants 6 '' match a.aag b.aag absent/made.account
explains 'absent' match a.aag b.aag absent/made.account
multiplier 10 0 1 2 3 4 5 6 7 8 9 >up.blif
multiplier 10 9 8 7 6 5 4 3 2 1 0 >down.blif
NPNP_EXPLAIN=1 "$npnp" match up.blif down.blif absent/made.account 2>explained >/dev/null &
sleep 1
[[ $(<explained) == *absent* ]]
tell $? "a folder that isn't there is said within a second" absent "$(<explained)"
# TERM ends the program, and leaves none under the script
kill %% && wait %% 2>/dev/null
status=$?
tell $((status != 143)) 'a run that TERM ends' 143 "$status"
"$here/../npnp" match up.blif down.blif killed.account >/dev/null 2>&1 &
started=$!
sleep 1
became=$(readlink "/proc/$started/exe")
[[ $became == */release/* ]]
tell $? 'the script became the program' release "$became"
kill "$started" && wait "$started" 2>/dev/null
[ ! -e "/proc/$started" ] && [ ! -s killed.account ]
tell $? 'a script that TERM ends leaves no program' '' "$started"

# a standard output that is closed or full is a failed write, also where a report is explained
for explain in 0 1; do
  NPNP_EXPLAIN=$explain "$npnp" info c17.blif >&- 2>/dev/null
  status=$?
  tell $((status != 6)) "a closed standard output, NPNP_EXPLAIN=$explain" 6 "$status"
  NPNP_EXPLAIN=$explain "$npnp" info c17.blif >/dev/full 2>/dev/null
  status=$?
  tell $((status != 6)) "a full standard output, NPNP_EXPLAIN=$explain" 6 "$status"
done
# no temporary folder is needed
TMPDIR=/nonexistent NPNP_EXPLAIN=1 "$here/../npnp" info c17.blif >/dev/null 2>&1
status=$?
tell $((status != 0)) 'the script without a temporary folder' 0 "$status"

# the file that standard output goes to isn't made again, whatever name leads to it; a file that the run made isn't either; and a
# file that would pass the limit on its size is a failed write, and no signal
wants 6 '' match a.aag b.aag /dev/stdout
wants 6 '' make 7 /dev/stdout made.blif

# the status of a run whose standard output is added to a file, and whose files have at most so many blocks of 1,024 bytes
ends() { # STATUS FILE BLOCKS WORDS..
  local ended
  (ulimit -f "$3" && exec "$npnp" "${@:4}") >>"$2" 2>/dev/null
  ended=$?
  [ "$ended" = "$1" ]
  tell $? "npnp ${*:4} >>$2" "status $1" "status $ended"
}

# whether two files have the same bytes
is_same() { # ONE OTHER
  cmp -s "$1" "$2"
  tell $? "$1 has what $2 has" same different
}

echo kept >output
cp output kept
ln -s output output_link
ln output output_other
for name in /dev/stdout output ./output output_link output_other; do
  ends 6 output unlimited match a.aag b.aag "$name"
done
ends 6 output unlimited make 7 output made.blif
is_same output kept
ends 0 /dev/null unlimited match a.aag b.aag /dev/null
wants 0 'made 64 32 2000' make 7 whole.aig whole.blif
ln -s one.aig one_link
: >two.aig
ln two.aig two_other
wants 6 '' make 7 one.aig one_link
wants 6 '' make 7 two.aig two_other
wants 6 '' make 7 three.aig ./three.aig
for name in one two three; do
  is_same "$name.aig" whole.aig
done
ends 6 report 1 match alu4.aig alu4_lost.aig large.account
ends 0 report 1 match a.aag b.aag small.account
: >empty
ends 6 no_report 0 info c17.blif
is_same no_report empty
exit "$failed"
