#!/usr/bin/env bash
# Has other tools write circuits as AIGER and BLIF files, and the program read them: ABC the binary AIGER form with and
# without symbols, and BLIF (Debian's berkeley-abc), Yosys the ASCII form, and BLIF (Debian's yosys). Each file is checked against each other file of its
# circuit by the plain identity, so that the program says of both tools' files that they have one function, and its
# report's lines are counted: one for each port, with the names of the BLIF file where symbols were written. Ends with
# status 1 where something differs. Not part of the gate.
set -eu
top=$(cd "$(dirname "${BASH_SOURCE[0]}")/.." && pwd)
npnp=$("$top/bench/program.sh")
work=$(mktemp -d)
trap 'rm -rf "$work"' EXIT
cd "$work"
cat >c17.blif <<'BLIF'
.model c17
.inputs a b c d e
.outputs x y
.names a c n1
11 0
.names c d n2
11 0
.names b n2 n3
11 0
.names n2 e n4
11 0
.names n1 n3 x
11 0
.names n3 n4 y
11 0
.end
BLIF
{ # the sum of two numbers of 6 bits
  echo .model adder
  echo .inputs a{0..5} b{0..5}
  echo .outputs s{0..6}
  echo .names c0
  for i in {0..5}; do
    printf '.names a%d b%d c%d s%d\n100 1\n010 1\n001 1\n111 1\n' $i $i $i $i
    printf '.names a%d b%d c%d c%d\n11- 1\n1-1 1\n-11 1\n' $i $i $i $((i + 1))
  done
  printf '.names c6 s6\n1 1\n.end\n'
} >adder.blif
{ # a parity, a constant, an input that is an output's complement, and an input that nothing reads
  printf '.model mixed\n.inputs a b c d\n.outputs p one n\n.names a b t\n10 1\n01 1\n.names t c p\n10 1\n01 1\n'
  printf '.names one\n1\n.names a n\n0 1\n.end\n'
} >mixed.blif
failed=0
for row in 'c17 5 2' 'adder 12 7' 'mixed 4 3'; do
  read -r circuit inputs outputs <<<"$row"
  files=("$circuit.blif")
  if command -v berkeley-abc >/dev/null; then
    berkeley-abc -c "read_blif $circuit.blif; strash; write_aiger -s $circuit-abc-named.aig; write_aiger $circuit-abc.aig; write_blif $circuit-abc-named.blif" >/dev/null
    files+=("$circuit-abc-named.aig" "$circuit-abc.aig" "$circuit-abc-named.blif")
  fi
  if command -v yosys >/dev/null; then
    yosys -q -p "read_blif $circuit.blif; techmap; opt_clean; aigmap; write_aiger -ascii -symbols $circuit-yosys-named.aag; write_aiger -ascii $circuit-yosys.aag; write_aiger $circuit-yosys.aig; write_blif $circuit-yosys-named.blif" >/dev/null
    files+=("$circuit-yosys-named.aag" "$circuit-yosys.aag" "$circuit-yosys.aig" "$circuit-yosys-named.blif")
  fi
  for first in "${files[@]}"; do
    for second in "${files[@]}"; do
      python3 "$top/bench/account_of.py" "$first" "$second" account >/dev/null
      printed=$("$npnp" check "$first" "$second" account) || true
      lines=$(wc -l <<<"$printed")
      if [ "${printed%%$'\n'*}" != 'accepted match' ] || [ "$lines" != $((1 + inputs + outputs)) ]; then
        echo "WRONG: $first against $second: $printed"
        failed=1
      fi
    done
    ports=$(tr ' ' '\n' <<<"$(sed -n 's/^\.inputs //p; s/^\.outputs //p' "$circuit.blif")" | tr '\n' ' ')
    python3 "$top/bench/account_of.py" "$first" "$first" account >/dev/null
    printed=$("$npnp" check "$first" "$first" account) || true
    names=$(sed -n 's/^\(input\|output\) [0-9]* \(.*\) = .*/\2/p' <<<"$printed" | tr '\n' ' ')
    case $first in
      *named*) [ "$names" = "$ports" ] || { echo "WRONG: $first: the names $names"; failed=1; } ;;
    esac
    echo "$first: $inputs inputs, $outputs outputs: $names"
  done
done
exit "$failed"
