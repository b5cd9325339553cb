#!/usr/bin/env bash
# Prints how much memory `npnp info` takes at most, and how much of it for each claim. First for netlists of 100 inputs whose
# claims simulation decides: each output is the exclusive or of ANDs of neighbours in a drawn order of the inputs, so it is
# binate in each input and no two may be exchanged, and two claims of each input and two of each pair are broken by a vector.
# Then for the netlist of many small blocks that make_info_circuits.sh makes (with Yosys and ABC), counted by the two claims
# of each input of each output, nearly all of which the netlist's structure decides. Not part of the gate.
set -eu
top=$(cd "$(dirname "${BASH_SOURCE[0]}")/.." && pwd)
work=$(mktemp -d)
trap 'rm -rf "$work"' EXIT
npnp=$("$top/bench/program.sh")

# writes a netlist of 100 inputs and n outputs
chains() {
  python3 - "$1" <<'PYTHON'
import random, sys

inputs, outputs, gates, ends = 100, int(sys.argv[1]), [], []
random.seed(1)


def conjunction(a, b):
    gates.append((2 * (inputs + 1 + len(gates)), max(a, b), min(a, b)))
    return gates[-1][0]


def difference(a, b):
    return conjunction(conjunction(a, b) ^ 1, conjunction(a ^ 1, b ^ 1) ^ 1)


for _ in range(outputs):
    order = random.sample([2 * (i + 1) for i in range(inputs)], inputs)
    products = [conjunction(a, b) for a, b in zip(order, order[1:])]
    end = products[0]
    for product in products[1:]:
        end = difference(end, product)
    ends.append(end)
print("aag", inputs + len(gates), inputs, 0, outputs, len(gates))
print(*[2 * (i + 1) for i in range(inputs)], *ends, sep="\n")
for gate in gates:
    print(*gate)
PYTHON
}

# prints processor seconds and kilobytes at most of `info`
measure() { /usr/bin/time -f '%U %M' "$npnp" info "$1" 2>&1 >"$work/report" | tail -1; }

echo "outputs    claims   seconds     MiB   bytes for each claim more"
before_claims=0 before=0
for outputs in 5 10 20 40 80; do
  chains "$outputs" >"$work/chains.aag"
  read -r seconds kilobytes < <(measure "$work/chains.aag")
  [ "$(grep -c ' binate$' "$work/report")" -eq $((100 * outputs)) ] && ! grep -q '^pair' "$work/report"
  claims=$((outputs * (2 * 100 + 2 * 4950)))
  awk -v o="$outputs" -v c="$claims" -v s="$seconds" -v k="$kilobytes" -v bc="$before_claims" -v b="$before" 'BEGIN {
    printf "%7d %9d %9.2f %7.1f", o, c, s, k / 1024
    print bc ? sprintf("   %.0f", (k - b) * 1024 / (c - bc)) : ""
  }'
  before_claims=$claims before=$kilobytes
done
"$top/bench/make_info_circuits.sh" "$work" >/dev/null 2>&1
read -r seconds kilobytes < <(measure "$work/wide.aig")
claims=$(awk '/^inputs/ { i = $2 } /^outputs/ { o = $2 } END { print 2 * i * o }' "$work/report")
awk -v c="$claims" -v s="$seconds" -v k="$kilobytes" 'BEGIN {
  printf "many small blocks: %d claims of one input, %.2f s, %.1f MiB in all, %.0f bytes for each claim\n", c, s, k / 1024, k * 1024 / c
}'
