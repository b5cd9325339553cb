#!/usr/bin/env bash
# Prints what a question of a small cone costs by the size of the netlist round it: `npnp info` of 250 outputs of ten gates each
# and four inputs, beside more and more gates that no output reaches. Each output is the AND of one input and the majority of
# three, with exclusive ors between, so that neither simulation nor structure decides its ten claims that hold (four of
# inputs, two of each of three pairs), which are asked one by one. Then what 10,000 questions of such cones cost without simulation:
# `workbench claims` reads the netlist and asks for each output and each of its inputs whether the output may fall where the input goes
# up, in ten rounds, each time again. Not part of the gate.
set -eu
top=$(cd "$(dirname "${BASH_SOURCE[0]}")/.." && pwd)
work=$(mktemp -d)
trap 'rm -rf "$work"' EXIT
outputs=250
questions=$((10 * outputs))
npnp=$("$top/bench/program.sh")
program=$("$top/bench/build_workbench.sh")

# writes such a netlist with n gates that no output reaches
blocks() {
  python3 - "$outputs" "$1" <<'PYTHON'
import sys

outputs, beside, inputs, gates, ends = int(sys.argv[1]), int(sys.argv[2]), 1000, [], []


def conjunction(a, b):
    gates.append((2 * (inputs + 1 + len(gates)), max(a, b), min(a, b)))
    return gates[-1][0]


def difference(a, b):
    return conjunction(conjunction(a, b ^ 1) ^ 1, conjunction(a ^ 1, b) ^ 1) ^ 1


for output in range(outputs):
    a, b, c, d = (2 * ((4 * output + k) % inputs + 1) for k in range(4))
    majority = conjunction(conjunction(a, b) ^ 1, conjunction(c, difference(a, b)) ^ 1) ^ 1
    ends.append(conjunction(difference(majority, d) ^ 1, majority))
end = 2
for gate in range(beside):
    end = conjunction(end ^ 1, 2 * (gate % inputs + 1))
print("aag", inputs + len(gates), inputs, 0, outputs, len(gates))
print(*[2 * (i + 1) for i in range(inputs)], *ends, sep="\n")
for gate in gates:
    print(*gate)
PYTHON
}

echo "  gates  seconds   milliseconds a question"
for beside in 0 10000 20000 50000 100000; do
  blocks "$beside" >"$work/blocks.aag"
  seconds=$(/usr/bin/time -f '%U' "$npnp" info "$work/blocks.aag" 2>&1 >"$work/report" | tail -1)
  awk -v g="$((10 * outputs + beside))" -v s="$seconds" -v q="$questions" 'BEGIN { printf "%7d %8.2f   %.3f\n", g, s, 1000 * s / q }'
done
echo "  gates  seconds of 10,000 questions: user, system"
for beside in 0 10000 20000 50000 100000; do
  blocks "$beside" >"$work/blocks.aag"
  read -r user system < <(/usr/bin/time -f '%U %S' "$program" claims "$work/blocks.aag" 10 2>&1 >"$work/report" | tail -1)
  [ "$(cat "$work/report")" = "asked $((40 * outputs)) hold $((40 * outputs))" ] || { cat "$work/report" >&2 && exit 1; }
  printf '%7d %8.2f %8.2f\n' "$((10 * outputs + beside))" "$user" "$system"
done
