#!/usr/bin/env bash
# Times the reading of AIGER files of 1,000,000 gates, and says how much memory it takes: in the ASCII form with the
# gates in order, in reverse order and on one cycle; in the binary form; and ABC's `read_aiger` of the same binary file
# where ABC is installed (Debian's berkeley-abc; it reads the binary form alone). The program is asked for a check whose
# second file isn't there, so that it reads the first and ends. Not part of the gate.
set -eu
top=$(cd "$(dirname "${BASH_SOURCE[0]}")/.." && pwd)
work=$(mktemp -d)
trap 'rm -rf "$work"' EXIT
python3 - "$work" <<'PYTHON'
import random, sys
work, inputs, gates = sys.argv[1], 1000, 1_000_000
random.seed(20261127)
top = inputs + gates
rows = []
for variable in range(inputs + 1, top + 1):
    # a chain, so that the levels are as deep as there are gates
    first = 2 * (variable - 1) + random.randrange(2)
    second = random.randrange(2, 2 * (variable - 1)) if variable > 2 else 0
    rows.append((2 * variable, first, min(first, second)))
head = f"{top} {inputs} 0 1 {gates}\n"
listed = "".join(f"{2 * i}\n" for i in range(1, inputs + 1))
output = f"{2 * top}\n"
def text(rows):
    return "aag " + head + listed + output + "".join(f"{l} {a} {b}\n" for l, a, b in rows)
open(f"{work}/in_order.aag", "w").write(text(rows))
open(f"{work}/reverse.aag", "w").write(text(rows[::-1]))
cycle = [(2 * top, rows[-1][1], rows[-1][2])] + rows[1:-1][::-1] + [(rows[0][0], 2 * top, 2)]
open(f"{work}/cycle.aag", "w").write(text(cycle))
def delta(n):
    groups = bytearray()
    while n >= 128:
        groups.append(n % 128 + 128)
        n //= 128
    groups.append(n)
    return bytes(groups)
with open(f"{work}/binary.aig", "wb") as file:
    file.write(("aig " + head + output).encode())
    for l, a, b in rows:
        file.write(delta(l - a) + delta(a - b))
PYTHON
npnp=$("$top/bench/program.sh")
for file in in_order.aag reverse.aag cycle.aag binary.aig; do
  printf '%s, %d bytes: ' "$file" "$(stat -c %s "$work/$file")"
  python3 "$top/bench/measure.py" "$npnp" check "$work/$file" "$work/absent" "$work/absent"
done
if command -v berkeley-abc >/dev/null; then
  printf 'ABC, binary.aig: '
  python3 "$top/bench/measure.py" berkeley-abc -c "read_aiger $work/binary.aig; print_stats"
fi
