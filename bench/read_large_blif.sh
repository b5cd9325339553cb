#!/usr/bin/env bash
# Times the reading of large BLIF files, and says how much memory it takes: hundreds of thousands of long names, a cover of
# a million rows, lines of megabytes, a million lines that go on, a million empty lines; beside ABC's `read_blif` of the
# same file where ABC is installed (Debian's berkeley-abc) and reads it. The program is asked for a check whose second file
# isn't there, so that it reads the first and ends. Not part of the gate.
set -eu
top=$(cd "$(dirname "${BASH_SOURCE[0]}")/.." && pwd)
work=$(mktemp -d)
trap 'rm -rf "$work"' EXIT
python3 - "$work" <<'PYTHON'
import sys
work = sys.argv[1]
def put(name, text):
    open(f"{work}/{name}.blif", "w").write(text)
ports = ".model large\n.inputs a b\n.outputs y\n"
long = "n" * 55
names = [f"{long}{k}" for k in range(480_000)]
chain = "".join(f".names {one} a {other}\n11 1\n" for one, other in zip(["b"] + names, names))
put("names", ports + chain + f".names {names[-1]} y\n1 1\n.end\n")
inputs = " ".join(f"i{k}" for k in range(20))
rows = "".join("-" * (k % 20) + "1" + "-" * (19 - k % 20) + " 1\n" for k in range(1_000_000))
put("rows", f".model rows\n.inputs {inputs}\n.outputs y\n.names {inputs} y\n{rows}.end\n")
put("long_lines", ports + ".default_input_arrival " + "x" * 30_000_000 + "\n#" + "x" * 30_000_000 + "\n.names a b y\n11 1\n.end\n")
put("goes_on", ".model large\n.inputs a" + " \\\n" * 1_000_000 + " b\n.outputs y\n.names a b y\n11 1\n.end\n")
put("empty_lines", ports + "\n" * 1_000_000 + ".names a b y\n11 1\n.end\n")
PYTHON
npnp=$("$top/bench/program.sh")
for file in names rows long_lines goes_on empty_lines; do
  printf '%s, %d bytes: ' "$file" "$(stat -c %s "$work/$file.blif")"
  python3 "$top/bench/measure.py" "$npnp" check "$work/$file.blif" "$work/absent" "$work/absent"
  if command -v berkeley-abc >/dev/null; then
    printf '  ABC: '
    timeout 60 python3 "$top/bench/measure.py" berkeley-abc -c "read_blif $work/$file.blif; print_stats" || echo 'not in 60 s'
  fi
done
