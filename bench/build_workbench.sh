#!/usr/bin/env bash
# Proves and builds the program `workbench`, which other scripts here measure, where it isn't there or a source is newer, and
# prints its path. Not part of the gate.
set -eu
top=$(cd "$(dirname "${BASH_SOURCE[0]}")/.." && pwd)
program=$top/crates/workbench/out/workbench
if [ ! -x "$program" ] || [ -n "$(find "$top/crates.txt" "$top/crates" -name out -prune -o \
  -type f -newer "$program" \( -name '*.rt' -o -name '*.antt' -o -name crates.txt \) -print -quit)" ]; then
  log=$(mktemp)
  trap 'rm -f "$log"' EXIT
  # `rt run` runs what it built, on no words, so its own status says nothing
  (cd "$top/crates/workbench" && rt check --jobs 1 && rt run --jobs 1 || true) </dev/null >"$log" 2>&1
  grep -q '^rt: running ' "$log" || { cat "$log" >&2 && exit 1; }
  touch "$program"
fi
echo "$program"
