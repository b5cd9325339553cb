#!/usr/bin/env bash
# What `match` takes of circuits with as many ports as they may have, where counts tell ports apart: output k joins eleven inputs that are
# drawn, by AND where k has a bit and by OR where it hasn't, and the second circuit is the first with its ports permuted and negated. Prints
# the ports (as many inputs as outputs), the gates, the processor seconds and the memory at most of `match`, the seconds of `check` and the bytes
# of the account. Not part of the gate. Ends with status 1 where an answer is wrong.
#
#     bench/many_ports.sh [--ports N,..] [--seed SEED] [--limit SECONDS]
set -eu
top=$(cd "$(dirname "${BASH_SOURCE[0]}")/.." && pwd)
exec python3 "$top/bench/many_ports.py" "$("$top/bench/program.sh")" "$@"
