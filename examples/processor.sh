# Functions that scripts here share: a netlist of a small processor, and the same under other ports.

# prints a BLIF netlist of one step of a processor: four registers and a program counter of so many bits; the instruction adds,
# joins, moves or inverts two registers, or branches to one where the other is zero
processor() { # BITS
  local bits=$1 r e0 e1 k last
  local registers counter next_registers='' next_counter='' zero='' zeros=''
  registers=$(for r in 0 1 2 3; do for ((k = 0; k < bits; k++)); do echo -n "r$r.$k "; done; done)
  counter=$(for ((k = 0; k < bits; k++)); do echo -n "pc.$k "; done)
  next_registers=$(for r in 0 1 2 3; do for ((k = 0; k < bits; k++)); do echo -n "n$r.$k "; done; done)
  next_counter=$(for ((k = 0; k < bits; k++)); do echo -n "npc.$k "; done)
  echo ".model processor"
  echo ".inputs op.0 op.1 op.2 d.0 d.1 s.0 s.1 $registers$counter"
  echo ".outputs $next_registers$next_counter"
  echo ".names carry.0"
  printf '.names step.0\n1\n'
  for ((k = 0; k < bits; k++)); do
    # the two registers that the instruction names
    printf '.names d.0 d.1 r0.%d r1.%d r2.%d r3.%d a.%d\n001--- 1\n10-1-- 1\n01--1- 1\n11---1 1\n' "$k" "$k" "$k" "$k" "$k"
    printf '.names s.0 s.1 r0.%d r1.%d r2.%d r3.%d b.%d\n001--- 1\n10-1-- 1\n01--1- 1\n11---1 1\n' "$k" "$k" "$k" "$k" "$k"
    printf '.names a.%d b.%d carry.%d sum.%d\n100 1\n010 1\n001 1\n111 1\n' "$k" "$k" "$k" "$k"
    printf '.names a.%d b.%d carry.%d carry.%d\n11- 1\n1-1 1\n-11 1\n' "$k" "$k" "$k" $((k + 1))
    # add, and, or, exclusive or, move, not, and twice what was there
    printf '.names op.0 op.1 op.2 sum.%d a.%d b.%d result.%d\n' "$k" "$k" "$k" "$k"
    printf '%s 1\n' 0001-- 100-11 010-1- 010--1 110-10 110-01 001--1 101--0 011-1- 111-1-
    for r in 0 1 2 3; do
      e0=$((r % 2)) e1=$((r / 2))
      printf '.names d.0 d.1 result.%d r%d.%d n%d.%d\n%d%d1- 1\n%d--1 1\n-%d-1 1\n' "$k" "$r" "$k" "$r" "$k" "$e0" "$e1" $((1 - e0)) $((1 - e1))
    done
    printf '.names pc.%d step.%d next.%d\n10 1\n01 1\n' "$k" "$k" "$k"
    printf '.names pc.%d step.%d step.%d\n11 1\n' "$k" "$k" $((k + 1))
    printf '.names take a.%d next.%d npc.%d\n11- 1\n0-1 1\n' "$k" "$k" "$k"
    zero+="b.$k " zeros+=0
  done
  printf '.names %szero\n%s 1\n' "$zero" "$zeros"
  printf '.names op.0 op.1 op.2 zero take\n0111 1\n.end\n'
}

# prints a BLIF netlist with its ports under other names, in another order and inverted here and there, as a seed says
lose() { # SEED <NETLIST
  awk -v seed="$1" '
    function shuffle(list, n, i, j, kept) {
      for (i = n; i > 1; i--) { j = int(rand() * i) + 1; kept = list[i]; list[i] = list[j]; list[j] = kept }
    }
    BEGIN { srand(seed) }
    /^\.inputs/ { for (i = 2; i <= NF; i++) ins[++inputs] = $i; next }
    /^\.outputs/ { for (i = 2; i <= NF; i++) outs[++outputs] = $i; next }
    /^\.model/ || /^\.end/ { next }
    { body = body $0 "\n" }
    END {
      shuffle(ins, inputs); shuffle(outs, outputs)
      print ".model lost"
      printf ".inputs"; for (i = 1; i <= inputs; i++) printf " in%d", i; print ""
      printf ".outputs"; for (i = 1; i <= outputs; i++) printf " out%d", i; print ""
      for (i = 1; i <= inputs; i++) printf ".names in%d %s\n%d 1\n", i, ins[i], int(rand() * 2)
      printf "%s", body
      for (i = 1; i <= outputs; i++) printf ".names %s out%d\n%d 1\n", outs[i], i, int(rand() * 2)
      print ".end"
    }'
}
