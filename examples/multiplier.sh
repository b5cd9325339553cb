# A function that scripts here share: netlists of one product whose gates are hardly equal, so that a match is found after a long proof.

# prints a BLIF netlist of the product of two words, whose rows are added in this order
multiplier() { # BITS ROW ..
  local bits=$1 row place x carry next=0
  shift
  local -a sum=()
  echo ".model product"
  echo ".inputs $(for ((i = 0; i < bits; i++)); do echo -n "a$i b$i "; done)"
  echo ".outputs $(for ((i = 0; i < 2 * bits; i++)); do echo -n "y$i "; done)"
  echo ".names zero"
  for ((place = 0; place < 2 * bits; place++)); do sum[place]=zero; done
  for row in "$@"; do
    carry=zero
    for ((place = row; place < 2 * bits; place++)); do
      x=zero
      if ((place < row + bits)); then
        x=p$row.$place
        printf '.names a%d b%d %s\n11 1\n' $((place - row)) "$row" "$x"
      fi
      next=$((next + 1))
      printf '.names %s %s %s s%d\n100 1\n010 1\n001 1\n111 1\n' "$x" "${sum[place]}" "$carry" "$next"
      printf '.names %s %s %s c%d\n11- 1\n1-1 1\n-11 1\n' "$x" "${sum[place]}" "$carry" "$next"
      sum[place]=s$next carry=c$next
    done
  done
  for ((place = 0; place < 2 * bits; place++)); do printf '.names %s y%d\n1 1\n' "${sum[place]}" "$place"; done
  echo .end
}
