#!/usr/bin/env bash
# Tries to have something run, or pass the gate's comparison, as the program of these sources that isn't: each attack on a copy of its
# own, and each has to be refused. With --quick without those that prove (two tiny crates each, by `rt ci`). Prints a line for each,
# and ends with status 1 where one went through. Not part of the gate.
set -u
script=$(readlink -f -- "${BASH_SOURCE[0]}")
home=${script%/release/*}
work=$(mktemp -d)
trap 'rm -rf -- "$work"' EXIT
failed=0 tree=

# says whether a try ended as it has to, by its status
ends() { # WHAT STATUS COMMAND ..
  local what=$1 wanted=$2 status
  shift 2
  "$@" >"$work/said" 2>&1 </dev/null
  status=$?
  if [ "$status" -eq "$wanted" ]; then
    echo "ok: $what: status $status"
  else
    echo "WRONG: $what: status $status, wanted $wanted"
    sed 's/^/    /' "$work/said"
    failed=1
  fi
}

# says whether what the last try printed has a text
says() { # WHAT TEXT
  if grep -qF -- "$2" "$work/said"; then
    echo "ok: $1: $2"
  else
    echo "WRONG: $1: wanted '$2', printed:"
    sed 's/^/    /' "$work/said"
    failed=1
  fi
}

# a toolchain that proves nothing, so that no try goes on to prove all crates
mkdir "$work/no_kit" && printf '#!/bin/sh\nexit 1\n' >"$work/no_kit/rt" && chmod +x "$work/no_kit/rt"

# runs the script of the copy where there is no toolchain
runs() { PATH=$work/no_kit:$PATH "$tree/npnp" "$@"; }

# a function of sums.sh, as it stands in the copy
in_copy() (
  top=$tree
  . "$tree/release/sums.sh"
  "$@"
)

# a copy of the scripts alone
copy_scripts() {
  rm -rf -- "$tree"
  tree=$(mktemp -d "$work/tree.XXXX")
  mkdir "$tree/release" "$tree/docs"
  cp -r -- "$home/npnp" "$home/HANDLES" "$home/LICENSE" "$tree"
  cp -r -- "$home/docs/npnp.1" "$home/docs/completions" "$tree/docs"
  find "$home/release" -maxdepth 1 -type f -exec cp -- {} "$tree/release" \;
}

# a copy of the tree with a good release: the program that lies in release/ here, as if the gate had built it of these sources
copy_tree() {
  copy_scripts
  cp -- "$home/crates.txt" "$tree"
  (cd "$home" && top=$home && . release/sums.sh && list_sources | xargs -0 cp -P --parents -t "$tree" --)
  mkdir -p "$tree/crates/npnp_cli/out"
  cp -- "$home/release/npnp-x86_64-linux" "$tree/crates/npnp_cli/out/npnp_cli"
  "$tree/release/make" "$tree/crates/npnp_cli/out/npnp_cli" >/dev/null 2>&1
}

# a program that isn't the released one, and gives itself away by its status
write_foreign() { # TO
  printf '#!/bin/sh\n[ $# -gt 0 ] || exit 4\nexit 99\n' >"$1.new" && chmod +x "$1.new" && mv "$1.new" "$1"
}

# puts a foreign program in the release's place with sums that fit it, and a kit
put_foreign() { # KIT
  write_foreign "$tree/foreign"
  in_copy put_program "$tree/foreign" "$tree/release/npnp-x86_64-linux" "$("$tree/release/checksum")" "$1"
}

# changes a file and gives it the time that it had
change_kept_time() { # FILE COMMAND ..
  local file=$1
  touch -r "$file" "$work/time"
  "${@:2}"
  touch -r "$work/time" "$file" "${file%/*}"
}

# a tree of two tiny crates whose program ends with status 4
copy_small() {
  copy_scripts
  printf 'tiny:\nnpnp_cli: tiny\n' >"$tree/crates.txt"
  mkdir -p "$tree/crates/tiny/src" "$tree/crates/npnp_cli/src"
  cat >"$tree/crates/tiny/src/lib.rt" <<'RATTLE'
//! One function.
#![tactic(auto)]

/// The sum of two small numbers.
pub fn sum(a: u8, b: u8) -> u16 {
    a as u16 + b as u16
}
RATTLE
  cat >"$tree/crates/npnp_cli/src/main.rt" <<'RATTLE'
//! A program that ends with the status of wrong words.
#![tactic(auto)]

use std::process::ExitCode;

/// The status of wrong words.
const USAGE: u8 = 4;

fn main(_rt: HostRuntime) -> ExitCode {
    ExitCode::from(USAGE)
}
RATTLE
  echo 4 >"$tree/crates/npnp_cli/status"
  rm -f "$tree/release/npnp-x86_64-linux"
}

gate_release() {
  copy_small
  ends 'without an attack the gate makes a release' 0 "$tree/release/make" --gate
  ends 'it is what the gate built' 0 "$tree/release/compare"
  ends 'it runs' 4 runs info "$tree/absent"
}

without_attack() {
  copy_tree
  ends 'without an attack the release passes' 0 "$tree/release/check"
  ends 'without an attack it is what the gate built' 0 "$tree/release/compare"
  ends 'without an attack it runs' 5 runs info "$tree/absent"
  chmod -R a-w "$tree"
  ends 'in a tree that nobody may write it runs' 5 runs info "$tree/absent"
  chmod -R u+w "$tree"
}

foreign_program() {
  copy_tree
  put_foreign 'another-kit logic 0'
  ends 'a foreign program with a kit of its own' 1 "$tree/release/compare"
  put_foreign "$(rt version)"
  ends 'a foreign program with the right kit' 1 "$tree/release/compare"
  copy_tree
  echo 'another-kit logic 0' >"$tree/release/KIT"
  ends 'a kit that differs' 1 "$tree/release/compare"
  copy_tree
  rm "$tree/release/KIT"
  ends 'a release that names no kit' 1 "$tree/release/compare"
  copy_tree
  rm "$tree/crates/npnp_cli/out/npnp_cli"
  ends 'a gate that left no program' 1 "$tree/release/compare"
}

another_file() {
  local program
  copy_tree
  program=$tree/release/npnp-x86_64-linux
  change_kept_time "$program" write_foreign "$program"
  ends "another file at the program's place, with the old time" 1 "$tree/release/check"
  ends 'it is not run' 70 runs info "$tree/absent"
  ends 'it is not installed' 1 runs --install "$tree/installed"
  ends 'nor compared' 1 "$tree/release/compare"
  (cd "$tree/release" && b2sum --length=256 KIT >PROGRAM)
  ends 'with the sum of another file beside it' 1 "$tree/release/check"
  mkdir -p "$tree/release/out" && touch "$tree/release/out/seen"
  ends 'with a note that it was seen' 70 runs info "$tree/absent"
}

changed_source() {
  local file
  copy_tree
  for file in crates/items/src/lib.rt crates/circuits/specs/Matches.antt crates.txt HANDLES; do
    change_kept_time "$tree/$file" sed -i '1s/^/ /' "$tree/$file"
    ends "$file changed, with the old time" 1 "$tree/release/check"
    ends 'the release is not run' 70 runs info "$tree/absent"
    sed -i '1s/^ //' "$tree/$file"
    ends 'changed back' 0 "$tree/release/check"
  done
  mv "$tree/crates/items/src/lib.rt" "$tree/crates/items/src/other.rt"
  ends 'a source under another name' 1 "$tree/release/check"
}

source_below_out() {
  copy_tree
  mkdir "$tree/crates/items/src/out" && echo '//! Read by mod out.' >"$tree/crates/items/src/out/mod.rt"
  ends 'a source below src/out/' 1 "$tree/release/check"
  rm -r "$tree/crates/items/src/out"
  mkdir -p "$tree/crates/items/proofs/must-fail" && echo '-- a lemma' >"$tree/crates/items/proofs/must-fail/Lemma.antt"
  ends 'a proof below proofs/must-fail/' 1 "$tree/release/check"
}

link_as_source() {
  local file
  copy_tree
  file=$tree/crates/items/src/lib.rt
  mv "$file" "$tree/elsewhere.rt" && ln -s "$tree/elsewhere.rt" "$file"
  ends 'a link as a source' 1 "$tree/release/check"
  says 'it is named' 'crates/items/src/lib.rt is no plain file'
  ends 'nor a release made of it' 1 "$tree/release/make" "$tree/crates/npnp_cli/out/npnp_cli"
  ends 'the release is not run' 70 runs info "$tree/absent"
  copy_tree
  ln -s /tmp "$tree/crates/items/src/more"
  ends 'a link to a folder' 1 "$tree/release/check"
  copy_tree
  rm -rf "$tree/crates/items/out" && ln -s /tmp "$tree/crates/items/out"
  ends "a link in the place of a crate's out" 1 "$tree/release/check"
  copy_tree
  mv "$tree/crates/items" "$tree/items" && ln -s ../items "$tree/crates/items"
  ends 'a link to a crate' 1 "$tree/release/check"
  copy_tree
  mv "$tree/crates" "$tree/sources" && ln -s sources "$tree/crates"
  ends 'a link to all crates' 1 "$tree/release/check"
  copy_tree
  mkfifo "$tree/crates/items/src/pipe.rt"
  ends 'a pipe' 1 "$tree/release/check"
}

altered_build() {
  copy_tree
  rm "$tree/release/npnp-x86_64-linux"
  mkdir -p "$tree/release/out"
  in_copy put_program "$home/release/npnp-x86_64-linux" "$tree/release/out/npnp_cli" "$("$tree/release/checksum")" "$(rt version)"
  ends 'what was proved here runs where there is no release' 5 runs info "$tree/absent"
  change_kept_time "$tree/release/out/npnp_cli" write_foreign "$tree/release/out/npnp_cli"
  ends 'another program in release/out is not run' 70 runs info "$tree/absent"
  ends 'nor a release made of it' 1 "$tree/release/make"
}

altered_before_proof() {
  copy_small
  mkdir -p "$tree/release/out"
  write_foreign "$tree/foreign"
  in_copy put_program "$tree/foreign" "$tree/release/out/npnp_cli" "$("$tree/release/checksum")" "$(rt version)"
  ends '--prove proves what was put into release/out with its sums, and runs what it built' 4 "$tree/npnp" --prove info "$tree/absent"
}

abort() {
  copy_small
  cat >>"$tree/crates/tiny/src/lib.rt" <<'RATTLE'

/// A number that isn't zero, or the end of the process.
pub fn nonzero(rt: &impl std::process::Abort, a: u8) -> u8 {
    if a == 0 {
        panic!(rt; "zero")
    }
    a
}
RATTLE
  ends '--prove of a function that may abort' 70 "$tree/npnp" --prove info "$tree/absent"
  says 'the gate refuses it' 'may end the process'
  ends 'nothing was built' 70 runs info "$tree/absent"
}

changed_while_proving() {
  copy_small
  "$tree/release/prove" --anew >"$work/log" 2>&1 &
  until grep -q 'by rt ci in' "$work/log"; do sleep 0.1; done
  change_kept_time "$tree/crates/tiny/src/lib.rt" sed -i 's/The sum/Sum/' "$tree/crates/tiny/src/lib.rt"
  ends 'sources that change while a proof runs don'"'"'t stop it' 0 wait $!
  ends 'what was proved of the older ones is not run for the newer' 70 runs info "$tree/absent"
  sed -i 's/Sum/The sum/' "$tree/crates/tiny/src/lib.rt"
  ends 'changed back, it is' 4 runs info "$tree/absent"
}

without_attack
foreign_program
another_file
changed_source
source_below_out
link_as_source
altered_build
if [ "${1-}" != --quick ]; then
  gate_release
  altered_before_proof
  abort
  changed_while_proving
fi
exit "$failed"
