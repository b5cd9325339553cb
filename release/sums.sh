# Functions that the scripts here share. Checksums of the sources and of programs: nothing here goes by times. The script that reads
# this has set `top`, the folder of the repository.

released=$top/release/npnp-x86_64-linux
built=$top/release/out/npnp_cli

# lists the files at and below some paths, but for the folders `out` and `must-fail` right in a crate's folder. Names end with a zero
# byte. Status 1, and a line, where a link, a pipe or the like stands among them
list_files() { # PATH ..
  find "$@" -type d -regex 'crates/[^/]*/\(out\|must-fail\)' -prune -o -type d -o -type f -print0 \
    -o -fprintf /dev/stderr 'release: %p is no plain file\n' -exec false {} +
}

# lists, in the folder of a repository, what its checksum is of
list_sources() {
  list_files HANDLES crates.txt crates
}

# prints the checksum of the names, sizes and bytes of such files, which `tar` prints in one stream
sum_files() { # PATH ..
  list_files "$@" | LC_ALL=C sort -z | TAR_OPTIONS='' tar --create --file=- --format=ustar --blocking-factor=128 \
    --owner=0 --group=0 --numeric-owner --mode=644 --mtime=@0 --hard-dereference --no-recursion --null --verbatim-files-from \
    --files-from=- | sum_bytes
}

# prints the checksum of the sources in a folder: HANDLES, crates.txt and all below crates/ as listed above. It has two halves, which are
# summed up side by side, since most of the time goes by in opening files
sum_sources() ( # FOLDER
  set -o pipefail
  shopt -s dotglob nullglob
  export LC_ALL=C
  cd -- "$1" || exit
  [ ! -L crates ] || { echo 'release: crates is no plain folder' >&2 && exit 1; }
  exec 3< <(sum_files crates.txt crates/[!a-m]*)
  later=$!
  first=$(sum_files HANDLES crates/[a-m]*) && read -r second <&3 && wait "$later" && printf '%s %s\n' "$first" "$second"
)

# prints the checksum of its standard input
sum_bytes() {
  local line
  line=$(b2sum --length=256) && printf '%s\n' "${line%% *}"
}

# says why a program isn't the one that the files SOURCES and PROGRAM of its folder say, of the sources that lie here, if it isn't
check_program() { # PROGRAM SUM-OF-SOURCES
  local folder=${1%/*} sources='' program=''
  { read -r sources <"$folder/SOURCES" && read -r program <"$folder/PROGRAM"; } 2>/dev/null
  if [ ! -f "$1" ] || [ -z "$program" ]; then
    echo "there is no program in $folder"
  elif [ "$sources" != "$2" ]; then
    echo "the program in $folder is of other sources than those that lie here"
  elif [ "$program" != "$(sum_bytes <"$1")" ]; then
    echo "the program in $folder is not the one that was put there"
  fi
}

# puts a program where it belongs, with its checksum, that of its sources, and the kit that built it
put_program() { # FROM TO SUM-OF-SOURCES KIT
  local folder=${2%/*} program
  program=$(sum_bytes <"$1") && install -m 755 -- "$1" "$2.new" && mv -- "$2.new" "$2" && printf '%s\n' "$program" >"$folder/PROGRAM" &&
    printf '%s\n' "$3" >"$folder/SOURCES" && printf '%s\n' "$4" >"$folder/KIT"
}

# whether this machine runs a program: given no words it ends with status 4
runs_here() {
  "$1" >/dev/null 2>&1 </dev/null
  [ $? -eq 4 ]
}
