# Completion of npnp's words in bash: a command, then files where the command takes them, then nothing.
_npnp() {
  local files
  COMPREPLY=()
  if [ "$COMP_CWORD" -eq 1 ]; then
    mapfile -t COMPREPLY < <(compgen -W 'match check restore trim convert flatten sweep info make trial --help --version' -- "$2")
    return
  fi
  # which of the words are files, by their places
  case ${COMP_WORDS[1]} in
    match | check) files=' 2 3 4 ' ;;
    restore | trim) files=' 2 3 4 5 ' ;;
    convert | flatten | sweep) files=' 2 3 ' ;;
    info) files=' 2 ' ;;
    make) files=' 3 4 ' ;;
    *) files= ;;
  esac
  [[ $files == *" $COMP_CWORD "* ]] || return 0
  compopt -o filenames
  mapfile -t COMPREPLY < <(compgen -f -- "$2")
}
complete -F _npnp npnp
