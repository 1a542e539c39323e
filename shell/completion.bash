# Completes the words of redlog and of redlog-shell.
_redlog() {
  local word=${COMP_WORDS[COMP_CWORD]} last=${COMP_WORDS[COMP_CWORD-1]}
  case $last in
  --nodes | --workers | --generate) return ;;
  esac
  local words="--nodes --workers --generate --smt"
  [ "${COMP_WORDS[0]##*/}" = redlog-shell ] && words="--nodes --workers --smt --help --version"
  mapfile -t COMPREPLY < <(compgen -W "$words" -- "$word")
}
complete -F _redlog redlog redlog-shell
