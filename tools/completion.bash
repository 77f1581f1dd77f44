# Completes the words of ksql in bash: `. tools/completion.bash`.
_ksql() {
  local word=${COMP_WORDS[COMP_CWORD]} before=${COMP_WORDS[COMP_CWORD - 1]} words=
  COMPREPLY=()
  case $before in
    --script | --schedule) mapfile -t COMPREPLY < <(compgen -f -- "$word"); return ;;
    --topics) mapfile -t COMPREPLY < <(compgen -d -- "$word"); return ;;
    --workers) return ;;
  esac
  if [ "$COMP_CWORD" -eq 1 ]; then
    words='run explain demo help --help --version'
  else
    case ${COMP_WORDS[1]} in
      run) words='--script --topics --workers --schedule --trace' ;;
      explain) words='--script' ;;
      demo) words='--workers' ;;
    esac
  fi
  mapfile -t COMPREPLY < <(compgen -W "$words" -- "$word")
}
complete -o filenames -F _ksql ksql ./ksql
