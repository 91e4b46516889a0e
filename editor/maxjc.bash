# Completion of maxjc for bash: the commands, and for each word the files that may stand there.
_maxjc_files() {
  local pattern="$1" name
  while IFS= read -r name; do
    if [ -d "$name" ]; then
      COMPREPLY+=("$name/")
    elif [[ "$name" == $pattern ]]; then
      COMPREPLY+=("$name")
    fi
  done < <(compgen -f -- "$word")
}

_maxjc() {
  local word="${COMP_WORDS[COMP_CWORD]}" command="${COMP_WORDS[1]-}"
  COMPREPLY=()
  if [ "$COMP_CWORD" -eq 1 ]; then
    mapfile -t COMPREPLY < <(compgen -W "compile simulate expect check --help --version" -- "$word")
    return
  fi
  compopt -o filenames 2>/dev/null
  case "$command:$COMP_CWORD" in
    compile:2 | expect:2 | check:2) _maxjc_files '*.maxj' ;;
    compile:3 | expect:3 | check:3 | simulate:3 | expect:5) _maxjc_files '*.json' ;;
    simulate:2 | compile:4) _maxjc_files '*.v' ;;
    expect:4 | check:4 | compile:5) _maxjc_files '*.report' ;;
  esac
}

complete -F _maxjc maxjc ./maxjc
