# Completions of kegctl for bash: the commands and choices that its own help names, so that they are never older than the program.

# The words of a help that stand in a list: commands in the first, choices in all.
_kegctl_commands() {
  "$1" --help 2>/dev/null | sed -n '/^Commands:/,/^$/s/^  \([a-z][a-z-]*\).*/\1/p'
}

_kegctl_choices() {
  "$@" --help 2>/dev/null | grep -oE -- '--[a-z][a-z-]*' | sort -u
}

_kegctl() {
  local program=${COMP_WORDS[0]} word=${COMP_WORDS[COMP_CWORD]} command=${COMP_WORDS[1]-}
  COMPREPLY=()
  if [ "$COMP_CWORD" -eq 1 ]; then
    mapfile -t COMPREPLY < <(compgen -W "$(_kegctl_commands "$program") --help --version" -- "$word")
  elif [ "${word#-}" != "$word" ]; then
    mapfile -t COMPREPLY < <(compgen -W "$(_kegctl_choices "$program" "$command")" -- "$word")
  else
    # Descriptors and journals.
    mapfile -t COMPREPLY < <(compgen -f -- "$word")
  fi
}

complete -o filenames -F _kegctl kegctl
