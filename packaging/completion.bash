# What bash completes behind tracesync: its commands, their files, and the events that a problem names.

_tracesync() {
  local word=${COMP_WORDS[COMP_CWORD]} kinds=() kind
  COMPREPLY=()
  if ((COMP_CWORD == 1)); then
    mapfile -t COMPREPLY < <(compgen -W '@NAMES@ --help --version' -- "$word")
    return
  fi
  case ${COMP_WORDS[1]} in
@KINDS@
  esac
  kind=${kinds[COMP_CWORD - 2]-}
  # What ends with two points may stand there again.
  [[ -n $kind || ${kinds[*]} != *.. ]] || kind=${kinds[${#kinds[@]} - 1]}
  case ${COMP_WORDS[COMP_CWORD - 1]} in
    '<' | '>' | '>>') kind=SCRIPT ;;
  esac
  case $kind in
    '' | N | WHAT..) ;;
    P | Q | P..)
      # The first megabyte of a problem, and no device, is looked into.
      [ -f "${COMP_WORDS[2]}" ] || return
      mapfile -t COMPREPLY < <(compgen -W "$(head -c 1000000 -- "${COMP_WORDS[2]}" | sed -n 's/^event \([A-Za-z0-9._#-]*\) .*/\1/p')" -- "$word")
      ;;
    *)
      compopt -o filenames 2>/dev/null
      mapfile -t COMPREPLY < <(compgen -f -- "$word")
      ;;
  esac
}

complete -F _tracesync tracesync
