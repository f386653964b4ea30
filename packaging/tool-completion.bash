# What bash completes behind tracesync-@TOOL@: its options, and files.

_tracesync_@TOOL@() {
  COMPREPLY=()
  if [[ ${COMP_WORDS[COMP_CWORD]} == -* ]]; then
    mapfile -t COMPREPLY < <(compgen -W '@FLAGS@' -- "${COMP_WORDS[COMP_CWORD]}")
  fi
}

complete -o bashdefault -o default -F _tracesync_@TOOL@ tracesync-@TOOL@
