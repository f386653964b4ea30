#compdef tracesync @TOOLS@
# What zsh completes behind tracesync and its tools: commands, options, files, and the events that a problem names.

_tracesync_program() {
  local -a told kinds names
  local kind
  told=(
@TOLD@
  )
  if (( CURRENT == 2 )); then
    _describe -t commands command told
    compadd -- --help --version
    return
  fi
  case $words[2] in
@KINDS@
  esac
  kind=$kinds[CURRENT-2]
  # What ends with two points may stand there again.
  [[ -n $kind || $kinds[-1] != *.. ]] || kind=$kinds[-1]
  case $kind in
    ''|N|WHAT..) _message 'no file' ;;
    P|Q|P..)
      # The first megabyte of a problem, and no device, is looked into.
      if [[ -f $words[3] ]]; then
        names=(${(f)"$(head -c 1000000 -- $words[3] | sed -n 's/^event \([A-Za-z0-9._#-]*\) .*/\1/p')"})
      fi
      compadd -a names
      ;;
    *) _files ;;
  esac
}

_tracesync_tool() {
  local -a flags
  case $service in
@FLAGS@
  esac
  if [[ $PREFIX == -* ]]; then
    compadd -a flags
  else
    compset -P '*='
    _files
  fi
}

if [[ $service == tracesync ]]; then
  _tracesync_program
else
  _tracesync_tool
fi
