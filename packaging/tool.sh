#!/bin/sh
# Runs a tool of this package. The program that it runs is the one that PROGRAM names, or else the one of the package.
set -u
tool=@TOOL@ takes_program=@TAKESPROGRAM@
top=$(cd "$(dirname "$(readlink -f "$0")")/.." && pwd) || exit 1

fail() {
  echo "tracesync-$tool: $1" >&2
  exit 1
}

for word in "$@"; do
  case $word in
    --help | -h) exec cat "$top/lib/tracesync/help/$tool" ;;
    --look) fail '--look compiles the program from its sources, and is for a clone' ;;
    --program | --program=*) takes_program=no ;;
  esac
done
command -v python3 >/dev/null || fail 'there is no python3, and it needs Python @PYTHON@ or a later one'
if [ "$takes_program" = yes ] && [ -n "${PROGRAM-}" ]; then
  set -- --program "$PROGRAM" "$@"
fi
exec python3 "$top/lib/tracesync/tools/$tool" "$@"
