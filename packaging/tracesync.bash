#!/usr/bin/env bash
# Becomes the program of this package with these words, in the caller's folder and with the caller's input: its output, its
# status and its process are the program's. The word --version is answered here. A line on the standard error says before
# which named file is not there or cannot be read, or that the input or the output is none.
set -u
top=$(cd "$(dirname "$(readlink -f "${BASH_SOURCE[0]}")")/.." && pwd) || exit 126
binary=$top/lib/tracesync/tracesync

print_version() {
  cat <<'TEXT'
@VERSION@
TEXT
}

@FUNCTIONS@
@REST@
