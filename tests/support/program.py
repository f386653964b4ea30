"""Which program the scripts of tests/ and bench/ run, and where the repository is."""

import os
import sys

TOP = os.path.dirname(os.path.dirname(os.path.dirname(os.path.abspath(__file__))))
# The program's place in a clone: ./tracesync runs what stands there.
PLACE = "crates/tracesync/out/tracesync"
# What a script leaves behind: the files of a case that went wrong, say.
LEFT = f"{TOP}/tests/out"


def program() -> str:
    """The path of the program: what the environment variable PROGRAM names, or else what tools/build has built here."""
    path = os.path.abspath(os.environ.get("PROGRAM") or f"{TOP}/{PLACE}")
    if not os.access(path, os.X_OK):
        sys.exit(f"there is no program {path}: tools/build makes that of this clone, and PROGRAM names another one")
    return path


def read(path: str) -> bytes:
    """The bytes of a file."""
    with open(path, "rb") as file:
        return file.read()


def write(path: str, content: bytes | str) -> str:
    """Writes a file anew, text as UTF-8, and returns its path."""
    with open(path, "wb") as file:
        file.write(content.encode() if isinstance(content, str) else content)
    return path


def write_left(name: str, content: bytes) -> str:
    """Leaves a file of a case that went wrong, and returns its path."""
    os.makedirs(LEFT, exist_ok=True)
    return write(f"{LEFT}/{name}", content)
