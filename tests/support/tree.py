"""Copies the repository with a program in its place, so that a script can run ./tracesync and the tools there and
leave nothing here."""

import os
import shutil
from collections.abc import Sequence

from .program import PLACE, TOP

# What no copy needs, by the folder where it stands.
LEFT_OUT = {TOP: {".git"}, f"{TOP}/bench": {"out", "planted"}, f"{TOP}/tests": {"out"}}


def left_out(folder: str, _: Sequence[str]) -> set[str]:
    """The names that are not copied from a folder: what was built in a crate, too."""
    built = {"out"} if os.path.dirname(folder) == f"{TOP}/crates" else set()
    return LEFT_OUT.get(folder, built) | {"__pycache__"}


def copy_tree(to: str, program: str) -> None:
    """Copies the repository's files, without what was built, and puts a program where ./tracesync runs it."""
    shutil.copytree(TOP, to, symlinks=True, ignore=left_out)
    os.makedirs(os.path.dirname(f"{to}/{PLACE}"))
    # (with a time of now, newer than each source)
    shutil.copyfile(program, f"{to}/{PLACE}")
    os.chmod(f"{to}/{PLACE}", 0o755)
