"""Files that a tool writes into a folder of its own, under names that anybody can know before."""

import contextlib
import os
import secrets
import stat
from collections.abc import Iterable


def refuse_others(path: str) -> None:
    """Raises ValueError where a link, a folder, a pipe or a device stands at a path, so that nothing behind it is read or written."""
    with contextlib.suppress(FileNotFoundError):
        mode = os.lstat(path).st_mode
        if stat.S_ISLNK(mode):
            raise ValueError(f"{path} is a symbolic link, which is not followed: remove it, or let --folder name another folder")
        if not stat.S_ISREG(mode):
            raise ValueError(f"{path} is there, and is no file: remove it, or let --folder name another folder")


def write_own(path: str, text: str) -> None:
    """Writes a file as a whole: under a name that is new, which is then put in its place. Raises ValueError as refuse_others does."""
    write_parts(path, [text.encode()])


def write_parts(path: str, parts: Iterable[bytes]) -> None:
    """Writes a file of these parts, one after the other, as write_own does; where they end with an error, nothing is left of it."""
    refuse_others(path)
    folder, name = os.path.split(path)
    part = os.path.join(folder, f".{name}.{secrets.token_hex(8)}")
    handle = os.open(part, os.O_WRONLY | os.O_CREAT | os.O_EXCL | os.O_NOFOLLOW | os.O_CLOEXEC, 0o666)
    try:
        with open(handle, "wb") as it:
            for data in parts:
                it.write(data)
        os.replace(part, path)
    except BaseException:
        with contextlib.suppress(FileNotFoundError):
            os.remove(part)
        raise


def read_own(path: str) -> str | None:
    """Returns the text of such a file, or None if there is none. Raises ValueError as refuse_others does."""
    refuse_others(path)
    if not os.path.exists(path):
        return None
    # (what is put there in this moment is not followed either, and no pipe is waited for)
    with open(os.open(path, os.O_RDONLY | os.O_NOFOLLOW | os.O_NONBLOCK | os.O_CLOEXEC), encoding="utf-8") as it:
        return it.read()
