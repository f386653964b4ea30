"""Runs the program: a session that is asked line by line, and its other commands."""

from __future__ import annotations

import contextlib
import os
import shutil
import subprocess
import threading
import weakref
from collections.abc import Iterable, Iterator, Sequence
from itertools import islice
from typing import Optional

from .errors import Ended, NoProgram
from .replies import ENDS, is_last, is_texted, lines_behind

# Here stands the folder of this package: in a clone the top folder has the crates, and in an installed package the
# program stands there.
TOP = os.path.dirname(os.path.dirname(os.path.dirname(os.path.realpath(__file__))))
# For so many seconds a program whose input has ended may go on before it is ended by a signal.
PATIENCE = 2.0
# With this status the program ends where it does not know the command, and with this one where a text does not show
# what it says.
UNKNOWN, UNSHOWN = 2, 1


def built_program() -> str:
    """Returns where the program of this clone is built, or where that of this package stands."""
    is_clone = os.path.isdir(f"{TOP}/crates")
    return f"{TOP}/crates/tracesync/out/tracesync" if is_clone else f"{TOP}/tracesync"


def find_program() -> str:
    """Returns the program to run: what the environment variable TRACESYNC names, or else `tracesync` on the PATH, or
    else what is built in the clone, or stands in the package, of which this module is.

    Raises NoProgram where there is none.
    """
    named = os.environ.get("TRACESYNC")
    found = shutil.which(named or "tracesync")
    if found:
        return os.path.abspath(found)
    if named:
        raise NoProgram(f"TRACESYNC names {named}, and there is no such program")
    if os.access(built_program(), os.X_OK):
        return built_program()
    raise NoProgram(f"no tracesync is on the PATH, and none is built as {built_program()}: TRACESYNC names another one")


def run(words: list[str], program: Optional[str] = None, text: str = "") -> tuple[list[str], int]:
    """Returns the lines that the program prints for these words, and its status. The text is its input."""
    ran = subprocess.run([program or find_program(), *words], input=text, stdout=subprocess.PIPE, text=True)
    return ran.stdout.splitlines(), ran.returncode


def run_over(
    command: str, text: str, program: Optional[str] = None, words: Sequence[str] = (), statuses: Sequence[int] = (0,)
) -> list[str]:
    """Returns the lines that a command prints over the text of a problem, behind whose path these words stand.

    Raises NoProgram where the program does not know the command, and Ended where its status is none of these.
    """
    program = program or find_program()
    lines, status = run([command, "/dev/stdin", *words], program, text)
    if status == UNKNOWN:
        told = f"it has no command `{command}`{', or not with these words' if words else ''}"
        raise NoProgram(f"{program} is too old: {told}")
    if status not in statuses:
        raise Ended(lines, status)
    return lines


def to_end(lines: Iterable[bytes]) -> Iterator[bytes]:
    """Yields lines up to the one that ends a text."""
    for line in lines:
        yield line
        if line == b"end\n":
            return


def end(process: subprocess.Popen[bytes], at_once: bool = False) -> int:
    """Ends a process by the end of its input, or by a signal where that takes too long, and returns its status."""
    assert process.stdin and process.stdout
    if at_once:
        process.kill()
    # (what a program was not asked any more, which has ended, is lost)
    with contextlib.suppress(OSError):
        process.stdin.close()
    try:
        status = process.wait(PATIENCE)
    except subprocess.TimeoutExpired:
        process.kill()
        status = process.wait()
    # (a reply that another thread still waits for ends here, too)
    process.stdout.close()
    return status


class LineSession:
    """A session of the program that is asked line by line, and replies by lines. It is ended with this object.

    `program` is its path, `find_program()` if it is not said. One that is `apart` gets no signal of a terminal's keys.
    """

    program: str
    """The program, which stays the same one where the folder changes."""

    def __init__(self, declaration: str, program: Optional[str] = None, apart: bool = False) -> None:
        found = program or find_program()
        self.program = os.path.abspath(found) if os.path.dirname(found) else found
        words, pipe = [self.program, "session", declaration], subprocess.PIPE
        self._process = subprocess.Popen(words, stdin=pipe, stdout=pipe, start_new_session=apart)
        self._lock = threading.Lock()
        # (this runs once: when it is called, when nothing refers to this object any more, or when Python ends)
        self._end = weakref.finalize(self, end, self._process)

    def ask(self, line: str) -> list[str]:
        """Returns the lines of the reply to a line.

        Raises ValueError where the line is several, or where the session has ended before, and Ended where the program
        ends in place of its reply.
        """
        asked = os.fsencode(line)
        if b"\n" in asked:
            raise ValueError("a line of a script has no line feed in it")
        with self._lock:
            if not self.is_open:
                raise ValueError("the session has ended")
            try:
                self._write(asked)
                return self._read_reply()
            except BaseException:
                # (what is left of this reply would be taken for the next one)
                self.close(at_once=True)
                raise

    def ask_all(self, lines: list[str]) -> list[list[str]]:
        """Returns the replies to lines."""
        return [self.ask(line) for line in lines]

    @property
    def is_open(self) -> bool:
        """Whether the session may be asked."""
        return self._end.alive

    def close(self, at_once: bool = False) -> int:
        """Ends the session, and returns the status of the program."""
        if self._end.detach():
            end(self._process, at_once)
        return self._process.wait()

    def _write(self, asked: bytes) -> None:
        assert self._process.stdin
        # (where the program has ended, its last line says why)
        with contextlib.suppress(BrokenPipeError):
            self._process.stdin.write(asked + b"\n")
            self._process.stdin.flush()

    def _read_reply(self) -> list[str]:
        """Returns the lines of a reply. How many they are, its first line says. Raises Ended where they are fewer."""
        out = self._process.stdout
        assert out
        first = out.readline().decode(errors="replace")
        reply = [first.rstrip("\n")] if first else []
        if not first.endswith("\n") or first.startswith(ENDS):
            raise Ended(reply, self.close())
        # (a reply of a million lines is taken as one text, which takes a fraction of the time)
        rest = list(to_end(out)) if is_texted(reply[0]) else list(islice(out, lines_behind(reply[0])))
        reply += b"".join(rest).decode(errors="replace").removesuffix("\n").split("\n") if rest else []
        if not is_last(reply) or not (rest or [b"\n"])[-1].endswith(b"\n"):
            raise Ended(reply, self.close())
        return reply

    def __enter__(self) -> LineSession:
        return self

    def __exit__(self, *_: object) -> None:
        self.close()
