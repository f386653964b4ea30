"""The program of this repository, or of the package that the tools are in: its sessions, and a look without proofs."""

import os
import subprocess
import sys
from typing import Self

from progress import Progress
from tracesync.errors import Ended
from tracesync.program import LineSession
from tracesync.replies import split_replies

TOP = os.path.dirname(os.path.dirname(os.path.dirname(os.path.realpath(__file__))))
PROGRAM, BUILT = f"{TOP}/tracesync", f"{TOP}/crates/tracesync/out/tracesync"


class RecordedSession(LineSession):
    """A session of the program. What it is asked and what it replies is kept in `script` and `replies`."""

    def __init__(self, declaration: str, program: str = PROGRAM, progress: Progress | None = None) -> None:
        super().__init__(declaration, program)
        self.progress = progress or Progress()
        self.script: list[str] = []
        self.replies: list[list[str]] = []

    def ask(self, line: str) -> list[str]:
        """Returns the lines of the reply to a line."""
        self.script.append(line)
        reply = super().ask(line)
        self.replies.append(reply)
        self.progress.step()
        return reply

    def __enter__(self) -> Self:
        return self


class Look:
    """A session that tools/first-look answers: it reads a script to its end, so each time from the beginning.

    Nothing of it is proved.
    """

    def __init__(self, declaration: str, progress: Progress | None = None) -> None:
        self.declaration, self.progress = declaration, progress or Progress()
        self.script: list[str] = []
        self.replies: list[list[str]] = []

    def ask_all(self, lines: list[str]) -> list[list[str]]:
        """Returns the replies to lines."""
        self.script += lines
        words = [f"{TOP}/tools/first-look", "session", self.declaration]
        script = "".join(f"{line}\n" for line in self.script)
        # (its lines would stand in the line that is written over)
        errors = subprocess.PIPE if self.progress.out else None
        ran = subprocess.run(words, input=script, stdout=subprocess.PIPE, stderr=errors, text=True)
        with self.progress.wiped():
            sys.stderr.write(ran.stderr or "")
        self.replies = split_replies(ran.stdout.splitlines())
        if ran.returncode or len(self.replies) != len(self.script):
            raise Ended(self.replies[-1] if self.replies else [], ran.returncode)
        return self.replies[-len(lines) :]

    def __enter__(self) -> Self:
        return self

    def __exit__(self, *_: object) -> None:
        pass
