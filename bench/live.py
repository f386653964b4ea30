"""A session that is asked line by line over pipes, with the processor time of each line and the memory between two:
see growth.py."""

import fcntl
import os
import subprocess
import sys
import time
from collections.abc import Sequence

from workload import Piece

BLOCK = 1 << 20


class Live:
    """A session of a program over a declaration."""

    def __init__(self, program: str, declaration: str) -> None:
        words = [program, "session", declaration]
        self.child = subprocess.Popen(words, stdin=subprocess.PIPE, stdout=subprocess.PIPE, bufsize=0)
        assert self.child.stdin is not None and self.child.stdout is not None
        self.stdin, self.stdout = self.child.stdin, self.child.stdout
        fcntl.fcntl(self.stdout, fcntl.F_SETPIPE_SZ, BLOCK)
        self.events = 0

    def spent(self) -> float:
        """The seconds of processor that the program has taken, once it waits for its next line."""
        while True:
            with open(f"/proc/{self.child.pid}/stat") as it:
                if it.read().rpartition(")")[2].split()[0] in "SZ":
                    return time.clock_gettime((~self.child.pid << 3) | 2)
            time.sleep(0.0002)

    def ask(self, lines: Sequence[str]) -> tuple[bytes, float]:
        """Gives lines of one kind to the session, not above 64 KiB together; the front of the replies, and the seconds
        of processor of all."""
        begun = self.spent()
        self.stdin.write("".join(f"{line}\n" for line in lines).encode())
        said = self.read(lines[0].split(" ")[0], len(lines))
        return said, self.spent() - begun

    def read(self, command: str, replies: int) -> bytes:
        """Reads so many replies to a command; the front of them."""
        end = b"\nend\n" if command in ("prove", "problem") else b"\n"
        wanted = replies * (self.events + 1) if command in ("merge", "times") else replies
        front, last, seen = b"", b"", 0
        while seen < wanted:
            block = os.read(self.stdout.fileno(), BLOCK)
            if not block:
                sys.exit(f"a session ended at `{command}`: {front[-300:]!r}")
            front += block[: 65536 - len(front)]
            # (an end may stand in two blocks)
            seen += (last + block).count(end)
            last = (last + block)[-(len(end) - 1) :] if len(end) > 1 else b""
        if b"refused" in front or b"cycle" in front[:40] or b" inconsistent\n" in front:
            sys.exit(f"a session went wrong at `{command}`: {front[:300]!r}")
        return front

    def add(self, pieces: Sequence[Piece]) -> tuple[list[str], float]:
        """Adds pieces; the replies, and the seconds of processor of all."""
        said, taken = self.ask([f"add {label} {path}" for label, path, _ in pieces])
        self.events += sum(events for _, _, events in pieces)
        return said.decode().splitlines(), taken

    def memory(self) -> tuple[int, int]:
        """The memory in KiB that the program has now, and the most that it had."""
        with open(f"/proc/{self.child.pid}/status") as it:
            said = dict(line.split(":", 1) for line in it)
        now, most = (int(said[name].split()[0]) for name in ("VmRSS", "VmHWM"))
        return now, most

    def close(self) -> None:
        """Ends the session, whatever it is about."""
        self.child.kill()
        self.child.wait()
        self.stdin.close()
        self.stdout.close()
