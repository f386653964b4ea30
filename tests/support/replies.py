"""Sessions that read a whole script: what they reply, and where one reply ends and the next begins."""

import subprocess
from collections.abc import Sequence

from .program import program


def replies_of(lines: Sequence[str]) -> list[list[str]]:
    """The replies that stand in these lines, each as a list of its lines."""
    found, at = [], 0
    while at < len(lines):
        first = lines[at].split(" ")
        if first[0] in ("certificate", "problem") or (first[0] == "blame" and first != ["blame", "none"]):
            end = lines.index("end", at) + 1
        elif first[0] in ("merge", "times"):
            end = at + 1 + int(first[1])
        else:
            end = at + 1
        found.append(list(lines[at:end]))
        at = end
    return found


def script_of(lines: Sequence[str]) -> bytes:
    """The bytes of a script with these lines."""
    return "".join(f"{line}\n" for line in lines).encode()


def answered(declaration: str, script: Sequence[str], folder: str | None = None) -> list[list[str]]:
    """The replies to the lines of a script, in a session over a declaration, which runs in a folder.

    Raises RuntimeError where the session ends with another status than 0, or has not as many replies as lines."""
    words = [program(), "session", declaration]
    done = subprocess.run(words, input=script_of(script), capture_output=True, cwd=folder)
    replies = replies_of(done.stdout.decode().splitlines())
    if done.returncode or len(replies) != len(script):
        said = done.stderr.decode(errors="replace")[-300:]
        raise RuntimeError(f"status {done.returncode}, {len(replies)} replies to {len(script)} lines: {said}")
    return replies


def added(reply: Sequence[str]) -> tuple[int, int]:
    """How many events an addition brought, and how many bytes of its label wait for more."""
    words = reply[0].split(" ")
    assert words[0] == "added", reply
    return int(words[2]), int(words[8])
