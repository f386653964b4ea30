#!/usr/bin/env python3
"""Runs each command of README.md and of the pages for users, and compares what it prints with what is written there.

    tests/documents.py [DOCUMENT..]

In a fenced block a line that begins with `$ ` is a command; where it ends with a backslash, it goes on in the next
line. The lines behind it, up to the next command or the end of the block, are exactly what it prints on the standard
output; the standard error and the status are not compared. Blocks without a command are passed over, and so is one
whose fence has the word `unchecked` (a command that needs a network, say), or `needs:TOOL` where TOOL is not installed:
of that a line tells.

Each document gets a copy of the repository's files, so that nothing is left here, and each command a shell of its own
in its top folder, with no input: what one command writes into a file there, the next ones find. `./tracesync` there
runs the program that PROGRAM names, else the one that is built here. Prints a line for each command that differs, and
at last 'N passed, M failed'; with status 1 if one failed, or if no command was found at all.
"""

import argparse
import re
import subprocess
import sys
import tempfile
from collections.abc import Sequence
from dataclasses import dataclass

from support.program import TOP, program, read
from support.tree import copy_tree
from support.wireshark import is_there

DOCUMENTS = ("README.md", "docs/GUIDE.md", "docs/VANTAGE.md", "docs/LOGS.md", "docs/PROBLEMS.md")
# How long a command may take.
SECONDS = 120


@dataclass
class Command:
    """A command: the line where it stands, its text, and what it is to print."""

    line: int
    text: str
    wanted: str


@dataclass
class Block:
    """A fenced block: the number of its first line, the words behind its fence, and its lines without the fence's
    indentation."""

    first: int
    words: list[str]
    lines: list[str]


def blocks(lines: Sequence[str]) -> list[Block]:
    """The fenced blocks of a document."""
    found: list[Block] = []
    fence, indent = "", 0
    for number, line in enumerate(lines, 1):
        opens = re.fullmatch(r"( *)(```+|~~~+)(.*)", line)
        if fence and opens and opens[2].startswith(fence) and not opens[3].strip():
            fence = ""
        elif fence:
            found[-1].lines.append(line[indent:] if not line[:indent].strip() else line)
        elif opens:
            indent, fence = len(opens[1]), opens[2]
            found.append(Block(number + 1, opens[3].split(), []))
    return found


def lacking(block: Block) -> list[str]:
    """The tools that a block needs and that are not installed."""
    needed = [it.removeprefix("needs:") for it in block.words if it.startswith("needs:")]
    return [it for it in needed if not is_there(it)]


def commands(some: Sequence[Block]) -> list[Command]:
    """The commands of some blocks, each with what it is to print."""
    found: list[Command] = []
    for block in some:
        is_command, goes_on = False, False
        for number, line in enumerate(block.lines, block.first):
            if goes_on:
                found[-1].text += f"\n{line}"
            elif line.startswith("$ "):
                is_command = True
                found.append(Command(number, line[2:], ""))
            elif is_command:
                found[-1].wanted += f"{line}\n"
            goes_on = (goes_on or line.startswith("$ ")) and line.endswith("\\")
    return found


def differs(wanted: str, printed: str) -> str | None:
    """The first line in which two texts differ, in words, or None."""
    if wanted == printed:
        return None
    one, other = wanted.splitlines(True), printed.splitlines(True)
    at = next((k for k, pair in enumerate(zip(one, other)) if pair[0] != pair[1]), min(len(one), len(other)))
    shown = [repr(it[at]) if at < len(it) else "nothing more" for it in (other, one)]
    return f"line {at + 1} is {shown[0]}, and {shown[1]} is written"


def run(command: Command, folder: str) -> str | None:
    """Runs a command, and returns how it differs from what is written, in words, or None."""
    words = ["bash", "-c", command.text]
    try:
        ran = subprocess.run(words, cwd=folder, stdin=subprocess.DEVNULL, capture_output=True, timeout=SECONDS)
    except subprocess.TimeoutExpired:
        return f"it had not ended after {SECONDS} seconds"
    why = differs(command.wanted, ran.stdout.decode(errors="replace"))
    said = ran.stderr.decode(errors="replace").strip().split("\n")[-1]
    return f"{why} (status {ran.returncode}; {said or 'no word on the standard error'})" if why else None


def run_document(document: str) -> tuple[int, int]:
    """Runs a document's commands, and returns how many passed and how many failed."""
    checked = [it for it in blocks(read(f"{TOP}/{document}").decode().splitlines()) if "unchecked" not in it.words]
    for it in checked:
        if lacking(it):
            print(f"{document}:{it.first}: left out, there is no {lacking(it)[0]}")
    found = commands([it for it in checked if not lacking(it)])
    failed = 0
    with tempfile.TemporaryDirectory() as room:
        copy_tree(f"{room}/repository", program())
        for command in found:
            why = run(command, f"{room}/repository")
            if why:
                failed += 1
                print(f"{document}:{command.line}: {command.text}: {why}", flush=True)
    return len(found) - failed, failed


def main() -> int:
    parser = argparse.ArgumentParser(
        description=__doc__.split("\n\n")[0], epilog="The docstring of this file says how documents are read."
    )
    parser.add_argument("documents", metavar="DOCUMENT", nargs="*", help=f"{', '.join(DOCUMENTS)}, if none is named")
    counts = [run_document(document) for document in parser.parse_args().documents or DOCUMENTS]
    passed, failed = sum(it[0] for it in counts), sum(it[1] for it in counts)
    print(f"{passed} passed, {failed} failed")
    return 1 if failed or not passed else 0


if __name__ == "__main__":
    sys.exit(main())
