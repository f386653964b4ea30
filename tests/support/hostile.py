"""What the scripts share that give the program inputs which mean it ill: how inputs are cut and changed, and how the
program runs over them."""

import argparse
import re
import struct
from collections.abc import Callable, Iterable, Sequence
from dataclasses import dataclass
from random import Random

from .program import program, read, write
from .timing import Run, run

# The greatest number of ns that a text may have is one below this.
NANOS = 1 << 62
# The seconds of a processor, and of a clock on the wall, that a run may take.
SECONDS, WALL = 5, 100


@dataclass(frozen=True)
class Language:
    """What changes of an input are made of."""

    signs: bytes  # bytes that mean something to the reader
    numbers: Sequence[int | str]
    number: re.Pattern[bytes]  # where a number stands
    word: re.Pattern[bytes]  # where a word stands: its first group
    ways: Sequence["Way"]


@dataclass(frozen=True)
class Source:
    """What a change draws from."""

    draw: Random
    others: Sequence[bytes]
    language: Language

    def place(self, content: bytes) -> int:
        return self.draw.randrange(len(content) + 1)

    def length(self) -> int:
        return self.draw.choice((1, 1, 2, 4, 30))


Way = Callable[[Source, bytes], bytes]


def put_byte(source: Source, content: bytes) -> bytes:
    """Any byte, in place of one or in between."""
    at, over = source.place(content), source.draw.randrange(2)
    return content[:at] + bytes([source.draw.randrange(256)]) + content[at + over :]


def put_sign(source: Source, content: bytes) -> bytes:
    """A byte that means something, in place of some or in between."""
    at, over = source.place(content), source.draw.choice((0, source.length()))
    return content[:at] + bytes([source.draw.choice(source.language.signs)]) + content[at + over :]


def cut_out(source: Source, content: bytes) -> bytes:
    at = source.place(content)
    return content[:at] + content[at + source.length() :]


def copy_in(source: Source, content: bytes) -> bytes:
    """A piece of another input."""
    at = source.place(content)
    return content[:at] + source.draw.choice(source.others)[at : at + source.length()] + content[at:]


def change_number(source: Source, content: bytes) -> bytes:
    found = list(source.language.number.finditer(content))
    if not found:
        return content
    it = source.draw.choice(found)
    return content[: it.start()] + str(source.draw.choice(source.language.numbers)).encode() + content[it.end() :]


def change_word(source: Source, content: bytes) -> bytes:
    """One word in place of another."""
    found = list(source.language.word.finditer(content))
    if not found:
        return content
    it, other = source.draw.choice(found), source.draw.choice(found)
    return content[: it.start(1)] + other[1] + content[it.end(1) :]


def change_count(source: Source, content: bytes) -> bytes:
    """A number of four bytes in place of four bytes."""
    if len(content) < 4:
        return content
    at = source.draw.randrange(len(content) - 3)
    count = source.draw.choice((0, 1, 4, 28, 65535, 262144, 262145, 2**31, 2**32 - 1))
    return content[:at] + struct.pack(source.draw.choice("<>") + "I", count) + content[at + 4 :]


def put_line(source: Source, content: bytes) -> bytes:
    """A line of another input."""
    lines = content.split(b"\n")
    place = source.draw.randrange(len(lines) + 1)
    lines.insert(place, source.draw.choice(source.draw.choice(source.others).split(b"\n")))
    return b"\n".join(lines)


def move_line(source: Source, content: bytes) -> bytes:
    """A line to the end."""
    lines = content.split(b"\n")
    lines.append(lines.pop(source.draw.randrange(len(lines))))
    return b"\n".join(lines)


ALL_WAYS: Sequence[Way] = (
    put_byte, put_byte, put_sign, cut_out, copy_in, change_number, change_word, change_count, put_line, move_line,
)  # fmt: skip


def changes(source: Source, inputs: Sequence[bytes], count: int) -> Iterable[tuple[str, bytes]]:
    """So many inputs by their titles, each of which is one of these with one to three changes."""
    for number in range(count):
        content = source.draw.choice(inputs)
        for _ in range(source.draw.choice((1, 1, 1, 2, 3))):
            content = source.draw.choice(source.language.ways)(source, content)
        yield f"change {number}", content


def cuts(inputs: dict[str, bytes], shorter: int) -> dict[bytes, str]:
    """The fronts of the inputs that are shorter than that, each once, with their titles."""
    small = {title: it for title, it in inputs.items() if len(it) < shorter}
    return {it[:at]: f"{title} cut at {at}" for title, it in small.items() for at in range(len(it))}


@dataclass(frozen=True)
class Outcome:
    """What a run took, what it printed, and what it said on the standard error."""

    run: Run
    printed: bytes
    said: bytes

    @property
    def text(self) -> str:
        return self.printed.decode("ascii", "backslashreplace")


class Folder:
    """A folder with the files of runs."""

    def __init__(self, path: str) -> None:
        self.path = path
        self.put("empty", b"")

    def put(self, name: str, content: bytes | str) -> str:
        return write(f"{self.path}/{name}", content)

    def run(self, words: Sequence[str], script: str = "empty") -> Outcome:
        """Runs the program in this folder.

        A run that takes too long is ended by a signal, so that its status is below 0."""
        source, printed, said = (f"{self.path}/{name}" for name in (script, "out", "said"))
        ended = run([program(), *words], source, printed, said, folder=self.path, processor=SECONDS, wall=WALL)
        return Outcome(ended, read(printed), read(said))


def arguments(doc: str) -> argparse.Namespace:
    """How many changes are asked for, and their seed."""
    parser = argparse.ArgumentParser(description=doc.split("\n\n")[0])
    changes = "how many changed inputs; 2000"
    parser.add_argument("changes", metavar="CHANGES", nargs="?", type=int, default=2000, help=changes)
    parser.add_argument("seed", metavar="SEED", nargs="?", type=int, default=1, help="the seed of the changes; 1")
    return parser.parse_args()
