"""The files behind the words of a command line: several of one label, found by a pattern, unpacked, and a ring of captures joined."""

import bz2
import glob
import gzip
import lzma
import os
import shutil
import struct
import subprocess
import zlib
from collections.abc import Callable, Iterable, Iterator
from dataclasses import replace
from typing import Any

from captures import CAPTURED_MOST, Blocks, classic
from files import write_parts
from inputs import Input, checked, open_input, parse_input
from tracesync.starts import MAGICS, SECTION, start_of

# What opens a file to be read unpacked, by its path.
Opener = Callable[[str], Any]

# A file of a session has so many bytes at most, and parts of so many are unpacked at once.
BYTES_MOST, PART = 1 << 28, 1 << 20
HEADER = 24
# So many files of one capture are named one by one.
NAMED_MOST = 3
# What unpacks a file with these first bytes: a module of Python, or a command with the package that brings it.
OPENERS: dict[bytes, Opener] = {b"\x1f\x8b": gzip.open, b"\xfd7zXZ": lzma.open, b"BZh": bz2.open}
COMMANDS = {b"\x28\xb5\x2f\xfd": "zstd", b"\x04\x22\x4d\x18": "lz4"}


def file_names(word: str) -> list[str]:
    """Returns the files that the right side of LABEL=FILE names: itself, or what commas part, each of which may be a pattern."""
    if os.path.exists(word):
        return [word]
    found: list[str] = []
    for name in word.split(","):
        matched = sorted(glob.glob(name)) if glob.has_magic(name) and not os.path.exists(name) else [name]
        if not matched:
            raise ValueError(f"no file is like {name}")
        found += matched
    return found


def limited(parts: Iterable[bytes], path: str) -> Iterator[bytes]:
    """Yields the parts. Raises ValueError where they are more bytes than a session takes."""
    size = 0
    for part in parts:
        size += len(part)
        if size > BYTES_MOST:
            raise ValueError(f"{path} has more than 2^28 bytes when it is unpacked: unpack it, and see docs/GUIDE.md, Captures in several files")
        yield part


def by_python(path: str, opener: Opener) -> Iterator[bytes]:
    try:
        with opener(path) as it:
            while part := it.read(PART):
                yield part
    except (EOFError, lzma.LZMAError, zlib.error, gzip.BadGzipFile) as why:
        raise ValueError(f"{path} cannot be unpacked to its end: {why}") from why


def by_command(path: str, command: str) -> Iterator[bytes]:
    """Yields what a command unpacks of a file."""
    if not shutil.which(command):
        raise ValueError(f"{path} is compressed by {command}, and that command is not there: apt-get install {command} (or your system's way), or unpack it first")
    with open(path, "rb") as packed, subprocess.Popen([command, "-d", "-c"], stdin=packed, stdout=subprocess.PIPE, stderr=subprocess.PIPE) as ran:
        assert ran.stdout and ran.stderr
        try:
            while part := ran.stdout.read(PART):
                yield part
            why = ran.stderr.read().decode(errors="replace").strip()
            ran.wait()
        finally:
            # (where nobody reads on, it would wait for ever)
            if ran.poll() is None:
                ran.kill()
    if ran.returncode:
        raise ValueError(f"{path} cannot be unpacked to its end: {why}")


def unpacked_parts(path: str) -> Iterator[bytes] | None:
    """Returns what a compressed file unpacks to, or None where it is none, by its first bytes."""
    if not os.path.isfile(path):
        return None
    start = start_of(path)
    opener = next((it for magic, it in OPENERS.items() if start.startswith(magic)), None)
    command = next((it for magic, it in COMMANDS.items() if start.startswith(magic)), None)
    return by_python(path, opener) if opener else by_command(path, command) if command else None


class Gathering:
    """Gathers the inputs of words; what has to be written for that is written into the folder, and said where that is kept."""

    def __init__(self, folder: str, say: Callable[[str], None], is_kept: bool = True) -> None:
        self.folder, self.say, self.is_kept, self.count = folder, say, is_kept, 0

    def inputs(self, words: Iterable[str]) -> list[Input]:
        """Returns the inputs with their files read: those of one label behind each other, captures among them by their first packets."""
        named = [replace(it, path=path, origin=path) for it in map(parse_input, words) for path in file_names(it.path)]
        labels: dict[str, list[Input]] = {}
        for it in named:
            labels.setdefault(it.label, []).append(replace(it, path=self.unpacked(it.path)))
        found = [it for group in labels.values() for it in self.joined(group)]
        for it in found:
            self.count += 1
            it.path = plain_path(it.path, self.folder, self.count)
        return checked([open_input(it) for it in found])

    def written(self, name: str, parts: Iterable[bytes], told: str) -> str:
        """Writes a file into the folder, and returns its path."""
        os.makedirs(self.folder, exist_ok=True)
        path = f"{self.folder}/{name}"
        write_parts(path, parts)
        if self.is_kept:
            self.say(f"{told} as {path}.")
        return path

    def unpacked(self, path: str) -> str:
        """Returns the path of a file that is not compressed: this one, or what was unpacked of it."""
        parts = unpacked_parts(path)
        if parts is None:
            return path
        self.count += 1
        return self.written(f"unpacked-{self.count}", limited(parts, path), f"Unpacked {path}")

    def joined(self, group: list[Input]) -> list[Input]:
        """Returns the inputs of a label: several captures in the order of their first packets, classic ones joined to one."""
        starts = [start_of(it.path)[:4] if os.path.isfile(it.path) else b"" for it in group]
        if len(group) < 2 or not all(it in MAGICS for it in starts) and not all(it == SECTION for it in starts):
            return group
        group = sorted(group, key=lambda it: first_stamp(it.path))
        if starts[0] == SECTION:
            return group
        name = f"joined-{group[0].label}.pcap"
        told = f"Joined {len(group)} files of {group[0].label}"
        path = self.written(name, limited(joined_parts(group, self.say), name), told)
        return [replace(group[0], path=path, origin=names_of([it.origin for it in group]))]


def names_of(names: list[str]) -> str:
    """Returns names as one text: of a great many the first ones, and how many more there are."""
    more = len(names) - NAMED_MOST
    return ", ".join(names[:NAMED_MOST]) + (f" and {more} more" if more > 0 else "")


def first_stamp(path: str) -> float:
    """Returns the stamp of a capture's first packet in ns, or more than each where it has none."""
    with open(path, "rb") as it:
        data = it.read(PART)
    packets = (classic(data) if data[:4] in MAGICS else Blocks(data).capture()).packets
    return packets[0].stamp if packets else float("inf")


def joined_parts(group: list[Input], say: Callable[[str], None]) -> Iterator[bytes]:
    """Yields classic captures as one: the first header, and the whole records of all. Raises ValueError where their headers differ."""
    first = b""
    for own in group:
        with open(own.path, "rb") as it:
            data = it.read()
        head = data[:HEADER]
        first = first or head
        # (the size that packets are cut at may differ; byte order, resolution, version and link type may not)
        for begin, end, what in ((0, 4, "byte order or resolution"), (4, 8, "version"), (20, 24, "link type")):
            if head[begin:end] != first[begin:end]:
                told = f"{own.shown} has another {what} than {group[0].shown}"
                raise ValueError(f"{told}: give each a label of its own, LABEL@HOST=FILE")
        end = end_of_records(data)
        if end < len(data):
            say(f"The last {len(data) - end} bytes of {own.shown} are no whole packet, and are left out.")
        yield data[0 if own is group[0] else HEADER : end]


def end_of_records(data: bytes) -> int:
    """Returns the place behind the last whole packet of a classic capture."""
    length, at = struct.Struct(f"{MAGICS[data[:4]][0]}I"), HEADER
    while at + 16 <= len(data):
        captured = length.unpack_from(data, at + 8)[0]
        if captured > CAPTURED_MOST or at + 16 + captured > len(data):
            break
        at += 16 + captured
    return at


def plain_path(path: str, folder: str, number: int) -> str:
    """Returns a path that a line of a script can name: this one, or a link in the folder."""
    if all(33 <= it <= 126 for it in os.fsencode(path)):
        return path
    os.makedirs(folder, exist_ok=True)
    link = os.path.join(folder, f"file-{number}")
    if os.path.islink(link):
        os.remove(link)
    os.symlink(os.path.realpath(path), link)
    if not all(33 <= it <= 126 for it in os.fsencode(link)):
        raise ValueError(f"no script can name {path}, nor the folder {folder}: both have signs that are none of ASCII, or blanks")
    return link
