"""What an executable of Linux needs of the machine that runs it, by its ELF headers (System V ABI, its AMD64 supplement, and gABI)."""

import re
import struct
from collections.abc import Iterator
from dataclasses import dataclass, field

ELF64_LSB, X86_64 = b"\x7fELF\x02\x01", 62
EXECUTABLES = (2, 3)
LOAD, DYNAMIC, INTERPRETER = 1, 2, 3
NEEDED, STRINGS, RPATH, RUNPATH, VERSIONS, VERSION_COUNT = 1, 5, 15, 29, 0x6FFFFFFE, 0x6FFFFFFF
LOADER = "/lib64/ld-linux-x86-64.so.2"
# Which package of Debian has a library. What is not here is no part of the C library or of the compiler's own.
LIBRARIES = dict.fromkeys(("libc.so.6", "libm.so.6", "libdl.so.2", "libpthread.so.0", "librt.so.1", "ld-linux-x86-64.so.2"), "libc6")
LIBRARIES["libgcc_s.so.1"] = "libgcc-s1"


@dataclass
class Needs:
    """The loader of an executable, its libraries, the versions of their symbols by library, and the folders that it looks into."""

    loader: str | None = None
    libraries: list[str] = field(default_factory=list)
    versions: dict[str, list[str]] = field(default_factory=dict)
    folders: list[str] = field(default_factory=list)


class Executable:
    """The parts of an executable that say what it needs. Offsets are of bytes from the file's start."""

    def __init__(self, data: bytes) -> None:
        self.data = data
        kind, machine = struct.unpack_from("<HH", data, 16)
        if data[:6] != ELF64_LSB or machine != X86_64 or kind not in EXECUTABLES:
            raise ValueError("it is no executable of Linux on x86-64")
        first, = struct.unpack_from("<Q", data, 32)  # fmt: skip
        size, count = struct.unpack_from("<HH", data, 54)
        self.segments: list[tuple[int, ...]] = [struct.unpack_from("<IIQQQQ", data, first + size * at) for at in range(count)]
        self.entries = list(self.dynamic())
        self.strings = next((self.offset(value) for tag, value in self.entries if tag == STRINGS), 0)

    def offset(self, address: int) -> int:
        """Returns where in the file stands what is loaded at an address."""
        for kind, _, offset, start, _, length in self.segments:
            if kind == LOAD and start <= address < start + length:
                return offset + address - start
        raise ValueError("a table is outside of what is loaded")

    def dynamic(self) -> Iterator[tuple[int, int]]:
        """Returns the tags and values of the table for the loader, none where there is no such table."""
        for kind, _, offset, _, _, length in self.segments:
            if kind == DYNAMIC:
                for tag, value in struct.iter_unpack("<qQ", self.data[offset : offset + length // 16 * 16]):
                    if tag == 0:
                        return
                    yield tag, value

    def text(self, at: int) -> str:
        """Returns the text at a place, up to its zero byte."""
        return self.data[at : self.data.index(b"\0", at)].decode("ascii", "replace")

    def versions(self) -> dict[str, list[str]]:
        """Returns the versions of symbols that are needed of each library."""
        table = dict(self.entries)
        found: dict[str, list[str]] = {}
        at = self.offset(table[VERSIONS]) if VERSIONS in table else 0
        for _ in range(table.get(VERSION_COUNT, 0)):
            _, count, file, first, onward = struct.unpack_from("<HHIII", self.data, at)
            own = found.setdefault(self.text(self.strings + file), [])
            one = at + first
            for _ in range(count):
                _, _, _, name, further = struct.unpack_from("<IHHII", self.data, one)
                own.append(self.text(self.strings + name))
                one += further
            at += onward
        return found

    def needs(self) -> Needs:
        """Returns what the executable needs."""
        loaders = [self.text(offset) for kind, _, offset, _, _, _ in self.segments if kind == INTERPRETER]
        named = [(tag, self.text(self.strings + value)) for tag, value in self.entries if tag in (NEEDED, RPATH, RUNPATH)]
        libraries = [text for tag, text in named if tag == NEEDED]
        return Needs(loaders[0] if loaders else None, libraries, self.versions(), [text for tag, text in named if tag != NEEDED])


def needs_of(data: bytes) -> Needs:
    """Returns what an executable needs. Raises ValueError where the bytes are none of Linux on x86-64."""
    try:
        return Executable(data).needs()
    except (struct.error, IndexError):
        raise ValueError("it is no executable of Linux on x86-64") from None


def version_of(names: list[str]) -> tuple[int, ...]:
    """Returns the greatest version among names of versions as GLIBC_2.34, of which those without a number are left out."""
    numbers = (re.fullmatch(r"[A-Z]+_(\d+(?:\.\d+)*)", it) for it in names)
    return max((tuple(int(part) for part in it[1].split(".")) for it in numbers if it), default=())


def packages_of(needs: Needs) -> list[str]:
    """Returns the packages of Debian that an executable depends on, each with its least version, sorted.

    Raises ValueError where it has another loader than Debian's, a library of none of these packages, or folders of its own.
    """
    if needs.loader not in (None, LOADER):
        raise ValueError(f"its loader is {needs.loader}, which no package of Debian has")
    if needs.folders:
        raise ValueError(f"it looks for libraries in {needs.folders[0]}")
    least: dict[str, tuple[int, ...]] = {}
    for library in needs.libraries:
        if library not in LIBRARIES:
            raise ValueError(f"it needs {library}, which is no part of the C library")
        package = LIBRARIES[library]
        least[package] = max(least.get(package, ()), version_of(needs.versions.get(library, [])))
    return [f"{it} (>= {'.'.join(map(str, least[it]))})" if least[it] else it for it in sorted(least)]
