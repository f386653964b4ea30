"""What a file is, by its first bytes."""

from __future__ import annotations

from typing import Optional

# The order of bytes and the ns of a fraction of a second, by the magic number of a classic capture.
MAGICS = {
    b"\xa1\xb2\xc3\xd4": (">", 1000), b"\xd4\xc3\xb2\xa1": ("<", 1000),
    b"\xa1\xb2\x3c\x4d": (">", 1), b"\x4d\x3c\xb2\xa1": ("<", 1),
}  # fmt: skip
# The type of a section header, with which a capture in pcapng begins.
SECTION = b"\x0a\x0d\x0d\x0a"
# What a file begins with that is neither a capture nor a log, and what takes it off.
PACKED = {
    b"\x1f\x8b": ("compressed by gzip", "gunzip"),
    b"\x28\xb5\x2f\xfd": ("compressed by zstd", "unzstd"),
    b"\x04\x22\x4d\x18": ("compressed by lz4", "unlz4"),
    b"\xfd7zXZ": ("compressed by xz", "unxz"),
    b"BZh": ("compressed by bzip2", "bunzip2"),
    b"PK\x03\x04": ("a zip archive", "unzip"),
    b"\x54\x52\x53\x4e\x49\x46\x46": ("a capture of Sniffer", "editcap -F nsecpcap"),
    b"snoop\x00": ("a capture of snoop", "editcap -F nsecpcap"),
}


def start_of(path: str) -> bytes:
    """Returns the first bytes of a file."""
    with open(path, "rb") as it:
        return it.read(16)


def is_capture(start: bytes) -> bool:
    """Returns whether a file that begins with these bytes is a capture."""
    return start[:4] in MAGICS or start[:4] == SECTION


def packed(start: bytes) -> Optional[tuple[str, str]]:
    """Returns what a file is that begins with these bytes, and the command that unpacks it, or None.

    >>> packed(b"BZh91AY")
    ('compressed by bzip2', 'bunzip2')
    """
    return next((told for magic, told in PACKED.items() if start.startswith(magic)), None)
