"""How many events a file has, counted without reading what they are. This module is written for each Python from 3.8 on, as tools/first-look."""

from __future__ import annotations

import os
import struct

# What tools/first-look runs at most, and why.
LOOK_MOST = 200
LOOK_TIME = "with its checks at run time the program is too slow to end within its 60 seconds"
# So many bytes are looked at; a file with more has more events than any look.
BYTES_MOST = 1 << 24
CLASSIC = {b"\xa1\xb2\xc3\xd4": ">", b"\xd4\xc3\xb2\xa1": "<", b"\xa1\xb2\x3c\x4d": ">", b"\x4d\x3c\xb2\xa1": "<"}
SECTION, BIG, PACKET = b"\x0a\x0d\x0d\x0a", b"\x1a\x2b\x3c\x4d", 6


def count_events(path: str | bytes) -> int:
    """Returns how many packets a capture has, or how many lines another file; 0 where none can be read."""
    if not os.path.isfile(path):
        return 0
    try:
        with open(path, "rb") as it:
            data = it.read(BYTES_MOST)
    except OSError:
        return 0
    if data[:4] in CLASSIC:
        return count_records(data, CLASSIC[data[:4]])
    if data[:4] == SECTION:
        return count_blocks(data)
    return sum(1 for line in data.split(b"\n") if line.strip())


def count_records(data: bytes, order: str) -> int:
    """Returns the packets of a classic capture."""
    at, count = 24, 0
    while at + 16 <= len(data):
        at += 16 + struct.unpack_from(order + "I", data, at + 8)[0]
        count += at <= len(data)
    return count


def count_blocks(data: bytes) -> int:
    """Returns the packets of a capture in pcapng."""
    at, count, order = 0, 0, "<"
    while at + 12 <= len(data):
        if data[at : at + 4] == SECTION:
            order = ">" if data[at + 8 : at + 12] == BIG else "<"
        kind, length = struct.unpack_from(order + "II", data, at)
        if length < 12:
            break
        at += length
        count += kind == PACKET and at <= len(data)
    return count
