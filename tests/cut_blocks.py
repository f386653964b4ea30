#!/usr/bin/env python3
"""Cuts captures in pcapng at each byte, and wants what the whole ones give.

    tests/cut_blocks.py [--every N] [CAPTURE..]

With no word the captures are those of examples/pcapng and, where the tools for it are there, what make.sh there
writes: other tools order their blocks in another way, and mergecap's has two interfaces. Each capture is added in two
pieces, once for each byte at which it can be cut, or for every N-th one. Behind the first piece there must be as many
events as packets stand in the blocks that have ended, by what is read here, and the bytes behind the last of them
must be pending; behind the second one all must be there, and the problem be that of the whole capture. There must be
as many packets as capinfos counts, if it is there. PROGRAM names the program, else it is the one that is built here.
"""

import argparse
import os
import struct
import subprocess
import sys
import tempfile
from concurrent.futures import ThreadPoolExecutor
from dataclasses import dataclass

from support.program import TOP, read, write
from support.replies import added, answered
from support.wireshark import is_there, packets_of

HOSTS = f"{TOP}/examples/captures/hosts.toml"
# The type of an enhanced packet block.
PACKET = 6


def ends_of(data: bytes) -> list[tuple[int, int]]:
    """The places at which a block ends, each with the number of packets as far as there."""
    ends, place, byte_order = [(0, 0)], 0, "<"
    while place < len(data):
        if data[place : place + 4] == b"\n\r\r\n":
            byte_order = "<" if data[place + 8 : place + 12] == b"M<+\x1a" else ">"
        kind, size = struct.unpack_from(byte_order + "II", data, place)
        place += size
        ends.append((place, ends[-1][1] + (kind == PACKET)))
    return ends


@dataclass(frozen=True)
class Capture:
    """A capture, the ends of its blocks, and the problem of the whole."""

    data: bytes
    ends: list[tuple[int, int]]
    problem: list[str]

    @property
    def packets(self) -> int:
        return self.ends[-1][1]


def whole(path: str) -> Capture:
    """A capture as it is added whole. Raises AssertionError where it has not as many packets as are read here."""
    data = read(path)
    addition, problem = answered(HOSTS, [f"add left {path}", "problem"])
    found = Capture(data, ends_of(data), problem)
    assert added(addition) == (found.packets, 0), addition
    if is_there("capinfos"):
        assert packets_of(path) == found.packets, path
    return found


def check_cut(capture: Capture, cut: int, folder: str) -> None:
    """Adds a capture in two pieces. Raises AssertionError where the answers are others than they should be."""
    pieces = (("front", capture.data[:cut]), ("back", capture.data[cut:]))
    paths = [write(f"{folder}/{cut}.{name}", piece) for name, piece in pieces]
    first, second, problem = answered(HOSTS, [*(f"add left {path}" for path in paths), "problem"])
    end, packets = max(it for it in capture.ends if it[0] <= cut)
    assert added(first) == (packets, cut - end), (cut, first)
    assert added(second) == (capture.packets - packets, 0), (cut, second)
    assert problem == capture.problem, (cut, "another problem")
    for path in paths:
        os.remove(path)


def check(path: str, every: int, folder: str) -> None:
    """Cuts a capture at every so many bytes."""
    capture = whole(path)
    cuts = range(0, len(capture.data) + 1, every)
    with ThreadPoolExecutor(os.cpu_count()) as pool:
        for _ in pool.map(lambda cut: check_cut(capture, cut, folder), cuts):
            pass
    print(f"{path}: {capture.packets} packets, {len(capture.data)} bytes, cut at {len(cuts)} places")


def main() -> int:
    parser = argparse.ArgumentParser(description=__doc__.split("\n\n")[0])
    parser.add_argument("--every", metavar="N", type=int, default=1, help="cut at every N-th byte; 1")
    parser.add_argument("captures", metavar="CAPTURE", nargs="*", help="those of examples/pcapng, if none is named")
    said = parser.parse_args()
    with tempfile.TemporaryDirectory() as folder:
        paths = said.captures or [f"{TOP}/examples/pcapng/{it}.pcapng" for it in ("left", "right")]
        if not said.captures and is_there("editcap", "tshark", "dumpcap", "mergecap"):
            subprocess.run([f"{TOP}/examples/pcapng/make.sh", folder], check=True, capture_output=True)
            paths += [f"{folder}/{it}.pcapng" for it in ("copy", "both")]
        for path in paths:
            check(path, said.every, folder)
    return 0


if __name__ == "__main__":
    sys.exit(main())
