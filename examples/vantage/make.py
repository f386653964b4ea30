#!/usr/bin/env python3
"""Writes the captures of this folder: one small conversation of TCP, as it is seen at several places on its way.

    ./make.py FOLDER

Nothing here was sent. Each packet has a true time at each place, and each place has a clock that is ahead by its own
offset, runs at its own rate and cuts off what is below 1 us. So it is known what the answers have to contain.

nat: host a, a box that translates its address, seen on both sides, and server f. pods: a pod of node k1, seen there on
all interfaces at once, and a pod of node k2. mirror: client c, and a mirror port of the switch to which it is joined.
rows: browser b, and server w with a log beside its packets, whose stamps are cut off to whole ms.
"""

import argparse
import random
import struct
from collections.abc import Iterator
from dataclasses import dataclass
from itertools import accumulate

BEGIN = 1_780_000_000 * 10**9
SYN, ACK, PUSH, FIN = 2, 16, 8, 1
ETHERNET, COOKED = 1, 276
# Who sends each packet (True: who asks), its control bits, its payload, and how long after the one before.
CONVERSATION = [
    (True, SYN, b"", 0),
    (False, SYN | ACK, b"", 31_000),
    (True, ACK, b"", 18_000),
    (True, PUSH | ACK, b"GET /ready", 4_000),
    (False, PUSH | ACK, b"yes", 412_000),
    (True, FIN | ACK, b"", 95_000),
    (False, FIN | ACK, b"", 27_000),
    (True, ACK, b"", 12_000),
]
End = tuple[str, int]  # an address and a port


@dataclass(frozen=True)
class Clock:
    """How far a clock is ahead in ns, and by how many parts per million it is fast."""

    ahead: int
    ppm: int

    def shows(self, time: int) -> int:
        """What it shows at a true time, in whole us."""
        return (BEGIN + time + self.ahead + time * self.ppm // 10**6) // 1000


class Capture:
    """A classic capture of us, while it is made."""

    def __init__(self, link: int, clock: Clock) -> None:
        self.link, self.clock, self.records = link, clock, list[tuple[int, bytes]]()

    def sees(self, time: int, frame: bytes) -> None:
        self.records.append((time, frame))

    def write(self, path: str) -> None:
        with open(path, "wb") as it:
            it.write(struct.pack("<IHHiIII", 0xA1B2C3D4, 2, 4, 0, 0, 262_144, self.link))
            for time, frame in sorted(self.records, key=lambda record: record[0]):
                stamp = self.clock.shows(time)
                it.write(struct.pack("<IIII", stamp // 10**6, stamp % 10**6, len(frame), len(frame)) + frame)


@dataclass(frozen=True)
class Packet:
    """A packet of the conversation, without its addresses."""

    asks: bool
    ident: int
    sequence: int
    acknowledged: int
    bits: int
    payload: bytes

    def between(self, asking: End, asked: End, left: int) -> bytes:
        """The packet from one end to the other, with so many hops left."""
        source, target = (asking, asked) if self.asks else (asked, asking)
        numbers = (self.sequence, self.acknowledged, 5 << 4, self.bits, 64_240, 0, 0)
        data = struct.pack(">HHIIBBHHH", source[1], target[1], *numbers) + self.payload
        head = struct.pack(">BBHHHBBH", 0x45, 0, 20 + len(data), self.ident, 0x4000, left, 6, 0)
        words = [bytes(int(it) for it in end[0].split(".")) for end in (source, target)]
        return head + words[0] + words[1] + data


def ethernet(packet: bytes, asks: bool, near: int, far: int) -> bytes:
    """A frame between two interfaces, of which the near one is on the side of who asks."""
    source, target = (near, far) if asks else (far, near)
    return struct.pack(">6B6BH", 2, 0, 0, 0, 0, target, 2, 0, 0, 0, 0, source, 0x0800) + packet


def cooked(packet: bytes, interface: int, outward: bool) -> bytes:
    """A frame as tcpdump has it from `any`."""
    return struct.pack(">HHIHBB8s", 0x0800, 0, interface, 1, 4 if outward else 0, 6, bytes(8)) + packet


def conversation(draw: random.Random, *gaps: tuple[int, int]) -> Iterator[tuple[Packet, list[int]]]:
    """The packets, each with the true times at which it is at the places on its way, the one who asks being first:
    between two of them it takes a time between two bounds."""
    sent, now = {True: 1000, False: 2000}, 0
    for number, (asks, bits, payload, after) in enumerate(CONVERSATION):
        steps = [0, *accumulate(draw.randrange(*bounds) for bounds in gaps)]
        packet = Packet(asks, 700 + number, sent[asks], sent[not asks] if bits & ACK else 0, bits, payload)
        yield packet, [now + after + (it if asks else steps[-1] - it) for it in steps]
        sent[asks] += len(payload) + (1 if bits & (SYN | FIN) else 0)
        now += after + steps[-1]


def write_nat(folder: str) -> None:
    """The box has a clock of its own, and other addresses on its far side."""
    inside, outside, server, box = ("10.3.1.2", 40_000), ("10.3.2.1", 61_007), ("10.3.2.2", 80), Clock(0, 0)
    a, f = Capture(ETHERNET, Clock(7_200 * 10**9, 21)), Capture(ETHERNET, Clock(-40_312_000_000, -14))
    lan, wan = Capture(ETHERNET, box), Capture(ETHERNET, box)
    gaps = (60_000, 110_000), (9_000, 30_000), (35_000, 60_000)
    for packet, times in conversation(random.Random("nat"), *gaps):
        for capture, time in zip((a, lan), times[:2]):
            capture.sees(time, ethernet(packet.between(inside, server, 64 if packet.asks else 63), packet.asks, 1, 2))
        for capture, time in zip((wan, f), times[2:]):
            capture.sees(time, ethernet(packet.between(outside, server, 63 if packet.asks else 64), packet.asks, 3, 4))
    for name, capture in ("a", a), ("n-lan", lan), ("n-wan", wan), ("f", f):
        capture.write(f"{folder}/{name}.pcap")


def write_pods(folder: str) -> None:
    """A packet of the pod passes its own interface, 7, the bridge, 5, and that of the node, 2; and so back."""
    ends = ("10.244.1.5", 40_000), ("10.244.2.7", 8_080)
    k1, k2 = Capture(COOKED, Clock(0, 0)), Capture(ETHERNET, Clock(3_517_000, 33))
    gaps = (1_000, 4_000), (3_000, 9_000), (28_000, 55_000)
    for packet, times in conversation(random.Random("pods"), *gaps):
        for interface, time in zip((7, 5, 2), times):
            left = 64 - (interface == 2) if packet.asks else 62 + (interface == 2)
            k1.sees(time, cooked(packet.between(*ends, left), interface, (interface == 2) == packet.asks))
        k2.sees(times[3], ethernet(packet.between(*ends, 63), packet.asks, 3, 4))
    k1.write(f"{folder}/k1-any.pcap")
    k2.write(f"{folder}/k2.pcap")


def write_mirror(folder: str) -> None:
    """The switch hands on a copy of each packet, which waits for a while; the server has no capture."""
    draw, ends = random.Random("mirror"), (("192.168.1.10", 40_000), ("192.168.1.20", 5_432))
    c, m = Capture(ETHERNET, Clock(-912_000_000, 40)), Capture(ETHERNET, Clock(0, 0))
    for packet, times in conversation(draw, (20_000, 45_000), (4_000, 9_000)):
        frame = ethernet(packet.between(*ends, 64), packet.asks, 1, 2)
        c.sees(times[0], frame)
        m.sees(times[1] + draw.randrange(1_000, 18_000), frame)
    c.write(f"{folder}/c.pcap")
    m.write(f"{folder}/m.pcap")


def write_rows(folder: str) -> None:
    """The server writes a row once it has accepted, answered and closed, by the clock of its capture."""
    draw, ends = random.Random("rows"), (("192.168.1.10", 40_002), ("192.168.1.30", 80))
    clock, rows, told = Clock(51_400_000, -17), list[str](), {702: "accepted", 704: "GET /ready 200", 706: "closed"}
    b, w = Capture(ETHERNET, Clock(-230_000_000, 28)), Capture(ETHERNET, clock)
    for packet, times in conversation(draw, (40_000, 75_000)):
        frame = ethernet(packet.between(*ends, 64), packet.asks, 1, 2)
        b.sees(times[0], frame)
        w.sees(times[1], frame)
        if packet.ident in told:
            stamp = clock.shows(times[1] + draw.randrange(5_000, 20_000)) // 1000 * 10**6
            rows.append(f"{stamp},local,,{told[packet.ident]}\n")
    b.write(f"{folder}/b.pcap")
    w.write(f"{folder}/w.pcap")
    with open(f"{folder}/w-rows.csv", "w", encoding="ascii") as it:
        it.writelines(rows)


def main() -> None:
    parser = argparse.ArgumentParser(description=__doc__.split("\n\n")[0])
    parser.add_argument("folder", metavar="FOLDER", help="where the captures are written")
    folder = parser.parse_args().folder
    write_nat(folder)
    write_pods(folder)
    write_mirror(folder)
    write_rows(folder)


if __name__ == "__main__":
    main()
