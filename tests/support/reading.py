"""Reads captures: little-endian ones, classic pcap and pcapng of one section."""

import struct
from collections.abc import Iterator
from dataclasses import dataclass

from .captures import SECTION


@dataclass(frozen=True, slots=True)
class Packet:
    """A packet: its link type, both its lengths, and its bytes."""

    link: int
    kept: int
    length: int
    data: bytes


@dataclass(frozen=True, slots=True)
class Written:
    """A packet as it stands in pcapng: the number of its interface, its stamp, the packet, and its options by code."""

    interface: int
    stamp: int
    packet: Packet
    options: dict[int, bytes]


@dataclass(frozen=True, slots=True)
class Interface:
    """An interface: its link type, the bytes that are captured at most, and its options by code."""

    link: int
    snaplen: int
    options: dict[int, bytes]


def options_of(body: bytes) -> dict[int, bytes]:
    """Options by their codes, up to the end of them."""
    found: dict[int, bytes] = {}
    at = 0
    while at + 4 <= len(body):
        code, size = struct.unpack_from("<HH", body, at)
        if code == 0:
            break
        found[code] = body[at + 4 : at + 4 + size]
        at += 4 + size + -size % 4
    return found


def blocks_of(data: bytes) -> Iterator[tuple[int, bytes]]:
    """The blocks of a file of pcapng: the type and the body of each."""
    at = 0
    while at < len(data):
        kind, size = struct.unpack_from("<II", data, at)
        assert size % 4 == 0 and data[at + size - 4 : at + size] == data[at + 4 : at + 8], at
        yield kind, data[at + 8 : at + size - 4]
        at += size


def file_of(data: bytes) -> tuple[list[Interface], list[Written]]:
    """The interfaces of a file of one section, and its enhanced packets, whatever stands beside them."""
    rest = blocks_of(data)
    first, head = next(rest)
    assert first == 0x0A0D0D0A and head.startswith(struct.pack("<IHHq", 0x1A2B3C4D, 1, 0, -1)), head
    interfaces: list[Interface] = []
    packets: list[Written] = []
    for kind, body in rest:
        if kind == 1:
            link, _, snaplen = struct.unpack_from("<HHI", body)
            interfaces.append(Interface(link, snaplen, options_of(body[8:])))
        elif kind == 6:
            number, high, low, kept, length = struct.unpack_from("<IIIII", body)
            packet = Packet(interfaces[number].link, kept, length, body[20 : 20 + kept])
            options = options_of(body[20 + kept + -kept % 4 :])
            packets.append(Written(number, high << 32 | low, packet, options))
    return interfaces, packets


def packets_in(data: bytes) -> list[Packet]:
    """The packets of a capture, classic or of pcapng."""
    if data[:4] == SECTION[:4]:
        return [it.packet for it in file_of(data)[1]]
    link = int.from_bytes(data[20:24], "little")
    found: list[Packet] = []
    at = 24
    while at + 16 <= len(data):
        kept, length = struct.unpack_from("<II", data, at + 8)
        found.append(Packet(link, kept, length, data[at + 16 : at + 16 + kept]))
        at += 16 + kept
    return found
