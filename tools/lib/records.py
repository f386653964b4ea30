"""What stands behind an event: the packet or row that it is, its connection, and where that stands in its file."""

from collections.abc import Iterator
from typing import NamedTuple

from captures import Packet
from headers import PROTOCOLS, TCP, UDP, decode, described, end_text, short_address
from inputs import Input


class Record(NamedTuple):
    """A packet or row: in words and in few words, the two ends of its connection, the key of a row, and its file with the
    number that Wireshark gives it as a frame, None where it is no packet or versions differ."""

    text: str = ""
    brief: str = ""
    connection: str = ""
    key: str = ""
    path: str = ""
    frame: int | None = None


def records_of(it: Input) -> Iterator[Record]:
    """Yields the records of a file, in its order."""
    if it.kind == "capture":
        for packet in it.content.packets:
            yield Record(*described(packet), connection_of(packet), "", it.path, packet.frame)
        return
    for _, _, key, text in it.content.rows:
        yield Record(text, text, key=key, path=it.path)


def connection_of(packet: Packet) -> str:
    """Returns both ends of a packet of IP with its protocol, the same both ways; nothing of another one."""
    found, _ = decode(packet.link, packet.data)
    if found is None:
        return ""
    name = {TCP: "TCP", UDP: "UDP"}.get(found.protocol) or PROTOCOLS.get(found.protocol, f"protocol {found.protocol}")
    if found.ports is None:
        ends = sorted((found.source, found.target))
        return f"{name} {short_address(ends[0])} and {short_address(ends[1])}"
    ends = sorted(zip((found.source, found.target), found.ports))
    return f"{name} {end_text(*ends[0])} and {end_text(*ends[1])}"
