"""Packets as a trace has seen them: what is known of each besides its key, and what tells where the trace was taken."""

from collections import Counter
from collections.abc import Iterable, Iterator
from dataclasses import dataclass, field
from typing import TypeVar

from captures import Packet
from headers import (
    ARP, COOKED, COOKED2, ETHERNET, IPV6, Key, content_of, decode, frame, interface_of, is_unicast,
)  # fmt: skip
from inputs import Input

# Of a cooked header the type of hardware that loops back; of ICMPv6 the message in which a host says where it is.
LOOP, ICMP6, ADVERTISEMENT = 772, 58, 136
# With so many hops left packets are sent; one that has passed routers has fewer, by so many at most.
FIRST_HOPS, ROUTERS_MOST = (32, 64, 128, 255), 40
GROUP = 1
# So many packets of a label are looked at, and so many bytes of their payloads.
LOOKED_MOST, PAYLOAD_MOST = 1 << 18, 64
# The numbers of bytes of the payload that are tried; of several that do as well the first is taken.
PAYLOAD_BYTES = (8, 16, 32, 64, 0)

Told = TypeVar("Told")


@dataclass(slots=True)
class Sight:
    """A packet between two hosts: its stamp, its addresses, how many hops it has left, what it is known by at both ends (with the first bytes
    of its payload, and how many it has), what a translation leaves of that, its interface, the stations of its frame, and whether it went
    out, where the file says so."""

    stamp: int
    source: bytes
    target: bytes
    hops: int
    key: Key | None
    head: bytes
    length: int
    content: Key | None
    interface: int | None
    sender: bytes
    receiver: bytes
    is_sent: bool | None

    @property
    def is_routed(self) -> bool:
        return is_routed(self.hops)


@dataclass
class View:
    """What a label has seen: its host, the files that it was named with, its packets, and at which station each address was said to be."""

    label: str
    host: str
    origins: tuple[str, ...] = ()
    sights: list[Sight] = field(default_factory=list)
    holders: dict[bytes, set[bytes]] = field(default_factory=dict)
    interface: int | None = None
    # (whether there are packets that were not looked at)
    is_cut: bool = False
    names: list[str] = field(default_factory=list)

    def once(self) -> dict[Key, Sight]:
        """Returns the packets of keys that are there once."""
        return once((it.key, it) for it in self.sights)

    def interfaces(self) -> list[int]:
        return sorted({it.interface for it in self.sights if it.interface is not None})


def is_routed(hops: int) -> bool:
    """Returns whether a packet with so many hops left has passed a router."""
    return hops not in FIRST_HOPS and any(0 < first - hops <= ROUTERS_MOST for first in FIRST_HOPS)


def once(found: Iterable[tuple[Key | None, Told]]) -> dict[Key, Told]:
    """Returns what is told of each key that stands there just once."""
    entries = [(key, it) for key, it in found if key is not None]
    counts = Counter(key for key, _ in entries)
    return {key: it for key, it in entries if counts[key] == 1}


def views_of(captures: Iterable[Input]) -> list[View]:
    """Returns what each label has seen, in the order of the inputs."""
    found: dict[str, View] = {}
    for it in captures:
        view = found.setdefault(it.label, View(it.label, it.host))
        view.origins += (it.origin or it.path,)
        view.names = view.names or it.content.interfaces
        room = LOOKED_MOST - len(view.sights)
        view.is_cut = view.is_cut or len(it.content.packets) > room
        for packet in it.content.packets[:room]:
            look(view, packet)
    return list(found.values())


def take_heads(views: Iterable[View]) -> None:
    """Makes the first bytes of the payload a part of what packets are known by: so many as tell most of them apart."""
    sights = [(view.label, it) for view in views for it in view.sights if it.key]
    tried = []
    for at, count in enumerate(PAYLOAD_BYTES):
        often = Counter((label, it.key, it.head[:count]) for label, it in sights)
        short = sum(len(it.head) < min(count, it.length) for _, it in sights)
        tried.append((sum(number for number in often.values() if number > 1) + short, at, count))
    count = min(tried)[2]
    for _, it in sights:
        it.key = (*it.key, it.head[:count]) if it.key and len(it.head) >= min(count, it.length) else None


def look(view: View, packet: Packet) -> None:
    """Takes a packet, where it is one between two hosts, and what it says of a station."""
    found, is_sent = decode(packet.link, packet.data)
    if found is None or found.protocol == ICMP6:
        for station, address in told_holders(packet):
            view.holders.setdefault(station, set()).add(address)
    if found is None or found.source == found.target or not (is_unicast(found.source) and is_unicast(found.target)):
        return
    if packet.link in (COOKED, COOKED2) and is_loop(packet):
        return
    is_sent = packet.is_sent if packet.is_sent is not None else is_sent
    ends = (found.source, found.target, found.hops, found.key, found.payload[:PAYLOAD_MOST], found.payload_length, content_of(found))
    view.sights.append(Sight(packet.stamp, *ends, interface_of(packet), *stations(packet), is_sent))


def is_loop(packet: Packet) -> bool:
    """Returns whether a cooked header says that the packet loops back."""
    at = 2 if packet.link == COOKED else 8
    return int.from_bytes(packet.data[at : at + 2], "big") == LOOP


def stations(packet: Packet) -> tuple[bytes, bytes]:
    """Returns the stations that a frame of Ethernet comes from and goes to; none for a group, and of other links none."""
    if packet.link != ETHERNET or len(packet.data) < 12:
        return b"", b""
    receiver, sender = packet.data[:6], packet.data[6:12]
    return sender, b"" if receiver[0] & GROUP else receiver


def told_holders(packet: Packet) -> Iterator[tuple[bytes, bytes]]:
    """Yields at which station an address is, where ARP or ICMPv6 says so."""
    if packet.link != ETHERNET:
        return
    kind, data, _ = frame(packet.link, packet.data)
    if kind == ARP and len(data) >= 28 and is_unicast(data[14:18]):
        yield data[8:14], data[14:18]
    elif kind == IPV6 and len(data) >= 64 and data[6] == ICMP6 and data[40] == ADVERTISEMENT and is_unicast(data[48:64]):
        yield packet.data[6:12], data[48:64]
