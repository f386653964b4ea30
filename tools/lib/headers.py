"""What stands in a packet: its addresses, what it is known by, and what to call it in a picture."""

import struct
from dataclasses import dataclass
from functools import lru_cache
from ipaddress import ip_address

from captures import Packet

# What a packet is known by at both ends: addresses, protocol, identification, ports, what TCP or UDP says, and options of TCP.
Key = tuple[bytes | int | None, ...]

ETHERNET, RAW, COOKED, COOKED2 = 1, 101, 113, 276
IPV4, IPV6, ARP, TAGS = 0x0800, 0x86DD, 0x0806, (0x8100, 0x88A8)
TCP, UDP = 6, 17
# Headers that may stand between that of IPv6 and what a packet carries: options of hops, routing, a fragment, options of the target.
EXTENSIONS = (0, 43, 44, 60)
# Of a list of options of TCP its end, a byte that fills, and those that tell a segment from one that is sent again.
END, NO_OPERATION, TELLING = 0, 1, (5, 8)
# A UDP payload of fewer bytes is the same in many packets; of a longer one so many bytes are looked at.
PAYLOAD_LEAST, PAYLOAD_LOOKED = 8, 16
# How a cooked header says that a packet went out, and that it came for this host.
OUT, FOR_US = 4, 0
FLAG_NAMES = ((2, "SYN"), (16, "ACK"), (1, "FIN"), (4, "RST"), (8, "PSH"))
PROTOCOLS = {1: "ICMP", 2: "IGMP", 58: "ICMPv6", 50: "ESP", 47: "GRE", 89: "OSPF", 132: "SCTP"}


@dataclass(slots=True)
class Headers:
    """The addresses of a packet of IP as numbers of 4 or 16 bytes; the ports, the key and the payload of one of TCP or UDP; of TCP what its
    header says."""

    version: int
    source: bytes
    target: bytes
    protocol: int
    ports: tuple[int, int] | None = None
    key: Key | None = None
    payload: bytes = b""
    # How many bytes of the payload were there to be captured.
    payload_length: int = 0
    flags: int = 0
    sequence: int = 0
    acknowledged: int = 0
    # How many routers may hand it on yet.
    hops: int = 0
    # Whether it is a fragment, or has extension headers: such a packet has a key only where `fragments` is declared.
    is_apart: bool = False


def frame(link: int, data: bytes) -> tuple[int, bytes, bool | None]:
    """Returns the type of what a frame carries, what it carries, and whether it was sent, where the link says so; type 0 is none."""
    if link == ETHERNET:
        at = 12
        while len(data) >= at + 2 and int.from_bytes(data[at : at + 2], "big") in TAGS:
            at += 4
        return int.from_bytes(data[at : at + 2], "big") if len(data) >= at + 2 else 0, data[at + 2 :], None
    if link == RAW and data:
        return {4: IPV4, 6: IPV6}.get(data[0] >> 4, 0), data, None
    if link == COOKED and len(data) >= 16:
        return int.from_bytes(data[14:16], "big"), data[16:], {OUT: True, FOR_US: False}.get(int.from_bytes(data[:2], "big"))
    if link == COOKED2 and len(data) >= 20:
        return int.from_bytes(data[:2], "big"), data[20:], {OUT: True, FOR_US: False}.get(data[10])
    return 0, b"", None


def interface_of(packet: Packet) -> int | None:
    """Returns the number of the interface that `interface` of a label is compared with: in a capture of `any`, whose cooked header is the
    second one, that of the header, and else what pcapng says."""
    if packet.link == COOKED2:
        return int.from_bytes(packet.data[4:8], "big") if len(packet.data) >= 8 else None
    return packet.interface


def decode(link: int, data: bytes) -> tuple[Headers | None, bool | None]:
    """Returns the headers of a packet and whether it was sent; None for headers where it is none of IP, or was cut within them."""
    kind, data, is_sent = frame(link, data)
    if kind == IPV4 and len(data) >= 20 and data[0] >> 4 == 4:
        return decode4(data), is_sent
    if kind == IPV6 and len(data) >= 40 and data[0] >> 4 == 6:
        found = Headers(6, data[8:24], data[24:40], data[6], hops=data[7], is_apart=data[6] in EXTENSIONS)
        return transport(found, data[40:], int.from_bytes(data[4:6], "big"), None), is_sent
    return None, is_sent


def decode4(data: bytes) -> Headers:
    head, total, ident, fragment = 4 * (data[0] & 15), *struct.unpack_from(">HHH", data, 2)
    found = Headers(4, data[12:16], data[16:20], data[9], hops=data[8], is_apart=bool(fragment & 0x3FFF))
    if fragment & 0x3FFF or head < 20 or total < head:
        return found
    return transport(found, data[head:], total - head, ident)


def transport(found: Headers, data: bytes, length: int, ident: int | None) -> Headers:
    """Fills in what the header of TCP or UDP says, of a datagram with so many bytes behind that of IP."""
    data = data[:length]
    if found.protocol == UDP and len(data) >= 8:
        one, other, size = struct.unpack_from(">HHH", data)
        found.ports = (one, other)
        found.payload, found.payload_length = data[8:size], max(size - 8, 0)
        found.key = (found.source, found.target, UDP, ident, one, other, 0, 0, 0, size, b"")
    elif found.protocol == TCP and len(data) >= 20:
        one, other, sequence, acknowledged = struct.unpack_from(">HHII", data)
        found.ports, found.sequence, found.acknowledged = (one, other), sequence, acknowledged
        head, found.flags = 4 * (data[12] >> 4), data[13]
        found.payload, found.payload_length = data[head:], max(length - head, 0)
        told = telling(data[20:head])
        if told is not None:
            found.key = (found.source, found.target, TCP, ident, one, other, sequence, acknowledged, found.flags, length - head, told)
    return found


def content_of(found: Headers) -> Key | None:
    """Returns what a translation of addresses and ports leaves of a packet, where that tells it from others."""
    head = found.payload[:PAYLOAD_LOOKED]
    if found.key is None or len(head) < PAYLOAD_LEAST and found.protocol != TCP or len(head) < min(PAYLOAD_LOOKED, found.payload_length):
        return None
    # (behind the addresses, the identification and the ports stand the numbers of TCP and the length)
    return (found.version, found.protocol, *found.key[6:], head)


def telling(options: bytes) -> bytes | None:
    """Returns those of a list of options that tell segments apart, timestamps and selective acknowledgments; None where one is cut."""
    told, at = b"", 0
    while at < len(options) and options[at] != END:
        size = 1 if options[at] == NO_OPERATION else options[at + 1] if at + 1 < len(options) else 0
        if size < (1 if options[at] == NO_OPERATION else 2) or at + size > len(options):
            return None
        told += options[at : at + size] if options[at] in TELLING else b""
        at += size
    return told


def address_text(address: bytes) -> str:
    """Returns an address as a declaration spells it: four decimals, or eight groups of hexadecimal digits."""
    if len(address) == 4:
        return ".".join(str(it) for it in address)
    return ":".join(f"{int.from_bytes(address[at : at + 2], 'big'):x}" for at in range(0, 16, 2))


@lru_cache(maxsize=1 << 16)
def is_unicast(address: bytes) -> bool:
    """Returns whether an address is that of one host: no multicast, no broadcast, no loop back, and not none at all."""
    it = ip_address(address)
    return not (it.is_multicast or it.is_loopback or it.is_unspecified or address == b"\xff" * 4)


@lru_cache(maxsize=1 << 16)
def short_address(address: bytes) -> str:
    """Returns an address as it is mostly written, one of IPv6 without zeros that may be left out."""
    return str(ip_address(address))


def end_text(address: bytes, port: int) -> str:
    text = short_address(address)
    return f"[{text}]:{port}" if len(address) == 16 else f"{text}:{port}"


def described(packet: Packet) -> tuple[str, str]:
    """Returns a packet in a few words with its addresses, and in fewer without them."""
    found, _ = decode(packet.link, packet.data)
    if found is None:
        kind, data, _ = frame(packet.link, packet.data)
        if kind == ARP and len(data) >= 28:
            asks = int.from_bytes(data[6:8], "big") == 1
            return (f"ARP who has {address_text(data[24:28])}", "ARP?") if asks else (f"ARP {address_text(data[14:18])} is here", "ARP")
        return (f"type {kind:04x}",) * 2 if kind else (f"link {packet.link}",) * 2
    if found.ports is None:
        name = PROTOCOLS.get(found.protocol, {TCP: "TCP", UDP: "UDP"}.get(found.protocol, f"protocol {found.protocol}"))
        return f"{name} {short_address(found.source)} > {short_address(found.target)}", name
    ends = [end_text(address, port) for address, port in zip((found.source, found.target), found.ports)]
    flags = " " + ",".join(name for bit, name in FLAG_NAMES if found.flags & bit) if found.protocol == TCP else ""
    size = f" {found.payload_length} bytes" if found.payload_length or found.protocol == UDP else ""
    what = ("TCP" if found.protocol == TCP else "UDP", f"{flags}{size}")
    return f"{what[0]} {ends[0]} > {ends[1]}{what[1]}", f"{what[0]} {found.ports[0]}>{found.ports[1]}{what[1].replace(' bytes', ' B')}"
