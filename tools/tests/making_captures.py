"""Makes captures for tests: packets of UDP and TCP, in frames of all link types that are read, as classic pcap and pcapng."""

import struct
from collections.abc import Iterable, Sequence
from ipaddress import ip_address

ETHERNET, RAW, COOKED, COOKED2 = 1, 101, 113, 276
MACS = bytes.fromhex("020000000002 020000000001")


def address(text: str) -> bytes:
    return ip_address(text).packed


def ip(source: str, target: str, protocol: int, data: bytes, ident: int = 1) -> bytes:
    """Returns a datagram of IPv4 or IPv6."""
    ends = address(source) + address(target)
    if len(ends) == 8:
        return struct.pack(">BBHHHBBH", 0x45, 0, 20 + len(data), ident, 0, 64, protocol, 0) + ends + data
    return struct.pack(">IHBB", 6 << 28, len(data), protocol, 64) + ends + data


def udp(source: str, target: str, ports: tuple[int, int] = (5000, 6000), payload: bytes = b"", ident: int = 1) -> bytes:
    return ip(source, target, 17, struct.pack(">HHHH", *ports, 8 + len(payload), 0) + payload, ident)


def tcp(source: str, target: str, ports: tuple[int, int] = (5000, 80), sequence: int = 1, flags: int = 0x10, payload: bytes = b"", ident: int = 1,
        acknowledged: int = 1) -> bytes:  # fmt: skip
    return ip(source, target, 6, struct.pack(">HHIIBBHHH", *ports, sequence, acknowledged, 0x50, flags, 1000, 0, 0) + payload, ident)


def framed(link: int, datagram: bytes, is_sent: bool | None = True, tags: Iterable[int] = ()) -> bytes:
    """Returns a datagram in a frame."""
    kind = 0x0800 if datagram[0] >> 4 == 4 else 0x86DD
    if link == ETHERNET:
        return MACS + b"".join(struct.pack(">HH", it, 7) for it in tags) + struct.pack(">H", kind) + datagram
    if link == COOKED:
        return struct.pack(">HHH8sH", 4 if is_sent else 0, 1, 6, b"\2\0\0\0\0\1", kind) + datagram
    if link == COOKED2:
        return struct.pack(">HHIHBB8s", kind, 0, 2, 1, 4 if is_sent else 0, 6, b"\2\0\0\0\0\1") + datagram
    return datagram


def classic(packets: Iterable[tuple[int, bytes]], link: int = ETHERNET, magic: int = 0xA1B23C4D, order: str = "<", unit: int = 1) -> bytes:
    """Returns a classic capture of packets, each a stamp in ns and a frame."""
    head = struct.pack(f"{order}IHHIIII", magic, 2, 4, 0, 0, 262144, link)
    records = (struct.pack(f"{order}IIII", it // 10**9, it % 10**9 // unit, len(data), len(data)) + data for it, data in packets)
    return head + b"".join(records)


def option(code: int, value: bytes, order: str = "<") -> bytes:
    return struct.pack(f"{order}HH", code, len(value)) + value + bytes(-len(value) % 4)


def block(kind: int, body: bytes, order: str = "<") -> bytes:
    length = 12 + len(body)
    return struct.pack(f"{order}II", kind, length) + body + struct.pack(f"{order}I", length)


def statistics(counts: dict[int, int], interface: int = 0, order: str = "<") -> bytes:
    """Returns a block of statistics with these options, each a count."""
    options = b"".join(option(code, struct.pack(f"{order}Q", count), order) for code, count in counts.items())
    return block(5, struct.pack(f"{order}III", interface, 0, 0) + options + option(0, b"", order), order)


def pcapng(packets: Iterable[tuple[int, bytes]], link: int = ETHERNET, resolution: int = 9, order: str = "<", options: bytes = b"",
           flags: Sequence[int] | None = None, numbers: Sequence[int] | None = None) -> bytes:  # fmt: skip
    """Returns a capture in pcapng with one interface; `flags` has the direction of each packet, 1 in and 2 out, and `numbers` the number of
    its interface, where there are several."""
    per_second = 2 ** (resolution & 127) if resolution & 128 else 10**resolution
    out = block(0x0A0D0D0A, struct.pack(f"{order}IHHq", 0x1A2B3C4D, 1, 0, -1), order)
    ended = options + option(9, bytes([resolution]), order) + option(0, b"", order)
    out += block(1, struct.pack(f"{order}HHI", link, 0, 0) + ended, order) * (max(numbers) + 1 if numbers else 1)
    for at, (stamp, data) in enumerate(packets):
        time = stamp * per_second // 10**9
        more = option(2, struct.pack(f"{order}I", flags[at]), order) + option(0, b"", order) if flags else b""
        number = numbers[at] if numbers else 0
        body = struct.pack(f"{order}IIIII", number, time >> 32, time & 0xFFFFFFFF, len(data), len(data)) + data + bytes(-len(data) % 4) + more
        out += block(6, body, order)
    return out
