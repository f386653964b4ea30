"""Makes captures: frames of UDP in Ethernet, as classic pcap (draft-ietf-opsawg-pcap) and as pcapng
(draft-ietf-opsawg-pcapng)."""

import struct
from collections.abc import Iterable

# The first four bytes of a classic capture that counts in ns.
NANOSECONDS = 0xA1B23C4D
SNAPLEN, ETHERNET, COOKED = 262_144, 1, 276
# The type of a frame with a tag (IEEE 802.1Q).
TAGGED = b"\x81\x00"
# The bytes that a record of each form has around its frame; a block's frame is filled up to four bytes.
AROUND_RECORD, AROUND_BLOCK = 16, 32
SECTION = struct.pack("<IIIHHqI", 0x0A0D0D0A, 28, 0x1A2B3C4D, 1, 0, -1, 28)


def interface(link: int, snaplen: int = SNAPLEN) -> bytes:
    """An interface of this link type whose option if_tsresol says that it counts in ns."""
    return struct.pack("<IIHHIHHB3xII", 1, 32, link, 0, snaplen, 9, 1, 9, 0, 32)


INTERFACE = interface(ETHERNET)

Frames = Iterable[tuple[int, bytes]]  # stamps in ns, and frames


def classic_head(order: str = "<", magic: int = NANOSECONDS, link: int = ETHERNET) -> bytes:
    """The head of a classic capture of Ethernet, or of another link type."""
    return struct.pack(order + "IHHiIII", magic, 2, 4, 0, 0, SNAPLEN, link)


def classic_record(stamp: int, frame: bytes, order: str = "<", length: int | None = None) -> bytes:
    """A record of a classic capture that counts in ns. Its original length is another one than the captured where it is
    said."""
    whole = len(frame) if length is None else length
    return struct.pack(order + "IIII", stamp // 10**9, stamp % 10**9, len(frame), whole) + frame


def classic(frames: Frames, order: str = "<", magic: int = NANOSECONDS, link: int = ETHERNET) -> bytes:
    """A classic capture of Ethernet, or of another link type."""
    return classic_head(order, magic, link) + b"".join(classic_record(stamp, frame, order) for stamp, frame in frames)


def block(stamp: int, frame: bytes, number: int = 0) -> bytes:
    """An enhanced packet block of the first interface, or of another one."""
    padding = -len(frame) % 4
    size = AROUND_BLOCK + len(frame) + padding
    head = struct.pack("<IIIIIII", 6, size, number, stamp >> 32, stamp & 0xFFFFFFFF, len(frame), len(frame))
    return head + frame + bytes(padding) + struct.pack("<I", size)


def blocks(frames: Frames) -> bytes:
    """A capture in pcapng of one section and one interface of Ethernet."""
    return SECTION + INTERFACE + b"".join(block(stamp, frame) for stamp, frame in frames)


def untagged(frame: bytes) -> bytes:
    """A frame of Ethernet without its tag, if it has one."""
    return frame[:12] + frame[16:] if frame[12:14] == TAGGED else frame


def cooked(frame: bytes, index: int, goes_out: bool) -> bytes:
    """A frame of Ethernet as it stands in a capture of all interfaces (LINKTYPE_LINUX_SLL2), without its tag."""
    bare = untagged(frame)
    return bare[12:14] + struct.pack(">HIHBB", 0, index, 1, 4 if goes_out else 0, 6) + bare[6:12] + bytes(2) + bare[14:]


def udp(word: bytes, ports: tuple[int, int] = (7, 9)) -> bytes:
    """A datagram of UDP without a checksum (RFC 768)."""
    return struct.pack(">HHHH", *ports, 8 + len(word), 0) + word


def frame(source: int, target: int, word: bytes, ident: int = 5, ports: tuple[int, int] = (7, 9)) -> bytes:
    """An Ethernet frame with a datagram of UDP over IPv4 (RFC 791), from 10.9.0.SOURCE to 10.9.0.TARGET."""
    data = udp(word, ports)
    head = struct.pack(">BBHHHBBH", 0x45, 0, 20 + len(data), ident, 0, 64, 17, 0)
    return bytes(12) + b"\x08\x00" + head + bytes([10, 9, 0, source, 10, 9, 0, target]) + data


def frame6(source: int, target: int, word: bytes) -> bytes:
    """The same over IPv6 (RFC 8200), from fd00::SOURCE to fd00::TARGET."""
    data = udp(word)
    ends = b"".join(b"\xfd" + bytes(14) + bytes([last]) for last in (source, target))
    return bytes(12) + b"\x86\xdd" + struct.pack(">IHBB", 6 << 28, len(data), 17, 64) + ends + data
