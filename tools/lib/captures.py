"""Captures of packets: classic pcap and pcapng, packet by packet, as `docs/FORMATS.md` describes what the program reads of them.

The n-th packet here is the event `LABEL#n` of a session. What a file says besides, such as the direction of a packet, is read too: it
helps to find out whose addresses are whose, and no answer comes from it.
"""

import struct
from dataclasses import dataclass, field

from tracesync.starts import MAGICS, SECTION

ORDERS = {b"\x1a\x2b\x3c\x4d": ">", b"\x4d\x3c\x2b\x1a": "<"}
INTERFACE, PACKET = 1, 6
# The other blocks of pcapng that Wireshark counts as frames, and those that it does not. With all others versions differ.
OBSOLETE, SIMPLE, NAMES, STATISTICS, JOURNAL, SECRETS = 2, 3, 4, 5, 9, 10
COUNTED = (OBSOLETE, SIMPLE, PACKET, JOURNAL)
UNCOUNTED = (int.from_bytes(SECTION, "big"), INTERFACE, NAMES, STATISTICS, SECRETS)
CAPTURED_MOST = 262_144
# Statistics of more bytes are passed over.
STATISTICS_MOST = 1 << 24
# Options of pcapng: of an interface its name, its addresses, what its times count and the seconds that are added to them, of a packet its
# direction, and of statistics how many packets the interface and the system dropped; a count of all ones is not known.
NAME, ADDRESS4, ADDRESS6, RESOLUTION, OFFSET, FLAGS = 2, 4, 5, 9, 14, 2
BY_INTERFACE, BY_SYSTEM, UNKNOWN = 5, 7, 2**64 - 1


@dataclass(slots=True)
class Packet:
    """A packet: its stamp in ns, the number of its link type, its bytes, whether it went out, where the file says so, the
    number of its interface in its section, where it is of pcapng, and its `frame.number` in Wireshark, where all versions agree."""

    stamp: int
    link: int
    data: bytes
    is_sent: bool | None = None
    interface: int | None = None
    frame: int | None = None


@dataclass
class Capture:
    """The packets of a file, the ns that its stamps count in, the addresses of its interfaces where it says so, what was odd, and how many
    packets its statistics count as dropped."""

    packets: list[Packet] = field(default_factory=list)
    unit: int = 1
    addresses: set[bytes] = field(default_factory=set)
    interfaces: list[str] = field(default_factory=list)
    odd: list[str] = field(default_factory=list)
    dropped: int = 0

    def resolution(self) -> int:
        """Returns the ns that all stamps are multiples of, at most a second, and at least what the file counts in."""
        size = 10**9
        while size > self.unit and any(it.stamp % size for it in self.packets):
            size //= 10
        return max(size, self.unit) if self.packets else self.unit

    def digits(self) -> int:
        """Returns the ns that all stamps are multiples of."""
        return self.resolution()


def read_capture(path: str) -> Capture:
    """Returns the capture that a file holds: its whole packets up to the first fault."""
    with open(path, "rb") as it:
        data = it.read()
    if data[:4] == SECTION:
        return Blocks(data).capture()
    if data[:4] not in MAGICS:
        raise ValueError(f"{path} is neither classic pcap nor pcapng")
    return classic(data)


def classic(data: bytes) -> Capture:
    """Returns the packets of a classic capture."""
    order, unit = MAGICS[data[:4]]
    found = Capture(unit=unit)
    if len(data) < 24:
        return found
    link, at, head = struct.unpack_from(f"{order}I", data, 20)[0] & 0xFFFF, 24, struct.Struct(f"{order}IIII")
    while at + 16 <= len(data):
        seconds, fraction, captured, _ = head.unpack_from(data, at)
        if captured > CAPTURED_MOST:
            found.odd.append(f"at byte {at} stands no packet")
            break
        if at + 16 + captured > len(data):
            break
        frame = data[at + 16 : at + 16 + captured]
        found.packets.append(Packet(seconds * 10**9 + fraction * unit, link, frame, frame=len(found.packets) + 1))
        at += 16 + captured
    if at < len(data) and not found.odd:
        found.odd.append(f"its last {len(data) - at} bytes are no whole packet")
    return found


class Blocks:
    """Reads a capture in pcapng block by block."""

    def __init__(self, data: bytes) -> None:
        self.data, self.at, self.order, self.found = data, 0, "<", Capture(unit=0)
        # (how many frames came so far, and whether each block was one or none by all versions of Wireshark)
        self.frames, self.is_counted = 0, True
        # (of each interface its link type, and what its stamps count in a second)
        self.interfaces: list[tuple[int, int]] = []
        # (where the section begins, and what the two counts of each interface of a section came to)
        self.section = 0
        self.dropped: dict[tuple[int, int, int], int] = {}

    def capture(self) -> Capture:
        while self.at + 12 <= len(self.data):
            if self.data[self.at : self.at + 4] == SECTION:
                self.order, self.interfaces = ORDERS.get(self.data[self.at + 8 : self.at + 12], self.order), []
                self.section = self.at
            kind, length = struct.unpack_from(f"{self.order}II", self.data, self.at)
            if length < 12 or length % 4 or self.at + length > len(self.data):
                self.found.odd.append(f"the block at byte {self.at} is not whole, or malformed")
                break
            self.frames += kind in COUNTED
            self.is_counted = self.is_counted and kind in (*COUNTED, *UNCOUNTED)
            if kind == INTERFACE and length >= 20:
                self.interface(self.data[self.at : self.at + length - 4])
            elif kind == PACKET and length >= 32:
                self.packet(self.data[self.at : self.at + length - 4])
            elif kind == STATISTICS and 24 <= length <= STATISTICS_MOST:
                self.statistics(self.data[self.at : self.at + length - 4])
            self.at += length
        self.found.unit, self.found.dropped = self.found.unit or 1000, sum(self.dropped.values())
        return self.found

    def options(self, data: bytes, at: int) -> dict[int, bytes]:
        """Returns the options of a block from this place on, by code; of several with one code the first."""
        found, is_whole = options_of(self.order, data, at)
        if not is_whole:
            self.found.odd.append(f"the block at byte {self.at} has an option that is cut")
        return dict(reversed(found))

    def interface(self, block: bytes) -> None:
        options = self.options(block, 16)
        count = options.get(RESOLUTION, b"\x06")[:1] or b"\x06"
        per_second = 2 ** (count[0] & 127) if count[0] & 128 else 10 ** count[0]
        offset = options.get(OFFSET, b"")
        seconds = struct.unpack(f"{self.order}q", offset)[0] if len(offset) == 8 else 0
        self.interfaces.append((struct.unpack_from(f"{self.order}H", block, 8)[0], per_second, seconds))
        self.found.interfaces.append(options.get(NAME, b"").decode(errors="replace"))
        # (the coarsest of all interfaces)
        self.found.unit = max(self.found.unit, -(-(10**9) // per_second))
        self.found.addresses |= {options[it][:size] for it, size in ((ADDRESS4, 4), (ADDRESS6, 16)) if len(options.get(it, b"")) >= size}

    def packet(self, block: bytes) -> None:
        number, high, low, captured = struct.unpack_from(f"{self.order}IIII", block, 8)
        if number >= len(self.interfaces) or captured > len(block) - 28:
            self.found.odd.append(f"the packet at byte {self.at} is malformed")
            return
        link, per_second, seconds = self.interfaces[number]
        flags = self.options(block, 28 + (captured + 3) // 4 * 4).get(FLAGS, b"")
        direction = struct.unpack(f"{self.order}I", flags)[0] & 3 if len(flags) == 4 else 0
        stamp = ((high << 32) + low) * 10**9 // per_second + seconds * 10**9
        is_sent, frame = {1: False, 2: True}.get(direction), self.frames if self.is_counted else None
        self.found.packets.append(Packet(stamp, link, block[28 : 28 + captured], is_sent, number, frame))

    def statistics(self, block: bytes) -> None:
        """Takes how many packets an interface dropped since its section began, in place of what was told before; nothing of a
        block that is cut or broken."""
        number, (options, is_whole) = struct.unpack_from(f"{self.order}I", block, 8)[0], options_of(self.order, block, 20)
        if number >= len(self.interfaces) or not is_whole:
            return
        for code in (BY_INTERFACE, BY_SYSTEM):
            told = [struct.unpack(f"{self.order}Q", value)[0] for it, value in options if it == code and len(value) == 8]
            known = [it for it in told if it != UNKNOWN]
            if known:
                self.dropped[self.section, number, code] = known[0]


def options_of(order: str, data: bytes, at: int) -> tuple[list[tuple[int, bytes]], bool]:
    """Returns the options from this place on, each a code and a value, and whether none is cut."""
    found: list[tuple[int, bytes]] = []
    while at + 4 <= len(data):
        code, length = struct.unpack_from(f"{order}HH", data, at)
        if code == 0:
            break
        if at + 4 + length > len(data):
            return found, False
        found.append((code, data[at + 4 : at + 4 + length]))
        at += 4 + (length + 3) // 4 * 4
    return found, True
