"""Packets that captures lost: those that a file counts itself, and bytes that TCP acknowledges while no packet of the capture has them."""

from bisect import bisect
from collections import Counter
from collections.abc import Collection, Iterable, Mapping

from captures import Packet
from headers import EXTENSIONS, TCP, Headers, decode
from inputs import Input
from words import count_text

# One way of a connection: the addresses and the ports of a packet, those of its source first.
Way = tuple[bytes, bytes, int, int]

FIN, SYN, RST, ACK = 1, 2, 4, 16
# Sequence numbers come again behind so many; no two that count lie farther from one another than the greatest window.
NUMBERS, WINDOW_MOST = 1 << 32, 1 << 30
# Where more stretches stand beyond a hole, it is begun anew.
STRETCHES_MOST = 1000
CURE = "A key may then join two packets that were never one message: capture again with a larger buffer (tcpdump -B 65536, dumpcap -B 64)."


class Stream:
    """What a capture has of the bytes that one end sends: all from the first place up to the edge, and stretches beyond it, in their order.

    A place is a sequence number that goes on where those begin again.
    """

    __slots__ = ("first", "edge", "beyond", "lacked")

    def __init__(self, first: int) -> None:
        self.first = self.edge = first
        self.beyond: list[tuple[int, int]] = []
        # (up to where bytes were last acknowledged that the capture lacks)
        self.lacked: int | None = None

    def place(self, number: int) -> int:
        """Returns the place of a sequence number that is nearest to the edge."""
        return self.edge + (number - self.edge + NUMBERS // 2) % NUMBERS - NUMBERS // 2

    def is_near(self, place: int) -> bool:
        return abs(place - self.edge) <= WINDOW_MOST

    def take(self, begin: int, end: int) -> None:
        """Takes the bytes of a segment."""
        if begin > self.edge:
            at = bisect(self.beyond, (begin, end))
            if at and self.beyond[at - 1][1] >= begin:
                at -= 1
                before = self.beyond.pop(at)
                begin, end = before[0], max(before[1], end)
            self.beyond.insert(at, (begin, end))
            return
        self.edge = max(self.edge, end)
        self.join()

    def join(self) -> None:
        """Takes in the stretches that the edge has come to."""
        count = 0
        while count < len(self.beyond) and self.beyond[count][0] <= self.edge:
            self.edge = max(self.edge, self.beyond[count][1])
            count += 1
        del self.beyond[:count]

    def acknowledge(self, place: int) -> int:
        """Takes all before a place as received, and returns how many gaps before it are new."""
        count = 0
        while self.edge < place:
            count += self.edge != self.lacked
            self.edge = self.lacked = min(place, self.beyond[0][0]) if self.beyond else place
            self.join()
        return count


class Streams:
    """Follows the connections of a label's packets, whose host has these addresses; where none is known, all count."""

    def __init__(self, own: Collection[bytes]) -> None:
        self.own = own
        # (None stands for one that ended)
        self.streams: dict[Way, Stream | None] = {}
        self.gaps: Counter[Way] = Counter()
        # (from which address to which one packets came that may be segments, and cannot be told)
        self.unread: set[tuple[bytes, bytes]] = set()

    def take(self, packets: Iterable[Packet]) -> None:
        for packet in packets:
            found = decode(packet.link, packet.data)[0]
            if found is None or self.own and found.source not in self.own and found.target not in self.own:
                continue
            if found.protocol == TCP and found.ports:
                self.segment(found, *found.ports)
            elif found.protocol == TCP or found.version == 6 and found.protocol in EXTENSIONS:
                self.unread.add((found.source, found.target))

    def segment(self, found: Headers, one: int, other: int) -> None:
        way, back = (found.source, found.target, one, other), (found.target, found.source, other, one)
        if found.flags & RST:
            for it in (way, back):
                if it in self.streams:
                    self.streams[it] = None
            return
        stream = self.streams.get(way)
        if found.flags & SYN and (stream is None or stream.place(found.sequence) != stream.first):
            stream = self.streams[way] = Stream(found.sequence)
            if not found.flags & ACK and back in self.streams:
                self.streams[back] = None
        length = found.payload_length + bool(found.flags & SYN) + bool(found.flags & FIN)
        # (the number of a segment without a byte may be one before those that come, as in one that asks whether the other end is there)
        if length:
            if stream is None or len(stream.beyond) > STRETCHES_MOST or not stream.is_near(stream.place(found.sequence)):
                stream = self.streams[way] = Stream(found.sequence)
            begin = stream.place(found.sequence)
            stream.take(begin, begin + length)
        sent = self.streams.get(back)
        if found.flags & ACK and sent is not None and sent.is_near(sent.place(found.acknowledged)):
            count = sent.acknowledge(sent.place(found.acknowledged))
            if count:
                self.gaps[back] += count

    def count(self, others: Collection[Way]) -> int:
        """Returns how many gaps there are but for those of other ways, and of such as packets belong to that cannot be told."""
        return sum(count for way, count in self.gaps.items() if way not in others and way[:2] not in self.unread)


def gap_counts(captures: list[Input], own: Mapping[str, Collection[bytes]]) -> dict[str, int]:
    """Returns for each label in how many places TCP acknowledges what no packet of it has, by the addresses of each host.

    Of a connection that two labels of one host have packets of, nothing is said: either may have what the other lacks.
    """
    found: dict[str, dict[str, Streams]] = {}
    for it in captures:
        found.setdefault(it.host, {}).setdefault(it.label, Streams(own.get(it.host, ()))).take(it.content.packets)
    counts = {}
    for labels in found.values():
        often = Counter(way for it in labels.values() for way in it.streams)
        shared = {way for way, count in often.items() if count > 1}
        counts |= {label: it.count(shared) for label, it in labels.items()}
    return counts


def told_losses(label: str, dropped: int, gaps: int = 0) -> list[str]:
    """Returns what is to be said of the packets that a label lost, one line where there is something."""
    told = [f"the capture counts {count_text(dropped, 'packet')} as dropped"] if dropped else []
    told += [f"TCP acknowledges what it has no packet of, in {count_text(gaps, 'place')} (lost, unless a filter left it out or it was sent before the capture began)"] if gaps else []
    return [f"{label}: {', and '.join(told)}. {CURE}"] if told else []


def loss_lines(inputs: Iterable[Input], own: Mapping[str, Collection[bytes]]) -> list[str]:
    """Returns for each label that lost packets what is to be said, by inputs that have their hosts and by the addresses of these."""
    captures = [it for it in inputs if it.kind == "capture"]
    dropped: Counter[str] = Counter()
    for it in captures:
        dropped[it.label] += it.content.dropped
    return [line for label, gaps in gap_counts(captures, own).items() for line in told_losses(label, dropped[label], gaps)]
