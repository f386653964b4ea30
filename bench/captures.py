"""Large captures: how fast a session reads them beside capinfos, and `mergecap` beside Wireshark's: see runner.py."""

import os
import tempfile
from collections.abc import Iterator, Sequence
from dataclasses import dataclass

from common import OUT, beside, fail, kib, output, peak_of, program, read, want_status, write
from support.captures import AROUND_BLOCK, AROUND_RECORD, INTERFACE, SECTION, block, classic_head, classic_record, frame
from support.wireshark import is_there, packets_of

# A large capture is added in pieces of so many bytes.
PIECE = 2**27
# How far right's clock is ahead, in ns.
AHEAD = 3_000_000
CAPTURE = '[hosts.h]\n[labels.c]\nhost = "h"\nkind = "capture"\n'
PAIR = (("left", "10.9.0.1"), ("right", "10.9.0.2"))
HOSTS = "".join(
    f'[hosts.{name}]\nshort = 50_000\nlong = 50_003\nearly = 0\nlate = 2\naddresses = ["{address}"]\n'
    f'[labels.{name}]\nhost = "{name}"\nkind = "capture"\n'
    for name, address in PAIR
)
LINKS = "".join(
    f'[[links]]\nfrom = "{one}"\nto = "{other}"\nleast = 1\n'
    for one, other in (("left", "right"), ("right", "left"))
)


@dataclass(frozen=True)
class Options:
    """How many runs each figure is the least of, the bytes of frames, and whether captures are pcapng."""

    runs: int
    frames: Sequence[int]
    is_pcapng: bool


def body(size: int) -> bytes:
    return (bytes(range(256)) * (size // 256 + 1))[:size]


def without_key(size: int) -> bytes:
    """A frame with an EtherType for local experiments (88b5), so that it is an event without a key."""
    return bytes.fromhex("02000000000202000000000188b5") + body(size - 14)


def datagram(number: int, is_back: bool, tail: bytes) -> bytes:
    """A frame of UDP with this number and what stands behind it, from left to right or back."""
    source, target = (2, 1) if is_back else (1, 2)
    return frame(source, target, number.to_bytes(8, "big") + tail, number & 0xFFFF, (7000, 7000))


def write_large(megabytes: int, size: int, is_pcapng: bool, folder: str) -> tuple[list[str], int]:
    """Writes a capture of frames without a key as whole.pcap, and its pieces, cut wherever they end.

    Returns the paths of the pieces, and the packets of the capture."""
    around = AROUND_BLOCK if is_pcapng else AROUND_RECORD
    count = megabytes * 10**6 // (around + size)
    payload, held = without_key(size), bytearray(SECTION + INTERFACE if is_pcapng else classic_head())
    paths: list[str] = []
    with open(f"{folder}/whole.pcap", "wb") as whole:
        for k in range(count):
            held += block(k * 10**6, payload) if is_pcapng else classic_record(k * 10**6, payload)
            is_last = k + 1 == count
            while len(held) >= PIECE or (is_last and held):
                paths.append(write(f"{folder}/part{len(paths) + 1}.pcap", bytes(held[:PIECE])))
                whole.write(held[:PIECE])
                del held[:PIECE]
    return paths, count


def write_pair(megabytes: int, size: int, has_keys: bool, folder: str) -> tuple[list[str], int]:
    """Writes left.pcap and right.pcap; their paths, and the packets of each.

    Every packet stands in both: it goes from left to right or back, in turn, one each 10 us, and arrives 2 to 5 us
    after it was sent. With keys the frames are datagrams that have other first bytes each, so that each is a
    message."""
    count = megabytes * 10**6 // (AROUND_RECORD + size)
    tail, plain = body(size - 50), without_key(size)
    paths = [f"{folder}/{name}.pcap" for name, _ in PAIR]
    with open(paths[0], "wb") as left, open(paths[1], "wb") as right:
        left.write(classic_head())
        right.write(classic_head())
        for k in range(count):
            is_back = k % 2 == 1
            payload = datagram(k, is_back, tail) if has_keys else plain
            sent, received = k * 10_000, k * 10_000 + 2_000 + k * 7919 % 3_000
            left.write(classic_record(received if is_back else sent, payload))
            right.write(classic_record((sent if is_back else received) + AHEAD, payload))
    return paths, count


class Captures:
    """A session that adds one large capture in pieces of 128 MiB, beside capinfos, which counts the packets of the
    same bytes."""

    head = ("MB", "frame, bytes", "packets", "tracesync, s", "capinfos, s", "tracesync, KiB")

    def __init__(self, options: Options) -> None:
        self.options = options

    def rows(self, megabytes: int) -> Iterator[Sequence[object]]:
        for size in self.options.frames:
            with tempfile.TemporaryDirectory() as folder:
                yield self.row(megabytes, size, folder)

    def row(self, megabytes: int, size: int, folder: str) -> Sequence[object]:
        paths, packets = write_large(megabytes, size, self.options.is_pcapng, folder)
        words = [program(), "session", write(f"{folder}/hosts.toml", CAPTURE)]
        script = write(f"{folder}/script", "".join(f"add c {path}\n" for path in paths))
        found = beside(self.options.runs, {"tracesync": words}, script)
        want_status(found, script)
        if not read(output("tracesync")).endswith(b" pending 0 consistent\n"):
            fail(f"a piece was not added: {read(output('tracesync'))[:300]!r}")
        theirs = "-"
        if is_there("capinfos"):
            ways = {"capinfos": ["capinfos", "-c", f"{folder}/whole.pcap"]}
            theirs = f"{beside(self.options.runs, ways)['capinfos'].processor:.2f}"
        return [megabytes, size, packets, f"{found['tracesync'].processor:.2f}", theirs, kib(peak_of(words, script))]


class Mergecap:
    """`mergecap` beside Wireshark's program of this name, over the same two captures: to classic pcap, and to pcapng,
    where each packet of tracesync has a comment. What these cost is the difference of both rows. Each program writes
    its output to a file, and all outputs must have as many packets as the two captures, by capinfos."""

    head = ["MB each", "frame, bytes", "packets", "keys", "output"]
    head += [f"{it}, {what}" for it in ("tracesync", "Wireshark") for what in ("wall s", "processor s", "KiB", "MB")]

    def __init__(self, options: Options) -> None:
        self.options = options
        if not is_there("mergecap", "capinfos"):
            fail("mergecap and capinfos of Wireshark must be installed")

    def rows(self, megabytes: int) -> Iterator[Sequence[object]]:
        os.makedirs(OUT, exist_ok=True)
        for size in self.options.frames:
            for has_keys in (True, False):
                with tempfile.TemporaryDirectory(dir=OUT) as folder:
                    yield from self.both_formats(megabytes, size, has_keys, folder)

    def both_formats(self, megabytes: int, size: int, has_keys: bool, folder: str) -> Iterator[Sequence[object]]:
        """A row for each format of the output; all four commands take turns."""
        paths, each = write_pair(megabytes, size, has_keys, folder)
        declaration = write(f"{folder}/hosts.toml", f"payload_bytes = 8\n{HOSTS}{LINKS}")
        script = write(f"{folder}/script", "".join(f"add {name} {path}\n" for (name, _), path in zip(PAIR, paths)))
        formats = (("pcap", "nsecpcap", []), ("pcapng", "pcapng", ["pcapng"]))
        ways: dict[str, list[str]] = {}
        for name, theirs, words in formats:
            ways[f"tracesync-{name}"] = [program(), "mergecap", declaration, *words]
            ways[f"wireshark-{name}"] = ["mergecap", "-F", theirs, "-w", "-", *paths]
        found = beside(self.options.runs, ways, script)
        want_status(found, script)
        for name in ways:
            if packets_of(output(name)) != 2 * each:
                fail(f"{output(name)} has {packets_of(output(name))} packets instead of {2 * each}")
        for name, _, _ in formats:
            cells: list[object] = [megabytes, size, 2 * each, "all" if has_keys else "none", name]
            for way in (f"tracesync-{name}", f"wireshark-{name}"):
                cells += [f"{found[way].wall:.2f}", f"{found[way].processor:.2f}", kib(peak_of(ways[way], script))]
                cells.append(f"{os.path.getsize(output(way)) / 10**6:.1f}")
            yield cells
