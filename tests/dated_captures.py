#!/usr/bin/env python3
"""Merges captures by `tracesync mergecap DECL pcapng`, and reads the outcome by a reader of its own and by the tools
of Wireshark.

    tests/dated_captures.py [--packets N]

Each packet must stand there once, in the order of the reply to `merge` of a session over the same script, with both its
lengths, under the interface of its label and its link type, with a comment that names its event and the stamp of that
in the session's problem, and has the line of that event in the session's reply to `times` since the event that is named
behind `pcapng`, or where none is since the first one; an interface has its label's name, its host, its clock and the
bounds of that, and counts ns.
A stamp must be the date that the session gives: that of the first event, by `time` where its clock's source tells it
and else by its own stamp, and what `merge` has between the two, rounded down to ns.

Where capinfos, editcap, mergecap and tshark are installed, capinfos must tell of as many packets and bytes, of the
first and the last date, of their order and of these interfaces; tshark must show these dates, interfaces, lengths and
comments, and find a packet by its comment; in each capture that was merged it must show the packet with the lengths
that it has in the outcome, at the stamp that its comment tells; and neither editcap, which writes the outcome again,
nor Wireshark's mergecap, which merges it with another capture, may lose or change anything.

With --packets two captures of so many packets together are merged, too. PROGRAM names the program, else it is the one
that is built here. Prints a line for each case, and with status 1 the first one that is otherwise.
"""

import argparse
import struct
import subprocess
import sys
import tempfile
import tomllib
from collections.abc import Iterable, Iterator, Sequence
from dataclasses import dataclass
from fractions import Fraction
from itertools import zip_longest

from support.captures import (
    COOKED, ETHERNET, INTERFACE, SECTION, block, blocks, classic, classic_head, classic_record, cooked, frame,
    interface,
)  # fmt: skip
from support.program import TOP, program, read, write
from support.reading import Interface, Packet, Written, blocks_of, file_of, packets_in
from support.replies import answered, script_of
from support.wireshark import fields_of, interfaces_of, is_there, packets_of, summary_of, tool

EXAMPLES = f"{TOP}/examples"
HOSTS = f"{EXAMPLES}/captures/hosts.toml"
LEFT, RIGHT = (f"add {it} {EXAMPLES}/captures/{it}.pcap" for it in ("left", "right"))
DUAL = [f"add left {EXAMPLES}/dual/left.pcap", f"add right {EXAMPLES}/dual/right-any2.pcap"]
PLAIN = '[hosts.left]\nshort = 5\nlate = 7\n[labels.left]\nhost = "left"\nkind = "capture"\n'
# A 64th of a second, which a classic capture in us cannot say.
FINE = 10**9 // 64
# The bounds of a clock and of its stamps.
UNITS = {"short": "ppb", "long": "ppb", "early": "ns", "late": "ns"}
# What Wireshark calls these link types.
ENCAPSULATIONS = {ETHERNET: "ether", COOKED: "linux-sll2"}
# tshark says of longer packets that they have so many bytes.
MOST_SHOWN = 2**31 - 1


def same(case: str, what: str, found: Iterable[object], wanted: Iterable[object]) -> None:
    """Raises AssertionError where two rows of things differ, with the first place where they do."""
    for at, (one, other) in enumerate(zip_longest(found, wanted)):
        assert one == other, (case, what, at, one, "instead of", other)


# ---- what a session says


def description(declaration: str, label: str) -> str:
    """What must stand at the interfaces of a label: its host, its clock and the bounds of that, of stamps those of its
    own where it has them."""
    said = tomllib.loads(read(declaration).decode())
    table = said["labels"][label]
    host = said["hosts"][table["host"]]
    clocks = host.get("clocks", [{"name": table["host"]}])
    clock = next(it for it in clocks if it["name"] == table.get("clock", clocks[0]["name"]))
    numbers = dict.fromkeys(UNITS, 0) | host | clock | table
    bounds = " ".join(f"{it} {numbers[it]} {unit}" for it, unit in UNITS.items())
    return f"{table['host']} clock {clock['name']} {bounds}"


def described(declaration: str, label: str, link: int) -> Interface:
    """The interface of a label for a link type."""
    return Interface(link, 0, {2: label.encode(), 3: description(declaration, label).encode(), 9: b"\x09"})


@dataclass(frozen=True)
class Told:
    """What sessions tell of the events of a script: since which one, their times in the earliest execution in ns, in
    its order, their stamps in ns, their ends since that one, and how far dates are behind the times."""

    since: str
    times: dict[str, Fraction]
    stamps: dict[str, int]
    ends: dict[str, str]
    shift: Fraction

    def date(self, event: str) -> int:
        """The date of an event in ns."""
        return (self.times[event] + self.shift) // 1

    def comment(self, event: str) -> str:
        """What must stand at the packet of an event."""
        return f"tracesync {event} stamp {self.stamps[event]} since {self.since} {self.ends[event]}"


def told_of(declaration: str, lines: Sequence[str], event: Sequence[str]) -> Told:
    """What sessions tell of these additions, since this event or the first one."""
    merged, problem = answered(declaration, [*lines, "merge", "problem"])[-2:]
    times = {event: Fraction(time) for time, event, *_ in (line.split(" ") for line in merged[1:])}
    first = next(iter(times))
    since = event[0] if event else first
    events = [line.split(" ") for line in problem if line.startswith("event ")]
    stamps = {name: int(stamp) for _, name, _, stamp, *_ in events}
    after, (time,) = answered(declaration, [*lines, f"times {since}", f"time {first}"])[-2:]
    assert after[0] == f"times {len(after) - 1}", after[0]
    ends = {name: f"{least} to {greatest} ns" for name, least, greatest in (line.split(" ") for line in after[1:])}
    # (the first event has the least end of its time as its date, or else its own stamp)
    words = time.split(" ")
    start = Fraction(words[1]) if words[0] == "time" and words[1] != "-inf" else Fraction(stamps[first])
    return Told(since, times, stamps, ends, start - times[first])


# ---- what the program writes


def dated(declaration: str, lines: Sequence[str], event: Sequence[str] = ()) -> subprocess.CompletedProcess[bytes]:
    """A run over these additions, with the name of an event or without."""
    words = [program(), "mergecap", declaration, "pcapng", *event]
    return subprocess.run(words, input=script_of(lines), capture_output=True)


def captures_of(lines: Sequence[str]) -> list[tuple[str, str]]:
    """The label and the path of each addition of a capture, and not of a log."""
    added = [line.split(" ") for line in lines]
    return [(label, path) for _, label, path in added if not path.endswith(".csv")]


def merges(folder: str, case: str, declaration: str, lines: Sequence[str], *event: str) -> None:
    """Wants the file of these additions, since an event or since the first one. Raises AssertionError where it is
    otherwise."""
    done = dated(declaration, lines, event)
    assert done.returncode == 0, (case, done.returncode, done.stdout[:80])
    assert done.stdout.startswith(SECTION), (case, "another section", done.stdout[:32])
    kinds = {kind for kind, _ in blocks_of(done.stdout[len(SECTION) :])}
    assert kinds == {1, 6}, (case, "other blocks", kinds)
    told = told_of(declaration, lines, event)
    packets: dict[str, Packet] = {}
    for label, path in captures_of(lines):
        packets |= {f"{label}#{n}": packet for n, packet in enumerate(packets_in(read(path)), 1)}
    order = [event for event in told.times if event in packets]
    under = {event: (event.split("#")[0], packets[event].link) for event in order}
    taps = sorted(set(under.values()))
    interfaces, written = file_of(done.stdout)
    same(case, "interfaces", interfaces, [described(declaration, *tap) for tap in taps])
    said = {it: {1: told.comment(it).encode()} for it in order}
    wanted = [Written(taps.index(under[it]), told.date(it), packets[it], said[it]) for it in order]
    same(case, "packets", written, wanted)
    is_seen = is_there("capinfos", "editcap", "mergecap", "tshark")
    if is_seen:
        seen(case, Outcome(folder, write(f"{folder}/merged.pcapng", done.stdout), interfaces, written), lines)
    begin = f"from {written[0].stamp} ns on, since {told.since}"
    by = "by the tools of Wireshark too" if is_seen else "without the tools of Wireshark"
    print(f"{case}: {len(written)} packets under {len(interfaces)} interfaces, {begin}, {by}", flush=True)


# ---- what the tools of Wireshark see


@dataclass(frozen=True)
class Outcome:
    """What was written: a folder, the path of the file, its interfaces and its packets."""

    folder: str
    path: str
    interfaces: list[Interface]
    written: list[Written]


def seconds(stamp: int) -> str:
    """A stamp in ns as seconds."""
    return f"{stamp // 10**9}.{stamp % 10**9:09}"


def nanoseconds(said: str) -> int:
    """Seconds in ns."""
    whole, _, part = said.partition(".")
    return int(whole) * 10**9 + int(part.ljust(9, "0"))


def seen(case: str, outcome: Outcome, lines: Sequence[str]) -> None:
    """Wants the tools of Wireshark to see all of what was written."""
    by_capinfos(case, outcome)
    interfaces_by_capinfos(case, outcome)
    by_tshark(case, outcome)
    by_filter(case, outcome)
    by_captures(case, outcome, lines)
    by_editcap(case, outcome)
    by_mergecap(case, outcome)


def by_capinfos(case: str, outcome: Outcome) -> None:
    """Wants capinfos to tell of these packets."""
    told, written = summary_of(outcome.path), outcome.written
    links = {it.packet.link for it in written}
    wanted = {
        "File type": "pcapng",
        "File encapsulation": ENCAPSULATIONS[min(links)] if len(links) == 1 else "per-packet",
        "Number of packets": str(len(written)),
        "Data size (bytes)": str(sum(it.packet.length for it in written)),
        "Start time": seconds(written[0].stamp),
        "End time": seconds(written[-1].stamp),
        "Strict time order": "True",
    }
    assert {it: told.get(it) for it in wanted} == wanted, (case, "capinfos tells", told, "instead of", wanted)


def interfaces_by_capinfos(case: str, outcome: Outcome) -> None:
    """Wants capinfos to tell of these interfaces, each with as many packets."""
    titles = ("Name", "Description", "Capture length", "Time precision", "Number of packets", "Encapsulation")
    found = [[it.get(title, "") for title in titles] for it in interfaces_of(outcome.path)]
    numbers = [it.interface for it in outcome.written]
    wanted: list[list[str]] = []
    for n, it in enumerate(outcome.interfaces):
        said = [it.options[2].decode(), it.options[3].decode(), "0", "nanoseconds (9)", str(numbers.count(n))]
        wanted.append([*said, ENCAPSULATIONS[it.link]])
    # (before the short name of an encapsulation stand a long one and Wireshark's number for it)
    short = [[*said, encapsulation.rpartition(" - ")[2].removesuffix(")")] for *said, encapsulation in found]
    same(case, "interfaces by capinfos", short, wanted)


def shown(outcome: Outcome) -> Iterator[list[str]]:
    """What tshark must show of these packets: their numbers, interfaces, dates, lengths and comments."""
    for n, it in enumerate(outcome.written, 1):
        options, packet = outcome.interfaces[it.interface].options, it.packet
        place = [str(n), str(it.interface), options[2].decode(), options[3].decode(), seconds(it.stamp)]
        yield [*place, str(min(packet.length, MOST_SHOWN)), str(packet.kept), it.options[1].decode()]


def by_tshark(case: str, outcome: Outcome) -> None:
    """Wants tshark to show these packets."""
    fields = ["number", "interface_id", "interface_name", "interface_description"]
    fields += ["time_epoch", "len", "cap_len", "comment"]
    same(case, "fields of tshark", fields_of(outcome.path, [f"frame.{it}" for it in fields]), shown(outcome))


def by_filter(case: str, outcome: Outcome) -> None:
    """Wants a display filter to find one packet, that in the middle, by the name of its event."""
    middle = len(outcome.written) // 2
    event = outcome.written[middle].options[1].decode().split(" ")[1]
    told = fields_of(outcome.path, ["frame.number"], f'frame.comment contains "tracesync {event} "')
    same(case, "packets by a filter", told, [[str(middle + 1)]])


def by_captures(case: str, outcome: Outcome, lines: Sequence[str]) -> None:
    """Wants tshark to show in each capture that was merged the packets with these lengths, at these stamps."""
    fields = ["frame.number", "frame.time_epoch", "frame.len", "frame.cap_len"]
    there: dict[str, tuple[int, ...]] = {}
    for label, path in captures_of(lines):
        for number, stamp, *lengths in fields_of(path, fields):
            there[f"{label}#{number}"] = (nanoseconds(stamp), *map(int, lengths))
    here: dict[str, tuple[int, ...]] = {}
    for it in outcome.written:
        words = it.options[1].decode().split(" ")
        here[words[1]] = (int(words[3]), min(it.packet.length, MOST_SHOWN), it.packet.kept)
    same(case, "packets of the captures", sorted(there.items()), sorted(here.items()))


def by_editcap(case: str, outcome: Outcome) -> None:
    """Wants editcap to write all of it again."""
    again = f"{outcome.folder}/again.pcapng"
    tool("editcap", outcome.path, again)
    interfaces, written = file_of(read(again))
    same(case, "interfaces of editcap", interfaces, outcome.interfaces)
    same(case, "packets of editcap", written, outcome.written)


def by_mergecap(case: str, outcome: Outcome) -> None:
    """Wants Wireshark's mergecap to keep all of it beside another capture, of two packets, which has one at the first
    date."""
    stamps = [outcome.written[0].stamp, outcome.written[-1].stamp]
    other = write(f"{outcome.folder}/other.pcapng", blocks([(it, frame(3, 4, b"other")) for it in stamps]))
    both = f"{outcome.folder}/both.pcapng"
    tool("mergecap", "-F", "pcapng", "-w", both, outcome.path, other)
    interfaces, written = file_of(read(both))
    count = len(outcome.interfaces)
    same(case, "interfaces of mergecap", interfaces[:count], outcome.interfaces)
    same(case, "packets of mergecap", [it for it in written if it.interface < count], outcome.written)
    others = [(it.interface, it.stamp) for it in written if it.interface >= count]
    same(case, "packets of the other capture", others, [(count, it) for it in stamps])
    dates = [it.stamp for it in written]
    same(case, "order of mergecap", dates, sorted(dates))


# ---- cases


def no_file(case: str, declaration: str, lines: Sequence[str], wanted: str, *event: str) -> None:
    """Wants this line in place of a file, with status 12."""
    done = dated(declaration, lines, event)
    assert (done.stdout, done.returncode) == (f"{wanted}\n".encode(), 12), (case, done)
    print(f"{case}: `{wanted}`, status 12")


def empty(folder: str, stamps: Sequence[int]) -> str:
    """A file of pcapng with an empty packet at each of these stamps."""
    packets = b"".join(block(stamp, b"") for stamp in stamps)
    return write(f"{folder}/empty", SECTION + interface(ETHERNET, 0) + packets)


def cut(folder: str, label: str, most: int) -> str:
    """The addition of an example of which at most so many bytes of each packet are left."""
    data = read(f"{EXAMPLES}/captures/{label}.pcap")
    found, at = [data[:24]], 24
    while at < len(data):
        kept, length = struct.unpack_from("<II", data, at + 8)
        left = min(kept, most)
        found += [data[at : at + 8], struct.pack("<II", left, length), data[at + 16 : at + 16 + left]]
        at += 16 + kept
    return f"add {label} {write(f'{folder}/{label}-{most}', b''.join(found))}"


def uneven(folder: str) -> str:
    """A capture whose packets have other original lengths than what was captured: longer, shorter, none, and all."""
    whole = frame(1, 2, b"word")
    lengths = [(whole, 1500), (whole[:20], 50), (whole, 10), (b"", 7), (b"", 0)]
    lengths += [(whole[:41], MOST_SHOWN), (whole, 2**32 - 1)]
    records = [classic_record(stamp, kept, length=length) for stamp, (kept, length) in enumerate(lengths)]
    return write(f"{folder}/uneven", classic_head() + b"".join(records))


def links(folder: str) -> str:
    """A file with two interfaces of other link types, in turn."""
    packets = [frame(1, 2, b"word   %d" % n) for n in range(6)]
    data = [block(n, cooked(it, 2, True) if n % 2 else it, n % 2) for n, it in enumerate(packets)]
    return write(f"{folder}/links", SECTION + INTERFACE + interface(COOKED) + b"".join(data))


def longest(folder: str) -> tuple[str, str]:
    """A declaration with names of 32 bytes and the greatest bounds, of which a label has its own, and its label."""
    host, first, second, label = (it * 32 for it in "hcdl")
    most = 2**62 - 1
    text = f"[hosts.{host}]\nshort = 999_999_999\nlong = 1_000_000_000\nearly = {most}\nlate = {most}\n"
    text += f'clocks = [{{ name = "{first}" }}, {{ name = "{second}", short = 5 }}]\n'
    text += f'[labels.{label}]\nhost = "{host}"\nclock = "{second}"\nkind = "capture"\nlate = 3\n'
    return write(f"{folder}/longest.toml", text), label


def pair(folder: str, count: int) -> list[str]:
    """The additions of two captures that have so many packets together, which are cut to 64 bytes: datagrams from left
    to right or back, in turn, one each 10 us, which arrive 2 to 5 us later. Right's clock is 3 ms ahead."""
    files = {label: bytearray(classic_head()) for label in ("left", "right")}
    for k in range(count // 2):
        sent = 1_790_000_000 * 10**9 + k * 10_000
        received = sent + 2_000 + k * 7919 % 3_000
        ends = (sent, received) if k % 2 == 0 else (received, sent)
        whole = frame(1 + k % 2, 2 - k % 2, b"%8d" % k + bytes(100), k & 0xFFFF)
        files["left"] += classic_record(ends[0], whole[:64], length=len(whole))
        files["right"] += classic_record(ends[1] + 3_000_000, whole[:64], length=len(whole))
    return [f"add {label} {write(f'{folder}/many-{label}', bytes(data))}" for label, data in files.items()]


def chain(folder: str, last: int) -> tuple[str, list[str]]:
    """A declaration of five hosts, and the additions of what each sees of a message that goes from one to the next:
    sent at 2^62 ns less 1, on the way for 2^62 ns less 1 three times, and then for so many ns."""
    text = "payload_bytes = 8\n"
    lines: list[str] = []
    for host in range(5):
        text += f'[hosts.h{host}]\naddresses = ["10.9.0.{host + 1}"]\n'
        text += f'[labels.h{host}]\nhost = "h{host}"\nkind = "capture"\n'
        stamp = 0 if host else 2**62 - 1
        seen = [(stamp, frame(it + 1, it + 2, b"word   %d" % it)) for it in (host - 1, host) if 0 <= it < 4]
        lines.append(f"add h{host} {write(f'{folder}/h{host}', blocks(seen))}")
    for host in range(4):
        text += f'[[links]]\nfrom = "h{host}"\nto = "h{host + 1}"\nleast = {last if host == 3 else 2**62 - 1}\n'
    return write(f"{folder}/chain.toml", text), lines


def lawful(folder: str, plain: str) -> None:
    """Scripts that have a file."""
    merges(folder, "captures", HOSTS, [LEFT, RIGHT])
    merges(folder, "captures, right first", HOSTS, [RIGHT, LEFT])
    merges(folder, "captures, left's clock the source", f"{EXAMPLES}/captures/by-left.toml", [LEFT, RIGHT])
    merges(folder, "captures, since an event in the middle", HOSTS, [LEFT, RIGHT], "right#7")
    for most in (74, 60):
        lines = [cut(folder, label, most) for label in ("left", "right")]
        merges(folder, f"captures, cut to {most} bytes", HOSTS, lines)
    merges(folder, "pcapng", HOSTS, [f"add {it} {EXAMPLES}/pcapng/{it}.pcapng" for it in ("left", "right")])
    merges(folder, "two link types", f"{EXAMPLES}/dual/hosts.toml", DUAL)
    merges(folder, "two link types, since the last event", f"{EXAMPLES}/dual/hosts.toml", DUAL, "right#5")
    merges(folder, "two link types of one label", plain, [f"add left {links(folder)}"])
    merges(folder, "lengths of all kinds", plain, [f"add left {uneven(folder)}"])
    great = write(f"{folder}/great", classic([(5, frame(1, 2, b"a") + bytes(2**18 - 43)), (7, frame(1, 2, b"b"))]))
    merges(folder, "a packet of 2^18 bytes", plain, [f"add left {great}"])
    fine = write(f"{folder}/fine", classic([(FINE, frame(1, 2, b"a")), (FINE * 3, frame(1, 2, b"b"))]))
    merges(folder, "stamps of a 64th of a second", plain, [f"add left {fine}"])
    merges(folder, "stamps of 0 and of 2^62 ns less 1", plain, [f"add left {empty(folder, [0, 2**62 - 1])}"])
    merges(folder, "a date of 2^64 ns less 1", *chain(folder, 3))
    one = write(f"{folder}/one", blocks([(5, frame(1, 2, b"a"))]))
    merges(folder, "one packet", plain, [f"add left {one}"])
    merges(folder, "one packet, since itself", plain, [f"add left {one}"], "left#1")
    declaration, label = longest(folder)
    merges(folder, "the longest names", declaration, [f"add {label} {one}"])
    apart = write(f"{folder}/apart.toml", PLAIN + PLAIN.replace("left", "right"))
    two = [f"add left {one}", f"add right {one}"]
    merges(folder, "hosts that no message joins", apart, two)
    merges(folder, "hosts that no message joins, since the other", apart, two, "right#1")
    logged = write(f"{folder}/logged.toml", PLAIN + '[labels.log]\nhost = "left"\nkind = "log"\n')
    rows = write(f"{folder}/rows.csv", b"1,local,,note\n9,local,,note\n")
    merges(folder, "a log's event first", logged, [f"add left {one}", f"add log {rows}"])
    merges(folder, "since a log's event", logged, [f"add left {one}", f"add log {rows}"], "log#2")


def without_file(folder: str, plain: str) -> None:
    """Scripts that have none, and one that has no packet."""
    no_file("a date of 2^64 ns", *chain(folder, 4), "range")
    no_file("a date of 2^64 ns, since an event", *chain(folder, 4), "range", "h4#1")
    no_file("a date of 2^64 ns, since no event", *chain(folder, 4), "refused 28", "h4#2")
    no_file("no event of the name", HOSTS, [LEFT, RIGHT], "refused 28", "right#99")
    no_file("no event at all, and a name", plain, [], "refused 28", "left#1")
    no_file("a name, and a line that is no addition", plain, ["merge"], "refused 20", "left#1")
    done = subprocess.run([program(), "mergecap", plain, "pcapng"], input=b"", capture_output=True)
    assert (done.stdout, done.returncode) == (SECTION, 0), done
    assert not is_there("capinfos") or packets_of(write(f"{folder}/none", done.stdout)) == 0
    print("no line: a section alone")
    no_file("a line that is no addition", plain, ["merge"], "refused 20")
    far = read(HOSTS).decode().replace("least = 1", "least = 1_000_000")
    no_file("a cable of 300 km", write(f"{folder}/far.toml", far), [LEFT, RIGHT], "inconsistent")
    no_file("a cable of 300 km, and no event of the name", f"{folder}/far.toml", [LEFT, RIGHT], "inconsistent", "none")
    done = subprocess.run([program(), "mergecap", plain, "pcap"], input=b"", capture_output=True)
    assert done.returncode == 2 and done.stdout.startswith(b"usage"), done
    print("another format: usage")


def main() -> int:
    parser = argparse.ArgumentParser(description=__doc__.split("\n\n")[0])
    parser.add_argument("--packets", metavar="N", type=int, default=0, help="merge two captures of N packets, too")
    said = parser.parse_args()
    with tempfile.TemporaryDirectory() as folder:
        try:
            plain = write(f"{folder}/plain.toml", PLAIN)
            lawful(folder, plain)
            without_file(folder, plain)
            if said.packets:
                merges(folder, f"{said.packets} packets", HOSTS, pair(folder, said.packets))
        except AssertionError as why:
            print(f"dated_captures: {why}")
            return 1
    return 0


if __name__ == "__main__":
    sys.exit(main())
