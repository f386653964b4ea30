"""Writes a first declaration: each line with where it comes from, and what to replace it by."""

from collections import Counter
from copy import copy, deepcopy
from decimal import Decimal
from math import ceil
from typing import Self

from chrony import Chrony
from ends import Ends, ends_of
from fineness import fineness_of, is_alike, of_host
from headers import address_text, decode, interface_of
from inputs import Input
from placing import Placing
from shortfall import Shortfall, table_of
from sights import PAYLOAD_BYTES
from texts import plain
from vantage import Vantage

# A quartz that runs free, in ppm, where nothing is known of it.
QUARTZ = Decimal(100)
# Half as fast, or twice as fast: `long` would be above what a declaration may have.
PPM_MOST = 500_000


def rates(ppm: Decimal) -> tuple[int, int]:
    """Returns `short` and `long`, in ppb, of a clock whose rate is at most so many ppm off, from 0 on. Raises ValueError above PPM_MOST."""
    if ppm > PPM_MOST:
        raise ValueError(f"a clock that may be off by {ppm.normalize():f} ppm cannot be declared: {PPM_MOST:,} ppm are the most")
    short = ceil(ppm * 1000)
    return short, -(-short * 10**9 // (10**9 - short))


def late_of(resolution: int, long: int) -> int:
    """Returns how late an event may be for a stamp that is cut off at this many ns."""
    return -(-resolution * (10**9 + long) // 10**9)


def bounds(resolution: int, long: int) -> list[str]:
    """Returns the bounds of stamps that are cut off at so many ns, as lines."""
    return ["early = 0", f"late = {spelled(late_of(resolution, long))}"]


def spelled(number: int) -> str:
    return f"{number:_}"


def unit_text(ns: int) -> str:
    for size, name in ((10**9, "s"), (10**6, "ms"), (10**3, "us")):
        if ns % size == 0:
            return f"{ns // size} {name}"
    return f"{ns} ns"


def rounded_ppm(ppm: Decimal) -> Decimal:
    """Returns a rate that is no less, in whole ppm, and in whole thousands where it is a great one."""
    size = 1000 if ppm > 10_000 else 1
    return Decimal(ceil(ppm / size) * size)


def has_messages(inputs: list[Input]) -> bool:
    """Returns whether a row of a log is a send whose key another row receives."""
    rows = [row for it in inputs if it.kind == "log" for row in it.content.rows]
    sends, receives = ({row[2] for row in rows if row[1] == kind} for kind in ("send", "receive"))
    return bool(sends & receives)


class Declaring:
    """A declaration for inputs: what is known of each host, as lines, and what could not be found out."""

    def __init__(self, inputs: list[Input], chrony: dict[str, Chrony] | None = None, source: str | None = None, reference: str | None = None) -> None:
        if source and reference:
            raise ValueError("a source is a true clock, and a reference one that is taken for the measure: say one of them")
        self.inputs, self.chrony, self.source, self.reference = inputs, chrony or {}, source or reference, reference
        self.unknown: list[str] = []
        self.hosts = sorted({it.host for it in inputs})
        self.captures = [it for it in inputs if it.kind == "capture"]
        # (how fine the stamps of each label are, and for which label of each host its bounds are)
        self.fineness = fineness_of(inputs)
        self.finest = {host: of_host(self.fineness[it.label] for it in inputs if it.host == host) for host in self.hosts}
        for name in [*self.chrony, *([self.source] if self.source else [])]:
            if name not in self.hosts:
                raise ValueError(f"there is no host {name}, but {', '.join(self.hosts)}")
        self.vantage = Vantage(self.captures)
        self.ends = ends_of(self.captures, self.vantage)
        # (what places say before addresses of hosts count, and which were exchanged)
        self.first_given, self.exchanged = deepcopy(self.vantage.given), list[str]()
        self.placing = Placing(self.vantage, self.ends)
        self.without = self.without_messages()

    def copy(self) -> Self:
        """Returns the same, whose text is not written yet."""
        found = copy(self)
        found.unknown = []
        return found

    def placed_by(self, ends: Ends) -> Self:
        """Returns what is declared where hosts have these addresses."""
        found = self.copy()
        found.vantage, found.ends = copy(self.vantage), ends
        found.vantage.given, found.vantage.unknown = deepcopy(self.first_given), list(self.vantage.unknown)
        found.placing = Placing(found.vantage, ends)
        found.without = found.without_messages()
        return found

    def without_messages(self) -> list[str]:
        """Returns why no packet can be a message by what is declared, as lines, where it is so and two hosts have captures."""
        is_cut = any(it.is_cut for it in self.vantage.views)
        if is_cut or len({it.host for it in self.captures}) < 2 or self.placing.message_count() or self.has_fragments() or has_messages(self.inputs):
            return []
        asked = [host for host in self.hosts if host in self.ends.open and self.placing.open(host)]
        report = {"messages": 0, "ambiguous": [], "nokey": {"side": 1}}
        found = Shortfall(self.inputs, self.placing.declared(), report, "the declaration", asked, is_found=True)
        # (with the addresses that are asked for there may be some)
        return found.lines() if not asked else found.causes()

    def text(self) -> str:
        """Returns the declaration."""
        self.unknown += self.placing.unknown() + (["by what packets are known at two hosts: by this declaration none can be a message"] if self.without else [])
        body = [line for host in self.hosts for line in self.host(host)] + self.labels() + self.links()
        files = ", ".join(f"{it.label} of {plain(it.shown)}" for it in self.inputs)
        head = [f"# Written by tools/declare, for {files}."]
        head += ["# Every answer follows from these lines and from the files. A line that is too wide is never wrong; one that is too narrow",
                 "# makes answers that are definite and wrong. So look at each, and replace what you know better: docs/GUIDE.md, What to declare."]  # fmt: skip
        head += [f"# EXCHANGED: {it}." for it in self.exchanged]
        head += [f"# NOT FOUND OUT: {it}." for it in self.unknown] + ["", *self.top()]
        return "\n".join([*head, *body]) + "\n"

    def top(self) -> list[str]:
        lines = []
        if self.captures:
            count, repeated, short = self.payload_bytes()
            told = f"with {count} of them {repeated} packets look like another one of their host" + (f", and {short} were captured too short" if short else "")
            lines += [f"# So many bytes of the payload are part of what a packet is known by: {told}.",
                      "# Others of 0, 8, 16, 32 and 64 do no better here. See `ambiguous` and `short` in the reply to `report`.",
                      f"payload_bytes = {count}",
                      "# Timestamps and selective acknowledgments of TCP are, too: a segment that is sent again has others.",
                      "tcp_options = true"]  # fmt: skip
            if self.has_fragments():
                lines += ["# Fragments have keys of their own, and packets of IPv6 behind extension headers have keys: there are some.", "fragments = true"]
        if self.source:
            what = "the measure, right or wrong" if self.reference else "a true one"
            lines += [f"# By this clock `time` tells when an event was. It was named on the command line as {what}.", f'source = "{self.source}"']
        else:
            lines += ["# Is one of the clocks true (GPS, or ptp4l in step with one)? Then `time` can tell when an event was by it, with",
                      '# source = "ITS HOST" here, and short = 0 and long = 0 below.']  # fmt: skip
        return lines

    def has_fragments(self) -> bool:
        """Returns whether there are fragments, or extension headers of IPv6."""
        found = (decode(packet.link, packet.data)[0] for it in self.captures for packet in it.content.packets)
        return any(it is not None and it.is_apart for it in found)

    def payload_bytes(self) -> tuple[int, int, int]:
        """Returns how many bytes of the payload tell most packets apart, how many packets they do not, and how many are too short for them."""
        places = {it.label: (it.host, self.placing.values(it.label)) for it in self.captures}
        packets = []
        for it in self.captures:
            host, values = places[it.label]
            for packet in it.content.packets:
                found = decode(packet.link, packet.data)[0]
                if found and found.key and values.get("interface", interface_of(packet)) == interface_of(packet):
                    packets.append(((host, values.get("segment")), found))
        tried = []
        for at, count in enumerate(PAYLOAD_BYTES):
            keys = Counter((host, found.key, found.payload[:count]) for host, found in packets)
            repeated = sum(number for number in keys.values() if number > 1)
            short = sum(len(found.payload) < min(count, found.payload_length) for _, found in packets)
            tried.append((repeated + short, at, count, repeated, short))
        return min(tried)[2:]

    def host(self, name: str) -> list[str]:
        told, ppm = self.rate(name)
        short, long = rates(ppm)
        lines = ["", table_of("hosts", name), *(f"# {it}" for it in told)]
        lines += [f"short = {spelled(short)}", f"long = {spelled(long)}", *self.stamps(name, long), *self.addresses(name)]
        return lines

    def rate(self, name: str) -> tuple[list[str], Decimal]:
        """Returns what there is to say of a clock's rate, and by how many ppm it is off at most."""
        if name == self.source:
            return ["It is the source: time is measured by this clock."], Decimal(0)
        told, ppm = self.own_rate(name)
        if self.reference:
            # (of two clocks that are a and b off, each is at most a + b off by the other: `long` of that sum is (a + b) / (1 - a - b))
            other = self.own_rate(self.reference)[1]
            return [*told, f"Time is measured by {self.reference}'s clock, which may be {other.normalize():f} ppm off itself: so both rates count."], ppm + other
        return told, ppm

    def own_rate(self, name: str) -> tuple[list[str], Decimal]:
        """Returns the same by true time."""
        found = self.chrony.get(name)
        if found is None:
            return ["A quartz that runs free is at most 100 ppm off. Where chronyd or ntpd corrects this clock while you record, that is",
                    "too narrow: --chrony HOST=FILE takes a chrony.conf, and docs/GUIDE.md, Rates, has the numbers."], QUARTZ  # fmt: skip
        told, quartz = [], QUARTZ
        if found.skew is not None:
            quartz = found.skew + abs(found.residual)
            told += [f"By {plain(found.tracking_from)}: chronyd's correction of the rate is right to {quartz.normalize():f} ppm (skew, and residual). That is its estimate,",
                     "no bound, and holds while the temperature does: 100 in its place is never too narrow."]  # fmt: skip
        error = found.error()
        if error is not None:
            told += [f"It estimates the time to be right to {error.normalize():f} s (root dispersion, half the root delay, system time);",
                     "that is no part of a declaration, for nothing is declared of offsets."]  # fmt: skip
        told.append(f"It may slew by {found.slew.normalize():f} ppm besides ({plain(found.slew_from)}). With maxslewrate 500 while you record that is far less.")
        if found.steps:
            told.append(f"And it may set the clock ({plain(found.steps)}): over such a moment no rate holds.")
        off = quartz + found.slew + quartz * found.slew / 10**6
        return told, rounded_ppm(off)

    def stamps(self, name: str, long: int) -> list[str]:
        it = self.finest[name]
        what = "the kernel stamped the packet" if it.is_capture else "the program took the time"
        lines = [f"# All stamps of {plain(it.shown_by.shown)} are whole {unit_text(it.resolution)}; what is below is taken to be cut off. The event is the moment at",
                 f"# which {what}; for another one, as on the wire, add how far that may be."]  # fmt: skip
        if not it.is_told:
            lines[0] = f"# {plain(it.shown_by.shown)} has too few rows to tell how fine its stamps are: 1 ns is the narrowest."
            self.unknown.append(f"how fine the stamps of {name} are")
        return [*lines, *bounds(it.resolution if it.is_told else 1, long)]

    def own_stamps(self, label: str, host: str) -> list[str]:
        """Returns the bounds of a label whose stamps are not as fine as those that its host's bounds are for, or are finer."""
        it, its_host = self.fineness[label], self.finest[host]
        if is_alike(it, its_host):
            return []
        told = "All stamps" if it.is_told else "The few stamps"
        lines = [f"# {told} of {plain(it.shown_by.shown)} are whole {unit_text(it.resolution)}; what is below is taken to be cut off. The host's bounds are for {its_host.shown_by.label}."]
        lines += [] if it.is_capture else ["# Where a row is written later than what it tells, add how much later to `early`."]
        return [*lines, *bounds(it.resolution, rates(self.rate(host)[1])[1])]

    def addresses(self, name: str) -> list[str]:
        if not any(it.host == name for it in self.captures):
            return []
        own, lines = self.ends.own[name], []
        for size, key in ((4, "addresses"), (16, "addresses6")):
            found = sorted(it for it in own if len(it) == size)
            lines += [f"# {address_text(it)}: {own[it]}." for it in found]
            if found:
                lines.append(f"{key} = [{', '.join(f'{chr(34)}{address_text(it)}{chr(34)}' for it in found)}]")
        pairs = self.placing.open(name)
        if pairs:
            shown = "; ".join(" or ".join(address_text(it) for it in pair) for pair in pairs[:4]) + ("; .." if len(pairs) > 4 else "")
            self.unknown.append(f"which address is {name}'s: {shown}")
            lines.append(f"# Which of these are its own could not be found out: {shown}.")
        if not own and not self.placing.is_placed(name) and not self.placing.is_between(name):
            lines.append('# addresses = ["ITS ADDRESS"]')
            if not pairs:
                self.unknown.append(f"the addresses of {name}: no packet of its captures is of IP between two hosts")
        return lines

    def labels(self) -> list[str]:
        lines, done = [], set()
        for it in self.inputs:
            if it.label not in done:
                done.add(it.label)
                lines += ["", table_of("labels", it.label), f'host = "{it.host}"', f'kind = "{it.kind}"']
                lines += self.own_stamps(it.label, it.host)
                lines += self.placing.lines(it.label)
        return lines

    def links(self) -> list[str]:
        """Returns a link for each two hosts, both ways."""
        if len(self.hosts) < 2:
            return []
        lines = ["", "# Nothing arrives in the instant in which it was sent, so `least` is 1 ns. If you know the way, write more: light needs at least",
                 "# 4,800 ns for each km of fibre. `most` is left out: a packet may take as long as it likes. One that is too small spoils every answer."]  # fmt: skip
        for one in self.hosts:
            for other in self.hosts:
                if one != other:
                    lines += ["[[links]]", f'from = "{one}"', f'to = "{other}"', "least = 1", ""]
        return lines[:-1]

    def notes(self) -> list[str]:
        """Returns what is to be said beside the declaration: what is odd, and what could not be found out."""
        odd = [f"{plain(it.shown)}: {why}" for it in self.inputs for why in it.content.odd] + self.ends.odd
        links = Counter(packet.link for it in self.captures for packet in it.content.packets)
        unread = [str(it) for it in links if it not in (1, 101, 113, 276)]
        odd += [f"packets of link type {', '.join(unread)} are not read"] if unread else []
        return odd + [f"not found out: {it}" for it in self.unknown]
