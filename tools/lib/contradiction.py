"""A contradiction in words: its groups of bounds with their sums, the packets and rows that they name, and what would mend it."""

from collections.abc import Iterable
from datetime import datetime, timezone
from typing import Any

from captures import Packet
from chains import told_follow
from headers import TCP, decode, described
from inputs import Input
from tracesync.certificates import Step, read_cycle
from tracesync.numbers import UNITS
from tracesync.problems import Problem
from words import count_text, decimal_text, time_text

# The first moment of 2000: what is earlier is no time since 1970, but that of a clock which began with 0.
SINCE_1970 = 946_684_800 * 10**9

# Where in a packet's key its identification stands.
IDENTIFICATION = 3

# How many messages of a chain are named.
NAMED_MOST = 3

# No quartz is off by so many parts per billion.
QUARTZ_MOST = 1_000_000


def stamp_text(stamp: int) -> str:
    """Returns a stamp as a time of day in UTC, if it is one, and else in ns."""
    if stamp < SINCE_1970:
        return f"{stamp} ns"
    whole = datetime.fromtimestamp(stamp // 10**9, timezone.utc)
    return f"{whole:%Y-%m-%d %H:%M:%S}.{stamp % 10**9:09} UTC"


def exact_ns(units: int) -> str:
    """Returns units as ns with the digits that count."""
    return decimal_text(units, UNITS, digits=9)


def event_names(steps: list[Step]) -> dict[str, None]:
    """Returns the events that steps name, each once: spans and follows name clocks and stamps."""
    return dict.fromkeys(name for it in steps if it.kind in ("late", "early", "delay-least", "delay-most") for name in it.names)


class Contradiction:
    """Tells the steps of a cycle; the problem gives stamps of events, and the inputs what they are."""

    def __init__(self, steps: list[Step], problem: Problem | None = None, inputs: dict[int, Input] | None = None) -> None:
        self.steps, self.problem, self.inputs = steps, problem, inputs or {}

    def lines(self) -> list[str]:
        """Returns the groups with their sums, one on each line, and their sum."""
        total = sum(it.weight for it in self.steps)
        found = ["These declarations cannot all hold. Each says how much later one moment is at most, and they go round:"]
        return [*found, *self.sums(), *self.events(), *self.cures(-total)]

    def sums(self) -> list[str]:
        """Returns the groups with their sums, and their sum."""
        total = sum(it.weight for it in self.steps)
        rows = [*self.groups(), (f"in all, where no less than 0 can be: they are too narrow by {time_text(-total, -1)} at least", total)]
        wide = max(len(exact_ns(weight)) for _, weight in rows)
        return [f"  {exact_ns(weight):>{wide}} ns  {text}" for text, weight in rows]

    def groups(self) -> list[tuple[str, int]]:
        """Returns each group in words with the sum of its weights: spans by clock, stamps' errors, and messages one by one."""
        found = []
        for kind, told in (("span-least", "at least"), ("span-most", "at most")):
            for clock in dict.fromkeys(it.names[0] for it in self.steps if it.kind == kind):
                own = [it for it in self.steps if it.kind == kind and it.names[0] == clock]
                shown = sum(int(it.names[2]) - int(it.names[1]) for it in own)
                weight = sum(it.weight for it in own)
                found.append((f"{clock}'s clock {self.stretches(own)} showed {time_text(shown * UNITS)}: {told} so long", weight))
        for kind, told in (("late", "later"), ("early", "earlier")):
            own = [it for it in self.steps if it.kind == kind and it.weight]
            if own:
                names = ", ".join(dict.fromkeys(it.names[0] for it in own))
                found.append((f"events may be so much {told} than their stamps say, {count_text(len(own), 'time')}: {names}", sum(it.weight for it in own)))
        for it in (it for it in self.steps if it.kind == "follow"):
            found.append((f"{told_follow(it)}: at least {time_text(-it.weight)} between", it.weight))
        for kind, told in (("delay-least", "at least"), ("delay-most", "at most")):
            for it in (it for it in self.steps if it.kind == kind):
                found.append((f"the message from {it.names[0]} to {it.names[1]} took {told} {time_text(abs(it.weight))}", it.weight))
        return found

    def stretches(self, spans: Iterable[Step]) -> str:
        """Returns the stretches of stamps that spans make together."""
        return " and ".join(f"from {first} to {last}" for first, last in self.joined(spans))

    def joined(self, spans: Iterable[Step]) -> list[list[int]]:
        """Returns the first and the last stamp of each stretch that spans make together."""
        found: list[list[int]] = []
        for first, last in sorted((int(it.names[1]), int(it.names[2])) for it in spans):
            if found and found[-1][1] == first:
                found[-1][1] = last
            else:
                found.append([first, last])
        return found

    def cuts(self, clock: str) -> str:
        """Returns between which events a clock was set, if it was: the ends of each of its stretches, by stamps where events are not known."""
        own = {stamp: name for name in event_names(self.steps) if self.problem and name in self.problem.events
               for its, stamp in [self.problem.events[name]] if its == clock}  # fmt: skip
        spans = [it for it in self.steps if it.kind.startswith("span") and it.names[0] == clock]
        return ", or ".join(f"{own.get(first, f'stamp {first}')} and {own.get(last, f'stamp {last}')}" for first, last in self.joined(spans))

    def events(self) -> list[str]:
        """Returns what the events of the chain are: the packets' addresses, ports and stamps, or the rows' texts."""
        names = event_names(self.steps)
        lines = []
        for name in names:
            stamp = stamp_text(self.problem.events[name][1]) if self.problem and name in self.problem.events else ""
            lines.append(f"  {name}: {', '.join(it for it in (self.what(name), stamp) if it)}")
        return ["The events are:", *lines] if any(not it.endswith(": ") for it in lines) else []

    def entry(self, name: str) -> Any:
        """Returns the packet or the row that an event is, None where it is not known."""
        label, _, number = name.partition("#")
        contents = [it.content for it in self.inputs.values() if it.label == label] if number.isdigit() else []
        if len(contents) != 1:
            return None
        of_log = getattr(contents[0], "rows", None)
        entries = of_log if of_log is not None else contents[0].packets
        return entries[int(number) - 1] if 0 < int(number) <= len(entries) else None

    def what(self, name: str) -> str:
        it = self.entry(name)
        if it is None:
            return ""
        return described(it)[0] if isinstance(it, Packet) else " ".join(part for part in it[1:] if part)

    def messages(self) -> list[tuple[str, str]]:
        """Returns the send and the receive of each message of the chain, each once."""
        return list(dict.fromkeys((it.names[0], it.names[1]) for it in self.steps if it.kind.startswith("delay")))

    def bare(self) -> list[tuple[str, str]]:
        """Returns those messages that are segments of TCP without an identification, as all over IPv6 are."""
        packets = [(it, self.entry(it[0])) for it in self.messages()]
        found = [(it, decode(packet.link, packet.data)[0]) for it, packet in packets if isinstance(packet, Packet)]
        return [it for it, headers in found if headers and headers.protocol == TCP and headers.key and not headers.key[IDENTIFICATION]]

    def cures(self, lack: int) -> list[str]:
        """Returns how much each kind of bound would have to be wider to mend this chain alone."""
        lines = []
        for clock in dict.fromkeys(it.names[0] for it in self.steps if it.kind.startswith("span")):
            shown = sum(int(it.names[2]) - int(it.names[1]) for it in self.steps if it.kind.startswith("span") and it.names[0] == clock)
            # (units over ns are parts per billion)
            if lack < shown * 10**9:
                off = -(-lack // shown)
                told = ", as no quartz is" if off > QUARTZ_MOST else " (another chain may need more)"
                lines.append(f"  {clock}'s clock, if its rate is off by {decimal_text(off, 1000, 1)} ppm more{told}; or it was set: cut between {self.cuts(clock)}")
        for it in (it for it in self.steps if it.kind == "follow"):
            # (the later clock never comes before the earlier one)
            if lack <= -it.weight:
                lines.append(f"  {it.names[2]}'s clock, if it came {time_text(lack, 1)} less behind {it.names[0]}'s clock than its gap is")
        errors = [it for it in self.steps if it.kind in ("late", "early")]
        if errors:
            lines.append(f"  the stamps, if each of {len(errors)} is off by {time_text(-(-lack // len(errors)), 1)} more")
        for it in (it for it in self.steps if it.kind.startswith("delay")):
            kind = "more than its greatest" if it.kind == "delay-most" else "less than its least"
            if it.kind == "delay-least" and lack > -it.weight:
                # (no delay is below 0)
                continue
            lines.append(f"  the message from {it.names[0]} to {it.names[1]}, if it took {time_text(lack, 1)} {kind} delay")
        causes = ["files or addresses that were exchanged", "a clock that was set", *self.key_causes()]
        return ["Any one of these would mend this chain (there may be others):", *lines, f"Or it is something else: {', '.join(causes)}."]

    def key_causes(self) -> list[str]:
        """Returns what may be wrong with the messages of the chain."""
        if not self.messages():
            return []
        kinds = {it.label: it.kind for it in self.inputs.values()}
        of_logs = all(kinds.get(name.partition("#")[0]) == "log" for it in self.messages() for name in it)
        return ["one key for two messages"] if of_logs else ["packets that a capture lost", "one key for two messages"]


def told_keys(lines: list[str], inputs: dict[int, Input], declaration: str) -> list[str]:
    """Returns what to write into a declaration where messages of a contradiction may be two segments with one key."""
    found = Contradiction(read_cycle(lines) or [], inputs=inputs).bare()
    shown = ", ".join(f"{send} to {receive}" for send, receive in found[:NAMED_MOST]) + (", .." if len(found) > NAMED_MOST else "")
    told = "A segment of TCP without an identification, as over IPv6, may have the key of one that was sent again, and where a capture lost packets the two become one message"
    return [f"{told}. So may {shown}: write tcp_options = true at the top of {declaration}."] if found else []
