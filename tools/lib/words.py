"""What a timeline says, in words."""

from collections.abc import Mapping
from functools import cached_property
from statistics import median_high, median_low
from typing import Any

from texts import plain
from timeline import Timeline
from tracesync.numbers import UNITS, Interval

# Ends lose digits where what is rounded off is more than one part in so many of how far they are apart; below so many ns none are great.
LOSS, GREAT = 10, 10**6
# A key with more events is used again: a packet that is there on two interfaces of both its hosts has so many.
KEY_EVENTS_MOST = 4
# How many decimals behind the point a number has in units, in seconds and in milliseconds.
DECIMALS = {"s": 18, "ms": 15}
REASONS = {
    "fragment": "of fragments of datagrams",
    "header": "with a header that cannot be one",
    "interface": "of other interfaces than their label names",
    "length": "with a length that does not fit the others",
    "link": "of a link type whose packets are not read",
    "local": "of one host alone, as its log says",
    "other": "of neither TCP nor UDP, as ARP and ICMP",
    "short": "captured too short",
    "side": "neither to nor from its host, or both (are all addresses declared?)",
}


def unit_of(units: int) -> tuple[int, str]:
    """Returns the ns of a unit in which a span of time has few digits, and its name."""
    return next(((size, name) for size, name in ((10**9, "s"), (10**6, "ms"), (10**3, "us")) if abs(units) >= size * UNITS), (1, "ns"))


def time_text(units: int, way: int = 0) -> str:
    """Returns a span of time in a unit in which it has few digits, three behind the point at most: rounded down, up or to the nearest one."""
    size, name = unit_of(units)
    return f"{decimal_text(units, size * UNITS, way)} {name}"


def decimal_text(units: int, size: int, way: int = 0, digits: int = 3) -> str:
    """Returns units over a size with so many decimals at most, rounded down (-1), up (1) or to the nearest (0)."""
    scaled = units * 10**digits
    scaled = scaled // size if way < 0 else -(-scaled // size) if way > 0 else (2 * scaled + size) // (2 * size)
    whole, rest = divmod(abs(scaled), 10**digits)
    text = f"{whole}.{rest:0{digits}}".rstrip("0").rstrip(".")
    return f"-{text}" if scaled < 0 else text


def anchor(least: int, greatest: int) -> int:
    """Returns the number between two, in units, that has the fewest decimals as seconds; of several the one nearest to the middle."""
    size = 10 ** len(str(max(abs(least), abs(greatest))))
    while -(-least // size) * size > greatest:
        size //= 10
    near = (least + greatest + size) // (2 * size) * size
    return min(max(near, -(-least // size) * size), greatest // size * size)


def loses(least: int, greatest: int) -> bool:
    """Returns whether ends as `time_text` writes them would say little of how far they are apart."""
    size = max(abs(least), abs(greatest))
    return size >= GREAT * UNITS and unit_of(size)[0] * UNITS // 1000 * LOSS > greatest - least >= 0


def span_text(least: int | None, greatest: int | None) -> str:
    """Returns what lies between two ends, `least to greatest`, one number where both are it; where they are great and near to each other, a number with what is less and more."""
    if least is None or greatest is None or not loses(least, greatest):
        return " to ".join(dict.fromkeys((least_text(least), greatest_text(greatest))))
    middle = anchor(least, greatest)
    size, name = unit_of(max(abs(least), abs(greatest)))
    told = f"{decimal_text(middle, size * UNITS, digits=DECIMALS[name])} {name}"
    return told if least == greatest else f"{told}, less {time_text(middle - least, 1)}, plus {time_text(greatest - middle, 1)}"


def ends_texts(least: int | None, greatest: int | None) -> tuple[str, str]:
    """Returns two ends one by one, with so many digits that how far they are apart is not lost."""
    if least is None or greatest is None or not loses(least, greatest):
        return least_text(least), greatest_text(greatest)
    size, name = unit_of(max(abs(least), abs(greatest)))
    digits = DECIMALS[name] + 1 - len(str(max((greatest - least) // 1000, 1)))
    one, other = (decimal_text(it, size * UNITS, way, digits) for it, way in ((least, -1), (greatest, 1)))
    return f"{one} {name}", f"{other} {name}"


def least_text(units: int | None) -> str:
    return "-inf" if units is None else time_text(units, -1)


def greatest_text(units: int | None) -> str:
    return "no limit" if units is None else time_text(units, 1)


def count_text(count: int, one: str, many: str | None = None) -> str:
    return f"{count} {one if count == 1 else many or one + 's'}"


def alone_text(count: int) -> str:
    """Returns how many keys stand alone."""
    return f"{count_text(count, 'key is', 'keys are')} sent and received, and never within the window"


def told_again(report: Mapping[str, Any], declared: Mapping[str, Any], declaration: str) -> list[str]:
    """Returns what to write into a declaration that has no window, where most keys are used again, or whose window parts most of them."""
    keys = [len(it["sends"]) + len(it["receives"]) for it in report["ambiguous"]]
    often, most = sum(count > KEY_EVENTS_MOST for count in keys), report["messages"] + len(keys)
    if "window" in declared:
        alone = report.get("alone", 0)
        cure = f"write offset = NS at the clocks that are ahead, about, or a greater window at the top of {declaration}"
        return [f"Most keys stand alone: {alone_text(alone)}. So {cure}."] if alone > most else []
    if 2 * often <= most:
        return []
    told = f"Most keys are used again: {count_text(often, 'key has', 'keys have')} more than {KEY_EVENTS_MOST} events"
    cure = f"write window = NS at the top of {declaration}, more ns than a message takes and fewer than lie between two uses of a key"
    return [f"{told}. So {cure}; where clocks differ by as much, write offset = NS at those that are ahead."]


class Words:
    """Tells a timeline, which stays as it is: what goes over all events and messages is worked out once."""

    def __init__(self, found: Timeline) -> None:
        self.found = found

    def lines(self) -> list[str]:
        """Returns what was matched and what was not, and the delays of each link."""
        return [*self.files(), *self.matched(), *self.delays(), *self.offsets, *self.notes()]

    def notes(self) -> list[str]:
        return [f"Note: {it}." for it in self.found.notes]

    def files(self) -> list[str]:
        lines = []
        for it, reply in self.found.added:
            words = reply.split(" ")
            if words[0] != "added":
                lines.append(f"{it.label}: {it.path} was not taken: {reply}")
                continue
            what = "packets" if it.kind == "capture" else "rows"
            more = f"; its last {words[8]} bytes are no whole packet" if words[8] != "0" else ""
            more += f"; {words[10]} packets under {it.label} are no events" if words[9] == "passed" else ""
            lines.append(f"{it.label}: {words[2]} {what} of {it.path}{more}")
        return lines

    def matched(self) -> list[str]:
        report = self.found.report
        lines = [f"{count_text(report['messages'], 'message')} among {count_text(report['events'], 'event')}."]
        reasons = [f"{count} {REASONS[name]}" for name, count in report["nokey"].items() if count and name in REASONS]
        reasons += [f"{count} ({name})" for name, count in report["nokey"].items() if count and name not in REASONS]
        if reasons:
            lines.append(f"Events that can be no message: {'; '.join(reasons)}.")
        if report["unmatched"]:
            told = f"{count_text(report['unmatched'], 'event has', 'events have')} no other end: lost, not captured there, or known by something else there."
            lines.append(told)
        if report["ambiguous"]:
            names = [name for it in report["ambiguous"] for name in (*it["sends"], *it["receives"])]
            shown = ", ".join(names[:6]) + (", .." if len(names) > 6 else "")
            lines.append(f"{count_text(len(names), 'event is', 'events are')} ambiguous, since several have one key: {shown}.")
        if report.get("alone"):
            lines.append(f"{alone_text(report['alone'])}.")
        return lines

    @cached_property
    def offsets(self) -> list[str]:
        """How far each host's stamps are ahead of the source's clock, where that is known best: a stamp less its ends of `time`."""
        found: dict[str, tuple[int, int, str]] = {}
        for it in self.found.events:
            early, late = it.source_time or (None, None)
            if early is not None and late is not None:
                least, greatest = it.stamp * UNITS - late, it.stamp * UNITS - early
                if it.host not in found or greatest - least < found[it.host][1] - found[it.host][0]:
                    found[it.host] = (least, greatest, it.name)
        lines = [f"{host}: {span_text(least, greatest)}, at {name}" for host, (least, greatest, name) in found.items()]
        return ["How far stamps are ahead of the clock of the source, where that is known best:", *lines, ""] if lines else []

    @cached_property
    def delay_rows(self) -> list[tuple[str, ...]]:
        """A table of one-way delays: for each link the least, the medians of both ends, and the greatest; nothing without delays."""
        host_of = {it.name: it.host for it in self.found.events}
        links: dict[tuple[str, str], list[Interval]] = {}
        counts: dict[tuple[str, str], int] = {}
        for it in self.found.messages:
            link = (host_of[it.send], host_of[it.receive])
            counts[link] = counts.get(link, 0) + 1
            if it.delay:
                links.setdefault(link, []).append(it.delay)
        rows: list[tuple[str, ...]] = [("one-way delay", "messages", "least", "median of least", "median of greatest", "greatest")]
        for (one, other), delays in sorted(links.items()):
            # (an infinite end is less, or greater, than each number)
            lows = sorted((end is not None, end or 0) for end, _ in delays)
            highs = sorted((end is None, end or 0) for _, end in delays)
            count = str(len(delays)) if len(delays) == counts[one, other] else f"{len(delays)} of {counts[one, other]}"
            least = (least_text(end if is_finite else None) for is_finite, end in (lows[0], median_low(lows)))
            greatest = (greatest_text(None if is_infinite else end) for is_infinite, end in (median_high(highs), highs[-1]))
            rows.append((f"{one} to {other}", count, *least, *greatest))
        return rows if len(rows) > 1 else []

    def delays(self) -> list[str]:
        """Returns the table of delays as lines."""
        rows = self.delay_rows
        if not rows:
            return []
        wide = [max(len(row[at]) for row in rows) for at in range(len(rows[0]))]
        lines = ["  ".join(cell.ljust(wide[0]) if at == 0 else cell.rjust(wide[at]) for at, cell in enumerate(row)) for row in rows]
        return ["", *lines, "(Each message took no less than its least and no more than its greatest delay, whatever the clocks' offsets are.)", ""]


def list_lines(found: Timeline) -> list[str]:
    """Returns the events in the order of the earliest execution, each with the ends of its time since the first chosen one."""
    name, ends = next(iter(found.ends.items()))
    base = found.find(name).time
    lines = [f"{'time since ' + name:>24}  {'at least':>16}  {'at most':>16}  event"]
    for it in found.events:
        least, greatest = ends_texts(*ends[it.name])
        lines.append(f"{time_text(it.time - base):>24}  {least:>16}  {greatest:>16}  {it.name}  {plain(it.text)}".rstrip())
    return lines
