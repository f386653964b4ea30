"""Pictures of clocks and of delays over time, in SVG: a panel for each clock, and one for each link, with both ends of what is certain of all events."""

from bisect import bisect_right
from collections.abc import Iterator
from dataclasses import dataclass, field
from html import escape
from itertools import groupby
from operator import itemgetter

from delays import Delays
from inks import INKS
from texts import plain
from timeline import Timeline
from tracesync.numbers import UNITS
from words import DECIMALS, anchor, count_text, decimal_text, span_text, unit_of

# A time, and the least and the greatest of what is drawn there, in units; None is an infinite end.
Point = tuple[int, int | None, int | None]

WIDE, LEFT, RIGHT, TOP, HIGH, HEAD, FOOT = 1000, 92, 20, 30, 150, 24, 40
# How wide a letter is.
LETTER = 6.1
# How wide a histogram is, how far it is from its panel, and how many bars it has.
SIDE, GAP, BARS = 150, 16, 38
PANELS_MOST = 24
# How many points a column of an envelope has on average, unless it is a pixel wide.
FULL = 6
# How many marks an axis has at most, across and up; and it counts from a number near what is drawn, if that is farther off than so many times
# its own size.
MARKS_ACROSS, MARKS_UP, FAR = 9, 5, 100
NAMESPACE = ' xmlns="http://www.w3.org/2000/svg"'
STYLE = 'font-family="Helvetica, Arial, sans-serif" font-size="11"'


@dataclass
class Panel:
    """A panel: its title, its ink, its points in the order of time, whether a histogram stands beside it, and those points of which both ends
    are the exact ones, where there are others."""

    title: str
    ink: str
    points: list[Point] = field(default_factory=list)
    has_histogram: bool = False
    exact: list[Point] = field(default_factory=list)


def offset_panels(found: Timeline) -> list[Panel]:
    """Returns a panel for each clock of which it is known how far it was ahead: a stamp less the ends of its time by the source, or since an event."""
    by_source = any(it.source_time for it in found.events)
    base, ends = next(iter(found.ends.items()))
    zero = 0 if by_source else found.find(base).stamp
    panels = {host: Panel(host, INKS[at % len(INKS)]) for at, host in enumerate(found.hosts)}
    for it in found.events:
        least, greatest = (it.source_time or (None, None)) if by_source else ends[it.name]
        if least is not None or greatest is not None:
            stamp = (it.stamp - zero) * UNITS
            panels[it.host].points.append((it.time, None if greatest is None else stamp - greatest, None if least is None else stamp - least))
    return [it for it in panels.values() if it.points]


def offset_title(found: Timeline) -> str:
    if any(it.source_time for it in found.events):
        return "How far each clock is ahead: a stamp less its least and its greatest time by the clock of the source"
    base = next(iter(found.ends))
    host = found.find(base).host
    return f"How far each clock is ahead of {host}'s as that stood at {base}, and went on without drift (--reference {host}: by its clock all along)"


def delay_panels(found: Timeline) -> list[Panel]:
    """Returns a panel for each link with all its messages: the ends of each that was asked for, and those that are left of each other one."""
    events, delays = {it.name: it for it in found.events}, Delays(found)
    links: dict[tuple[str, str], list[tuple[bool, Point]]] = {}
    for it in found.messages:
        send, ends = events[it.send], it.delay or delays.around(it)
        if ends != (None, None):
            links.setdefault((send.host, events[it.receive].host), []).append((bool(it.delay), (send.time, *ends)))
    panels = []
    for (one, other), own in sorted(links.items()):
        points = sorted((point for _, point in own), key=itemgetter(0))
        exact = [point for is_exact, point in own if is_exact]
        told, open_ends = count_text(len(points), "message"), sum(greatest is None for _, _, greatest in points)
        told += f", {open_ends} of them without a greatest" if open_ends else ""
        panel = Panel(f"{one} to {other}: {told}", INKS[found.hosts.index(one) % len(INKS)], points, True)
        if len(exact) < len(points):
            panel.title += f"; {len(exact)} were asked for (black), of the others it is what the times of their events leave"
            panel.exact = exact
        panels.append(panel)
    return panels


def step_of(span: int, most: int) -> int:
    """Returns the least of 1, 2, 5, 10, .. by which a span has no more than so many marks."""
    size = 1
    while True:
        for step in (size, 2 * size, 5 * size):
            if span // step < most:
                return step
        size *= 10


def marks(first: int, last: int, most: int, zero: int) -> list[tuple[int, str]]:
    """Returns where an axis has marks, and what stands there in the unit that `axis_unit` has: numbers count from `zero`."""
    step, (size, _) = step_of(last - first, most), axis_unit(first, last, zero)
    begin = -((zero - first) // step) * step
    return [(zero + at, decimal_text(at, size * UNITS, digits=DECIMALS["s"])) for at in range(begin, last - zero + 1, step)]


def axis_unit(first: int, last: int, zero: int) -> tuple[int, str]:
    return unit_of(max(abs(first - zero), abs(last - zero), 1))


def axis_name(first: int, last: int, zero: int) -> str:
    """Returns in what an axis counts, and from where on if that is not 0."""
    size = axis_unit(first, last, zero)[1]
    return f"{size} from {decimal_text(zero, 10**9 * UNITS, digits=DECIMALS['s'])} s" if zero else size


class Drawing:
    """Draws one panel; what is great and hardly differs is drawn from a number near it on, which the axis names."""

    def __init__(self, panel: Panel, first: int, last: int) -> None:
        self.panel, self.first, self.last = panel, first, max(last, first + 1)
        self.right = WIDE - RIGHT - (SIDE + GAP if panel.has_histogram else 0)
        ends = [it for _, least, greatest in panel.points for it in (least, greatest) if it is not None]
        low, high = min(ends), max(ends)
        room = max((high - low) // 20, UNITS // 1000)
        self.low, self.high = (0 if panel.has_histogram and 0 <= low < (high - low) // 4 else low - room), high + room
        self.zero = anchor(low, high) if max(abs(low), abs(high)) > FAR * (high - low + room) else 0
        self.start = anchor(self.first, self.last) if self.last > FAR * (self.last - self.first) else 0

    def x(self, time: int) -> float:
        return LEFT + (time - self.first) / (self.last - self.first) * (self.right - LEFT)

    def y(self, value: int | None, at_infinity: int) -> float:
        """Returns how far below the top a value lies; an infinite one at a border."""
        return HEAD + HIGH * (1 - ((at_infinity if value is None else value) - self.low) / (self.high - self.low))

    def svg(self) -> list[str]:
        """Returns the panel."""
        told = self.panel.title + ("" if self.panel.has_histogram else f"; at the best known moment {span_text(*best_known(self.panel.points))}")
        out = [f'<text x="{LEFT}" y="{HEAD - 8}" font-size="12" font-weight="bold" fill="{self.panel.ink}">{escape(plain(told))}</text>', *self.axes()]
        if len(self.panel.points) > self.right - LEFT:
            out += self.envelope()
        else:
            out += self.bars(self.panel.points, self.panel.ink, 0.35 if self.panel.exact else 0.75)
        out += self.bars(self.panel.exact, "#000", 1)
        return out + (self.histogram() if self.panel.has_histogram else [])

    def axes(self) -> list[str]:
        foot, name = HEAD + HIGH, axis_name(self.low, self.high, self.zero)
        out = [f'<rect x="{LEFT}" y="{HEAD}" width="{self.right - LEFT}" height="{HIGH}" fill="none" stroke="#bbb"/>']
        for value, text in marks(self.low, self.high, MARKS_UP, self.zero):
            y = self.y(value, 0)
            if HEAD - 0.5 <= y <= foot + 0.5:
                out.append(f'<line x1="{LEFT}" y1="{y:.1f}" x2="{self.right}" y2="{y:.1f}" stroke="#eee"/>')
                out.append(f'<text x="{LEFT - 5}" y="{y + 4:.1f}" text-anchor="end" fill="#666">{text}</text>')
        for value, text in marks(self.first, self.last, MARKS_ACROSS, self.start):
            # (what stands at the right end goes no farther, where a histogram is)
            x, half = self.x(value), LETTER * len(text) / 2
            out.append(f'<line x1="{x:.1f}" y1="{foot}" x2="{x:.1f}" y2="{foot + 4}" stroke="#999"/>')
            out.append(f'<text x="{min(x, self.right - half):.1f}" y="{foot + 16}" text-anchor="middle" fill="#666">{text}</text>')
        out.append(f'<text transform="translate(14 {HEAD + HIGH / 2}) rotate(-90)" text-anchor="middle" fill="#444">{escape(name)}</text>')
        across = axis_name(self.first, self.last, self.start)
        return [*out, f'<text x="{(LEFT + self.right) / 2}" y="{foot + 30}" text-anchor="middle" fill="#444">time in the earliest execution, {across}</text>']

    def bars(self, points: list[Point], ink: str, shade: float) -> list[str]:
        """Returns each point as a bar from its least to its greatest end."""
        paths = []
        for time, least, greatest in points:
            x, low, high = self.x(time), self.y(least, self.low), self.y(greatest, self.high)
            ticks = [f"M{x - 2:.1f} {y:.1f}h4" for y, end in ((low, least), (high, greatest)) if end is not None]
            paths.append(f"M{x:.1f} {low:.1f}V{high:.1f}{''.join(ticks)}")
        return [f'<path d="{"".join(paths)}" stroke="{ink}" stroke-opacity="{shade}" fill="none"/>'] if paths else []

    def column_wide(self) -> int:
        """Returns how many pixels a column of an envelope is wide: so many that hardly one between others has no points."""
        return max(FULL * (self.right - LEFT) // len(self.panel.points), 1)

    def columns(self) -> Iterator[tuple[int, list[float]]]:
        """Yields for each column, with points, its middle, where the highest and the lowest of their greatest ends lie, and of their least ends."""
        points, wide = self.panel.points, self.column_wide()
        lows = [self.low if least is None else least for _, least, _ in points]
        highs = [self.high if greatest is None else greatest for _, _, greatest in points]
        begin = 0
        for at, own in groupby(round(self.x(time) / wide) * wide for time, _, _ in points):
            end = begin + len(list(own))
            high, low = highs[begin:end], lows[begin:end]
            yield at, [self.y(it, 0) for it in (max(high), min(high), max(low), min(low))]
            begin = end

    def envelope(self) -> list[str]:
        """Returns what many points cover: of each column all between the ends, and more strongly where the ends themselves lie."""
        paths = ["", "", ""]
        for x, (top, top_foot, foot_top, foot) in self.columns():
            for at, (high, low) in enumerate(((top, foot), (top, top_foot), (foot_top, foot))):
                paths[at] += f"M{x} {high - 0.5:.1f}V{low + 0.5:.1f}"
        shades = ((self.panel.ink, 0.15), (self.panel.ink, 0.85), ("#333", 0.7))
        wide = self.column_wide()
        return [f'<path d="{path}" stroke="{ink}" stroke-width="{wide}" stroke-opacity="{shade}" fill="none"/>' for path, (ink, shade) in zip(paths, shades)]

    def counts(self, ends: list[int]) -> list[int]:
        """Returns how many of these ends lie in each bar, from the top."""
        ends.sort()
        # (what lies between two bars is in the lower one)
        feet = [self.high + -at * (self.high - self.low) // BARS for at in range(1, BARS)]
        above = [0, *(len(ends) - bisect_right(ends, foot) for foot in feet), len(ends)]
        return [after - before for before, after in zip(above, above[1:])]

    def histogram(self) -> list[str]:
        """Returns how many points have their least end, and their greatest, at each height."""
        left, foot, size = self.right + GAP, HEAD + HIGH, HIGH / BARS
        counts = [self.counts([it for _, it, _ in self.panel.points if it is not None]), self.counts([it for _, _, it in self.panel.points if it is not None])]
        most = max(max(own) for own in counts) or 1
        out = [f'<rect x="{left}" y="{HEAD}" width="{SIDE}" height="{HIGH}" fill="none" stroke="#bbb"/>']
        for own, ink in zip(counts, ("#333", self.panel.ink)):
            path = "".join(f"V{HEAD + at * size:.1f}H{left + SIDE * count / most:.1f}" for at, count in enumerate(own))
            out.append(f'<path d="M{left} {HEAD}{path}V{foot}H{left}z" fill="{ink}" fill-opacity="0.3" stroke="{ink}"/>')
        out.append(f'<text x="{left}" y="{foot + 16}" fill="#666">0</text><text x="{left + SIDE}" y="{foot + 16}" text-anchor="end" fill="#666">{most}</text>')
        told = f'messages: <tspan fill="#333">least</tspan>, <tspan fill="{self.panel.ink}">greatest</tspan>'
        return [*out, f'<text x="{left + SIDE / 2}" y="{foot + 30}" text-anchor="middle" fill="#444">{told}</text>']


def best_known(points: list[Point]) -> tuple[int | None, int | None]:
    """Returns both ends of the point whose ends are nearest to each other; infinite ones where none has both."""
    found = [(greatest - least, least, greatest) for _, least, greatest in points if least is not None and greatest is not None]
    return min(found)[1:] if found else (None, None)


def chart(panels: list[Panel], title: str, is_proved: bool) -> str:
    """Returns panels as one picture; an empty text where there are none."""
    if not panels:
        return ""
    more = f"; {len(panels) - PANELS_MOST} more are not drawn" if len(panels) > PANELS_MOST else ""
    told = f"{title}{more}{'' if is_proved else '; NOTHING OF IT IS PROVED'}"
    shown = panels[:PANELS_MOST]
    times = [time for panel in shown for time, _, _ in panel.points]
    each = HEAD + HIGH + FOOT
    high = TOP + each * len(shown) + 6
    out = [f'<svg{NAMESPACE} viewBox="0 0 {WIDE} {high}" width="{WIDE}" height="{high}" {STYLE}>', f'<rect width="{WIDE}" height="{high}" fill="#fff"/>',
           f'<text x="16" y="20" font-size="13" fill="#333">{escape(plain(told))}</text>']  # fmt: skip
    for at, panel in enumerate(shown):
        out += [f'<g transform="translate(0 {TOP + each * at})">', *Drawing(panel, min(times), max(times)).svg(), "</g>"]
    return "\n".join([*out, "</svg>"]) + "\n"


def embedded(picture: str) -> str:
    """Returns a picture as it stands within a page."""
    return picture.replace(NAMESPACE, "", 1)


def offset_chart(found: Timeline) -> str:
    """Returns the picture of all clocks."""
    return chart(offset_panels(found), offset_title(found), found.is_proved)


def delay_chart(found: Timeline) -> str:
    """Returns the picture of the delays of all links."""
    return chart(delay_panels(found), "One-way delays: no message took less than its least, and none more than its greatest one", found.is_proved)
