"""The timeline as a picture in SVG: events at their times in the earliest execution, with bars, and messages as arrows."""

from bisect import bisect_right
from collections.abc import Collection, Iterable
from html import escape
from math import ceil, log2

from inks import INKS
from timeline import Event, Timeline
from tracesync.numbers import UNITS, short_ns
from words import decimal_text, unit_of

# A line from one place to another, and a box: left, top, right and foot.
Line = tuple[float, float, float, float]
Box = tuple[float, float, float, float]

LEFT, TOP, ABOVE, BELOW, FOOT, LANE, LANES_MOST = 110, 44, 48, 16, 34, 6, 12
GAP_LEAST, GAP_MORE, GAP_MOST, STRIP_MOST, TEXT_MOST, STUB, MARK = 17, 6, 90, 1300, 26, 18, 92
# How wide a letter of 11 pixels is, and of 14 that are bold.
LETTER, BOLD = 6.1, 9


class Places:
    """Where each time lies from left to right: distances are squeezed, so that events can be told apart, and their order is kept."""

    def __init__(self, times: Iterable[int]) -> None:
        self.times = sorted(set(times))
        gaps = [late - early for early, late in zip(self.times, self.times[1:])]
        self.small = sorted(gaps)[len(gaps) // 10] if gaps else UNITS
        self.across = [0.0]
        for gap in gaps:
            self.across.append(self.across[-1] + min(GAP_LEAST + GAP_MORE * log2(1 + gap / self.small), GAP_MOST))

    def place(self, time: int) -> float:
        """Returns where a time lies: between two events in proportion, outside of all less and less far."""
        first, last = self.times[0], self.times[-1]
        mean = (last - first) / max(len(self.times) - 1, 1) or self.small
        if time <= first:
            return -GAP_LEAST * log2(1 + (first - time) / mean)
        if time >= last:
            return self.across[-1] + GAP_LEAST * log2(1 + (time - last) / mean)
        at = bisect_right(self.times, time) - 1
        return self.across[at] + (self.across[at + 1] - self.across[at]) * ((time - self.times[at]) / (self.times[at + 1] - self.times[at]))


def chosen_part(found: Timeline, most: int, around: Collection[str]) -> tuple[list[Event], str | None]:
    """Returns the events that are drawn, and what there is to say of them, or None where they are all."""
    events = found.events
    at = next((k for k, it in enumerate(events) if it.name in around), 0)
    first = max(min(at - most // 2, len(events) - most), 0)
    part = events[first : first + most]
    return part, None if len(part) == len(events) else f"events {first + 1} to {first + len(part)} of {len(events)}"


class Picture:
    """What is drawn, and where it lies."""

    def __init__(self, found: Timeline, most: int, around: Collection[str]) -> None:
        self.events, self.part = chosen_part(found, most, around)
        self.names, self.is_proved = {it.name: it for it in self.events}, found.is_proved
        self.base, self.ends = next(iter(found.ends.items()))
        zero = found.find(self.base).time
        self.since = {it.name: it.time - zero for it in self.events}
        self.messages = [it for it in found.messages if it.send in self.names or it.receive in self.names]
        self.hosts = [host for host in found.hosts if any(it.host == host for it in self.events)]
        self.ink = {host: INKS[at % len(INKS)] for at, host in enumerate(found.hosts)}
        self.places = Places(self.since.values())
        self.x = {name: self.places.place(time) for name, time in self.since.items()}
        self.bars = {it.name: self.bar(it.name) for it in self.events}
        self.left = max(LEFT, 26 + max(BOLD * len(host) for host in self.hosts))
        self.lay_out()

    def bar(self, name: str) -> tuple[float, float]:
        """Returns where a bar begins and ends; far out where there is no limit."""
        least, greatest = self.ends[name]
        return (-1e6 if least is None else self.places.place(least), 1e6 if greatest is None else self.places.place(greatest))

    def lay_out(self) -> None:
        """Cuts the time into strips, and finds the lanes of bars and the height of each host's row."""
        low = min([*self.x.values(), *(it[0] for it in self.bars.values() if it[0] > -1e6)])
        high = max([*self.x.values(), *(it[1] for it in self.bars.values() if it[1] < 1e6)])
        low, high = max(low, min(self.x.values()) - 120) - 14, min(high, max(self.x.values()) + 120) + 30
        count = ceil((high - low) / STRIP_MOST)
        self.strips = [(low + (high - low) * k / count, low + (high - low) * (k + 1) / count) for k in range(count)]
        self.lanes: dict[str, int] = {}
        used = dict.fromkeys(self.hosts, 1)
        ends: dict[str, list[float]] = {host: [] for host in self.hosts}
        for it in sorted(self.events, key=lambda it: self.bars[it.name][0]):
            first, last = self.bars[it.name]
            own = ends[it.host]
            lane = next((at for at, end in enumerate(own) if end < first - 3), len(own))
            lane = min(lane, LANES_MOST - 1)
            own[lane:] = [max(last, own[lane]) if lane < len(own) else last, *own[lane + 1 :]]
            self.lanes[it.name], used[it.host] = lane, max(used[it.host], lane + 1)
        self.y: dict[str, float] = {}
        y = TOP
        for host in self.hosts:
            self.y[host] = y + ABOVE
            y += ABOVE + LANE * used[host] + BELOW
        self.high = y + FOOT
        self.wide = self.left + max(max(last - first for first, last in self.strips), 7 * len(self.title(0)) - 40) + 16

    def title(self, number: int) -> str:
        words = [f"Earliest execution; bars: from the least to the greatest time since {self.base} in any execution; distances are squeezed"]
        if self.part:
            words.append(self.part)
        if not self.is_proved:
            words.append("NOTHING OF IT IS PROVED")
        return "; ".join(words) if number == 0 else f"Continued ({number + 1} of {len(self.strips)})"

    def svg(self) -> str:
        high = self.high * len(self.strips)
        out = [
            f'<svg xmlns="http://www.w3.org/2000/svg" viewBox="0 0 {self.wide:.0f} {high:.0f}" width="{self.wide:.0f}" height="{high:.0f}" '
            'font-family="Helvetica, Arial, sans-serif" font-size="11">',
            '<defs><marker id="head" viewBox="0 0 10 10" refX="9" refY="5" markerWidth="8" markerHeight="8" orient="auto">'
            '<path d="M0 1 L10 5 L0 9 z" fill="#555"/></marker></defs>',
            f'<rect width="{self.wide:.0f}" height="{high:.0f}" fill="#fff"/>',
        ]
        for number, (first, last) in enumerate(self.strips):
            out.append(f'<g transform="translate({self.left - first:.1f} {self.high * number:.1f})">')
            out.append(f'<text x="{first - self.left + 20:.1f}" y="18" font-size="13" fill="#333">{escape(self.title(number))}</text>')
            out += self.marks(first, last) + self.lines(first, last)
            for it in self.events:
                out += self.bar_lines(it, first, last)
            arrows = self.arrows(first, last)
            out += [text for text, _ in arrows] + self.points(first, last) + self.labels(first, last, [line for _, line in arrows])
            out.append("</g>")
        return "\n".join([*out, "</svg>"]) + "\n"

    def marks(self, first: float, last: float) -> list[str]:
        """Returns times at the foot, where there is room, with lines up; neighbours have so many digits that they differ."""
        shown: list[tuple[int, float]] = []
        for time, at in zip(self.places.times, self.places.across):
            if first <= at < last - 40 and (not shown or at - shown[-1][1] >= MARK):
                shown.append((time, at))
        gap = min((late - early for (early, _), (late, _) in zip(shown, shown[1:])), default=0)
        out = []
        for time, at in shown:
            out.append(f'<line x1="{at:.1f}" y1="{TOP}" x2="{at:.1f}" y2="{self.high - FOOT + 6}" stroke="#eee"/>')
            out.append(f'<text x="{at:.1f}" y="{self.high - FOOT + 18}" fill="#777" text-anchor="middle">{escape(mark_text(time, gap))}</text>')
        return out

    def lines(self, first: float, last: float) -> list[str]:
        out = []
        for host in self.hosts:
            y, ink = self.y[host], self.ink[host]
            out.append(f'<line x1="{first:.1f}" y1="{y}" x2="{last:.1f}" y2="{y}" stroke="{ink}" stroke-width="2"/>')
            out.append(f'<text x="{first - 12:.1f}" y="{y + 5}" text-anchor="end" font-size="14" font-weight="bold" fill="{ink}">{escape(host)}</text>')
        return out

    def bar_lines(self, it: Event, first: float, last: float) -> list[str]:
        """Returns the bar of an event, as far as it lies in a strip: a line with an end on each side that is there."""
        low, high = self.bars[it.name]
        if high < first or low > last:
            return []
        y, x, ink = self.y[it.host] + 9 + LANE * self.lanes[it.name], self.x[it.name], self.ink[it.host]
        x1, x2 = max(low, first), max(min(high, last), max(low, first) + 1.2)
        ends = [f"M{at:.1f} {y - 2.5} v5" for at, inside in ((x1, first <= low), (x2, high <= last)) if inside]
        path = f"M{x1:.1f} {y} H{x2:.1f} {' '.join(ends)}"
        out = [f'<path d="{path}" stroke="{ink}" stroke-width="2" stroke-opacity="0.6" fill="none"/>']
        if first <= x <= last:
            out.append(f'<line x1="{x:.1f}" y1="{self.y[it.host]}" x2="{x:.1f}" y2="{y}" stroke="{ink}" stroke-opacity="0.3"/>')
        return out

    def arrows(self, first: float, last: float) -> list[tuple[str, Line]]:
        """Returns the messages of a strip, each with the line that it takes up."""
        out: list[tuple[str, Line]] = []
        for it in self.messages:
            one, other = self.names.get(it.send), self.names.get(it.receive)
            dash, head = "" if one and other else ' stroke-dasharray="4 3"', ' marker-end="url(#head)"' if other else ""
            # (where an end is not drawn, a stub is)
            x1, y1 = (self.x[one.name], self.y[one.host]) if one else (0, 0)
            x2, y2 = (self.x[other.name], self.y[other.host]) if other else (x1 + STUB, y1 - STUB)
            x1, y1 = (x1, y1) if one else (x2 - STUB, y2 - STUB)
            if max(x1, x2) < first or min(x1, x2) > last:
                continue
            length = ((x2 - x1) ** 2 + (y2 - y1) ** 2) ** 0.5 or 1
            x2, y2 = x2 - (x2 - x1) / length * 5, y2 - (y2 - y1) / length * 5
            head = head if first <= x2 <= last else ""
            (x1, y1), (x2, y2) = cut(x1, y1, x2, y2, first, last), cut(x2, y2, x1, y1, first, last)
            delay = f", {short_ns(it.delay[0])} to {'no limit' if it.delay[1] is None else short_ns(it.delay[1])} ns" if it.delay and it.delay[0] is not None else ""
            title = f"<title>{escape(it.send)} to {escape(it.receive)}{delay}</title>"
            line = f'x1="{x1:.1f}" y1="{y1:.1f}" x2="{x2:.1f}" y2="{y2:.1f}"'
            out.append((f'<line {line} stroke="#555" stroke-width="1.1"{dash}{head}>{title}</line>', (x1, y1, x2, y2)))
        return out

    def points(self, first: float, last: float) -> list[str]:
        """Returns the events of a strip; one without a message is hollow."""
        ends, out = {it.send for it in self.messages} | {it.receive for it in self.messages}, []
        for it in self.events:
            if first <= self.x[it.name] < last:
                ink = self.ink[it.host]
                least, greatest = self.ends[it.name]
                span = f"{'-inf' if least is None else short_ns(least)} to {'no limit' if greatest is None else short_ns(greatest)} ns since {self.base}"
                fill = ink if it.name in ends else "#fff"
                out.append(
                    f'<circle cx="{self.x[it.name]:.1f}" cy="{self.y[it.host]}" r="3.6" fill="{fill}" stroke="{ink}" stroke-width="1.4">'
                    f"<title>{escape(f'{it.name} {it.text}'.strip())}; {escape(span)}</title></circle>"
                )
        return out

    def labels(self, first: float, last: float, lines: list[Line]) -> list[str]:
        """Returns names above their lines, where they lie on no arrow, no event and no other name; the others are left out."""
        points = [(self.x[it.name], self.y[it.host]) for it in self.events if first <= self.x[it.name] < last]
        out: list[str] = []
        taken: list[Box] = []
        for it in self.events:
            x, y = self.x[it.name], self.y[it.host]
            if not first <= x < last:
                continue
            label, _, number = it.name.partition("#")
            name = f"#{number}" if number and label == it.host else it.name
            note = it.brief if len(it.brief) <= TEXT_MOST else it.brief[: TEXT_MOST - 1] + "…"
            for text in [f"{name} {note}", name] if note else [name]:
                long = LETTER * len(text)
                boxes = [(at, top, at + long, top + 12) for top in (y - 19, y - 31, y - 43) for at in (x + 4, x - 4 - long, x - long / 2)]
                box = next((box for box in boxes if box[0] > first - 4 and box[2] < last + 8 and is_free(box, taken, points, lines)), None)
                if box:
                    taken.append(box)
                    out.append(f'<text x="{box[0]:.1f}" y="{box[3] - 3:.1f}" fill="{self.ink[it.host]}">{escape(text)}</text>')
                    break
        return out


def mark_text(time: int, gap: int) -> str:
    """Returns a time as `time_text` does, with more digits where a neighbour is so near that these would be the same."""
    size, name = unit_of(time)
    digits = 3
    while gap and size * UNITS > gap * 10**digits:
        digits += 1
    return f"{decimal_text(time, size * UNITS, digits=digits)} {name}"


def is_free(box: Box, taken: list[Box], points: list[tuple[float, float]], lines: list[Line]) -> bool:
    left, top, right, foot = box
    if any(it[0] < right and left < it[2] and it[1] < foot and top < it[3] for it in taken):
        return False
    if any(left - 5 < x < right + 5 and top - 5 < y < foot + 5 for x, y in points):
        return False
    return not any(crosses(line, box) for line in lines)


def crosses(line: Line, box: Box) -> bool:
    """Returns whether a line meets a box."""
    (x1, y1, x2, y2), (left, top, right, foot) = line, box
    if max(x1, x2) < left or min(x1, x2) > right or max(y1, y2) < top or min(y1, y2) > foot:
        return False
    sides = [(x2 - x1) * (y - y1) - (y2 - y1) * (x - x1) for x in (left, right) for y in (top, foot)]
    return not (all(it > 0 for it in sides) or all(it < 0 for it in sides))


def cut(x1: float, y1: float, x2: float, y2: float, first: float, last: float) -> tuple[float, float]:
    """Returns the first end of a line, or where the line crosses the border of a strip if the end lies outside."""
    if first <= x1 <= last or x1 == x2:
        return x1, y1
    border = first if x1 < first else last
    return border, y1 + (y2 - y1) * (border - x1) / (x2 - x1)


def svg(found: Timeline, most: int, around: Collection[str]) -> str:
    """Returns the picture of at most so many events: those around one of these names, or the first ones."""
    return Picture(found, most, around).svg()
