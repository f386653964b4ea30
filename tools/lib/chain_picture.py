"""A contradiction as a picture in SVG: the stretches of clocks, those that follow each other, and the messages of its chain, each with what
is declared of it."""

from html import escape

from contradiction import event_names
from inks import INKS
from picture import BOLD
from tracesync.certificates import Step
from tracesync.numbers import UNITS
from tracesync.problems import Problem
from words import time_text

LEFT, TOP, ROW, FOOT, WIDE, COLUMN, STEPS_MOST = 110, 70, 150, 60, 760, 170, 60
RED = "#c22020"


class ChainPicture:
    """Where each stamp of a chain lies: on its host's line, in the order of the stamps there. Nothing is to scale, for there are no real times."""

    def __init__(self, steps: list[Step], problem: Problem, title: str | None = None) -> None:
        self.steps, self.problem = steps, problem
        lack = -sum(it.weight for it in steps)
        self.title = title or f"No real times obey all that is declared here: together it is too narrow by {time_text(lack, -1)} at least"
        self.spans = stretches(steps)
        self.events = {name: problem.events[name] for name in event_names(steps)}
        # (the two readings of each follow, the earlier clock's first)
        follows = [it.names for it in steps if it.kind == "follow"]
        readings = [(host, int(stamp)) for names in follows for host, stamp in (names[:2], names[2:])]
        hosts = [host for host, _ in self.events.values()] + [host for host, *_ in self.spans] + [host for host, _ in readings]
        self.hosts = list(dict.fromkeys(hosts))
        self.ink = {host: INKS[at % len(INKS)] for at, host in enumerate(self.hosts)}
        stamps: dict[str, set[int]] = {host: set() for host in self.hosts}
        for host, stamp in (*self.events.values(), *readings):
            stamps[host].add(stamp)
        for host, first, last, *_ in self.spans:
            stamps[host] |= {first, last}
        most = max(map(len, stamps.values()))
        self.left = max(LEFT, 26 + max(BOLD * len(host) for host in self.hosts))
        self.wide = max(WIDE, COLUMN * most)
        self.x = {}
        for host, own in stamps.items():
            for at, stamp in enumerate(sorted(own)):
                self.x[host, stamp] = self.left + 40 + (self.wide - 80) * (at / max(len(own) - 1, 1))
        self.y = {host: TOP + 50 + ROW * at for at, host in enumerate(self.hosts)}

    def at(self, name: str) -> tuple[float, float]:
        host, stamp = self.events[name]
        return self.x[host, stamp], self.y[host]

    def svg(self) -> str:
        high, wide = TOP + 50 + ROW * (len(self.hosts) - 1) + 70 + FOOT, self.left + self.wide + 60
        out = [
            f'<svg xmlns="http://www.w3.org/2000/svg" viewBox="0 0 {wide:.0f} {high}" width="{wide:.0f}" height="{high}" font-family="Helvetica, Arial, sans-serif" font-size="11">',
            f'<defs><marker id="head" viewBox="0 0 10 10" refX="9" refY="5" markerWidth="8" markerHeight="8" orient="auto"><path d="M0 1 L10 5 L0 9 z" fill="{RED}"/></marker></defs>',
            f'<rect width="{wide:.0f}" height="{high}" fill="#fff"/>',
            f'<text x="20" y="24" font-size="13" fill="#333">{escape(self.title)}</text>',
            '<text x="20" y="42" fill="#777">Stamps of each host in their order; nothing is to scale</text>',
        ]
        out += [line for host in self.hosts for line in self.host(host)]
        out += [line for span in self.spans for line in self.span(*span)]
        out += [line for it in self.steps if it.kind.startswith("delay") for line in self.message(it)]
        out += [line for it in self.steps if it.kind == "follow" for line in self.follow(it)]
        out += [line for name in self.events for line in self.event(name)]
        return "\n".join([*out, "</svg>"]) + "\n"

    def host(self, host: str) -> list[str]:
        y, ink = self.y[host], self.ink[host]
        return [f'<line x1="{self.left}" y1="{y}" x2="{self.left + self.wide:.0f}" y2="{y}" stroke="{ink}" stroke-width="2"/>',
                f'<text x="{self.left - 12}" y="{y + 5}" text-anchor="end" font-size="14" font-weight="bold" fill="{ink}">{escape(host)}</text>']  # fmt: skip

    def span(self, host: str, first: int, last: int, kind: str, weight: int) -> list[str]:
        """Returns a bracket below a host's line over a stretch of its stamps, with how long that lasts."""
        x1, x2, y = self.x[host, first], self.x[host, last], self.y[host] + (16 if kind == "span-least" else 28)
        told = f"shown as {time_text((last - first) * UNITS)}, lasts {'at least' if kind == 'span-least' else 'at most'} {time_text(abs(weight), 1 if kind == 'span-most' else -1)}"
        return [f'<path d="M{x1:.1f} {y - 5} V{y} H{x2:.1f} V{y - 5}" stroke="{RED}" stroke-width="1.6" fill="none"/>', self.text((x1 + x2) / 2, y + 13, told, RED)]

    def message(self, step: Step) -> list[str]:
        """Returns an arrow, with how long the message took at least or at most."""
        told = f"takes {'at least' if step.kind == 'delay-least' else 'at most'} {time_text(abs(step.weight), -1 if step.kind == 'delay-least' else 1)}"
        return self.arrow(self.at(step.names[0]), self.at(step.names[1]), told)

    def follow(self, step: Step) -> list[str]:
        """Returns a broken arrow from a reading of a clock to one of a clock behind it, with the time that is between at least."""
        earlier, last, later, first = step.names
        one, other = ((self.x[host, int(stamp)], self.y[host]) for host, stamp in ((earlier, last), (later, first)))
        return self.arrow(one, other, f"comes {time_text(-step.weight, -1)} behind at least", ' stroke-dasharray="4 3"')

    def arrow(self, one: tuple[float, float], other: tuple[float, float], told: str, dash: str = "") -> list[str]:
        (x1, y1), (x2, y2) = one, other
        length = ((x2 - x1) ** 2 + (y2 - y1) ** 2) ** 0.5 or 1
        x3, y3 = x2 - (x2 - x1) / length * 6, y2 - (y2 - y1) / length * 6
        return [f'<line x1="{x1:.1f}" y1="{y1}" x2="{x3:.1f}" y2="{y3:.1f}" stroke="{RED}" stroke-width="1.6"{dash} marker-end="url(#head)"/>',
                self.beside((x1 + x2) / 2, (y1 + y2) / 2 + 10, told, RED)]  # fmt: skip

    def event(self, name: str) -> list[str]:
        """Returns an event with its name, and by how much it may be apart from its stamp."""
        (x, y), ink = self.at(name), self.ink[self.events[name][0]]
        own = [it for it in self.steps if it.kind in ("late", "early") and it.names == [name] and it.weight]
        errors = [f"{'later' if it.kind == 'late' else 'earlier'} by {time_text(it.weight, 1)} at most" for it in own]
        lines = [self.beside(x, y - 9 - 13 * len(errors), name, ink)]
        lines += [self.beside(x, y - 9 - 13 * at, f"may be {told}", RED) for at, told in enumerate(errors)]
        return [f'<circle cx="{x:.1f}" cy="{y}" r="4" fill="{ink}"/>', *lines]

    def beside(self, x: float, y: float, told: str, ink: str) -> str:
        """Returns a text on the side of a place that is nearer to the middle, so that no arrow up or down from there goes through it."""
        is_left = x <= self.left + self.wide / 2
        return self.text(x + 8 if is_left else x - 8, y, told, ink, "start" if is_left else "end")

    def text(self, x: float, y: float, told: str, ink: str, anchor: str = "middle") -> str:
        return f'<text x="{x:.1f}" y="{y:.1f}" text-anchor="{anchor}" fill="{ink}" paint-order="stroke" stroke="#fff" stroke-width="3">{escape(told)}</text>'


def stretches(steps: list[Step]) -> list[tuple[str, int, int, str, int]]:
    """Returns the stretches that neighbouring spans make together, each with its clock, first and last stamp, kind and weight."""
    found: list[tuple[str, int, int, str, int]] = []
    spans = sorted((it.names[0], it.kind, int(it.names[1]), int(it.names[2]), it.weight) for it in steps if it.kind.startswith("span"))
    for host, kind, first, last, weight in spans:
        if found and found[-1][0] == host and found[-1][3] == kind and found[-1][2] == first:
            found[-1] = (host, found[-1][1], last, kind, found[-1][4] + weight)
        else:
            found.append((host, first, last, kind, weight))
    return found


def chain_svg(steps: list[Step], problem: Problem, title: str | None = None) -> str | None:
    """Returns the picture of a contradiction, or None where it has too many steps for one."""
    return ChainPicture(steps, problem, title).svg() if len(steps) <= STEPS_MOST else None
