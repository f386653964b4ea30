"""Problems as their texts say them, and what follows from their bounds, worked out in the plainest way."""

import re
from collections.abc import Sequence
from typing import Union

# One ns has so many units: nine digits stand behind the point of each number of ns.
UNITS = 10**9

Reading = tuple[str, int]  # a clock and a stamp
Node = Union[str, Reading]  # an event, or a reading
# The value of the head (the second one) is at most that of the tail and the weight, which is in units.
Bound = tuple[Node, Node, int]
Ends = tuple[int | None, int | None]  # the least and the greatest difference, in units; None for no limit


def ns(units: int | None, endless: str = "+inf") -> str:
    """The text in ns of so many units."""
    if units is None:
        return endless
    return f"{'-' if units < 0 else ''}{abs(units) // UNITS}.{abs(units) % UNITS:09}"


def units_of(text: str) -> int:
    """The units of a text in ns. Raises ValueError where it is none."""
    if not re.fullmatch(r"-?(0|[1-9][0-9]*)\.[0-9]{9}", text):
        raise ValueError(text)
    return int(text.replace(".", ""))


def interval(ends: Ends) -> str:
    """The two ends as `interval` and `ends` print them."""
    return f"{ns(ends[0], '-inf')} {ns(ends[1])}"


def is_outside(reply: str, truth: int) -> bool:
    """Whether the interval of a reply has not this number of ns."""
    _, least, greatest = reply.split(" ")
    is_below = least != "-inf" and truth * UNITS < units_of(least)
    return is_below or (greatest != "+inf" and units_of(greatest) < truth * UNITS)


def order(ends: Ends) -> str:
    """The word for the order of two events that the ends between them tell."""
    least, greatest = ends
    if least is not None and least > 0:
        return "before"
    if greatest is not None and greatest < 0:
        return "after"
    return "same" if least == greatest == 0 else "open"


class Problem:
    """Clocks, events and messages by their names, the follow that leads to a clock, the stamps that each clock shows,
    and how many ns events lie before and behind theirs, where they have bounds of their own."""

    def __init__(self, lines: Sequence[str]) -> None:
        self.clocks: dict[str, list[int]] = {}
        self.follows: dict[str, tuple[str, int]] = {}
        self.events: dict[str, Reading] = {}
        self.messages: dict[tuple[str, str], tuple[int, int | None]] = {}
        self.readings: set[Reading] = set()
        self.bounds: dict[str, tuple[int, int]] = {}
        for line in lines:
            kind, *words = line.split(" ")
            if kind == "clock":
                self.clocks[words[0]] = [int(word) for word in words[1:]]
            elif kind == "follow":
                self.follows[words[1]] = (words[0], int(words[2]))
            elif kind == "event":
                self.events[words[0]] = (words[1], int(words[2]))
                self.readings.add((words[1], int(words[2])))
                if len(words) > 3:
                    self.bounds[words[0]] = (int(words[3]), int(words[4]))
            elif kind == "message":
                most = None if words[3] == "none" else int(words[3])
                self.messages[words[0], words[1]] = (int(words[2]), most)

    def comes_after(self, clock: str, other: str) -> bool:
        """Whether follows lead from the other clock to this one."""
        while clock in self.follows:
            clock = self.follows[clock][0]
            if clock == other:
                return True
        return False

    def bound(self, kind: str, *words: str) -> Bound:
        """A bound by its words in a certificate. Raises KeyError, TypeError or ValueError where it is not declared."""
        if kind in ("span-most", "span-least"):
            return self.span(kind, *words)
        if kind in ("late", "early"):
            return self.stamped(kind, *words)
        if kind == "follow":
            return self.follow(*words)
        if kind in ("delay-most", "delay-least"):
            return self.delay(kind, *words)
        raise KeyError(kind)

    def span(self, kind: str, name: str, first: str, last: str) -> Bound:
        """How far the times of two readings of a clock are apart: `span-most` or `span-least`."""
        low, high = int(first), int(last)
        tail, head = (name, low), (name, high)
        if low >= high or tail not in self.readings or head not in self.readings:
            raise KeyError(name)
        short, long, _, _ = self.clocks[name]
        if kind == "span-most":
            return tail, head, (high - low) * (UNITS + long)
        return head, tail, (low - high) * (UNITS - short)

    def stamped(self, kind: str, name: str) -> Bound:
        """How far an event is from its reading: `late` or `early`."""
        reading = self.events[name]
        early, late = self.bounds.get(name) or self.clocks[reading[0]][2:]
        if kind == "late":
            return reading, name, late * UNITS
        return name, reading, early * UNITS

    def follow(self, earlier: str, s: str, later: str, t: str) -> Bound:
        """How long before a reading of a clock a reading of one before it is at least."""
        tail, head = (later, int(t)), (earlier, int(s))
        if not self.comes_after(later, earlier) or tail not in self.readings or head not in self.readings:
            raise KeyError(later)
        return tail, head, -self.follows[later][1] * UNITS

    def delay(self, kind: str, send: str, receive: str) -> Bound:
        """How long a message takes: `delay-most` or `delay-least`."""
        least, most = self.messages[send, receive]
        if kind == "delay-least":
            return receive, send, -least * UNITS
        if most is None:
            raise KeyError(kind)
        return send, receive, most * UNITS


class Answers:
    """The bounds of a problem, and what follows from them."""

    def __init__(self, lines: Sequence[str]) -> None:
        self.problem = problem = Problem(lines)
        self.nodes: list[Node] = [*problem.events, *problem.readings]
        self.bounds: list[Bound] = []
        for name in problem.clocks:
            stamps = sorted(stamp for clock, stamp in problem.readings if clock == name)
            for low, high in zip(stamps, stamps[1:]):
                self.bounds += [problem.span(kind, name, str(low), str(high)) for kind in ("span-most", "span-least")]
        for event in problem.events:
            self.bounds += [problem.stamped(kind, event) for kind in ("late", "early")]
        for earlier, s in problem.readings if problem.follows else ():
            for later, t in problem.readings:
                if problem.comes_after(later, earlier):
                    self.bounds.append(problem.follow(earlier, str(s), later, str(t)))
        for (send, receive), (_, most) in problem.messages.items():
            kinds = ["delay-least"] if most is None else ["delay-least", "delay-most"]
            self.bounds += [problem.delay(kind, send, receive) for kind in kinds]

    def earliest(self) -> dict[Node, int] | None:
        """The least value of each node where none is below 0, in units; None where no execution exists."""
        values = dict.fromkeys(self.nodes, 0)
        for _ in range(len(self.nodes) + 1):
            risen = False
            for tail, head, weight in self.bounds:
                if values[tail] < values[head] - weight:
                    values[tail], risen = values[head] - weight, True
            if not risen:
                return values
        return None

    def most_behind(self, start: Node) -> dict[Node, int]:
        """By how many units each node can be later than this one at most, where an execution exists.

        A node with no limit is left out."""
        found, risen = {start: 0}, True
        while risen:
            risen = False
            # (forth and back, since spans lead both ways along a clock)
            for tail, head, weight in (*self.bounds, *reversed(self.bounds)):
                if tail in found and (head not in found or found[head] > found[tail] + weight):
                    found[head], risen = found[tail] + weight, True
        return found

    def ends(self, first: Node, second: Node) -> Ends:
        """The least and the greatest units by which the second node is later than the first."""
        least, greatest = self.most_behind(second).get(first), self.most_behind(first).get(second)
        return None if least is None else -least, greatest
