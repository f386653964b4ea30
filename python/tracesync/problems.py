"""The problem of a session: all that is declared and known, from which every answer follows; and what heals it."""

from __future__ import annotations

import os
import tempfile
from collections.abc import Iterable
from dataclasses import dataclass, field
from typing import Literal, NamedTuple, Optional, cast

from .program import UNSHOWN, run_over

What = Literal["delays", "least", "stamps", "rates", "gaps"]

# How many clocks may be named behind a kind of bounds.
NAMED: dict[str, tuple[int, ...]] = {"delays": (0, 2), "least": (0, 2), "stamps": (0, 1), "rates": (0, 1), "gaps": (0,)}


class Clock(NamedTuple):
    """What is declared of a clock: rates in parts per billion, errors of its stamps in ns."""

    short: int
    """By how much less a span of it may last."""
    long: int
    """By how much more a span of it may last."""
    early: int
    """How many ns an event may be before the moment of its stamp."""
    late: int
    """How many ns an event may be after the moment of its stamp."""


class Stamped(NamedTuple):
    """An event: the name of its clock, and its stamp in ns as that clock showed it."""

    clock: str
    stamp: int


class StampBounds(NamedTuple):
    """How far an event may be from the moment of its stamp, in ns."""

    early: int
    """How much before it."""
    late: int
    """How much after it."""


class Delay(NamedTuple):
    """The least and the greatest delay of a message in ns; a greatest one of None is no limit."""

    least: int
    most: Optional[int]


class Blame(NamedTuple):
    """By how much bounds of one kind must be wider at least, so that by this alone nothing contradicts any more."""

    what: What
    """Greatest delays, least delays, what stamps may be early and late, `short` and `long` of rates, or gaps."""
    clock: Optional[str]
    """The one clock whose stamps or whose rate is meant; None where those of all clocks are, and of delays and gaps."""
    least: Optional[int]
    """The least widening by which that is so; with 1 less something contradicts. None where there is no such one."""
    unit: Literal["ns", "ppb"]
    """What it is counted in: ns, or of rates parts per billion."""
    link: Optional[tuple[str, str]] = None
    """The clocks that the messages go from and to whose delays are meant; None where those of all messages are."""

    @property
    def words(self) -> tuple[str, ...]:
        """The words that name what is widened, as `Problem.widen` takes them.

        >>> Blame("delays", None, 500, "ns", ("web", "db")).words
        ('delays', 'web', 'db')
        """
        return (self.what, *(self.link or ()), *(() if self.clock is None else (self.clock,)))


@dataclass(frozen=True)
class Widening:
    """The least widening of what is named by which a problem has an execution, with the text that shows it.

    >>> found = read_widening(["widening 1", "least 3 delays web db", "event web#1 0.000000000", "end"])
    >>> found.least, found.what, found.unit
    (3, ('delays', 'web', 'db'), 'ns')
    >>> read_widening(["widening 1", "least none", "cycle", "end"]).what
    ('delays',)
    """

    lines: list[str] = field(repr=False)
    least: Optional[int]
    """By how much each is wider at least, in whole ns, or of rates in ppb; None where no widening does."""
    what: tuple[str, ...]
    """The words that name what is widened."""

    @property
    def unit(self) -> Literal["ns", "ppb"]:
        """What it is counted in."""
        return unit_of(self.what[0])

    @property
    def text(self) -> str:
        """The text, which `judge` reads: the widening, an execution with it, and a contradiction with 1 less."""
        return "".join(f"{line}\n" for line in self.lines)


@dataclass
class Problem:
    """A problem by its parts, each by its names, and the lines of its text.

    >>> found = read_problem(["problem 1", "clock c 100 200 3 7", "event p c 1000", "event q c 2000",
    ...                       "message p q 1000 none", "end"])
    >>> found.clocks["c"]
    Clock(short=100, long=200, early=3, late=7)
    >>> found.events["p"], found.messages["p", "q"]
    (Stamped(clock='c', stamp=1000), Delay(least=1000, most=None))
    >>> found.bounds_of("p")
    StampBounds(early=3, late=7)
    >>> read_problem(["problem 3", "clock c 100 200 3 7", "event p c 1000 0 1000000", "end"]).bounds
    {'p': StampBounds(early=0, late=1000000)}
    """

    clocks: dict[str, Clock] = field(default_factory=dict)
    follows: dict[tuple[str, str], int] = field(default_factory=dict)
    """Of two clocks, an earlier and a later one of one host, how many ns of real time are between them at least."""
    events: dict[str, Stamped] = field(default_factory=dict)
    messages: dict[tuple[str, str], Delay] = field(default_factory=dict)
    """The delay of each message, by the names of its send and its receive."""
    lines: list[str] = field(default_factory=list, repr=False)
    bounds: dict[str, StampBounds] = field(default_factory=dict)
    """The bounds of each event, where events have bounds of their own, in place of those of their clocks; else none."""

    def bounds_of(self, event: str) -> StampBounds:
        """Returns how far an event may be from the moment of its stamp, by its own bounds, or else by those of its
        clock."""
        clock = self.clocks[self.events[event].clock]
        return self.bounds.get(event) or StampBounds(clock.early, clock.late)

    @property
    def text(self) -> str:
        """The text of the problem, as the commands `verify`, `ends`, `solve` and `blame` of the program read it."""
        return "".join(f"{line}\n" for line in self.lines)

    def blame(self, program: Optional[str] = None) -> list[Blame]:
        """Returns by how much each kind of bounds must be wider at least to heal by itself; [] if nothing contradicts.

        They are all greatest delays, all least delays, all stamps, all rates, and all gaps where there are some; then
        stamps and rates of each clock; then greatest and least delays of each link between two clocks, in the order of
        the clocks. Widenings are whole ns, and of rates parts per billion. `program` is found as a session finds it if
        not said.

        Raises `NoProgram` where there is none, or where it is too old and has no command `blame`, and `Ended` where it
        ends in place of an answer.

        >>> from tracesync import Session
        >>> with Session("examples/session/hosts.toml") as session:
        ...     added = session.add("web", "examples/session/web.csv")
        ...     added = session.add("db", "examples/session/db-slow.csv")
        ...     problem = session.problem()
        >>> problem.blame()[2]
        Blame(what='stamps', clock=None, least=2496, unit='ns', link=None)
        """
        return read_blames(run_over("blame", self.text, program))

    def widen(self, *what: str, program: Optional[str] = None) -> Widening:
        """Returns the least widening of what is named, by itself, by which nothing contradicts any more.

        The words are `delays` (or none), `least`, `stamps`, `rates` or `gaps`; behind `stamps` and `rates` the name of
        a clock may stand, behind `delays` and `least` the two that a link goes from and to. `Blame.words` has them.

        Raises ValueError where the words are others, or name a clock that the problem has not, `NoProgram` where there
        is none, or where it is too old for these words, and `Ended` where it ends in place of an answer.

        >>> from tracesync import Session
        >>> with Session("examples/session/hosts.toml") as session:
        ...     added = session.add("web", "examples/session/web.csv")
        ...     added = session.add("db", "examples/session/db-slow.csv")
        ...     problem = session.problem()
        >>> found = problem.widen("stamps")
        >>> found.least, problem.judge(found.text)
        (2496, True)
        """
        kind, *clocks = what or ("delays",)
        if len(clocks) not in NAMED.get(kind, ()):
            raise ValueError(f"nothing is called `{' '.join(what)}` that can be widened")
        for it in clocks:
            if it not in self.clocks:
                raise ValueError(f"the problem has no clock {it}")
        return read_widening(run_over("widen", self.text, program, what))

    def judge(self, text: str, program: Optional[str] = None) -> bool:
        """Returns whether a widening's text shows what it says of this problem; nothing is solved for it.

        Raises `NoProgram`, and `Ended`, with status 6 where it is no such text.
        """
        with tempfile.TemporaryDirectory(prefix="tracesync-") as room:
            path = os.path.join(room, "widening.txt")
            with open(path, "w", encoding="utf-8", newline="\n") as it:
                it.write(text)
            return run_over("judge", self.text, program, [path], (0, UNSHOWN)) == ["yes"]


def read_problem(lines: Iterable[str]) -> Problem:
    """Returns the problem that the lines of a problem text spell."""
    found = Problem(lines=list(lines))
    for line in found.lines:
        # (of these there are millions)
        words = line.split(" ")
        if words[0] == "event":
            found.events[words[1]] = Stamped(words[2], int(words[3]))
            if len(words) > 4:
                found.bounds[words[1]] = StampBounds(int(words[4]), int(words[5]))
        elif words[0] == "message":
            most = None if words[4] == "none" else int(words[4])
            found.messages[words[1], words[2]] = Delay(int(words[3]), most)
        elif words[0] == "clock":
            found.clocks[words[1]] = Clock(*(int(it) for it in words[2:6]))
        elif words[0] == "follow":
            found.follows[words[1], words[2]] = int(words[3])
    return found


def read_blames(lines: list[str]) -> list[Blame]:
    """Returns what `blame` prints of a problem; nothing where it has an execution.

    >>> found = read_blames(["blame least none", "blame rates web 104320000 ppb", "blame delays web db none", "end"])
    >>> found[1]
    Blame(what='rates', clock='web', least=104320000, unit='ppb', link=None)
    >>> found[2]
    Blame(what='delays', clock=None, least=None, unit='ns', link=('web', 'db'))
    >>> read_blames(["blame none"])
    []
    """
    return [] if lines == ["blame none"] else [read_blame(it.split(" ")[1:]) for it in lines[:-1]]


def read_blame(words: list[str]) -> Blame:
    """Returns what the words of a line behind `blame` say."""
    # (a clock may have the name `none`, and the last word says whether anything heals)
    has_least = words[-1] != "none"
    named = words[1 : -2 if has_least else -1]
    least = int(words[-2]) if has_least else None
    clock = named[0] if len(named) == 1 else None
    link = (named[0], named[1]) if len(named) > 1 else None
    return Blame(cast(What, words[0]), clock, least, unit_of(words[0]), link)


def read_widening(lines: list[str]) -> Widening:
    """Returns the widening that the lines of its text spell."""
    _, number, *what = lines[1].split(" ")
    return Widening(lines, None if number == "none" else int(number), tuple(what) or ("delays",))


def unit_of(what: str) -> Literal["ns", "ppb"]:
    """Returns what a widening of such bounds is counted in."""
    return "ppb" if what == "rates" else "ns"
