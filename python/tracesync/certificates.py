"""Certificates: what shows that an answer is so. The program's command `verify` checks each, without a solver."""

from __future__ import annotations

from collections.abc import Iterable
from dataclasses import dataclass
from fractions import Fraction
from typing import Optional

from .numbers import UNITS, Interval, read_ns, read_units


@dataclass(frozen=True)
class Step:
    """A bound, by which one real time is at most so much later than another.

    >>> read_step("step delay-most web#1 db#1 200000.000000000")
    Step(kind='delay-most', names=['web#1', 'db#1'], weight=200000000000000)
    """

    kind: str
    """`span-most`, `span-least`, `late`, `early`, `follow`, `delay-most` or `delay-least`."""
    names: list[str]
    """What it bounds, as printed: names of clocks and events, and of spans and follows stamps in ns."""
    weight: int
    """By how many attoseconds it is later at most; below 0 it is earlier by so many at least."""

    @property
    def weight_ns(self) -> Fraction:
        """The weight in ns."""
        return Fraction(self.weight, UNITS)


def read_step(line: str) -> Step:
    """Returns the step that a line of a certificate spells."""
    words = line.split(" ")
    return Step(words[1], words[2:-1], read_units(words[-1]))


def read_steps(lines: Iterable[str]) -> list[Step]:
    """Returns the steps among lines of a certificate."""
    return [read_step(line) for line in lines if line.startswith("step ")]


def read_cycle(lines: list[str]) -> Optional[list[Step]]:
    """Returns the steps of a certificate of a contradiction, or None if the lines are another one."""
    return read_steps(lines[2:]) if lines[:2] == ["certificate 1", "cycle"] else None


@dataclass(frozen=True)
class Certificate:
    """The lines of a certificate's text."""

    lines: list[str]

    @property
    def text(self) -> str:
        """The text, as `verify` reads it beside the text of the problem."""
        return "".join(f"{line}\n" for line in self.lines)


@dataclass(frozen=True)
class Cycle(Certificate):
    """A contradiction: bounds that lead round, each from where the one before it led to, and cannot all hold.

    >>> found = Cycle(["certificate 1", "cycle", "step delay-most p q 900.000000000",
    ...                "step delay-least p q -1000.000000000", "end"])
    >>> [it.kind for it in found.steps], found.sum, found.sum_ns
    (['delay-most', 'delay-least'], -100000000000, Fraction(-100, 1))
    """

    @property
    def steps(self) -> list[Step]:
        """The bounds, in the order in which they lead round."""
        return read_steps(self.lines)

    @property
    def sum(self) -> int:
        """The sum of the weights in attoseconds, which is below 0, where no less than 0 can be."""
        return sum(it.weight for it in self.steps)

    @property
    def sum_ns(self) -> Fraction:
        """The sum of the weights in ns."""
        return Fraction(self.sum, UNITS)


@dataclass(frozen=True)
class Proof(Certificate):
    """Evidence for both ends of an interval, each with bounds that allow no more and an execution that comes so far."""

    @property
    def events(self) -> tuple[str, str]:
        """The names of both events."""
        _, first, second = self.lines[1].split(" ")
        return first, second

    @property
    def interval(self) -> Interval:
        """How much later the second event is than the first, at least and at most."""
        ends = dict(line.split(" ") for line in self.lines if line.startswith(("upper ", "lower ")))
        return Interval(read_ns(ends["lower"]), read_ns(ends["upper"]))

    @property
    def upper(self) -> list[Step]:
        """The bounds by which the second event comes no later; none where there is no limit."""
        return read_steps(self.lines[: self._lower()])

    @property
    def lower(self) -> list[Step]:
        """The bounds by which the second event comes no earlier; none where there is no limit."""
        return read_steps(self.lines[self._lower() :])

    def _lower(self) -> int:
        return next(at for at, line in enumerate(self.lines) if line.startswith("lower "))
