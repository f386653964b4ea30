"""Numbers of a session, exactly: real times and their differences as whole attoseconds, or as fractions of ns.

One attosecond is 1e-18 s, or 1e-9 ns: the last digit of each number that a session prints.
"""

from __future__ import annotations

from fractions import Fraction
from typing import NamedTuple, Optional

# One ns has so many attoseconds, in which all real times are counted: nine digits stand behind each point.
UNITS = 10**9


def read_ns(text: str) -> Optional[int]:
    """Returns a number of ns, with nine digits behind its point, in attoseconds; None for an infinite end.

    >>> read_ns("17992.599930000"), read_ns("-0.000000001"), read_ns("+inf")
    (17992599930000, -1, None)
    """
    return None if text.endswith("inf") else read_units(text)


def read_units(text: str) -> int:
    """Returns the same of a number that is no infinite end."""
    return int(text.replace(".", ""))


def read_all_ns(texts: list[str]) -> list[Optional[int]]:
    """Returns what `read_ns` returns of each of many numbers, in less time.

    >>> read_all_ns(["25.500000000", "-inf"]), read_all_ns([])
    ([25500000000, None], [])
    """
    digits = " ".join(texts).replace(".", "").split(" ") if texts else []
    return [None if it.endswith("inf") else int(it) for it in digits]


def ns_text(units: int) -> str:
    """Returns attoseconds as a session prints ns.

    >>> ns_text(-1_500_000_000)
    '-1.500000000'
    """
    whole, rest = divmod(abs(units), UNITS)
    return f"{'-' if units < 0 else ''}{whole}.{rest:09}"


def short_ns(units: int) -> str:
    """Returns attoseconds as ns, without zeros at the end."""
    return ns_text(units).rstrip("0").rstrip(".")


def as_ns(units: Optional[int]) -> Optional[Fraction]:
    """Returns attoseconds as a fraction of ns; None, an infinite end, stays None.

    >>> as_ns(1_500_000_000)
    Fraction(3, 2)
    """
    return None if units is None else Fraction(units, UNITS)


class Interval(NamedTuple):
    """The least and the greatest value over all executions, in attoseconds. None is an end without limit.

    >>> found = Interval(1_500_000_000, 4_000_000_000)
    >>> found.least_ns, found.greatest_ns, found.width_ns
    (Fraction(3, 2), Fraction(4, 1), Fraction(5, 2))
    >>> least, greatest = Interval(0, None)
    >>> print(greatest)
    None
    """

    least: Optional[int]
    greatest: Optional[int]

    @property
    def least_ns(self) -> Optional[Fraction]:
        """The least value in ns, or None where there is no limit."""
        return as_ns(self.least)

    @property
    def greatest_ns(self) -> Optional[Fraction]:
        """The greatest value in ns, or None where there is no limit."""
        return as_ns(self.greatest)

    @property
    def width(self) -> Optional[int]:
        """How far both ends are apart in attoseconds, or None where one is without limit."""
        return None if self.least is None or self.greatest is None else self.greatest - self.least

    @property
    def width_ns(self) -> Optional[Fraction]:
        """The same in ns."""
        return as_ns(self.width)


def read_interval(least: str, greatest: str) -> Interval:
    """Returns the interval of two ends as a session prints them."""
    return Interval(read_ns(least), read_ns(greatest))
