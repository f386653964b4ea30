"""All events of a session at once: their times in one execution, and when each was by the clock of the source."""

from __future__ import annotations

from collections.abc import Iterable
from fractions import Fraction
from typing import Any, Dict, List, NamedTuple

from .numbers import UNITS, Interval, read_all_ns, read_units


def split_name(name: str) -> tuple[str, int]:
    """Returns the label of an event, and its number there, which counts from 1.

    >>> split_name("left#58")
    ('left', 58)
    """
    label, _, number = name.rpartition("#")
    return label, int(number)


class MergedEvent(NamedTuple):
    """An event of a merge: its name, its time in attoseconds, and what a log says of it, if anything."""

    name: str
    time: int
    text: str

    @property
    def time_ns(self) -> Fraction:
        """The time in ns."""
        return Fraction(self.time, UNITS)


def frame(columns: list[str], rows: Iterable[tuple[Any, ...]]) -> Any:
    """Returns a table of pandas whose cells are Python's own values: in another type a number could lose digits."""
    import pandas

    return pandas.DataFrame(list(rows), columns=columns, dtype=object)


class Merge(List[MergedEvent]):
    """All events in the order of one execution, the earliest, whose first time is 0 or more: a list.

    >>> found = read_merge(["merge 2", "0.000000000 gate#1", "65999.000000000 app#2 parsed"])
    >>> found[1]
    MergedEvent(name='app#2', time=65999000000000, text='parsed')
    """

    def to_pandas(self) -> Any:
        """Returns a `pandas.DataFrame` with the columns `event`, `label`, `number`, `time` and `text`.

        `time` has whole attoseconds; `table["time"].astype(float) / 1e9` are ns, rounded, for a picture. Raises
        ImportError where there is no pandas.
        """
        rows = ((it.name, *split_name(it.name), it.time, it.text) for it in self)
        return frame(["event", "label", "number", "time", "text"], rows)


def read_merge(lines: list[str]) -> Merge:
    """Returns the events of a reply to `merge`, in its order."""
    words = (line.split(" ", 2) for line in lines[1:])
    return Merge(MergedEvent(it[1], read_units(it[0]), it[2] if len(it) > 2 else "") for it in words)


class Times(Dict[str, Interval]):
    """When each event was, at least and at most, by its name: by the clock of the source, or since an event. A
    dictionary."""

    def to_pandas(self) -> Any:
        """Returns a `pandas.DataFrame` with the columns `event`, `label`, `number`, `least` and `greatest`.

        Both ends are whole attoseconds, or None where there is no limit. Raises ImportError where there is no pandas.
        """
        rows = ((name, *split_name(name), *ends) for name, ends in self.items())
        return frame(["event", "label", "number", "least", "greatest"], rows)


def read_times(lines: list[str]) -> Times:
    """Returns the events of a reply to `times`, by label and number.

    >>> read_times(["times 2", "a#1 0.000000000 0.000000000", "b#1 25.500000000 +inf"])["b#1"]
    Interval(least=25500000000, greatest=None)
    """
    words = " ".join(lines[1:]).split(" ") if len(lines) > 1 else []
    return Times(zip(words[::3], map(Interval, read_all_ns(words[1::3]), read_all_ns(words[2::3]))))
