"""Where one reply of a session ends and the next begins, and what the replies of one line say."""

from __future__ import annotations

from collections.abc import Iterable, Sequence
from dataclasses import dataclass
from enum import Enum
from typing import List, TypedDict

# The last line of a run that is no reply, by how it begins.
ENDS = ("declaration ", "read fault", "script limit")


def is_texted(line: str) -> bool:
    """Returns whether a reply that begins with this line is a text that has a last line: a certificate, a problem, or
    what is to blame.

    >>> is_texted("problem 3"), is_texted("blame none")
    (True, False)
    """
    return line in ("certificate 1", "problem 1", "problem 2", "problem 3") or (line.startswith("blame ") and line != "blame none")


def lines_behind(first: str) -> int:
    """Returns how many lines stand behind the first one of a reply that says so, as those of `merge` and `times` do; 0
    of others."""
    words = first.split(" ")
    return int(words[1]) if words[0] in ("merge", "times") and len(words) == 2 and words[1].isdigit() else 0


def is_last(reply: Sequence[str]) -> bool:
    """Returns whether these lines are a whole reply."""
    return reply[-1] == "end" if is_texted(reply[0]) else len(reply) == lines_behind(reply[0]) + 1


def split_replies(lines: Iterable[str]) -> list[list[str]]:
    """Returns the replies that lines are, each a list of its lines; the last one may not be whole."""
    found: list[list[str]] = []
    reply: list[str] = []
    for line in lines:
        reply.append(line)
        if is_last(reply):
            found.append(reply)
            reply = []
    return found + ([reply] if reply else [])


class Order(str, Enum):
    """The order of two events P and Q; each is a `str` too, so that `Order.BEFORE == "before"`."""

    BEFORE = "before"
    """P is before Q in each execution."""
    AFTER = "after"
    """P is after Q in each execution."""
    SAME = "same"
    """P and Q are at one time in each execution."""
    OPEN = "open"
    """None of these is so in each execution."""

    def __str__(self) -> str:
        return str(self.value)


@dataclass(frozen=True)
class Added:
    """What an addition brought.

    >>> read_added("added events 3 messages 2 withdrawn 0 pending 0 consistent")
    Added(events=3, messages=2, withdrawn=0, pending=0, consistent=True, passed=0)
    >>> read_added("added events 3 messages 0 withdrawn 0 pending 0 passed 2 inconsistent").passed
    2
    """

    events: int
    """How many events are new."""
    messages: int
    """How many messages are new."""
    withdrawn: int
    """How many messages are none any more, since their keys came again."""
    pending: int
    """How many bytes of the capture wait for the rest of their record or block; 0 of a log."""
    consistent: bool
    """Whether the problem of all that was added so far has an execution."""
    passed: int = 0
    """How many packets of pcapng that are no events the label has so far."""


def read_added(line: str) -> Added:
    """Returns what a reply to `add` says."""
    words = line.split(" ")
    counts = {name: int(count) for name, count in zip(words[1:-1:2], words[2:-1:2])}
    return Added(**counts, consistent=words[-1] == "consistent")


class AmbiguousKey(TypedDict):
    """A key that too many events have: its text, and the names of these events."""

    key: str
    receives: List[str]
    sends: List[str]


class _EachCount(TypedDict):
    """What every report counts."""

    fragment: int
    header: int
    length: int
    link: int
    local: int
    other: int
    short: int
    side: int


class Counts(_EachCount, total=False):
    """How many events have no key, by the reason; `interface` is there only where it is not 0."""

    interface: int


class PassedOver(TypedDict):
    """How many packets of pcapng are no events, by what they are: simple or obsolete packets, or other records."""

    obsolete: int
    other: int
    simple: int


class Dropped(TypedDict):
    """How many packets the pcapng of a label counts as dropped: by its interfaces, and by the system."""

    interface: int
    label: str
    system: int


class _EachReport(TypedDict):
    """What every report has."""

    ambiguous: List[AmbiguousKey]
    consistent: bool
    events: int
    messages: int
    nokey: Counts
    unmatched: int


class Report(_EachReport, total=False):
    """What was matched and what was not: a dictionary, as `report` prints it in JSON.

    It has `alone` only where the declaration has a `window`: how many keys have sends and receives, and no group with
    both, as where the window is smaller than what clocks disagree by. It has `passed` only where packets were passed
    over, under whichever label, and `dropped` only where some were dropped: an entry for each such label.
    """

    alone: int
    dropped: List[Dropped]
    passed: PassedOver
