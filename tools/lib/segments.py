"""Which labels have the two ends of the same messages, where packets pass by more than two of them."""

from collections.abc import Collection
from dataclasses import dataclass

from sides import Sides
from sights import View
from tracesync.declaration import NAME

# Two labels have ends of one side in common where so large a part of what they have in common is, and packets pass no router between two
# labels where so many have as many hops left at both.
ALIKE_PART, HOPS_PART = 0.05, 0.9


@dataclass
class Meeting:
    """What two labels have in common: how many keys, those at which one sends and the other receives, and of these with as many hops left;
    and whether one of them is at a place where packets pass by."""

    one: str
    other: str
    common: int
    joined: int
    near: int
    is_passed: bool = False

    @property
    def is_alike(self) -> bool:
        return self.common - self.joined > ALIKE_PART * self.common

    @property
    def rank(self) -> tuple[bool, bool, int]:
        return self.near >= HOPS_PART * self.joined, self.is_passed, self.joined


def meetings(views: list[View], sides: Sides, passed: Collection[str]) -> list[Meeting]:
    """Returns what each two labels have in common, where there is something; packets pass by at some of them."""
    ends = {view.label: sides.ends(view) for view in views}
    hops = {view.label: {it.key: it.hops for it in view.sights} for view in views}
    found = []
    for at, one in enumerate(views):
        for other in views[at + 1 :]:
            mine, its = ends[one.label], ends[other.label]
            common = mine.keys() & its.keys()
            joined = [key for key in common if mine[key] != its[key]] if one.host != other.host else []
            near = sum(hops[one.label][key] == hops[other.label][key] for key in joined)
            if common:
                found.append(Meeting(one.label, other.label, len(common), len(joined), near, one.label in passed or other.label in passed))
    return found


class Segments:
    """The names of the segments of labels, each with what tells it: none where all labels may be of one."""

    def __init__(self, views: list[View], sides: Sides, passed: Collection[str]) -> None:
        self.views = [it for it in views if it.sights]
        self.host_of = {it.label: it.host for it in self.views}
        self.meetings = meetings(self.views, sides, passed)
        self.alike = {frozenset((it.one, it.other)) for it in self.meetings if it.is_alike}
        self.groups = self.grouped()
        self.named = self.names() if len(self.groups) > 1 and (passed or self.alike) else {}
        self.unknown = [told for group in self.groups for told in self.untied(group)]

    def grouped(self) -> list[list[str]]:
        """Returns the labels in groups, in each of which a packet has one end of each side."""
        groups = {view.label: [view.label] for view in self.views}
        for it in sorted(self.meetings, key=lambda it: it.rank, reverse=True):
            one, other = groups[it.one], groups[it.other]
            if it.joined and one is not other and not self.are_alike(one, other):
                one += other
                groups |= {label: one for label in other}
        return list({id(it): it for it in groups.values()}.values())

    def are_alike(self, one: list[str], other: list[str]) -> bool:
        return any(frozenset((a, b)) in self.alike for a in one for b in other)

    def names(self) -> dict[str, tuple[str, str]]:
        counts = {(a, b): it.joined for it in self.meetings for a, b in ((it.one, it.other), (it.other, it.one))}
        named: dict[str, tuple[str, str]] = {}
        for group in self.groups:
            name = name_for(group, self.host_of, {it for it, _ in named.values()})
            for label in group:
                known = ", ".join(f"{other} ({counts[label, other]})" for other in group if counts.get((label, other)))
                told = f"its packets are known at {known}" if known else "no other label has the other ends of its packets"
                named[label] = (name, f"A message has two labels of one segment: {told}.")
        return named

    def untied(self, group: list[str]) -> list[str]:
        """Returns that a label has no message, though its packets are known at others."""
        label = group[0]
        others = [other for it in self.meetings if it.joined for other in (it.one, it.other) if label in (it.one, it.other) and other != label]
        is_tied = any(self.host_of[it] == self.host_of[label] for its in self.groups if len(its) > 1 for it in its)
        if len(group) > 1 or is_tied or not others:
            return []
        return [f"what ties {label} to another host: its packets are known at {', '.join(others)} too, but those are ends of other messages. Where a host hands packets "
                "on, give it a label for each of its sides (where `any` was captured, name that file twice: LABEL@HOST=FILE OTHER@HOST=FILE)"]  # fmt: skip


def name_for(group: list[str], host_of: dict[str, str], taken: set[str]) -> str:
    """Returns a name for a segment: of its hosts, or of its label where that is alone."""
    name = "-".join(dict.fromkeys(host_of[it] for it in group)) if len(group) > 1 else group[0]
    names = (name, *(f"segment-{number}" for number in range(1, len(taken) + 2)))
    return next(it for it in names if NAME.fullmatch(it) and it not in taken)
