"""Which way packets went past the place where a trace was taken: what frames, marks, and other traces of the same host show of it."""

from collections import Counter, defaultdict
from collections.abc import Iterable
from dataclasses import dataclass, field

from sights import Sight, View, once

# An address is on a side where so large a part of its packets says so; of packets that nothing changed so many have to go each way, for else
# one interface stands upon the other; and so few that two traces have in common may be chance.
VOTES_PART, BACK_PART, FORWARDED_LEAST = 0.9, 0.1, 3


@dataclass
class Votes:
    """How often each address was near, and how often beyond, with what says it; from which stations packets were sent; and which addresses
    were put in the place of others."""

    label: str
    near: Counter[bytes] = field(default_factory=Counter)
    beyond: Counter[bytes] = field(default_factory=Counter)
    stations: set[bytes] = field(default_factory=set)
    written: set[bytes] = field(default_factory=set)
    why: str = ""
    is_by_station: bool = False

    def take(self, it: Sight, is_sent: bool) -> None:
        near, beyond = (it.source, it.target) if is_sent else (it.target, it.source)
        self.near[near] += 1
        self.beyond[beyond] += 1
        station = it.sender if is_sent else it.receiver
        self.stations |= {station} if station else set()

    def side(self, address: bytes) -> int:
        """Returns 1 for an address that is near, -1 for one beyond, and 0 for one that is both, or neither."""
        near, beyond = self.near[address], self.beyond[address]
        most = VOTES_PART * (near + beyond)
        return 0 if near == beyond else 1 if near >= most else -1 if beyond >= most else 0

    def all_of(self, side: int) -> set[bytes]:
        return {it for it in self.near.keys() | self.beyond.keys() if self.side(it) == side}


def votes_of(views: Iterable[View]) -> dict[str, Votes]:
    """Returns what is known of the ways of packets for each label of which something is."""
    found: dict[str, Votes] = {}
    hosts: dict[str, list[View]] = defaultdict(list)
    for view in views:
        hosts[view.host].append(view)
    for own in hosts.values():
        passed = by_passing(own)
        for view in own:
            votes = by_marks(view) or passed.get(view.label) or by_station(view)
            if votes:
                votes.written |= passed[view.label].written if view.label in passed else set()
                found[view.label] = votes
    return found


def by_marks(view: View) -> Votes | None:
    """Takes packets that their file marks as sent or received."""
    votes = Votes(view.label, why="packets are marked as sent or received")
    for it in view.sights:
        if it.is_sent is not None:
            votes.take(it, it.is_sent)
    return votes if votes.near else None


def by_station(view: View) -> Votes | None:
    """Takes packets by the station that all frames have at one of their ends, where there are several at the other."""
    frames = [(it.sender, it.receiver) for it in view.sights if it.sender and it.receiver]
    common = set(frames[0]) if frames else set()
    for ends in frames:
        common &= set(ends)
    if len(common) != 1 or len({station for ends in frames for station in ends}) < 3:
        return None
    own = common.pop()
    votes = Votes(view.label, why=f"all frames go to or come from the station {own.hex(':')}", is_by_station=True)
    for it in view.sights:
        if it.sender and it.receiver:
            votes.take(it, it.sender == own)
    return votes


def by_passing(views: list[View]) -> dict[str, Votes]:
    """Takes packets that two traces of one host have, or two interfaces of one: where a packet was first it came in, and then it went out."""
    found: dict[str, Votes] = {}
    parts = [part for view in views for part in parts_of(view)]
    for at, one in enumerate(parts):
        for other in parts[at + 1 :]:
            ways = passings(one, other)
            for entry, leaving, pairs in ((one, other, ways[0]), (other, one, ways[1])):
                for came, went in pairs:
                    for view, it, is_sent in ((entry, came, False), (leaving, went, True)):
                        votes = found.setdefault(view.label, Votes(view.label))
                        votes.take(it, is_sent)
                        votes.why = "this host has the same packets at two places, and they came in where they were seen first"
                        votes.written |= {it.source, it.target} - ({came.source, came.target} & {went.source, went.target})
    return found


def parts_of(view: View) -> list[View]:
    """Returns what each interface of a trace has seen, where there are several."""
    numbers = view.interfaces()
    if len(numbers) < 2:
        return [view]
    return [View(view.label, view.host, sights=[it for it in view.sights if it.interface == number]) for number in numbers]


Passings = list[tuple[Sight, Sight]]


def passings(one: View, other: View) -> tuple[Passings, Passings]:
    """Returns the packets that came in at the first and went out at the second, and those that went the other way."""
    contents = [once((it.content, it) for it in view.sights) for view in (one, other)]
    ways: tuple[Passings, Passings] = ([], [])
    is_changed = 0
    for content in contents[0].keys() & contents[1].keys():
        first, second = contents[0][content], contents[1][content]
        # (of a router the hops tell the same as the stamps; where they do not, it is another packet)
        by_stamp, by_hops = sign(second.stamp - first.stamp), sign(first.hops - second.hops)
        if by_stamp * by_hops < 0 or not (by_stamp or by_hops):
            continue
        is_changed += first.hops != second.hops or {first.source, first.target} != {second.source, second.target}
        if (by_stamp or by_hops) > 0:
            ways[0].append((first, second))
        else:
            ways[1].append((second, first))
    count = len(ways[0]) + len(ways[1])
    is_one_way = min(len(ways[0]), len(ways[1])) < BACK_PART * count
    if count < FORWARDED_LEAST or is_one_way and is_changed < VOTES_PART * count:
        return [], []
    return ways


def sign(number: int) -> int:
    return (number > 0) - (number < 0)
