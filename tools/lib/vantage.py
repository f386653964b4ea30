"""Where traces were taken: which labels are at a box that passes packets on, and on which side of it addresses are."""

from collections.abc import Iterable
from dataclasses import dataclass, field

from headers import address_text
from inputs import Input
from interfaces import Interfaces
from sights import View, take_heads, views_of
from subnets import cover, subnet_text
from tracesync.declaration import BEYOND, BITS, NEAR, SUBNETS_MOST
from votes import Votes, votes_of

# An address is routed where so large a part of its packets has passed a router.
ROUTED_PART = 0.9
# The keys of a label for the addresses of a version, by how many bytes these have.
KEYS = {BITS[version] // 8: (near, beyond) for (near, version), beyond in zip(NEAR.items(), BEYOND)}
# So many addresses are named in a comment.
NAMED_MOST = 4


@dataclass
class Given:
    """What a label is to say of where it was taken, each line of a comment by the key that it stands before."""

    values: dict[str, str | int | list[str]] = field(default_factory=dict)
    told: dict[str, list[str]] = field(default_factory=dict)

    def put(self, key: str, value: str | int | list[str], told: list[str]) -> None:
        self.values[key], self.told[key] = value, told


class Vantage:
    """What captures show of where they were taken, by label; `boxes` are hosts that pass packets on, each with its own addresses."""

    def __init__(self, captures: Iterable[Input]) -> None:
        self.captures = list(captures)
        self.views = views_of(self.captures)
        take_heads(self.views)
        self.given: dict[str, Given] = {it.label: Given() for it in self.views}
        # (what could not be found out)
        self.unknown: list[str] = []
        chosen = Interfaces(self.views)
        self.unknown += chosen.unknown
        for view in self.views:
            if view.interface is not None:
                self.given[view.label].put("interface", view.interface, chosen.told[view.label])
        self.votes = votes_of(self.views)
        self.boxes = {host: own for host, own in ((host, self.box(host)) for host in sorted({it.host for it in self.views})) if own is not None}
        # (of each other host the addresses at the station that all of its frames have)
        self.at_stations: dict[str, dict[bytes, str]] = {}
        for view in self.views:
            votes = self.votes.get(view.label)
            if votes and view.host in self.boxes:
                self.place(view, votes, set(self.boxes[view.host]))
            elif votes and votes.stations and votes.is_by_station:
                near = {it: f"it is at the station {station_text(votes)}, which all frames go to or come from" for it in votes.all_of(1) if not is_routed_at(view, it)}
                self.at_stations.setdefault(view.host, {}).update(near)

    def views_at(self, host: str) -> list[View]:
        return [it for it in self.views if it.host == host]

    def box(self, host: str) -> dict[bytes, str] | None:
        """Returns the own addresses of a host that passes packets on, with the reason for each, or None where it does not."""
        votes = [self.votes[it.label] for it in self.views_at(host) if it.label in self.votes]
        beyond = {address for it in votes for address in it.beyond if it.side(address) <= 0}
        near = {address for it in votes for address in it.all_of(1)}
        passed = {address for it in votes for address in it.near if it.side(address) == 0} | near & beyond
        routed = {address for view in self.views_at(host) if view.label in self.votes for address in near if is_routed_at(view, address)}
        written = {address for it in votes for address in it.written}
        if not passed and not routed:
            return None
        own = {it: f"packets go out from it at {host}, and none comes in from it" for it in near - beyond if it in written or it not in routed}
        for view in self.views_at(host):
            for station in self.votes[view.label].stations if view.label in self.votes else ():
                for address in view.holders.get(station, set()) - beyond:
                    own[address] = f"it is at the station {station.hex(':')}, from which packets of {view.label} were sent"
        return own

    def place(self, view: View, votes: Votes, own: set[bytes]) -> None:
        """Says of a label of a box what is on which side, where the addresses of its host do not."""
        for length, keys in KEYS.items():
            near, beyond, both = ({it for it in votes.all_of(side) if len(it) == length} for side in (1, -1, 0))
            if near <= own and not beyond & own and not (both and beyond):
                continue
            near |= {it for it in own if len(it) == length} - beyond - both
            self.put_sides(view.label, keys, (near, beyond, both), votes.why)

    def put_sides(self, label: str, keys: tuple[str, str], sides: tuple[set[bytes], set[bytes], set[bytes]], why: str) -> None:
        """Writes what is near or what is beyond, of whichever there are fewer subnets; both where some addresses are neither."""
        near, beyond, both = sides
        covers = cover(near, beyond | both), cover(beyond, near | both)
        is_near_less = bool(near) and len(covers[0]) < len(covers[1]) or not beyond
        wanted = (0, 1) if both else (0,) if is_near_less else (1,)
        if sum(len(covers[at]) for at in wanted) > SUBNETS_MOST:
            self.unknown.append(f"what is on which side of {label}: it would need more than {SUBNETS_MOST} subnets, so write beyond = [..] for the networks behind it")
            return
        more = [f"How that is known: {why}.", "Of a network that you know write all, as 10.0.0.0/24."]
        for at in wanted:
            if covers[at]:
                self.given[label].put(keys[at], [subnet_text(*it) for it in covers[at]], [told_side(at, sides[at]), *more])
                more = []


def told_side(at: int, addresses: set[bytes]) -> str:
    """Returns what it means that addresses are near or beyond."""
    side, ways = (("Near", "are sent, and those to there received"), ("Beyond", "are received, and those to there sent"))[at]
    return f"{side} it {'are' if len(addresses) > 1 else 'is'} {names(addresses)}: packets from there {ways}."


def station_text(votes: Votes) -> str:
    return ", ".join(it.hex(":") for it in sorted(votes.stations))


def is_routed_at(view: View, address: bytes) -> bool:
    """Returns whether the packets from an address have passed a router before they came to a label."""
    found = [it.is_routed for it in view.sights if it.source == address]
    return bool(found) and sum(found) >= ROUTED_PART * len(found)


def names(addresses: Iterable[bytes]) -> str:
    found = sorted(addresses)
    return ", ".join(address_text(it) for it in found[:NAMED_MOST]) + (", .." if len(found) > NAMED_MOST else "")
