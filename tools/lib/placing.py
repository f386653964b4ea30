"""What a declaration says of labels: the interface, the segment, and the sides of each, by all that was found out."""

from collections import Counter
from collections.abc import Iterable
from typing import Any

from ends import Ends, Pair, ends_of
from headers import address_text
from inputs import Input
from segments import Segments
from sides import Sides, message_count
from sights import View
from tracesync.declaration import BEYOND, NEAR
from vantage import KEYS, Vantage, names
from votes import Votes

# What a label says, in the order in which it is written.
ORDER = ("segment", "interface", *NEAR, *BEYOND)
SIDES = {*NEAR, *BEYOND}
# Two labels have the same packets where so large a part of them is at both.
TWIN_PART = 0.9


class Placing:
    """Where the labels of captures were taken, and what is to be written of it."""

    def __init__(self, vantage: Vantage, ends: Ends | None = None) -> None:
        self.vantage, self.ends, self.given = vantage, ends or ends_of(vantage.captures, vantage), vantage.given
        for view in vantage.views:
            if view.host not in vantage.boxes:
                self.place_between(view.label, view.host)
        for view in vantage.views:
            if self.open(view.host):
                self.place_facing(view)
        for host in sorted({it.host for it in vantage.views}):
            if self.is_between(host):
                self.place_twins(vantage.views_at(host))
        passed = {it.label for it in vantage.views if it.host in vantage.boxes or set(self.values(it.label)) & SIDES}
        self.segments = Segments(vantage.views, Sides(self.declared()), passed)
        for label, (name, told) in self.segments.named.items():
            self.given[label].put("segment", name, [told])

    def declared(self) -> dict[str, Any]:
        """Returns the tables of hosts and labels, as they are to be written."""
        hosts: dict[str, dict[str, list[str]]] = {}
        for host, own in self.ends.own.items():
            hosts[host] = {key: [address_text(it) for it in own if len(it) == length] for length, (key, _) in KEYS.items()}
        return {"hosts": hosts, "labels": {it.label: {"host": it.host, "kind": "capture", **self.values(it.label)} for it in self.vantage.views}}

    def place_between(self, label: str, host: str) -> None:
        """Says of a label that saw another host's packets pass by, of which no address is its host's, that they come from beyond."""
        pairs = self.ends.open[host]
        owners = [[self.ends.owner(address) for address in pair] for pair in pairs]
        if not pairs or self.ends.own[host] or any(it.count(None) != 1 for it in owners):
            return
        sides = [pair[::-1] if owner[0] is None else pair for pair, owner in zip(pairs, owners)]
        beyond, near = {it[0] for it in sides}, {it[1] for it in sides}
        for length, keys in KEYS.items():
            parts = [{it for it in side if len(it) == length} for side in (near, beyond)]
            if parts[1]:
                why = f"all packets stand between {names(parts[1])}, {self.ends.owner(min(parts[1]))}'s, and others, and no packet of these was sent here"
                self.vantage.put_sides(label, keys, (parts[0], parts[1], set()), why)

    def place_facing(self, view: View) -> None:
        """Says of a label, of whose host no address is known, what is on which side by the labels of boxes that have the other ends of its packets."""
        sides, mine, votes, faced = Sides(self.declared()), view.once(), Votes(view.label), set()
        for box in (it for it in self.vantage.views if it.host in self.vantage.boxes):
            for key, it in box.once().items():
                side = sides.side(box.label, it.source, it.target)
                if side and key in mine and mine[key].hops == it.hops:
                    votes.take(mine[key], side < 0)
                    faced.add(box.label)
        for length, keys in KEYS.items():
            found = [{it for it in votes.all_of(side) if len(it) == length} for side in (1, -1, 0)]
            if found[0] and found[1] and not found[2] and not self.ends.own[view.host]:
                self.vantage.put_sides(view.label, keys, (found[0], found[1], set()), f"{', '.join(sorted(faced))} has the other ends of its packets")

    def place_twins(self, views: list[View]) -> None:
        """Says of two labels of the same packets, which stand between two other hosts, that each is for the side of one of these."""
        owners = self.owners_of(views[0].host)
        if len(views) != 2 or len(owners) != 2:
            return
        known = [view.once().keys() for view in views]
        if len(known[0] & known[1]) < TWIN_PART * max(len(known[0]), len(known[1])):
            return
        if owners[1] in views[0].label and owners[0] not in views[0].label:
            owners.reverse()
        for view, owner in zip(views, owners):
            for length, keys in KEYS.items():
                beyond = {it for it in self.ends.own[owner] if len(it) == length}
                near = {it for pair in self.ends.open[view.host] for it in pair if len(it) == length} - beyond
                if beyond:
                    why = f"two labels have the same packets between {' and '.join(owners)}, and this one is for {owner} (a mirror port has them late: early at {view.host})"
                    self.vantage.put_sides(view.label, keys, (near, beyond, set()), why)

    def owners_of(self, host: str) -> list[str]:
        """Returns the hosts between which the packets of another one stand."""
        return sorted({self.ends.owner(address) or "" for pair in self.ends.open[host] for address in pair})

    def values(self, label: str) -> dict[str, Any]:
        return self.given[label].values if label in self.given else {}

    def is_placed(self, host: str) -> bool:
        """Returns whether a label of a host says where addresses are."""
        return any(it.host == host and set(self.values(it.label)) & SIDES for it in self.vantage.views)

    def open(self, host: str) -> list[Pair]:
        """Returns the pairs of addresses of which it is not known on which side of a host they are."""
        return [] if self.is_placed(host) or self.is_between(host) else self.ends.open[host]

    def is_between(self, host: str) -> bool:
        """Returns whether all packets of a host, none of whose addresses is known, stand between other hosts."""
        pairs = self.ends.open.get(host, [])
        return bool(pairs) and not self.ends.own[host] and all(self.ends.owner(address) for pair in pairs for address in pair)

    def lines(self, label: str) -> list[str]:
        """Returns what is to be written of a label, each with what it comes from."""
        if label not in self.given:
            return []
        given, lines = self.given[label], []
        for key in ORDER:
            if key in given.values:
                lines += [*(f"# {it}" for it in given.told[key]), f"{key} = {spelled_value(given.values[key])}"]
        return lines

    def unknown(self) -> list[str]:
        """Returns what could not be found out, with the words to write."""
        return [*self.vantage.unknown, *self.between_two(), *self.segments.unknown]

    def between_two(self) -> list[str]:
        """Returns of each label whose packets stand between other hosts what would tie it to one of them."""
        lines = []
        for view in self.vantage.views:
            if self.is_between(view.host) and not self.is_placed(view.host):
                owners = self.owners_of(view.host)
                near = max(owners, key=lambda host: self.alike(view, host))
                own = [address_text(it) for it in sorted(self.ends.own[near]) if len(it) == 4] or [address_text(it) for it in sorted(self.ends.own[near])]
                told = f"If {near}'s come to it first, write beyond = {spelled_value(own)} there, and segment = \"{near}\" there and at the label of {near}"
                cure = f"Better, capture {view.host} on its other side too, or name the file of a mirror port twice: {view.label}@{view.host}=FILE OTHER@{view.host}=FILE"
                lines.append(f"on which side {view.label} was taken: its packets stand between {' and '.join(owners)}. {told}. {cure}")
        return lines

    def alike(self, view: View, host: str) -> int:
        """Returns how many packets a label and a host have with as many hops left, so that no router stands between them."""
        mine = view.once()
        return sum(key in mine and mine[key].hops == it.hops for other in self.vantage.views_at(host) for key, it in other.once().items())

    def message_count(self) -> int:
        """Returns how many messages there can be by what is written, each known by one key."""
        return message_count(self.vantage.views, Sides(self.declared()))


def misplaced(captures: Iterable[Input], declared: dict[str, Any]) -> list[str]:
    """Returns, in words, each label at which packets are declared to go the other way than the captures show; inputs have their hosts."""
    vantage, sides = Vantage(captures), Sides(declared)
    lines = []
    for view in vantage.views:
        votes, wrong = vantage.votes.get(view.label), Counter[bytes]()
        for it in view.sights if votes else ():
            shown = votes.side(it.source) - votes.side(it.target)
            if shown * sides.side(view.label, it.source, it.target) < 0:
                wrong[it.source if shown < 0 else it.target] += 1
        if votes and 2 * wrong.total() > len(view.sights):
            far = names(address for address, _ in wrong.most_common())
            lines.append(f"{view.label}: {wrong.total()} packets are declared to go the other way than the captures show ({votes.why}): {far} should be beyond it")
    return lines


def spelled_value(value: str | int | list[str]) -> str:
    if isinstance(value, list):
        return f"[{', '.join(spelled_value(it) for it in value)}]"
    return f'"{value}"' if isinstance(value, str) else str(value)
