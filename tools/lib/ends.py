"""Which addresses are at which end: what captures show of whose they are, and what they do not."""

from collections import Counter, defaultdict
from collections.abc import Iterable
from dataclasses import dataclass, field
from ipaddress import ip_address
from typing import Any

from captures import Capture
from headers import Key, address_text, decode, interface_of, is_unicast
from inputs import Input
from sights import is_routed, once
from vantage import ROUTED_PART, Vantage
from votes import VOTES_PART

# Two addresses, the lesser one first.
Pair = tuple[bytes, bytes]

# A question and its answer tell the ends apart where their times differ by more than the stamps' error and this part of the time.
DRIFT_PART = 1000


@dataclass
class Seen:
    """What the captures of one host show: how often two addresses talked, those that packets say are its own, and keys with stamps by pair."""

    host: str
    pairs: Counter[Pair] = field(default_factory=Counter)
    marked: Counter[bytes] = field(default_factory=Counter)
    named: set[bytes] = field(default_factory=set)
    keys: dict[Pair, list[tuple[int, Key]]] = field(default_factory=dict)
    unit: int = 1
    # (how many packets came from each address, and how many of these have passed a router)
    sources: Counter[bytes] = field(default_factory=Counter)
    routed: Counter[bytes] = field(default_factory=Counter)
    # (those at the station that all of its frames have, each with the reason)
    at_station: dict[bytes, str] = field(default_factory=dict)

    def add(self, capture: Capture, interface: int | None = None) -> None:
        """Takes the packets of a capture, those of an interface where one is named."""
        self.unit = max(self.unit, capture.resolution())
        self.named |= {it for it in capture.addresses if is_unicast(it)}
        for packet in capture.packets:
            found, is_sent = decode(packet.link, packet.data)
            if found is None or found.source == found.target or interface not in (None, interface_of(packet)):
                continue
            pair = (found.source, found.target) if found.source < found.target else (found.target, found.source)
            if pair not in self.pairs and not (is_unicast(found.source) and is_unicast(found.target)):
                continue
            self.pairs[pair] += 1
            self.sources[found.source] += 1
            self.routed[found.source] += is_routed(found.hops)
            is_sent = packet.is_sent if packet.is_sent is not None else is_sent
            if is_sent is not None:
                self.marked[found.source if is_sent else found.target] += 1
            if found.key:
                self.keys.setdefault(pair, []).append((packet.stamp, found.key))

    def is_far(self, address: bytes) -> bool:
        """Returns whether the packets from an address have passed a router, so that it is none of this host's."""
        return self.sources[address] > 0 and self.routed[address] >= ROUTED_PART * self.sources[address]


@dataclass
class Ends:
    """The addresses of each host with the reason for each, the pairs of addresses of which nobody can tell, and what was odd."""

    own: dict[str, dict[bytes, str]]
    open: dict[str, list[Pair]]
    odd: list[str] = field(default_factory=list)

    def owner(self, address: bytes) -> str | None:
        return next((host for host, found in self.own.items() if address in found), None)

    def with_own(self, own: dict[str, dict[bytes, str]]) -> "Ends":
        """Returns the same with these addresses of each host."""
        return Ends(own, self.open, self.odd)


def find_ends(seen: list[Seen], boxes: dict[str, dict[bytes, str]] | None = None) -> Ends:
    """Returns which addresses are whose, by what each host's captures show; those of boxes, which pass packets on, are known."""
    boxes = boxes or {}
    ends = Ends({it.host: dict(boxes.get(it.host, {})) for it in seen}, {it.host: [] for it in seen})
    seen = [it for it in seen if it.host not in boxes]
    for it in seen:
        by_marks(it, ends)
        by_stars(it, ends)
    drop_shared(ends)
    while by_others(seen, ends) or by_answers(seen, ends) or by_stations(seen, ends) or by_hops(seen, ends):
        pass
    drop_shared(ends)
    for it in seen:
        ends.open[it.host] = rest(it, ends)
    return ends


def rest(seen: Seen, ends: Ends) -> list[Pair]:
    """Returns the pairs of addresses of a host of which neither is its own."""
    own = ends.own[seen.host]
    return [pair for pair in seen.pairs if pair[0] not in own and pair[1] not in own]


def by_marks(seen: Seen, ends: Ends) -> None:
    """Takes the addresses that an interface names, and those that packets were marked with as sent or received."""
    own = ends.own[seen.host]
    for address in sorted(seen.named):
        own[address] = "the capture names it as its interface's"
    for address, count in sorted(seen.marked.items()):
        own.setdefault(address, f"{count} packets are marked as sent from it or received for it")


def by_stars(seen: Seen, ends: Ends) -> None:
    """Takes an address that talked with several others which did not talk with one another, as one end does with all its peers."""
    pairs = rest(seen, ends)
    peers, total = defaultdict(set), sum(seen.pairs.values())
    for one, other in pairs:
        peers[one].add(other)
        peers[other].add(one)
    for address, found in sorted(peers.items()):
        if len(found) > 1 and not seen.is_far(address) and all(peers[it] == {address} for it in found):
            count = sum(seen.pairs[pair] for pair in pairs if address in pair)
            told = f"it stands in all {total} packets" if count == total else f"it stands in all {count} packets of {len(found)} peers"
            ends.own[seen.host][address] = told


def by_others(seen: list[Seen], ends: Ends) -> bool:
    """Takes an address whose peer is another host's own. Returns whether there was one."""
    is_new = False
    for it in seen:
        for pair in rest(it, ends):
            owners = [ends.owner(address) for address in pair]
            if owners.count(None) == 1 and not it.is_far(pair[owners.index(None)]):
                at = owners.index(None)
                ends.own[it.host][pair[at]] = f"it talked with {address_text(pair[1 - at])}, which is {owners[1 - at]}'s"
                is_new = True
    return is_new


def by_answers(seen: list[Seen], ends: Ends) -> bool:
    """Takes the two ends of a pair that two hosts have both seen: who asks waits longer than who answers. Returns whether it could."""
    is_new = False
    for one in seen:
        for other in seen:
            if one.host >= other.host:
                continue
            both = set(rest(one, ends)) & set(rest(other, ends))
            for pair in sorted(both):
                if ends.owner(pair[0]) or ends.owner(pair[1]):
                    continue
                votes = count_votes(one, other, pair)
                first, second = pair if votes[0] > votes[1] else pair[::-1]
                if max(votes) > 0 and max(votes) >= VOTES_PART * sum(votes):
                    told = f"who asks waits longer than who answers: so it is in {max(votes)} of {sum(votes)} cases that both captures have"
                    # (a capture that was taken in between has packets of the other end that were routed)
                    found = [(it, address) for it, address in ((one, first), (other, second)) if not it.is_far(address)]
                    for it, address in found:
                        ends.own[it.host][address] = told
                    is_new = is_new or bool(found)
    return is_new


def by_stations(seen: list[Seen], ends: Ends) -> bool:
    """Takes of two ends the one at the station that all frames of a host have. Returns whether there was one."""
    is_new = False
    for it in seen:
        for pair in rest(it, ends):
            found = [address for address in pair if address in it.at_station and ends.owner(address) is None]
            if len(found) == 1:
                ends.own[it.host][found[0]] = it.at_station[found[0]]
                is_new = True
    return is_new


def by_hops(seen: list[Seen], ends: Ends) -> bool:
    """Takes of two ends the one whose packets have passed no router, where those of the other have. Returns whether there was one.

    Where two hosts have seen it so, one of them may stand in between.
    """
    found: dict[bytes, list[tuple[str, bytes]]] = defaultdict(list)
    for it in seen:
        for pair in rest(it, ends):
            for address, peer in (pair, pair[::-1]):
                if it.sources[address] and not it.routed[address] and it.is_far(peer) and ends.owner(address) is None:
                    found[address].append((it.host, peer))
    is_new = False
    for address, hosts in found.items():
        if len({host for host, _ in hosts}) == 1:
            host, peer = hosts[0]
            ends.own[host][address] = (f"by their hops its packets have passed no router, and those of {address_text(peer)} have. Exchange them where a session is "
                                       "inconsistent")  # fmt: skip
            is_new = True
    return is_new


def count_votes(one: Seen, other: Seen, pair: Pair) -> list[int]:
    """Returns how many questions with their answers say that the first address of the pair is the first host's, and how many the second.

    From a question to its answer more time passes at the end that asks, by both ways; what the offsets of the clocks are does not matter.
    """
    stamps = [once((key, stamp) for stamp, key in it.keys.get(pair, ())) for it in (one, other)]
    common = sorted((stamps[0][key], stamps[1][key], key) for key in stamps[0].keys() & stamps[1].keys())
    votes = [0, 0]
    for (early, early2, question), (late, late2, answer) in zip(common, common[1:]):
        if question[0] != answer[1] or early2 >= late2:
            continue
        waited, waited2 = late - early, late2 - early2
        if abs(waited - waited2) <= 2 * (one.unit + other.unit) + max(waited, waited2) // DRIFT_PART:
            continue
        # (the asking end is the source of the question)
        asks = pair.index(question[0])
        votes[asks if waited > waited2 else 1 - asks] += 1
    return votes


def ends_of(captures: Iterable[Input], vantage: Vantage | None = None) -> Ends:
    """Returns which addresses are whose, by inputs that are captures, and by where these were taken, where that was found out."""
    captures = list(captures)
    vantage = vantage or Vantage(captures)
    seen = {it.host: Seen(it.host) for it in captures}
    interfaces = {it.label: it.interface for it in vantage.views}
    for it in captures:
        seen[it.host].add(it.content, interfaces[it.label])
    for host, found in vantage.at_stations.items():
        seen[host].at_station = found
    return find_ends(list(seen.values()), vantage.boxes)


def declared_own(declared: dict[str, Any]) -> dict[str, set[bytes]]:
    """Returns the addresses that are declared as each host's."""
    hosts = declared.get("hosts", {}).items()
    return {host: {ip_address(text).packed for text in (*table.get("addresses", []), *table.get("addresses6", []))} for host, table in hosts}


def exchanged(captures: Iterable[Input], declared: dict[str, Any]) -> list[str]:
    """Returns, in words, each declared address that the captures show to be another host's; inputs have their hosts."""
    found = ends_of(captures)
    lines = []
    for host, table in sorted(declared.get("hosts", {}).items()):
        for text in [*table.get("addresses", []), *table.get("addresses6", [])]:
            address = ip_address(text).packed
            owner = found.owner(address)
            if owner is not None and owner != host:
                lines.append(f"{text} is declared as {host}'s, and by the captures it is {owner}'s: {found.own[owner][address]}")
    return lines


def drop_shared(ends: Ends) -> None:
    """Takes back what would be two hosts' own, since an address belongs to one."""
    holders = defaultdict(list)
    for host, found in ends.own.items():
        for address in found:
            holders[address].append(host)
    for address, hosts in sorted(holders.items()):
        if len(hosts) > 1:
            for host in hosts:
                del ends.own[host][address]
            ends.odd.append(f"{address_text(address)} would be the address of {' and of '.join(hosts)}: is it shared, or translated?")
