"""What a declaration says of a packet at a label: whether it was sent or received there, and what its messages are of."""

from collections import Counter
from ipaddress import ip_address
from typing import Any

from headers import Key
from sights import View
from tracesync.declaration import BITS, subnet, subnets_of

IS_NEAR, IS_UNSAID, IS_BEYOND = 0, 1, 2


class Sides:
    """The sides of labels by the tables of a declaration."""

    def __init__(self, declared: dict[str, Any]) -> None:
        self.labels = declared.get("labels", {})
        self.hosts: dict[bytes, str] = {}
        for host, table in declared.get("hosts", {}).items():
            for text in (*table.get("addresses", []), *table.get("addresses6", [])):
                self.hosts[ip_address(text).packed] = host
        self.known: dict[tuple[str, bytes], int] = {}

    def whereabouts(self, label: str, address: bytes) -> int:
        """Returns how far out an address is as seen from a label."""
        if (label, address) not in self.known:
            self.known[label, address] = self.looked_up(label, address)
        return self.known[label, address]

    def looked_up(self, label: str, address: bytes) -> int:
        """Finds it by the narrowest of the label's subnets; its host's own addresses, which count where the label gives no near ones of the
        version, are near, unless a subnet of that one address says otherwise."""
        version = 4 if len(address) == 4 else 6
        table = self.labels.get(label, {})
        found = [(subnet(its, text), is_beyond) for its, is_beyond, text in subnets_of(table) if its == version]
        number = int.from_bytes(address, "big")
        fits = [(it[1], is_beyond) for it, is_beyond in found if it and number >> BITS[version] - it[1] == it[0] >> BITS[version] - it[1]]
        bits, is_beyond = max(fits, default=(-1, False))
        is_own = all(its for _, its in found) and self.hosts.get(address, "") == table.get("host")
        if is_own and bits < BITS[version]:
            return IS_NEAR
        return IS_UNSAID if not fits else IS_BEYOND if is_beyond else IS_NEAR

    def side(self, label: str, source: bytes, target: bytes) -> int:
        """Returns 1 for a packet that was sent there, -1 for one that was received, and 0 for one of neither."""
        one, other = (self.whereabouts(label, it) for it in (source, target))
        return (one < other) - (other < one)

    def segment(self, label: str) -> str | None:
        return self.labels.get(label, {}).get("segment")

    def ends(self, view: View) -> dict[Key, int]:
        """Returns the sides of a label's packets of keys that are there once, those that have one."""
        own = self.labels.get(view.label, {}).get("interface")
        sights = [it for it in view.sights if own is None or it.interface == own]
        often = Counter(it.key for it in sights)
        found = {it.key: self.side(view.label, it.source, it.target) for it in sights if it.key is not None and often[it.key] == 1}
        return {key: side for key, side in found.items() if side}


def message_count(views: list[View], sides: Sides) -> int:
    """Returns how many keys have one send and one receive, at two labels of one segment; where none has, no message can be."""
    found: dict[tuple[str | None, Key], list[int]] = {}
    for view in views:
        for key, side in sides.ends(view).items():
            found.setdefault((sides.segment(view.label), key), []).append(side)
    return sum(sorted(it) == [-1, 1] for it in found.values())
