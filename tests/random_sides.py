#!/usr/bin/env python3
"""Draws labels of captures with near and beyond subnets, and wants each packet to be the send or the receive that its
addresses make it, or neither.

    tests/random_sides.py [DECLARATIONS [SEED]]

DECLARATIONS, 300 if it is not said, have the numbers from SEED, 1 if it is not said, upward; `random_sides.py 1 N` runs
number N alone. Each has a host with up to four addresses of its own and a label with up to twelve subnets, of IPv4 and
of IPv6, on either side: single addresses, also the host's, wider subnets around them, and now and then half of all
addresses or all of them; some write arrays of none. Its capture has a packet from each of eight addresses to each of
eight others, of both versions, in any order.

A second label, of another host, has the same capture, and the addresses that packets go to are near there. So each
packet is a receive of the second label, and makes a message just where it is a send of the first. In a second session
those that packets come from are near, which tells the receives. These, and the count of `side` in the report, must be
what the rule of docs/FORMATS.md says (*Which end it is*), worked out here by Python's own addresses.

So it fails where sides are exchanged, where another subnet than the narrowest decides, and where the host's own
addresses are left out beside `beyond`, go before single ones of the label, or are still near beside `addresses`. Each
of these, put into the rule below, is found within thirty declarations.

PROGRAM names the program, else it is the one that is built here. The files of a declaration that goes wrong stay in
tests/out/sides-N; then the status is 1. At last is printed how many packets were what.
"""

import argparse
import collections
import itertools
import json
import shutil
import sys
import tempfile
from collections.abc import Sequence
from ipaddress import IPv4Address, IPv4Network, IPv6Address, IPv6Network, ip_address, ip_network
from random import Random

from support.captures import classic, frame, frame6
from support.problems import Problem
from support.program import LEFT, write
from support.replies import answered

VERSIONS = (4, 6)
# All addresses end with a byte below this; so many of each version send packets, and as many receive them.
LAST, ENDS = 32, 8
# Where an address is, from the innermost outward.
NEAR, UNSAID, BEYOND = range(3)

Address = IPv4Address | IPv6Address
Subnet = IPv4Network | IPv6Network
Packet = tuple[int, int, int]  # the version, and the last bytes of the sender's and of the receiver's address


def address(version: int, last: int) -> Address:
    """The address that frames have by its last byte."""
    return ip_address(f"10.9.0.{last}" if version == 4 else f"fd00::{last:x}")


class Drawn:
    """A label of a capture and its host, drawn at random."""

    def __init__(self, draw: Random) -> None:
        lasts = draw.sample(range(LAST), 2 * ENDS)
        self.senders, self.receivers = lasts[:ENDS], lasts[ENDS:]
        self.packets: list[Packet] = [*itertools.product(VERSIONS, self.senders, self.receivers)]
        draw.shuffle(self.packets)
        own = (address(draw.choice(VERSIONS), draw.choice(lasts)) for _ in range(draw.choice((0, 1, 2, 4))))
        self.own = [*dict.fromkeys(own)]
        # (no subnet may be on both sides)
        subnets = [drawn_subnet(draw, self.own) for _ in range(draw.choice((0, 1, 2, 4, 6, 12)))]
        side_of = {it: draw.choice((NEAR, BEYOND, BEYOND)) for it in subnets}
        self.near = [it for it, side in side_of.items() if side == NEAR]
        self.beyond = [it for it, side in side_of.items() if side == BEYOND]
        self.has_empty_arrays = draw.random() < 0.2  # (which say nothing)

    def place(self, one: Address) -> int:
        """Where an address is."""
        # (the host's own are subnets of one address, unless the label has near ones of their version)
        versions = {it.version for it in self.near}
        own = [ip_network(it) for it in self.own if it.version not in versions]
        sides = [(it, NEAR) for it in self.near] + [(it, BEYOND) for it in self.beyond] + [(it, NEAR) for it in own]
        # (of two that are as narrow max takes the first, so that the label's goes before the host's)
        has = ((subnet.prefixlen, side) for subnet, side in sides if one in subnet)
        return max(has, key=lambda it: it[0], default=(0, UNSAID))[1]

    def way(self, packet: Packet) -> str:
        """What a packet is at the label."""
        version, sender, receiver = packet
        start, target = self.place(address(version, sender)), self.place(address(version, receiver))
        return "send" if start < target else "receive" if start > target else "side"

    def capture(self) -> bytes:
        """The capture of both labels, whose payloads tell the packets apart."""
        frames = []
        for stamp, (version, sender, receiver) in enumerate(self.packets):
            word = b"%08d" % stamp
            frames.append((stamp, frame(sender, receiver, word) if version == 4 else frame6(sender, receiver, word)))
        return classic(frames)

    def text(self, inner: list[int]) -> str:
        """The declaration with a second label, where the addresses with these last bytes are near."""
        near = [ip_network(address(version, last)) for version in VERSIONS for last in inner]
        lines = ["payload_bytes = 8", "[hosts.asked]", "[hosts.box]", *arrays("addresses", self.own)]
        lines += ["[labels.box]", 'host = "box"', 'kind = "capture"']
        for key, items in (("addresses", self.near), ("beyond", self.beyond)):
            lines += arrays(key, items, self.has_empty_arrays)
        lines += ["[labels.asked]", 'host = "asked"', 'kind = "capture"', *arrays("addresses", near)]
        return "".join(f"{line}\n" for line in lines)


def drawn_subnet(draw: Random, own: list[Address]) -> Subnet:
    """A subnet that has some of the addresses, or all; now and then one of the host's own."""
    one = draw.choice([address(draw.choice(VERSIONS), draw.randrange(LAST)), *own[:1]])
    whole = one.max_prefixlen
    wide = draw.choice((0, 1, draw.randint(0, whole - 5)))
    bits = draw.choice((wide, *range(whole - 4, whole), whole, whole, whole))
    return ip_network(f"{one}/{bits}", strict=False)


def arrays(key: str, items: Sequence[Address | Subnet], has_empty: bool = False) -> list[str]:
    """The arrays of these items at the keys of their versions; one of none only where empty ones are written."""
    texts = {version: [it.exploded for it in items if it.version == version] for version in VERSIONS}
    return [f"{key}{'6' if it == 6 else ''} = {json.dumps(found)}" for it, found in texts.items() if found or has_empty]


def check(drawn: Drawn, folder: str) -> collections.Counter[str]:
    """Wants each packet to be at the label what it should be; how many are what. Raises AssertionError."""
    ways = [drawn.way(it) for it in drawn.packets]
    counts = collections.Counter(ways)
    write(f"{folder}/box.pcap", drawn.capture())
    for asked, inner in (("send", drawn.receivers), ("receive", drawn.senders)):
        write(f"{folder}/hosts.toml", drawn.text(inner))
        script = ["add box box.pcap", "add asked box.pcap", "problem", "report"]
        *_, problem, report = answered("hosts.toml", script, folder)
        ends = ("box", "asked") if asked == "send" else ("asked", "box")
        wanted = {tuple(f"{it}#{number}" for it in ends) for number, way in enumerate(ways, 1) if way == asked}
        wrong = {int(message[0].split("#")[1]) for message in wanted ^ {*Problem(problem).messages}}
        if wrong:
            at = min(wrong) - 1
            told = f"packet {at + 1} (its version and ends: {drawn.packets[at]}) is {ways[at]!r} by the rule"
            raise AssertionError(f"{told}, and the session that asks for each {asked} says otherwise")
        sides = json.loads(report[0])["nokey"]["side"]
        if sides != counts["side"]:
            raise AssertionError(f"{sides} packets are on one side, and {counts['side']} are wanted")
    return counts


def main() -> int:
    parser = argparse.ArgumentParser(description=__doc__.split("\n\n")[0])
    parser.add_argument("declarations", metavar="DECLARATIONS", nargs="?", type=int, default=300, help="how many; 300")
    parser.add_argument("seed", metavar="SEED", nargs="?", type=int, default=1, help="the number of the first; 1")
    said = parser.parse_args()
    counts: collections.Counter[str] = collections.Counter()
    for number in range(said.seed, said.seed + said.declarations):
        with tempfile.TemporaryDirectory(prefix="sides-") as folder:
            try:
                counts += check(Drawn(Random(number)), folder)
            except (AssertionError, RuntimeError) as why:
                kept = f"{LEFT}/sides-{number}"
                shutil.rmtree(kept, ignore_errors=True)
                shutil.copytree(folder, kept)
                print(f"declaration {number}: {str(why)[:3000]}\nits files are in {kept}")
                return 1
    told = f"{counts['send']} sends, {counts['receive']} receives, {counts['side']} neither"
    print(f"{said.declarations} declarations: {counts.total()} packets, {told}")
    return 0


if __name__ == "__main__":
    sys.exit(main())
