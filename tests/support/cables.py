"""Namespaces that are joined by cables, with captures at any place of them.

It is exactly known which record is which packet: what goes one way passes some interfaces one after the other, and each
of them has the same packets of TCP and UDP in the same order, byte for byte but for their tag."""

import fcntl
import os
import select
import socket
import struct
from collections.abc import Callable, Sequence
from concurrent.futures import Future
from dataclasses import replace

from .captures import TAGGED, untagged
from .kinds import kind_of
from .spaces import MOST_BYTES, QUIET, Record, Spaces, forget_errors, has_lost, ip, port, seen, tap, within
from .spaces import write_checksums

# How long is waited for a frame at a time, in seconds.
WAIT = 0.01
# Numbers of Linux that Python does not name: if_tun.h.
TUNSETIFF, IFF_TAP, IFF_NO_PI = 0x400454CA, 2, 0x1000

End = tuple[str, str]  # a host, and an interface there
View = tuple[str, str, bool]  # a tap, an interface that it sees, and whether the packets go out there
Taken = dict[str, list[Record]]  # by tap


class Cables(Spaces):
    """Hosts in namespaces, which a function joins and gives addresses."""

    def __init__(self, hosts: Sequence[str], join: Callable[["Cables"], None]) -> None:
        super().__init__(hosts)
        self.join = join
        self.taps: dict[str, socket.socket] = {}
        self.places: dict[str, str] = {}  # the host of each tap
        self.records: Taken = {}
        self.flows: dict[str, Sequence[View]] = {}  # what passes where, by a name
        self.tags: list[tuple[int, socket.socket]] = []  # devices of tagged frames, and what is under each
        self.tag = b""

    def build(self) -> None:
        self.join(self)

    def close(self) -> None:
        for it in self.taps.values():
            it.close()
        for device, under in self.tags:
            os.close(device)
            under.close()

    def cable(self, one: End, other: End) -> None:
        """Joins two hosts by a cable; both ends are down."""
        (space, name), (there, far) = ((self.spaces[host], interface) for host, interface in (one, other))
        ip("-n", space, "link", "add", name, "type", "veth", "peer", "name", far, "netns", there)
        self.own(one)
        self.own(other)

    def own(self, end: End) -> None:
        """Lets an interface have no addresses but those that are given to it, and write its checksums."""
        ip("-n", self.spaces[end[0]], "link", "set", "dev", end[1], "addrgenmode", "none")
        with within(self.spaces[end[0]]), socket.socket() as any_socket:
            write_checksums(any_socket, end[1])

    def bridge(self, end: End, *ports: str) -> None:
        """A bridge at a host that joins some of its interfaces."""
        space = self.spaces[end[0]]
        ip("-n", space, "link", "add", end[1], "type", "bridge")
        self.own(end)
        for it in ports:
            ip("-n", space, "link", "set", "dev", it, "master", end[1])

    def tagged(self, end: End, under: str, number: int) -> None:
        """A device over an interface which adds a tag of this number to each frame that goes out, and takes it away."""
        name = end[1].encode()
        self.tag = TAGGED + number.to_bytes(2, "big")
        with within(self.spaces[end[0]]):
            device = os.open("/dev/net/tun", os.O_RDWR | os.O_NONBLOCK)
            fcntl.ioctl(device, TUNSETIFF, struct.pack("16sH22x", name, IFF_TAP | IFF_NO_PI))
            self.tags.append((device, port(under)))
        self.own(end)

    def address(self, end: End, *addresses: str) -> None:
        """Gives an interface addresses with their number of bits."""
        for it in addresses:
            more = ("nodad",) if ":" in it else ()
            ip("-n", self.spaces[end[0]], "address", "add", it, "dev", end[1], *more)

    def watch(self, name: str, host: str, interface: str = "") -> None:
        """A capture at an interface of a host, or at all of them."""
        with within(self.spaces[host]):
            self.taps[name] = tap(interface)
        self.places[name] = host
        self.records[name] = []

    def raise_all(self, *ends: End) -> None:
        """Sets interfaces up."""
        for host, interface in ends:
            ip("-n", self.spaces[host], "link", "set", "dev", interface, "up")
        forget_errors([*self.taps.values(), *(under for _, under in self.tags)])

    def gateway(self, host: str, *addresses: str) -> None:
        """Where a host sends what is for other nets."""
        for it in addresses:
            ip("-n", self.spaces[host], "route", "add", "default", "via", it)

    def forward(self, host: str) -> None:
        """Lets a host hand on what is not for it."""
        with within(self.spaces[host]):
            for it in ("ipv4/ip_forward", "ipv6/conf/all/forwarding"):
                with open(f"/proc/sys/net/{it}", "w") as file:
                    file.write("1")

    def index(self, host: str, interface: str) -> int:
        """The kernel's number of an interface."""
        with within(self.spaces[host]):
            return socket.if_nametoindex(interface)

    def passes(self, name: str, *views: View) -> None:
        """Says that the same packets pass all of these, under a name."""
        self.flows[name] = views

    def listen(self, begun: Sequence[Future[None]]) -> None:
        """Takes what captures see until conversations are done and nothing is on its way any more."""
        quiet = 0.0
        # (what was waited for counts, and not what the clock shows, since this process may be held up)
        while quiet < QUIET:
            has_come = self.take()
            quiet = 0.0 if has_come or not all(it.done() for it in begun) else quiet + WAIT
        for it in begun:
            it.result()  # (which raises what went wrong)

    def take(self) -> bool:
        """Takes a frame of each capture that has one, and hands on those of tagged devices; whether any came."""
        under = [it for pair in self.tags for it in pair]
        ready = set(select.select([*self.taps.values(), *under], [], [], WAIT)[0])
        for name, it in self.taps.items():
            if it in ready:
                self.records[name].append(seen(it))
        for device, below in self.tags:
            if device in ready:
                frame = os.read(device, MOST_BYTES)
                below.send(frame[:12] + self.tag + frame[12:])
            if below in ready:
                # (the kernel has taken the tag away)
                os.write(device, below.recv(MOST_BYTES))
        return bool(ready)

    def taken(self) -> Taken:
        """The captures since the last call. Raises RuntimeError where it is not known what their packets are."""
        found, self.records = self.records, {name: [] for name in self.taps}
        for flow, views in self.flows.items():
            places = [[n for n, it in enumerate(found[view[0]]) if is_seen(it, view)] for view in views]
            frames = [[untagged(found[view[0]][n].frame) for n in those] for view, those in zip(views, places)]
            if any(it != frames[0] for it in frames):
                raise RuntimeError(f"not the same packets have passed: {flow}")
            for (name, _, _), those in zip(views, places):
                for number, n in enumerate(those):
                    found[name][n] = replace(found[name][n], packet=(flow, number))
        if any(has_lost(it) for it in self.taps.values()):
            raise RuntimeError("a capture has lost packets")
        return found


def is_seen(record: Record, view: View) -> bool:
    """Whether a record of a view's tap is of a packet of TCP or UDP that has passed there this way."""
    is_there = (record.interface, record.is_send) == view[1:]
    return is_there and bool(kind_of(untagged(record.frame)))
