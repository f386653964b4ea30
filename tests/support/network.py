"""Two hosts in network namespaces of their own, joined by a box that loses, doubles and reorders frames.

It is exactly known which record is which packet: each host sends what its own capture has, byte for byte and in this
order, to the box; and the box writes a number of its own into the source address of each frame that it hands on."""

import heapq
import select
import socket
import time
from dataclasses import dataclass, replace
from random import Random

from .spaces import MOST_BYTES, Packet, Record, Spaces, forget_errors, has_lost, ip
from .spaces import port, seen, tap, within, write_checksums

HOSTS = ("a", "b")
ADDRESSES = {socket.AF_INET: {"a": "10.9.0.1", "b": "10.9.0.2"}, socket.AF_INET6: {"a": "fd00::1", "b": "fd00::2"}}
MAC = {"a": "02:00:00:00:00:0a", "b": "02:00:00:00:00:0b"}
# How long the box holds each frame, in seconds: longer than a tick of TCP's timestamps, which Linux has each 1 ms. A
# frame that is overtaken waits longer.
HOLD, OVERTAKEN = 0.0015, 0.003


@dataclass(frozen=True)
class Shares:
    """Which share of the frames the box loses, doubles and holds back."""

    lost: float = 0
    doubled: float = 0
    overtaken: float = 0


class Network(Spaces):
    """Both hosts, their captures and the box between them."""

    def __init__(self) -> None:
        super().__init__(("box", *HOSTS))
        self.taps: dict[str, socket.socket] = {}
        self.ports: dict[str, socket.socket] = {}
        self.records: dict[str, list[Record]] = {host: [] for host in HOSTS}
        self.sent: dict[str, int] = dict.fromkeys(HOSTS, 0)  # how many packets each host has sent
        self.arrived: dict[str, list[bytes]] = {host: [] for host in HOSTS}  # what came to the box, by its sender
        self.held: list[tuple[float, int, str, bytes]] = []  # a heap: when, its number, for whom, and the frame
        self.origin: list[Packet] = []  # of each frame that the box handed on, by its number

    def build(self) -> None:
        for host, other in zip(HOSTS, reversed(HOSTS)):
            self.join(host, other)

    def close(self) -> None:
        for it in (*self.taps.values(), *self.ports.values()):
            it.close()

    def join(self, host: str, other: str) -> None:
        """Joins a host to the box by a cable of its own. What either end sends is seen from the first frame on."""
        space, box = self.spaces[host], self.spaces["box"]
        ip("-n", space, "link", "add", "eth0", "address", MAC[host], "type", "veth", "peer", "name", host, "netns", box)
        for addresses, more in zip(ADDRESSES.values(), (["24"], ["64", "nodad"])):
            ip("-n", space, "address", "add", f"{addresses[host]}/{more[0]}", "dev", "eth0", *more[1:])
        with within(space):
            self.taps[host] = tap("eth0")
            write_checksums(self.taps[host], "eth0")
        with within(box):
            self.ports[host] = port(host)
        ip("-n", box, "link", "set", "dev", host, "addrgenmode", "none", "up")
        ip("-n", space, "link", "set", "dev", "eth0", "up")
        for addresses in ADDRESSES.values():
            known = ("lladdr", MAC[other], "dev", "eth0", "nud", "permanent")
            ip("-n", space, "neighbour", "add", addresses[other], *known)
        forget_errors((self.taps[host], self.ports[host]))

    def pass_on(self, shares: Shares, draw: Random, wait: float) -> bool:
        """Takes what has come to the box and to both captures, and hands on what was held long enough; returns whether
        anything came within so many seconds."""
        if self.held:
            wait = min(wait, max(self.held[0][0] - time.monotonic(), 0))
        ready, _, _ = select.select([*self.ports.values(), *self.taps.values()], [], [], wait)
        for host, other in zip(HOSTS, reversed(HOSTS)):
            if self.taps[host] in ready:
                self.see(host)
            if self.ports[host] in ready:
                self.hold(host, other, self.ports[host].recv(MOST_BYTES), shares, draw)
        while self.held and self.held[0][0] <= time.monotonic():
            _, _, host, frame = heapq.heappop(self.held)
            self.ports[host].send(frame)
        return bool(ready or self.held)

    def hold(self, host: str, other: str, frame: bytes, shares: Shares, draw: Random) -> None:
        """Takes a frame of a host, and holds as many copies for the other one as are to come there."""
        packet = host, len(self.arrived[host])
        self.arrived[host].append(frame)
        for _ in range(0 if draw.random() < shares.lost else 2 if draw.random() < shares.doubled else 1):
            moment = time.monotonic() + HOLD + (OVERTAKEN if draw.random() < shares.overtaken else 0)
            number = len(self.origin)
            self.origin.append(packet)
            marked = frame[:6] + b"\x06" + number.to_bytes(5, "big") + frame[12:]
            heapq.heappush(self.held, (moment, number, other, marked))

    def see(self, host: str) -> None:
        """Takes a packet that the capture of a host has seen."""
        found = seen(self.taps[host])
        packet = (host, self.sent[host]) if found.is_send else self.origin[int.from_bytes(found.frame[7:12], "big")]
        self.sent[host] += found.is_send
        self.records[host].append(replace(found, packet=packet))

    def taken(self) -> dict[str, list[Record]]:
        """The captures since the last call. Raises RuntimeError where it is not known what its packets are."""
        for host in HOSTS:
            sends = [it.frame for it in self.records[host] if it.is_send]
            are_known = sends == self.arrived[host][self.sent[host] - len(sends) :]
            if not are_known or has_lost(self.taps[host]) or has_lost(self.ports[host]):
                raise RuntimeError(f"what {host} sent is not what came to the box")
        found, self.records = self.records, {host: [] for host in HOSTS}
        return found
