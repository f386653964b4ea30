"""Makes captures of small networks, in which packets pass several places: each place has its addresses, hops, stations and clock."""

from collections.abc import Callable, Sequence
from dataclasses import dataclass, field

import making_captures as making

Record = tuple[int, bytes]


@dataclass
class Place:
    """A place where packets are captured: its label, how far its clock is ahead, and how long a packet takes from the place before it.

    `near` and `far` are what the places on both sides of it are called on this link: stations, by which frames go from one to the other;
    `hops` are how many routers stand before it, as seen from the first place; `client` and `server` are the addresses of both ends there.
    """

    label: str
    client: str
    server: str
    hops: int
    near: str
    far: str
    offset: int = 0
    delay: int = 1000
    link: int = making.ETHERNET
    interface: int = 2
    is_outward: bool | None = None
    records: list[Record] = field(default_factory=list)


def station(name: str) -> bytes:
    return b"\x02" + name.encode()[:5].rjust(5, b"\0")


def routed(datagram: bytes, hops: int) -> bytes:
    """Returns a datagram that has passed so many routers."""
    at = 8 if datagram[0] >> 4 == 4 else 7
    return datagram[:at] + bytes([datagram[at] - hops]) + datagram[at + 1 :]


def record(place: Place, time: int, datagram: bytes, is_forth: bool, routers: int) -> None:
    """Writes a packet into the capture of a place."""
    datagram = routed(datagram, place.hops if is_forth else routers - place.hops)
    if place.link == making.ETHERNET:
        ends = (place.near, place.far) if is_forth else (place.far, place.near)
        frame = station(ends[1]) + station(ends[0]) + (b"\x08\0" if datagram[0] >> 4 == 4 else b"\x86\xdd") + datagram
    else:
        is_sent = place.is_outward == is_forth if place.is_outward is not None else None
        frame = making.framed(place.link, datagram, is_sent)
        frame = frame[:4] + place.interface.to_bytes(4, "big") + frame[8:] if place.link == making.COOKED2 else frame
    place.records.append((time + place.offset, frame))


Made = Callable[[str, str, tuple[int, int], bytes, int], bytes]


def datagram_of(source: str, target: str, ports: tuple[int, int], payload: bytes, ident: int) -> bytes:
    return making.udp(source, target, ports, payload, ident)


def converse(places: Sequence[Place], count: int = 10, start: int = 10**9, port: int = 5000, wait: int = 50_000, made: Made = datagram_of) -> None:
    """Sends questions from the first place to the last one, and answers back, past all in between."""
    routers = places[-1].hops
    for k in range(count):
        time = start + k * 1_000_000
        for is_forth in (True, False):
            for it in places if is_forth else places[::-1]:
                time += it.delay
                ends, ports = ((it.client, it.server), (port, 6000)) if is_forth else ((it.server, it.client), (6000, port))
                payload = (b"question %d of %d" if is_forth else b"answer %d to %d") % (k, port)
                record(it, time, made(*ends, ports, payload, 2 * k + is_forth + port), is_forth, routers)
            time += wait


def arp(place: Place, name: str, address: str, time: int = 10**9) -> None:
    """Writes into the capture of a place that an address asks for one at its station."""
    asks = b"\0\1\x08\0\6\4\0\1" + station(name) + making.address(address) + bytes(6) + making.address("10.255.255.254")
    place.records.append((time + place.offset, b"\xff" * 6 + station(name) + b"\x08\6" + asks))


def files(room: str, *places: Place) -> list[str]:
    """Writes the captures of places, those of one label into one file, and returns LABEL=FILE for each."""
    found: dict[str, list[Place]] = {}
    for it in places:
        found.setdefault(it.label, []).append(it)
    words = []
    for label, its in found.items():
        records = sorted((record for it in its for record in it.records), key=lambda record: record[0])
        path = f"{room}/{label.split('@')[0]}.pcap"
        with open(path, "wb") as file:
            file.write(making.classic(records, its[0].link))
        words.append(f"{label}={path}")
    return words


E1, GATE, WAN, SERVER = "10.3.1.2", "10.3.1.1", "10.3.2.1", "10.3.2.2"
CLIENT_CLOCK, BOX_CLOCK, SERVER_CLOCK = 3_600_000_000_000, -500_000_000, 7_000_000_000


def behind(wan_client: str = WAN, link: int = making.ETHERNET) -> list[Place]:
    """Returns a client, a box with its two sides, and a server; the box translates the client's address to this one."""
    return [
        Place("a", E1, SERVER, 0, "a", "lan", CLIENT_CLOCK),
        Place("n_lan@n", E1, SERVER, 0, "a", "lan", BOX_CLOCK, link=link, is_outward=False),
        Place("n_wan@n", wan_client, SERVER, 1, "wan", "f", BOX_CLOCK, link=link, interface=3, is_outward=True),
        Place("f", wan_client, SERVER, 1, "wan", "f", SERVER_CLOCK),
    ]
