"""Places where traffic is captured: how hosts are joined, and what is declared of their traces, rightly and wrongly."""

import json
from collections.abc import Callable, Mapping, Sequence
from dataclasses import dataclass, field, replace
from functools import partial

from .cables import Cables, Taken
from .captures import COOKED, INTERFACE, SECTION, block, classic, cooked, untagged
from .kinds import kind_of
from .masquerade import masquerade
from .spaces import Record, within

# What is declared of each clock's rate, of its stamps and of each message, in parts per billion and ns.
RATES, STAMPS, LEAST = (50_000, 50_003), (0, 2), 1
# Which share of the records is dropped where some are.
DROPPED = 0.02
# The number of the tag, the name of its device, and that of a bridge.
TAG, DEVICE, BRIDGE = 5, "eth0.5", "br0"
NO_INTERFACE = 4_000_000_000
# The addresses in two nets by their last number, which is 1 for a box between them.
NETS, NETS6 = ("10.3.1.{}", "10.3.2.{}"), ("fd00:0:0:1:0:0:0:{:x}", "fd00:0:0:2:0:0:0:{:x}")
FIRST, SECOND = zip(NETS, NETS6)
# How many bits tell a net of IPv4, and of IPv6.
BITS = 24, 64
LAN, WAN = [("10.3.1.0/24", "fd00:0:0:1:0:0:0:0/64"), ("10.3.2.0/24", "fd00:0:0:2:0:0:0:0/64")]
EVERYTHING = ("0.0.0.0/0", "0:0:0:0:0:0:0:0/0")
HOST = """
[hosts.{}]
short = {}
long = {}
early = {}
late = {}
"""
LABEL = """
[labels.{}]
host = "{}"
kind = "capture"
{}"""
LINK = '\n[[links]]\nfrom = "{}"\nto = "{}"\nleast = {}\n'

Records = Sequence[Record]
Form = Callable[[Mapping[str, int], Records], bytes]
Tie = tuple[str, str, str]  # what passes a cable, the label that sends it, and the one that receives it
Talker = tuple[str, str]  # a host and its address
Talks = Sequence[tuple[Talker, Talker]]  # who asks, and who answers


def ethernet(records: Records) -> bytes:
    """A classic capture of one interface of Ethernet."""
    return classic((it.stamp, it.frame) for it in records)


def cooked_by(numbers: Mapping[str, int], records: Records) -> bytes:
    """A classic capture of all interfaces, with their numbers."""
    return classic(((it.stamp, cooked(it.frame, numbers[it.interface], it.is_send)) for it in records), link=COOKED)


def blocks_by(numbers: Mapping[str, int], records: Records) -> bytes:
    """A capture in pcapng with an interface of Ethernet for each of these."""
    blocks = (block(it.stamp, it.frame, numbers[it.interface]) for it in records)
    return SECTION + INTERFACE * len(numbers) + b"".join(blocks)


@dataclass(frozen=True)
class Label:
    """A label: its host, its capture, what is said of it, the one interface that it names, and how it is written."""

    host: str
    tap: str
    said: Sequence[str] = ()
    interface: str = ""
    written: Callable[[Records], bytes] = ethernet


@dataclass(frozen=True)
class Session:
    """What is declared, and what is wanted: the ties that have messages, and numbers of the report."""

    name: str
    labels: Mapping[str, Label]
    ties: Sequence[Tie] = ()
    ends: Sequence[str] = ()  # between which two labels intervals are asked
    hosts: Mapping[str, Sequence[str]] = field(default_factory=dict)  # what is said of them
    reported: Mapping[str, int] = field(default_factory=dict)
    is_consistent: bool = True


@dataclass(frozen=True)
class Case:
    """How hosts are joined, how they talk, and the sessions over what they capture."""

    name: str
    hosts: Sequence[str]
    join: Callable[[Cables], None]
    talks: Talks
    sessions: Callable[[Cables, Taken], list[Session]]
    dropped: float = 0


def texts(key: str, *items: str) -> str:
    """A key of a table, with an array of texts."""
    return f"{key} = {json.dumps(items)}"


def near(*items: str) -> str:
    """What is near, of IPv4 or of IPv6."""
    return texts("addresses6" if ":" in items[0] else "addresses", *items)


def beyond(*items: str) -> str:
    """What is beyond, of IPv4 or of IPv6."""
    return texts("beyond6" if ":" in items[0] else "beyond", *items)


def numbered(nets: Sequence[str], number: int) -> list[str]:
    """The address of each version that has this number."""
    return [it.format(number) for it in nets]


def with_bits(nets: Sequence[str], number: int) -> list[str]:
    """The same with the number of bits that tell the net."""
    return [f"{it.format(number)}/{BITS[':' in it]}" for it in nets]


def segment(name: str) -> str:
    """What is said of a label's segment."""
    return f'segment = "{name}"'


def join_box(network: Cables, is_translated: bool) -> None:
    """Joins `a` and `b` by a box that hands on, and captures both its sides."""
    network.cable(("a", "eth0"), ("box", "lan"))
    network.cable(("box", "wan"), ("b", "eth0"))
    network.watch("a", "a", "eth0")
    network.watch("box_lan", "box", "lan")
    network.watch("box_wan", "box", "wan")
    network.watch("b", "b", "eth0")
    ends = {
        ("a", "eth0"): (FIRST, 2),
        ("box", "lan"): (FIRST, 1),
        ("box", "wan"): (SECOND, 1),
        ("b", "eth0"): (SECOND, 2),
    }
    for end, (nets, number) in ends.items():
        network.address(end, *with_bits(nets, number))
    network.raise_all(*ends)
    network.gateway("a", *numbered(FIRST, 1))
    if is_translated:
        with within(network.spaces["box"]):
            masquerade("wan")
    else:
        network.gateway("b", *numbered(SECOND, 1))
    network.forward("box")
    network.passes("a to box", ("a", "eth0", True), ("box_lan", "lan", False))
    network.passes("box to a", ("box_lan", "lan", True), ("a", "eth0", False))
    network.passes("box to b", ("box_wan", "wan", True), ("b", "eth0", False))
    network.passes("b to box", ("b", "eth0", True), ("box_wan", "wan", False))


def join_switch(network: Cables) -> None:
    """Joins `a` and `b` by a bridge, which is captured at the port to `a`."""
    network.cable(("a", "eth0"), ("box", "left"))
    network.cable(("b", "eth0"), ("box", "right"))
    network.bridge(("box", BRIDGE), "left", "right")
    network.watch("a", "a", "eth0")
    network.watch("box", "box", "left")
    network.watch("b", "b", "eth0")
    for number, host in enumerate("ab", 1):
        network.address((host, "eth0"), *with_bits(FIRST, number))
    network.raise_all(("box", "left"), ("box", "right"), ("box", BRIDGE), ("a", "eth0"), ("b", "eth0"))
    network.passes("a to b", ("a", "eth0", True), ("box", "left", False), ("b", "eth0", False))
    network.passes("b to a", ("b", "eth0", True), ("box", "left", True), ("a", "eth0", False))


def join_over(network: Cables, device: str) -> None:
    """Joins `a` and `b` by a cable, over which each of them has a device, and captures all interfaces."""
    network.cable(("a", "eth0"), ("b", "eth0"))
    for number, host in enumerate("ab", 1):
        if device == BRIDGE:
            network.bridge((host, device), "eth0")
        else:
            network.tagged((host, device), "eth0", TAG)
        network.watch(host, host)
        network.address((host, device), *with_bits(FIRST, number))
    network.raise_all(*((host, it) for it in ("eth0", device) for host in "ab"))
    for one, other in ("ab", "ba"):
        sent, received = ((one, device, True), (one, "eth0", True)), ((other, "eth0", False), (other, device, False))
        network.passes(f"{one} to {other}", *sent, *received)


def keyed(records: Records) -> int:
    """How many records are of TCP or UDP."""
    return sum(bool(kind_of(untagged(it.frame))) for it in records)


BOX_TIES = [("a to box", "a", "box_lan"), ("box to a", "box_lan", "a")]
BOX_TIES += [("box to b", "box_wan", "b"), ("b to box", "b", "box_wan")]


def box_labels(
    lan: Sequence[str], wan: Sequence[str], a: Sequence[str] = (), has_segments: bool = True
) -> dict[str, Label]:
    """The labels of a box and of the hosts on both sides, by what is said at these."""
    segments = {it: (segment(it),) if has_segments else () for it in ("lan", "wan")}
    return {
        "a": Label("a", "a", (*segments["lan"], *a)),
        "box_lan": Label("box", "box_lan", (*segments["lan"], *lan)),
        "box_wan": Label("box", "box_wan", (*segments["wan"], *wan)),
        "b": Label("b", "b", segments["wan"]),
    }


def of_translated(_: Cables, taken: Taken) -> list[Session]:
    """Sessions over a box that translates, of which the host `box` has both addresses or that of the far side alone."""
    (a, b), (inside, outside) = ([net.format(number) for net in NETS] for number in (2, 1))
    hosts = {"a": [near(a)], "b": [near(b)], "box": [near(inside, outside)]}
    half = {**hosts, "box": [near(outside)]}
    right, wrong, back = [beyond(LAN[0])], [near(LAN[0]), beyond(inside)], [near(EVERYTHING[0]), beyond(a)]
    sideless = keyed(taken["box_lan"])
    return [
        Session("where it is", box_labels(right, []), BOX_TIES, ("a", "b"), hosts, {"side": 0}),
        Session("no side at the box", box_labels([], []), BOX_TIES[2:], hosts=half, reported={"side": sideless}),
        Session("one side exchanged", box_labels(wrong, []), BOX_TIES[2:], hosts=hosts),
        Session("both sides exchanged", box_labels(wrong, [], back), hosts=hosts, is_consistent=False),
    ]


def of_routed(_: Cables, taken: Taken) -> list[Session]:
    """Sessions over a router, which say in three ways where it is, and in four where it is not."""
    hosts = {host: [near(it) for it in numbered(net, 2)] for host, net in (("a", FIRST), ("b", SECOND))}
    far_lan, far_wan, all_far = ([beyond(it) for it in nets] for nets in (LAN, WAN, EVERYTHING))
    close_lan, close_wan, all_close = ([near(it) for it in nets] for nets in (LAN, WAN, EVERYTHING))
    ways = {
        "beyond": box_labels(far_lan, far_wan),
        "near": box_labels(close_wan, close_lan),
        "the narrowest": box_labels([*all_close, *far_lan], [*all_far, *close_lan]),
    }
    back = [*all_close, *(beyond(it) for it in numbered(FIRST, 2))]
    exchanged = {
        **ways["beyond"],
        "box_lan": Label("box", "box_lan", [segment("wan"), *far_lan]),
        "box_wan": Label("box", "box_wan", [segment("lan"), *far_wan]),
    }
    every, silent = sum(map(keyed, taken.values())), box_labels(far_lan, far_wan, has_segments=False)
    return [
        *(Session(name, labels, BOX_TIES, ("a", "b"), hosts, {"side": 0}) for name, labels in ways.items()),
        Session("no segments", silent, hosts=hosts, reported={"ambiguous": every}),
        Session("segments exchanged", exchanged, hosts=hosts, reported={"unmatched": every}),
        Session("one side exchanged", box_labels(close_lan, far_wan), BOX_TIES[2:], hosts=hosts),
        Session("both sides exchanged", box_labels(close_lan, far_wan, back), hosts=hosts, is_consistent=False),
    ]


def of_switched(_: Cables, taken: Taken) -> list[Session]:
    """Sessions over the port of a switch: alone, beside one host, and twice between both."""
    hosts = {host: [near(it) for it in numbered(FIRST, number)] for number, host in enumerate("ab", 1)}
    from_a, from_b = ([beyond(it) for it in numbered(FIRST, number)] for number in (1, 2))
    left, right, mirrored = segment("left"), segment("right"), keyed(taken["box"])
    a, to_a, to_b = Label("a", "a"), Label("box", "box", from_a), Label("box", "box", from_b)
    both = {
        "a": Label("a", "a", [left]),
        "b": Label("b", "b", [right]),
        "box_a": Label("box", "box", [left, *from_a]),
        "box_b": Label("box", "box", [right, *from_b]),
    }
    beside = [("a to b", "a", "box"), ("b to a", "box", "a")]
    between = [("a to b", "a", "box_a"), ("a to b", "box_b", "b"), ("b to a", "b", "box_b"), ("b to a", "box_a", "a")]
    nothing_said, sideless = {"box": Label("box", "box")}, {"side": mirrored, "unmatched": 0}
    return [
        Session("alone", {"box": to_a}, hosts=hosts, reported={"side": 0, "unmatched": mirrored}),
        Session("alone, without a side", nothing_said, hosts=hosts, reported=sideless),
        Session("beside a host", {"a": a, "box": to_a}, beside, ("a", "box"), hosts, {"side": 0}),
        Session("between both hosts", both, between, ("a", "b"), hosts, {"side": 0}),
        Session("the other side", {"a": a, "box": to_b}, hosts=hosts, reported={"unmatched": 2 * mirrored}),
    ]


def of_all_interfaces(network: Cables, taken: Taken, device: str) -> list[Session]:
    """Sessions over captures of an interface and a device over it, in both forms that tell interfaces apart."""
    names = ("lo", "eth0", device)
    by_kernel = {host: {it: network.index(host, it) for it in names} for host in "ab"}
    by_place = {host: {it: number for number, it in enumerate(names)} for host in "ab"}
    return [
        *of_form("cooked", partial(chosen, cooked_by, by_kernel), taken, device),
        *of_form("pcapng", partial(chosen, blocks_by, by_place), taken, device),
    ]


def chosen(form: Form, numbers: Mapping[str, Mapping[str, int]], **interfaces: str) -> dict[str, Label]:
    """A label for each of two hosts, of which some name an interface, be it one that is not there."""
    found = {host: Label(host, host, written=partial(form, numbers[host])) for host in "ab"}
    for host, it in interfaces.items():
        number = numbers[host].get(it, NO_INTERFACE)
        found[host] = replace(found[host], said=[f"interface = {number}"], interface=it)
    return found


def of_form(name: str, labels: Callable[..., dict[str, Label]], taken: Taken, device: str) -> list[Session]:
    """Sessions over captures of one form."""
    hosts = {host: [near(it) for it in numbered(FIRST, number)] for number, host in enumerate("ab", 1)}
    ties, every = [("a to b", "a", "b"), ("b to a", "b", "a")], sum(map(keyed, taken.values()))

    def told(one: str, other: str, is_there: bool = True) -> Session:
        """A session that names an interface at each host."""
        at = labels(a=one, b=other)
        others = sum(it.interface != label.interface for label in at.values() for it in taken[label.tap])
        ends = ("a", "b") if is_there else ()
        return Session(f"{name}, {one} and {other}", at, ties if is_there else (), ends, hosts, {"interface": others})

    return [
        told("eth0", "eth0"),
        told(device, device),
        told(device, "eth0"),
        told("none", "eth0", False),
        Session(f"{name}, no interface named", labels(), hosts=hosts, reported={"ambiguous": every}),
    ]


def both_ways(*nets: tuple[str, str]) -> Talks:
    """Conversations that `a` and `b` begin, from and to these addresses."""
    pairs = [(("a", one), ("b", other)) for one, other in nets]
    return pairs + [(other, one) for one, other in pairs]


TRANSLATED = [
    (("a", NETS[0].format(2)), ("b", NETS[1].format(2))),
    (("box", NETS[1].format(1)), ("b", NETS[1].format(2))),
    (("box", NETS[0].format(1)), ("a", NETS[0].format(2))),
]
ROUTED = both_ways(*((one.format(2), other.format(2)) for one, other in zip(FIRST, SECOND)))
JOINED = both_ways(*((it.format(1), it.format(2)) for it in FIRST))
CASES = [
    Case("translated", ("a", "box", "b"), partial(join_box, is_translated=True), TRANSLATED, of_translated, DROPPED),
    Case("routed", ("a", "box", "b"), partial(join_box, is_translated=False), ROUTED, of_routed),
    Case("switched", ("a", "box", "b"), join_switch, JOINED, of_switched),
    Case("tagged", "ab", partial(join_over, device=DEVICE), JOINED, partial(of_all_interfaces, device=DEVICE)),
    Case("bridged", "ab", partial(join_over, device=BRIDGE), JOINED, partial(of_all_interfaces, device=BRIDGE)),
]


def declaration(session: Session) -> str:
    """What is declared: the same of each clock, and of each two hosts."""
    hosts = list(dict.fromkeys(it.host for it in session.labels.values()))
    said = ["payload_bytes = 8\ntcp_options = true\n"]
    for host in hosts:
        said.append(HOST.format(host, *RATES, *STAMPS) + "".join(f"{it}\n" for it in session.hosts.get(host, ())))
    for name, it in session.labels.items():
        said.append(LABEL.format(name, it.host, "".join(f"{word}\n" for word in it.said)))
    said += [LINK.format(one, other, LEAST) for one in hosts for other in hosts if one != other]
    return "".join(said)
