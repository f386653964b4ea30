"""A plain reader of declarations, by Python's own reader of TOML: what a document declares, or its first fault."""

import math
import re
import tomllib
from collections.abc import Callable, Mapping, Sequence
from typing import Any

from .hostile import NANOS

# How many hosts, clocks, labels or links there may be, how many bytes a document may have, how many subnets a label.
ENTRIES, LARGEST, SUBNETS = 1 << 16, 1 << 24, 256
NAME = re.compile(r"[A-Za-z0-9._-]{1,32}", re.ASCII)
TOKEN = re.compile(
    r'"""(?:\\.|[^\\])*?"""(?:"{0,2})|\'\'\'.*?\'\'\'(?:\'{0,2})|"(?:\\.|[^"\\\n])*"|\'[^\'\n]*\'|#[^\n]*'
    r"|(?<![0-9:+-])[0-9]{2}:[0-9]{2}(?![0-9:])|.",
    re.DOTALL,
)
RATES = {"short": 999_999_999, "long": 1_000_000_000, "early": NANOS - 1, "late": NANOS - 1}
NUMBER_KEYS: dict[str, type] = {**{it: int for it in RATES}, "offset": int}
HOST_KEYS: dict[str, type] = {**NUMBER_KEYS, "addresses": list, "addresses6": list, "clocks": list}
CLOCK_KEYS: dict[str, type] = {"name": str, **NUMBER_KEYS, "gap": int}
# The keys of the subnets of a label, and whether those are beyond, and of version 6.
SUBNET_KEYS = {
    "addresses": (False, False), "addresses6": (False, True), "beyond": (True, False), "beyond6": (True, True),
}  # fmt: skip
CAPTURE_KEYS: dict[str, type] = {"interface": int, **{it: list for it in SUBNET_KEYS}}
STAMP_KEYS: dict[str, type] = {"early": int, "late": int}
LABEL_KEYS: dict[str, type] = {
    "host": str, "kind": str, "clock": str, "segment": str, **STAMP_KEYS, **CAPTURE_KEYS,
}  # fmt: skip
LINK_KEYS = {"from": str, "to": str, "least": int, "most": int}
TOP_KEYS = {
    "fragments": bool, "hosts": dict, "labels": dict, "links": list, "payload_bytes": int, "source": str,
    "tcp_options": bool, "window": int,
}  # fmt: skip

Table = dict[str, Any]


class Fault(Exception):
    """A fault of a document: its number."""


def want(holds: bool, number: int) -> None:
    if not holds:
        raise Fault(number)


def near(tokens: Sequence[str]) -> str:
    """The first of these that is no white space and no comment."""
    return next((it for it in tokens if not it.isspace() and not it.startswith("#")), "")


def older_text(token: str) -> str:
    """A text in quotes without the two escapes of TOML 1.1."""
    change = lambda it: f"\\u00{it[1]}" if it[1] else "\\u001B" if it[2] else it[0]  # noqa: E731
    return re.sub(r"\\(?:x([0-9a-fA-F]{2})|(e)|.)", change, token, flags=re.DOTALL)


def is_newer(token: str, before: str, behind: str) -> bool:
    """Whether a line feed or a comma in a table in braces is one that TOML 1.0 has not."""
    if token == "\n":
        return before in "{," or behind in ",}"
    return token == "," and behind == "}" and before not in "{,"


def older(text: str) -> str:
    """The same document without what TOML 1.1 has and 1.0 has not: lines and a last comma in a table in braces, two
    escapes, and times without seconds."""
    tokens, found, open_ones = TOKEN.findall(text), [], []
    for at, token in enumerate(tokens):
        if token in "[{":
            open_ones.append(token)
        elif token in "]}" and open_ones:
            open_ones.pop()
        if token.startswith('"'):
            token = older_text(token)
        elif len(token) == 5 and token[2] == ":":
            token += ":00"
        elif open_ones[-1:] == ["{"] and token.startswith("#"):
            token = " "
        elif open_ones[-1:] == ["{"] and token in ",\n":
            token = " " if is_newer(token, near(tokens[:at][::-1]), near(tokens[at + 1 :])) else token
        found.append(token)
    return "".join(found)


def parsed(document: bytes) -> Table:
    """The table that a document has, by Python's reader of TOML 1.0."""
    want(len(document) <= LARGEST, 8)
    try:
        text = document.decode().removeprefix("\ufeff").replace("\r\n", "\n")
    except UnicodeDecodeError:
        raise Fault(1) from None
    readings: list[Callable[[str], str]] = [str, older] if any(it in text for it in "{\\:") else [str]
    for it in readings:
        try:
            return fitting(tomllib.loads(it(text), parse_float=fraction))
        except (ValueError, RecursionError):
            pass
    raise Fault(1)


def fraction(text: str) -> float:
    """A number with a point or an exponent, which has to be finite unless it says `inf`."""
    value = float(text)
    if math.isinf(value) and "inf" not in text:
        raise ValueError
    return value


def fitting(value: Any) -> Any:
    """Wants each whole number to fit 64 bits."""
    if type(value) is int and not -(1 << 63) <= value < 1 << 63:
        raise ValueError
    for it in value.values() if type(value) is dict else value if type(value) is list else ():
        fitting(it)
    return value


def look(table: Any, keys: Mapping[str, type], needed: Sequence[str] = ()) -> None:
    """Looks at the kind and the keys of a table."""
    want(type(table) is dict, 3)
    want(all(key in keys for key in table) and all(key in table for key in needed), 2)
    want(all(type(value) is keys[key] for key, value in table.items()), 3)


def is_number(table: Table, key: str, most: int = NANOS - 1) -> bool:
    return 0 <= table.get(key, 0) <= most


def has_numbers(table: Table) -> bool:
    """Whether the numbers of a clock are in their ranges."""
    return all(is_number(table, key, most) for key, most in RATES.items()) and abs(table.get("offset", 0)) < NANOS


def is_name(name: str) -> bool:
    return NAME.fullmatch(name) is not None


def address(text: str) -> tuple[int, ...]:
    """An address of IPv4."""
    parts = text.split(".")
    want(len(parts) == 4 and all(re.fullmatch("0|[1-9][0-9]{0,2}", it, re.ASCII) and int(it) < 256 for it in parts), 6)
    return tuple(map(int, parts))


def address6(text: str) -> tuple[int, ...]:
    """An address of IPv6."""
    parts = text.split(":")
    want(len(parts) == 8 and all(re.fullmatch("[0-9a-fA-F]{1,4}", it, re.ASCII) for it in parts), 6)
    return tuple(int(it, 16) for it in parts)


def subnet(text: str, is_wide: bool) -> tuple[int, int, int]:
    """A subnet: how many bits an address has, how many of them count, and the number that these write."""
    first, slash, bits = text.partition("/")
    parts = address6(first) if is_wide else address(first)
    width, most = (16, 128) if is_wide else (8, 32)
    want(not slash or re.fullmatch("0|[1-9][0-9]{0,2}", bits, re.ASCII) is not None, 6)
    count = int(bits) if slash else most
    number = sum(part << width * place for place, part in enumerate(reversed(parts)))
    want(count <= most and number % (1 << most - count) == 0, 6)
    return most, count, number >> most - count


def look_at_subnets(label: Table) -> None:
    """Looks at the subnets of a label, one after the other."""
    sides: dict[tuple[int, int, int], bool] = {}
    for key, (is_beyond, is_wide) in SUBNET_KEYS.items():
        for text in label.get(key, []):
            it = subnet(text, is_wide)
            want(it not in sides, 6 if sides.get(it) == is_beyond else 9)
            sides[it] = is_beyond


class Declared:
    """What a table declares: its clocks, follows, labels, links and window. `at` is the entry that is being read."""

    def __init__(self) -> None:
        self.at = "top 0"
        self.hosts: dict[str, list[str]] = {}
        self.clocks: dict[str, tuple[int, ...]] = {}
        self.offsets: dict[str, int] = {}
        self.window: int | None = None
        self.follows: list[tuple[str, str, int]] = []
        self.labels: dict[str, tuple[str, str, str]] = {}
        self.segments: dict[str, str] = {}
        self.bounds: dict[str, dict[str, int]] = {}
        self.links: dict[tuple[str, str], tuple[int, int | str]] = {}
        self.addresses: set[tuple[int, ...]] = set()

    def read(self, table: Table) -> None:
        """Reads a table. Raises Fault at its first fault."""
        look(table, TOP_KEYS)
        want(is_number(table, "payload_bytes", 64) and is_number(table, "window"), 5)
        self.window = table.get("window")
        for section, read in (("hosts", self.read_host), ("labels", self.read_label)):
            entries = sorted(table.get(section, {}).items(), key=lambda it: it[0].encode())
            for place, (name, it) in enumerate(entries, 1):
                self.at = f"{section} {place}"
                read(name, it, place)
        for place, it in enumerate(table.get("links", []), 1):
            self.at = f"links {place}"
            self.read_link(it, place)
        self.at = "top 0"
        if "source" in table:
            want(self.clocks.get(table["source"], (1,))[:2] == (0, 0), 7)

    def read_host(self, name: str, host: Table, place: int) -> None:
        look(host, HOST_KEYS)
        want(all(type(it) is str for key in ("addresses", "addresses6") for it in host.get(key, [])), 3)
        want(is_name(name), 4)
        want(has_numbers(host) and place <= ENTRIES, 5)
        for key, number in (("addresses", address), ("addresses6", address6)):
            for it in map(number, host.get(key, [])):
                want(it not in self.addresses, 6)
                self.addresses.add(it)
        self.hosts[name] = []
        tables = host.get("clocks", [])
        for table in tables:
            look(table, CLOCK_KEYS, ["name"])
            self.read_clock(name, table, host)
        if not tables:
            self.read_clock(name, {"name": name}, host)

    def read_clock(self, host: str, clock: Table, numbers: Table) -> None:
        name, before = clock["name"], self.hosts[host]
        want(is_name(name) and name not in self.clocks, 4)
        want(has_numbers(clock) and is_number(clock, "gap") and len(self.clocks) < ENTRIES, 5)
        if before:
            self.follows.append((before[-1], name, clock.get("gap", 0)))
        before.append(name)
        self.clocks[name] = tuple(clock.get(key, numbers.get(key, 0)) for key in RATES)
        self.offsets[name] = clock.get("offset", numbers.get("offset", 0))

    def is_near(self, one: str, other: str) -> bool:
        """Whether the window, if there is one, takes together events of two clocks that have one stamp."""
        return self.window is None or abs(self.offsets[one] - self.offsets[other]) <= self.window

    def is_one_segment(self, one: str, other: str) -> bool:
        """Whether two labels name one segment, or neither names one."""
        return self.segments[one] == self.segments[other]

    def bounds_of(self, label: str) -> tuple[int, ...]:
        """How many ns events of a label lie before and behind their stamps, where one label or more says it; else
        nothing."""
        own = self.bounds[label]
        clock = dict(zip(RATES, self.clocks[self.labels[label][2]]))
        return tuple(own.get(it, clock[it]) for it in STAMP_KEYS) if any(self.bounds.values()) else ()

    def read_label(self, name: str, label: Table, place: int) -> None:
        look(label, LABEL_KEYS, ["host", "kind"])
        want(all(type(it) is str for key in SUBNET_KEYS for it in label.get(key, [])), 3)
        clocks = self.hosts.get(label["host"], [""])
        clock = label.get("clock", clocks[0])
        is_label = is_name(name) and label["host"] in self.hosts and label["kind"] in ("log", "capture")
        want(is_label and clock in clocks and is_name(label.get("segment", "none")), 4)
        want(label["kind"] == "capture" or not any(it in label for it in CAPTURE_KEYS), 2)
        want(place <= ENTRIES and is_number(label, "interface", (1 << 32) - 1), 5)
        want(all(is_number(label, it) for it in STAMP_KEYS), 5)
        want(sum(len(label.get(it, [])) for it in SUBNET_KEYS) <= SUBNETS, 5)
        look_at_subnets(label)
        self.labels[name] = (label["host"], label["kind"], clock)
        self.segments[name] = label.get("segment", "")
        self.bounds[name] = {it: label[it] for it in STAMP_KEYS if it in label}

    def read_link(self, link: Table, place: int) -> None:
        look(link, LINK_KEYS, ["from", "to"])
        ends = link["from"], link["to"]
        want(all(it in self.hosts for it in ends) and ends not in self.links, 4)
        want(is_number(link, "least") and is_number(link, "most") and place <= ENTRIES, 5)
        self.links[ends] = (link.get("least", 0), link.get("most", "none"))


def read_declaration(document: bytes) -> Declared | str:
    """What a document declares, or the line that tells its first fault."""
    declared = Declared()
    try:
        declared.read(parsed(document))
    except Fault as fault:
        return f"declaration {fault} {declared.at}\n"
    return declared
