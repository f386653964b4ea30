"""A declaration in words, with what is mostly a slip, and the cause of its refusal."""

from __future__ import annotations

import re
from collections.abc import Collection
from typing import Any, Dict, Optional

try:
    import tomllib
except ModuleNotFoundError:
    # (Python has a reader of TOML from 3.11 on)
    tomllib = None  # type: ignore[assignment]

# A table of a document, by its keys.
Table = Dict[str, Any]

# The name of a host, a clock or a label.
NAME = re.compile(r"[A-Za-z0-9._-]{1,32}")
CHARACTERS = "1 to 32 letters, digits, points, lines below and hyphens"
# What each cause of a refusal says, without a look at the document.
CAUSES = {
    1: "it is no TOML",
    2: "there is another key, or a required one is missing",
    3: "a value is of another kind than it should be",
    4: "a name is no name, is there twice, or names nothing",
    5: "a number is out of its range",
    6: "an address is not spelled as one, or is there twice",
    7: "no clock has the name of the source, or its `short` or `long` is not 0",
    8: "the document has more than 2^24 bytes",
    9: "a label has the same addresses on both of its sides",
}
NUMBERS = ("short", "long", "early", "late")
HOST, CLOCK = {*NUMBERS, "offset", "addresses", "addresses6", "clocks"}, {*NUMBERS, "offset", "name", "gap"}
# What a label says of the packets of a capture, beside the host and the clock that it is of: of each side's addresses
# the version.
NEAR, BEYOND = {"addresses": 4, "addresses6": 6}, {"beyond": 4, "beyond6": 6}
OF_PACKETS = {"interface", *NEAR, *BEYOND}
LABEL, LINK = {"host", "kind", "clock", "segment", "early", "late", *OF_PACKETS}, {"from", "to", "least", "most"}
TOP = {"fragments", "hosts", "labels", "links", "payload_bytes", "source", "tcp_options", "window"}
ADDRESS = re.compile(r"(0|[1-9]\d{0,2})(\.(0|[1-9]\d{0,2})){3}")
ADDRESS6 = re.compile(r"[0-9a-fA-F]{1,4}(:[0-9a-fA-F]{1,4}){7}")
# How many bits an address of each version has, and how many subnets a label may have.
BITS, SUBNETS_MOST = {4: 32, 6: 128}, 256
# A declared rate of so few ppb is a slip mostly: a quartz is off by 1 ppm at least.
RATE_FEW = 1000


class NoReader(ValueError):
    """This Python has no reader of TOML; the program reads a declaration all the same."""


def ppm(ppb: int) -> str:
    """Returns parts per billion in words."""
    return f"{ppb / 1000:.3f}".rstrip("0").rstrip(".") + " ppm"


def ns(value: int) -> str:
    """Returns ns in the greatest unit of which they are a multiple, in words."""
    for size, name in ((10**9, "s"), (10**6, "ms"), (10**3, "us")):
        if value >= size and value % (size // 1000) == 0:
            return f"{value / size:.3f}".rstrip("0").rstrip(".") + f" {name}"
    return f"{value} ns"


def read_declaration(path: str) -> Table:
    """Returns the tables of a declaration. Raises ValueError where it is no TOML, with the line, or NoReader."""
    with open(path, "rb") as it:
        if tomllib is None:
            raise NoReader("a declaration is read by Python from 3.11 on")
        return tomllib.load(it)


def clocks_of(name: str, host: Table) -> list[tuple[Any, Table, int]]:
    """Returns the clocks of a host in their order: the name, the numbers and the gap of each.

    A host without tables of clocks is one itself.
    """
    own = {it: host[it] for it in (*NUMBERS, "offset") if it in host}
    tables = [it for it in host.get("clocks", []) if isinstance(it, dict)]
    return [(it.get("name"), {**own, **it}, it.get("gap", 0)) for it in tables] or [(name, own, 0)]


def told_clock(numbers: Table, is_source: bool, labels: Collection[Table] = ()) -> list[str]:
    """Returns what is declared of a clock and of its stamps, in words; its labels may have bounds of their own."""
    short, long, early, late = (numbers.get(it) for it in NUMBERS)
    parts = []
    if not short and not long:
        perfect = "a PERFECT clock, which never drifts: is this meant?"
        parts.append("the source: a clock that is true" if is_source else perfect)
    else:
        is_still = (short or 0) >= 10**9
        wanted = 0 if is_still else -(-(short or 0) * 10**9 // (10**9 - (short or 0)))
        if is_still:
            parts.append("`short` IS ABOVE 999_999_999: no session takes that")
        if long == wanted:
            parts.append(f"its clock is within {ppm(short or 0)}")
        else:
            parts.append(f"its clock is fast by {ppm(short or 0)} at most, and slow by some {ppm(long or 0)}")
        few = [str(it) for it in (short, long) if it and it < RATE_FEW]
        if few:
            parts.append(f"{few[0]} are parts per BILLION: is {few[0]}_000 meant, {few[0]} ppm?")
        if (long or 0) < wanted:
            parts.append(f"`long` is less than what belongs to `short`, {wanted:_}: is this meant?")
    if labels and all("early" in it and "late" in it for it in labels):
        parts.append("how far events are from their stamps is said at its labels")
    elif not early and not late:
        is_said = any(it.get("early") or it.get("late") for it in labels)
        parts.append("stamps WITHOUT ANY ERROR, but where a label has its own: is this meant?" if is_said else "stamps WITHOUT ANY ERROR: is this meant?")
    else:
        parts.append(f"events are up to {ns(early or 0)} before and {ns(late or 0)} after their stamps")
    offset = numbers.get("offset", 0)
    if offset:
        parts.append(f"for the window it is taken to be {ns(abs(offset))} {'ahead' if offset > 0 else 'behind'}")
    return parts


def told_clocks(name: str, host: Table, source: Optional[str], labels: Table) -> list[str]:
    """Returns the clocks of a host with several, a line for each."""
    own = [it for it in labels.values() if it.get("host") == name]
    lines, before = [], None
    for clock, numbers, gap in clocks_of(name, host):
        if before is None:
            told = f"the first clock of {name}{', whose gap does nothing' if gap else ''}"
        else:
            since = f"{ns(gap)} after it at least" if gap else "from its last moment on"
            told = f"the clock of {name} behind {before}, {since}"
        labelled = [it for it in own if it.get("clock", before is None and clock) == clock]
        parts = [told, *told_clock(numbers, source == clock, labelled)]
        if not labelled:
            parts.append("no label is stamped by it")
        lines.append(f"{clock}: {'; '.join(parts)}.")
        before = clock
    return lines


def told_host(name: str, host: Table, source: Optional[str], labels: list[Table]) -> str:
    """Returns a host with its labels in words; its clocks, if it has several, are told behind it."""
    clocks = host.get("clocks", [])
    parts = [f"{len(clocks)} clocks, one after the other"] if clocks else told_clock(host, source == name, labels)
    addresses = [*host.get("addresses", []), *host.get("addresses6", [])]
    if addresses:
        parts.append(f"addresses {', '.join(addresses)}")
    elif any(it.get("kind") == "capture" and not subnets_of(it) for it in labels):
        parts.append("NO ADDRESS, though it has a capture: no packet of it will be a message")
    if not labels:
        parts.append("no label: no trace of it can be added")
    return f"{name}: {'; '.join(parts)}."


def told_label(name: str, label: Table, hosts: Table) -> str:
    """Returns a label in words."""
    told = f"{name}: a {'capture' if label.get('kind') == 'capture' else 'log'} taken at {label.get('host')}"
    clocks = hosts.get(str(label.get("host")), {}).get("clocks", [])
    if "clock" in label or clocks:
        first = label.get("clock") or f"its first clock, {clocks[0].get('name')}"
        told += f" and stamped by {first}"
    return "; ".join([told, *told_bounds(label), *told_place(label)]) + "."


def told_bounds(label: Table) -> list[str]:
    """Returns how far a trace's events lie from their stamps, as its label says it, in words."""
    return [f"its events are up to {ns(label[it])} {side} their stamps" for it, side in (("early", "before"), ("late", "after")) if it in label]


def told_place(label: Table) -> list[str]:
    """Returns where a trace was taken, in words."""
    parts = [f"its messages are those of the segment {label['segment']}"] if "segment" in label else []
    if "interface" in label:
        parts.append(f"only packets of the interface {label['interface']} have keys")
    for side, keys, more in (("near", NEAR, ", and no other address of the same version"), ("beyond", BEYOND, "")):
        shown = ", ".join(text for it in keys for text in label.get(it, []))
        verb = "are" if "," in shown or "/" in shown else "is"
        parts += [f"{side} it {verb} {shown}{more}"] if shown else []
    return parts


def told_link(one: str, other: str, link: Table) -> str:
    """Returns a link in words."""
    least, most = link.get("least", 0), link.get("most")
    longest = "as long as it likes" if most is None else f"{ns(most)} at most"
    told = f"from {one} to {other}: a message takes {ns(least)} at least, and {longest}"
    if not least:
        told += "; with `least` 0 it may arrive as it is sent, and the order of its ends is open: is this meant?"
    if most is not None and most < least:
        told += "; `most` IS LESS THAN `least`: each message contradicts that"
    return f"{told}."


def told_absent(pairs: list[str]) -> str:
    """Returns between which hosts no link is declared."""
    told = f"No link is declared from {', from '.join(pairs[:6])}{', ..' if len(pairs) > 6 else ''}"
    return f"{told}: the ends of a message there may be at one time; `least = 1` mends it."


def told_declaration(value: Table) -> list[str]:
    """Returns a declaration in words."""
    hosts, labels = value.get("hosts", {}), value.get("labels", {})
    lines = []
    for name in sorted(hosts):
        own = [it for it in labels.values() if it.get("host") == name]
        lines.append(told_host(name, hosts[name], value.get("source"), own))
        lines += told_clocks(name, hosts[name], value.get("source"), labels) if hosts[name].get("clocks") else []
    lines += [told_label(name, it, hosts) for name, it in sorted(labels.items())]
    links = {(it.get("from"), it.get("to")): it for it in value.get("links", [])}
    lines += [told_link(one, other, it) for (one, other), it in links.items()]
    pairs = [(one, other) for one in sorted(hosts) for other in sorted(hosts) if one != other]
    absent = [f"{one} to {other}" for one, other in pairs if (one, other) not in links]
    if absent:
        lines.append(told_absent(absent))
    if "source" in value:
        lines.append(f"`time` tells when an event was by the clock {value['source']}.")
    if "window" in value:
        lines.append(f"Events of one key belong together where each is at most {ns(value['window'])} behind the one before.")
    elif any("offset" in it for host in hosts.values() for it in (host, *host.get("clocks", []))):
        lines.append("No `window` is declared, so that an `offset` DOES NOTHING: is this meant?")
    if any(it.get("kind") == "capture" for it in labels.values()):
        lines.append(f"{value.get('payload_bytes', 0)} bytes of the payload are part of what a packet is known by{', and timestamps and SACK of TCP' if value.get('tcp_options') else ''}.")
        lines += ["Fragments have keys of their own, and packets of IPv6 behind extension headers have keys."] if value.get("fragments") else []
    return lines


def place_of(path: str, section: str, name: str, index: int) -> Optional[int]:
    """Returns the line in which a table of a declaration begins, or None."""
    with open(path, encoding="utf-8", errors="replace") as it:
        lines = it.read().splitlines()
    if section == "links":
        found = [at for at, line in enumerate(lines, 1) if re.match(r"\s*\[\[\s*links\s*\]\]", line)]
        return found[index - 1] if len(found) >= index else None
    own = re.escape(name)
    wanted = re.compile(rf"\s*\[\s*{section}\s*\.\s*(\"{own}\"|'{own}'|{own})\s*[\].]")
    return next((at for at, line in enumerate(lines, 1) if wanted.match(line)), None)


def refused(path: str, number: int, section: str, index: int, shown: Optional[str] = None) -> str:
    """Returns why a declaration was refused with these three, in words, by a look at the file.

    `shown` is what the file is called there, its path if it is not said.
    """
    shown = shown or path
    try:
        value = read_declaration(path)
    except OSError as why:
        return f"{shown} cannot be read: {why.strerror}"
    except NoReader:
        return f"{shown}: {section} {index}: {CAUSES.get(number, f'cause {number}')}"
    except (ValueError, RecursionError) as why:
        return f"{shown} is no TOML: {why}"
    if section == "top":
        return f"{shown}: {top_cause(value, number)}"
    tables = value.get(section, {})
    try:
        name = sorted(tables, key=str.encode)[index - 1] if section != "links" else f"link {index}"
        table = tables[name] if section != "links" else tables[index - 1]
    except (IndexError, KeyError, TypeError):
        return f"{shown}: {section} {index}"
    place = place_of(path, section, name, index)
    told = {"hosts": host_cause, "labels": label_cause, "links": link_cause}[section](value, name, table, number)
    entry = name if section == "links" else f"{section[:-1]} {name}"
    return f"{shown}{f', line {place}' if place else ''}: {entry}: {told}"


def top_cause(value: Table, number: int) -> str:
    if number == 2:
        return f"another key on top: {', '.join(sorted(set(value) - TOP))}"
    if number == 7:
        source = value.get("source")
        told = "there is no such clock, or its `short` or `long` is not 0"
        return f"source = {source!r}: {told}; a host with `clocks` has none of its own name"
    causes = {
        1: "it is no TOML as the program reads it: a number over 2^63, or a byte that is no UTF-8",
        3: "a value of another kind than it should be",
        5: "window is not from 0 to 2^62 - 1" if 0 <= value.get("payload_bytes", 0) <= 64 else "payload_bytes is not from 0 to 64",
        8: "it has more than 2^24 bytes",
    }
    return causes.get(number, f"cause {number}")


def host_cause(value: Table, name: str, table: Table, number: int) -> str:
    if number == 2:
        others = sorted(set(table) - HOST)
        nested = [it for it in others if isinstance(table[it], dict)]
        quoted = f". A name with a point needs quotes: [hosts.\"{name}.{nested[0]}\"]" if nested else ""
        return f"no such key: {', '.join(others)}{quoted}" if others else clock_keys_cause(table)
    if number == 4 and NAME.fullmatch(name):
        return clock_name_cause(value, name, table)
    if number == 5:
        clocks = [it for it in table.get("clocks", []) if isinstance(it, dict)]
        found = [*out_of_range(table, None), *(told for it in clocks for told in out_of_range(it, it.get("name")))]
        return f"out of range: {', '.join(found)}" if found else "there are more than 65,536 hosts or clocks"
    if number == 6:
        return address_cause(table)
    kinds = "numbers have no quotes and no point, addresses stand in brackets, and so do tables of clocks"
    return {3: f"a value of another kind: {kinds}", 4: f"a name is {CHARACTERS}"}.get(number, f"cause {number}")


def is_address(text: str) -> bool:
    """Returns whether a text is spelled as an address of IPv4."""
    return ADDRESS.fullmatch(text) is not None and all(int(part) <= 255 for part in text.split("."))


def address_cause(table: Table) -> str:
    """Returns which address of a host is none, or is there twice."""
    wrong = [it for it in table.get("addresses", []) if not is_address(it)]
    if wrong:
        more = ". One of IPv6 is of `addresses6`" if any(":" in it for it in wrong) else ""
        return f"no address such as 10.0.0.1: {', '.join(wrong)}{more}"
    wrong = [it for it in table.get("addresses6", []) if not ADDRESS6.fullmatch(it)]
    if wrong:
        return f"not eight groups of hexadecimal digits with colons, as fd00:0:0:0:0:0:0:1: {', '.join(wrong)}"
    return "an address is there twice, at one host or at two"


def out_of_range(table: Table, clock: Optional[str]) -> list[str]:
    """Returns the numbers of a host or of a clock that may not be so, with the clock's name."""
    most, least = {"short": 999_999_999, "long": 1_000_000_000}, {"offset": 1 - 2**62}
    numbers = [it for it in (*NUMBERS, "gap", "offset") if isinstance(table.get(it), int)]
    wrong = [it for it in numbers if not least.get(it, 0) <= table[it] <= most.get(it, 2**62 - 1)]
    limits = {it: f" above {most[it]:_}" if it in most and table[it] > most[it] else "" for it in wrong}
    return [f"{it}{limits[it]}{f' of {clock}' if clock else ''}" for it in wrong]


def clock_keys_cause(table: Table) -> str:
    """Returns which key a clock of a host may not have, or lacks."""
    for at, it in enumerate(table.get("clocks", []), 1):
        others = sorted(set(it) - CLOCK) if isinstance(it, dict) else []
        if others:
            return f"no such key of its clock {it.get('name', at)}: {', '.join(others)}"
        if isinstance(it, dict) and "name" not in it:
            return f"its clock {at} lacks its name"
    return "cause 2"


def clock_name_cause(value: Table, name: str, table: Table) -> str:
    """Returns which name of a host's clocks is misspelled, or is that of a clock before."""
    hosts = value["hosts"]
    before = [host for host in hosts if host.encode() < name.encode()]
    taken = {it for host in before for it, *_ in clocks_of(host, hosts[host])}
    for clock, *_ in clocks_of(name, table):
        if not NAME.fullmatch(clock):
            return f"{clock!r} is no name of a clock, which is {CHARACTERS}"
        if clock in taken:
            return f"another clock has the name {clock} already; a host without `clocks` has one of its own name"
        taken.add(clock)
    return "cause 4"


def keys_cause(table: Table, keys: Collection[str], needed: Collection[str]) -> str:
    """Returns which keys a table may not have, and which ones it lacks."""
    others, lacks = sorted(set(table) - set(keys)), sorted(set(needed) - set(table))
    told = [f"no such key: {', '.join(others)}"] if others else []
    return "; ".join([*told, *([f"it lacks {', '.join(lacks)}"] if lacks else [])])


def subnets_of(label: Table) -> list[tuple[int, bool, str]]:
    """Returns the texts of a label's subnets: the version of each, and whether it lies beyond."""
    return [(version, keys is BEYOND, text) for keys in (NEAR, BEYOND) for key, version in keys.items() for text in label.get(key, [])]


def subnet(version: int, text: str) -> Optional[tuple[int, int]]:
    """Returns the first address of a subnet and how many of its bits count, or None where the text writes none."""
    address, slash, bits = text.partition("/")
    if not (is_address(address) if version == 4 else ADDRESS6.fullmatch(address)):
        return None
    count = BITS[version] if not slash else int(bits) if re.fullmatch(r"0|[1-9][0-9]{0,2}", bits) else -1
    if not 0 <= count <= BITS[version]:
        return None
    parts = [int(it) for it in address.split(".")] if version == 4 else [int(it, 16) for it in address.split(":")]
    first = 0
    for part in parts:
        first = first << BITS[version] // len(parts) | part
    return None if first % 2 ** (BITS[version] - count) else (first, count)


def subnet_cause(label: Table) -> str:
    """Returns which subnet of a label is none, is there twice, or is on both sides."""
    seen: dict[tuple[int, int, int], bool] = {}
    for version, is_beyond, text in subnets_of(label):
        found = subnet(version, text)
        if found is None:
            like = "10.0.0.1 or 10.0.0.0/24" if version == 4 else "fd00:0:0:0:0:0:0:0/64, eight groups with colons"
            return f"{text} is no address or subnet such as {like}; bits behind those that count are 0"
        if (version, *found) in seen:
            is_on_both = seen[version, found[0], found[1]] != is_beyond
            return f"{text} is both near and beyond" if is_on_both else f"{text} is there twice"
        seen[version, found[0], found[1]] = is_beyond
    return "a subnet is none, or is there twice"


def label_range_cause(label: Table) -> str:
    """Returns which number of a label is out of its range."""
    count = len(subnets_of(label))
    if count > SUBNETS_MOST:
        return f"it has {count} subnets, and {SUBNETS_MOST} are the most"
    if not 0 <= label.get("interface", 0) < 2**32:
        return f"interface = {label['interface']} is not from 0 to 4_294_967_295"
    wild = [f"{it} = {label[it]}" for it in ("early", "late") if not 0 <= label.get(it, 0) < 2**62]
    if wild:
        return f"{wild[0]} is not from 0 to 4_611_686_018_427_387_903"
    return "there are more than 65,536 labels"


def label_cause(value: Table, name: str, table: Table, number: int) -> str:
    if number == 2:
        told = keys_cause(table, LABEL, {"host", "kind"})
        of_packets = ", ".join(sorted(OF_PACKETS & set(table)))
        return told or f"a log has no packets, and so none of {of_packets}"
    if number in (6, 9):
        return subnet_cause(table)
    if number == 5:
        return label_range_cause(table)
    if number == 4:
        if not NAME.fullmatch(name):
            return f"a name is {CHARACTERS}"
        if table.get("host") not in value.get("hosts", {}):
            return f"there is no host {table.get('host')}"
        clocks = [it for it, *_ in clocks_of(table["host"], value["hosts"][table["host"]])]
        if table.get("clock", clocks[0]) not in clocks:
            return f"{table['host']} has no clock {table['clock']}, but {', '.join(clocks)}"
        if table.get("kind") in ("capture", "log"):
            return f"segment = {table.get('segment')!r} is no name, which is {CHARACTERS}"
        return f"kind = {table.get('kind')!r} is neither \"capture\" nor \"log\""
    kinds = "its values are texts in quotes, but for interface, early and late, numbers, and addresses and beyond, texts in brackets"
    return kinds if number == 3 else f"cause {number}"


def link_cause(value: Table, name: str, table: Table, number: int) -> str:
    if number == 2:
        return keys_cause(table, LINK, {"from", "to"})
    if number == 4:
        absent = [str(table.get(it)) for it in ("from", "to") if table.get(it) not in value.get("hosts", {})]
        if absent:
            return f"there is no host {', '.join(absent)}"
        return "an earlier link has the same two ends in this order"
    causes = {
        3: "a value of another kind: `most` is left out where there is no limit",
        5: "a number is negative, or 2^62 or more",
    }
    return causes.get(number, f"cause {number}")
