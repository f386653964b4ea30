"""Why a session has no messages, or far fewer than its packets could be, and what would mend it: by a look at the files and the declaration."""

from collections import Counter, defaultdict
from collections.abc import Collection, Iterable
from typing import Any

from ends import declared_own
from headers import COOKED2, Key, address_text, content_of, decode, end_text, interface_of
from inputs import Input, with_hosts
from interfaces import TWICE_PART
from placing import Placing, misplaced
from sides import Sides
from texts import plain
from tracesync.declaration import subnets_of
from vantage import Vantage
from words import told_again

# Two addresses as a packet has them, its source first.
Way = tuple[bytes, bytes]

# So many packets are looked at, of each host, for translated addresses.
LOOKED_MOST = 200_000


class Shortfall:
    """Finds causes in inputs that have their hosts; `declared` is the declaration's tables, `path` is where it stands, of the hosts in `asked`
    it was said before that their addresses are not known, and `is_found` is whether all that captures show is declared."""

    def __init__(self, inputs: list[Input], declared: dict[str, Any], report: dict[str, Any], path: str, asked: Collection[str] = (), is_found: bool = False) -> None:
        self.declared, self.report, self.path, self.asked, self.is_found = declared, report, path, asked, is_found
        labels = declared.get("labels", {})
        self.host_of = {it.label: labels.get(it.label, {}).get("host", it.host) for it in inputs}
        self.captures = [it for it in inputs if it.kind == "capture"]
        self.logs = [it for it in inputs if it.kind == "log"]
        self.hosts = sorted(set(self.host_of.values()))
        self.ways: dict[str, Counter[Way]] = defaultdict(Counter)
        for it in self.captures if not report["messages"] else []:
            number = labels.get(it.label, {}).get("interface")
            for packet in it.content.packets:
                found = decode(packet.link, packet.data)[0]
                if found and found.key and number in (None, interface_of(packet)):
                    self.ways[it.label][found.source, found.target] += 1

    def lines(self) -> list[str]:
        """Returns what is to be said: of a session without messages all causes, of another one what is there twice and what is used again."""
        if self.report["messages"]:
            return self.causes()
        found = self.causes() or ["No packet or row of one host is known at another one: other traffic, other times, or another key there."]
        return ["THERE ARE NO MESSAGES, so nothing ties the clocks of these hosts together, and no order of events at two of them is known.", *found]

    def causes(self) -> list[str]:
        """Returns the causes alone."""
        found = [*self.doubled(), *told_again(self.report, self.declared, self.path), *self.places()]
        if self.report["messages"]:
            return found
        if len(self.hosts) < 2:
            return found + [f"All events are {self.hosts[0]}'s, and a message has two hosts: add what another one recorded." if self.hosts else "Nothing was added."]
        return [*found, *self.short(), *self.aside(), *self.translated(), *self.unread(), *self.keys()]

    def doubled(self) -> list[str]:
        """Returns for each capture, most of whose packets stand there once for each of several interfaces, how to keep one."""
        lines = []
        for it in self.captures:
            if "interface" in self.label(it.label) or len(it.content.interfaces) < 2 and not any(packet.link == COOKED2 for packet in it.content.packets[:1]):
                continue
            where: dict[Key, set[int]] = defaultdict(set)
            counts: Counter[int] = Counter()
            for packet in it.content.packets:
                found = decode(packet.link, packet.data)[0]
                if found and found.key:
                    number = interface_of(packet)
                    where[found.key].add(number)
                    counts[number] += 1
            twice = [numbers for numbers in where.values() if len(numbers) > 1]
            if len(twice) > TWICE_PART * len(where):
                lines.append(self.one_interface(it, sorted(set().union(*twice)), counts, len(twice)))
        return lines

    def places(self) -> list[str]:
        """Returns which labels are declared to be elsewhere than the captures show, where few packets are messages."""
        messages = self.report["messages"]
        if messages and max(len(self.report["ambiguous"]), self.report.get("unmatched", 0)) <= messages or len(self.hosts) < 2 or self.is_found:
            return []
        captures = with_hosts(self.captures, self.declared)
        wanted = {label: name for label, (name, _) in Placing(Vantage(captures)).segments.named.items()}
        said = {label: self.label(label).get("segment") for label in wanted}
        lines = misplaced(captures, self.declared)
        if sorted(groups(wanted).values()) != sorted(groups(said).values()):
            shown = "; ".join(f'segment = "{name}" at {" and ".join(labels)}' for name, labels in groups(wanted).items())
            lines.append(f"By the captures packets pass by several labels, so each side needs a segment of its own in {self.path}: {shown}.")
        return lines

    def one_interface(self, it: Input, numbers: list[int], counts: Counter[int], twice: int) -> str:
        """Returns how to keep the packets of one interface, that which has most of those that are read."""
        best = max(numbers, key=lambda number: (counts[number], -number))
        shown = ", ".join(str(number) for number in numbers)
        cure = f"write interface = {best} below {table_of('labels', it.label)} of {self.path}, or another one of these"
        return f"{it.label}: {twice} packets are there more than once, on the interfaces {shown}, so their keys are ambiguous: {cure}"

    def short(self) -> list[str]:
        """Returns what to do where packets were cut before all that they are known by."""
        count, wanted = self.report["nokey"].get("short", 0), self.declared.get("payload_bytes", 0)
        if not count:
            return []
        long = {it.label: max((len(packet.data) for packet in it.content.packets), default=0) for it in self.captures}
        shown = ", ".join(f"{label} {size}" for label, size in long.items())
        cure = "Capture with tcpdump -s 0, or -s 262144"
        cure += f"; or write payload_bytes = 0 into {self.path}, for the first {wanted} bytes behind the headers are looked at" if wanted else ""
        return [f"{count} packets were captured too short to be known again (the longest of each capture has these bytes: {shown}). {cure}."]

    def aside(self) -> list[str]:
        """Returns which addresses the packets have that go neither outward nor inward, with the words for the declaration."""
        lines, sides, own = [], Sides(self.declared), declared_own(self.declared)
        for label, host in self.host_of.items() if self.report["nokey"].get("side", 0) else []:
            rest: Counter[bytes] = Counter()
            for (source, target), count in self.ways[label].items():
                if not sides.side(label, source, target):
                    rest.update({source: count, target: count})
            if rest and host not in self.asked:
                shown = ", ".join(f"{address_text(address)} ({count})" for address, count in rest.most_common(4))
                first = [it for it, _ in rest.most_common(2) if it not in own.get(host, set())][:1] or [rest.most_common(1)[0][0]]
                lines.append(self.told_aside(label, host, own.get(host, set()), shown, first[0]))
        return list(dict.fromkeys(lines))

    def told_aside(self, label: str, host: str, own: set[bytes], shown: str, first: bytes) -> str:
        """Returns what to write for packets of a label between these addresses, of which one is asked about."""
        words = f'beyond{"6" if len(first) == 16 else ""} = ["{address_text(first)}"] below {table_of("labels", label)}'
        if subnets_of(self.label(label)):
            return f"{label}: by its own subnets packets stand between others, mostly {shown}. From which side do they come? Write for instance {words} of {self.path}."
        told = f"its addresses are {', '.join(address_text(it) for it in sorted(own))}" if own else "no address of it is declared"
        cure = f"Which is {host}'s? {words_for(host, first, self.path)}"
        return f"{host}: {told}, and packets stand between others, mostly {shown}. {cure}. Where {host} only hands them on, write {words}."

    def label(self, name: str) -> dict[str, Any]:
        return self.declared.get("labels", {}).get(name, {})

    def translated(self) -> list[str]:
        """Returns for each two hosts how many packets of one stand at the other with other addresses or ports, as behind a box that translates them."""
        contents = {host: self.contents(host) for host in self.hosts}
        lines = []
        for at, one in enumerate(self.hosts):
            for other in self.hosts[at + 1 :]:
                both = contents[one].keys() & contents[other].keys()
                changed = [content for content in both if contents[one][content] != contents[other][content]]
                if changed and len(changed) >= len(both) / 2:
                    ends = [contents[host][changed[0]] for host in (one, other)]
                    told = f"{len(changed)} packets of {one} stand at {other} with other addresses or ports: {ends[0]} is {ends[1]} there"
                    lines.append(f"{told}. A box between them translates addresses, so no packet has the same key at both: capture at the box too, on each side a "
                                 "label, as IN@BOX=FILE OUT@BOX=FILE (tools/declare then writes segment and beyond); or give logs in which both name a request alike.")  # fmt: skip
        return lines

    def contents(self, host: str) -> dict[Key, str]:
        """Returns what no translation changes of packets that a host has once, each with its ends."""
        found: dict[Key, str] = {}
        often: set[Key] = set()
        packets = [packet for it in self.captures if self.host_of[it.label] == host for packet in it.content.packets]
        for packet in packets[:LOOKED_MOST]:
            headers = decode(packet.link, packet.data)[0]
            content = headers and content_of(headers)
            if not headers or not headers.ports or not content:
                continue
            often |= {content} if content in found else set()
            ends = [end_text(address, port) for address, port in zip((headers.source, headers.target), headers.ports)]
            found[content] = " > ".join(ends)
        return {content: ends for content, ends in found.items() if content not in often}

    def unread(self) -> list[str]:
        """Returns that packets are of a kind that is not read, where none is of another."""
        if not self.captures or any(self.ways.values()):
            return []
        links = sorted({packet.link for it in self.captures for packet in it.content.packets})
        return [f"No packet is one of TCP or UDP that is read (the link types are {', '.join(map(str, links))}): docs/GUIDE.md, Links without keys."]

    def keys(self) -> list[str]:
        """Returns keys of logs that no other host has, of sends and of receives."""
        kinds = {kind: {row[2]: it.label for it in self.logs for row in it.content.rows if row[1] == kind} for kind in ("send", "receive")}
        if not self.logs:
            return []
        if not kinds["send"] or not kinds["receive"]:
            return [f"No row of a log is a `{'send' if not kinds['send'] else 'receive'}`: tools/rows --help tells how rows become sends and receives."]
        if kinds["send"].keys() & kinds["receive"].keys():
            return []
        shown = [f"`{plain(key)}` at {label}" for key, label in (next(iter(kinds[kind].items())) for kind in ("send", "receive"))]
        return [f"No key of a `send` is one of a `receive`: {shown[0]} was sent, and {shown[1]} was received. Both ends of a message must have one key."]


def groups(named: dict[str, str | None]) -> dict[str | None, list[str]]:
    """Returns the labels of each name."""
    found: dict[str | None, list[str]] = {}
    for label, name in sorted(named.items()):
        found.setdefault(name, []).append(label)
    return found


def words_for(host: str, address: bytes, path: str) -> str:
    """Returns what to write into a declaration for an address of a host."""
    key = "addresses" if len(address) == 4 else "addresses6"
    return f'Write for instance {key} = ["{address_text(address)}"] below {table_of("hosts", host)} of {path}, and name it with --declaration'


def table_of(section: str, name: str) -> str:
    """Returns how a declaration begins a table of this name."""
    return f'[{section}."{name}"]' if "." in name else f"[{section}.{name}]"


def unknown_lines(pairs: Iterable[tuple[str, list[tuple[bytes, bytes]]]], path: str) -> list[str]:
    """Returns for each host, whose addresses were not found out, what to write into the declaration, by the pairs of which one is its own."""
    lines = []
    for host, found in pairs:
        for one, other in found[:1]:
            lines.append(f"Is {address_text(one)} {host}'s, or {address_text(other)}? {words_for(host, one, path)}; or the other one.")
    return lines
