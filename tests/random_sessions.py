#!/usr/bin/env python3
"""Runs random sessions, and wants each reply as the problem has it that `problem` printed.

    tests/random_sessions.py [--judge PATH] [SESSIONS [SEED]]

SESSIONS, 200 if it is not said, have the numbers from SEED, 1 if it is not said, upward; `random_sessions.py 1 N`
runs number N alone. Each has up to four hosts with logs of one label and more, which sort otherwise than their hosts;
some hosts have up to four clocks, one after the other, and their labels name them or not; in some declarations labels
have bounds of their own, and half have a window, and offsets that are about true or not. Rows come late, with lower
stamps, with stamps that contradict the declared bounds, and with keys that were sent or received before, which
withdraws messages; events are kept in between. Behind each addition the problem must be the one that a plain model of
the session has, and what is asked must follow from its text: intervals, orders, times, those of all events too, and
merges as support/problems.py works them out, and, one of each, as `ends` and `solve` print them; `blame` is
`blame none` where the problem has an execution, and else what the command `blame` prints of the text, and `thin` is
what the command prints; certificates must be accepted by `verify`, and cycles also by check_cycle.py.

PROGRAM names the program whose sessions are tried, else it is the one that is built here; PATH is another one for
`ends`, `solve`, `blame`, `thin` and `verify`. The files of a session that goes wrong stay in tests/out/session-N, and its first
wrong reply is printed; then the status is 1.
"""

import argparse
import json
import os
import shutil
import subprocess
import sys
import tempfile
from collections.abc import Callable, Sequence
from dataclasses import dataclass
from random import Random
from typing import Any, NoReturn

from check_cycle import NoCycle, check_cycle
from support.problems import Answers, Ends, interval, ns, order
from support.program import LEFT, program
from support.replies import answered

NAMES = "abcdefghijklmnopqrstuvw"
# (clocks of hosts that have several; there is room for the greatest gap between two of them)
CLOCK_NAMES, GAPS = "ABCDEFGHIJKLMNOPQRSTUVW", (0, 0, 1, 7, 100)
# How far apart events of one key may be that belong together; rows lie within some 2000 ns.
WINDOWS = (*[None] * 6, 0, 30, 100, 300, 500, 10_000)
# What the problem has of a clock.
RATES = ("short", "long", "early", "late")
NO_KEYS = ["fragment", "header", "length", "link", "local", "other", "short", "side"]

Row = tuple[int, str, str, str]  # a stamp, a kind, a key and a text


def drawn_numbers(draw: Random) -> dict[str, Any]:
    """The numbers of a clock, by their keys."""
    drifts = [draw.choice((0, 0, 20_000, 100_000_000)) for _ in range(2)]
    return {"short": drifts[0], "long": drifts[1], **drawn_bounds(draw)}


def drawn_bounds(draw: Random) -> dict[str, int]:
    """How many ns events lie before and behind their stamps."""
    return {"early": draw.choice((0, 0, 3, 40)), "late": draw.choice((0, 5, 50))}


class Declared:
    """What is declared, drawn at random."""

    def __init__(self, draw: Random) -> None:
        self.hosts = {host: drawn_numbers(draw) for host in sorted(draw.sample(NAMES, draw.randint(1, 4)))}
        names = draw.sample(CLOCK_NAMES, len(CLOCK_NAMES))
        # (the tables of each host's clocks, with what they say themselves; none where the host is its own clock)
        self.tables: dict[str, list[dict[str, Any]]] = {}
        for host in self.hosts:
            self.tables[host] = self.drawn_tables(draw, host, names) if draw.random() < 0.5 else []
        self.window: int | None = draw.choice(WINDOWS)
        if self.window is not None:
            self.draw_offsets(draw)
        self.draw_source(draw)
        self.labels: dict[str, str] = {}  # the host of each
        self.clock_of: dict[str, str] = {}
        self.named: set[str] = set()  # labels that name their clocks
        self.draw_labels(draw)
        # (what some labels say of their own events, one of the two or both)
        self.bounds: dict[str, dict[str, int]] = {label: {} for label in self.labels}
        if draw.random() < 0.4:
            self.draw_bounds(draw)
        self.links: dict[tuple[str, str], tuple[int, int | None]] = {}
        self.draw_links(draw)

    def draw_offsets(self, draw: Random) -> None:
        """Draws how far some hosts, and some clocks of theirs, are said to be ahead."""
        for table in (*self.hosts.values(), *(table for tables in self.tables.values() for table in tables)):
            if draw.random() < 0.6:
                table["offset"] = draw.choice((0, draw.randrange(-100, 3000)))

    def draw_source(self, draw: Random) -> None:
        """Draws the source, whose clock has no drift."""
        self.source = draw.choice([None, *(name for host in self.hosts for name in self.clocks_of(host))])
        for host in self.hosts:
            for table in self.tables[host] or [self.hosts[host]]:
                if table.get("name", host) == self.source:
                    table.update({"short": 0, "long": 0})

    def draw_labels(self, draw: Random) -> None:
        """Draws labels of each host, each of one of its clocks."""
        labels, found = draw.sample(NAMES, 20), {}
        for host in self.hosts:
            clocks = self.clocks_of(host)
            for _ in range(draw.choice((1, 1, 1, 2)) if len(clocks) == 1 else draw.randint(1, 4)):
                label, clock = labels.pop(), draw.choice(clocks)
                found[label], self.clock_of[label] = host, clock
                if clock != clocks[0] or draw.random() < 0.5:
                    self.named.add(label)
        self.labels = {label: found[label] for label in sorted(found)}

    def draw_bounds(self, draw: Random) -> None:
        """Draws what labels say of the bounds of their own events."""
        for label in self.labels:
            if draw.random() < 0.6:
                self.bounds[label] = {key: value for key, value in drawn_bounds(draw).items() if draw.random() < 0.7}

    def bounds_of(self, label: str) -> tuple[int, int]:
        """How many ns the events of a label lie before and behind their stamps."""
        _, _, early, late = self.clocks()[self.clock_of[label]]
        return self.bounds[label].get("early", early), self.bounds[label].get("late", late)

    def drawn_tables(self, draw: Random, host: str, names: list[str]) -> list[dict[str, Any]]:
        """The tables of the clocks of a host, of which one may have the host's name; what a table does not say is the
        host's."""
        found: list[dict[str, Any]] = []
        for _ in range(draw.randint(1, 4)):
            name = names.pop() if draw.random() < 0.8 or any(it["name"] == host for it in found) else host
            table: dict[str, Any] = {"name": name}
            table |= {key: value for key, value in drawn_numbers(draw).items() if draw.random() < 0.4}
            if draw.random() < 0.7:
                table["gap"] = draw.choice(GAPS)
            found.append(table)
        return found

    def clocks_of(self, host: str) -> list[str]:
        return [it["name"] for it in self.tables[host]] or [host]

    def clocks(self) -> dict[str, tuple[int, ...]]:
        """The clocks of all hosts in their order: short, long, early and late of each."""
        found = {}
        for host, numbers in self.hosts.items():
            for table in self.tables[host] or [{"name": host}]:
                found[table["name"]] = tuple(table.get(key, numbers[key]) for key in RATES)
        return found

    def offsets(self) -> dict[str, int]:
        """How far each clock is said to be ahead."""
        found = {}
        for host, numbers in self.hosts.items():
            for table in self.tables[host] or [{"name": host}]:
                found[table["name"]] = table.get("offset", numbers.get("offset", 0))
        return found

    def follows(self) -> list[tuple[str, str, int]]:
        """The neighbouring clocks of each host: the earlier, the later, and the gap of the later one."""
        pairs = (pair for tables in self.tables.values() for pair in zip(tables, tables[1:]))
        return [(one["name"], other["name"], other.get("gap", 0)) for one, other in pairs]

    def draw_links(self, draw: Random) -> None:
        for one in self.hosts:
            for other in self.hosts:
                if draw.random() < 0.8:
                    least = draw.choice((0, 10, 40))
                    self.links[one, other] = (least, draw.choice((None, least + 5, least + 40, least + 300)))

    def text(self) -> str:
        """The declaration."""
        lines = [f'source = "{self.source}"'] if self.source else []
        lines += [] if self.window is None else [f"window = {self.window}"]
        for host, numbers in self.hosts.items():
            lines += [f"[hosts.{host}]", *(f"{key} = {value}" for key, value in numbers.items())]
            for table in self.tables[host]:
                values = (f'{key} = "{value}"' if key == "name" else f"{key} = {value}" for key, value in table.items())
                lines += [f"[[hosts.{host}.clocks]]", *values]
        for label, host in self.labels.items():
            clock = [f'clock = "{self.clock_of[label]}"'] if label in self.named else []
            bounds = [f"{key} = {value}" for key, value in self.bounds[label].items()]
            lines += [f'[labels.{label}]\nhost = "{host}"\nkind = "log"', *clock, *bounds]
        for (one, other), (least, most) in self.links.items():
            greatest = [] if most is None else [f"most = {most}"]
            lines += [f'[[links]]\nfrom = "{one}"\nto = "{other}"\nleast = {least}', *greatest]
        return "\n".join(lines) + "\n"


class Traces:
    """The pieces of all logs in the order in which they come, drawn at random: pairs of a label and its rows."""

    def __init__(self, draw: Random, declared: Declared) -> None:
        self.draw, self.declared = draw, declared
        # (from when to when each clock is its host's; a stamp is some 50 ns wrong at most)
        self.spans: dict[str, tuple[int, int]] = {}
        gaps = {later: gap for _, later, gap in declared.follows()}
        for names in map(declared.clocks_of, declared.hosts):
            for at, name in enumerate(names):
                until = 2000 * (at + 1) // len(names) - gaps[names[at + 1]] - 100 if at + 1 < len(names) else 10**9
                self.spans[name] = (2000 * at // len(names), until)
        self.offsets = {name: 100 + self.drawn_offset(name) for name in self.spans}
        self.wrong = draw.choice((0, 0, 0.05, 0.3))
        self.rows: dict[str, list[Row]] = {label: [] for label in declared.labels}
        # (where there is a window, few keys may serve all messages)
        keys = 14 if declared.window is None else draw.choice((2, 4, 14))
        for number in range(draw.randint(1, 14)):
            self.put_message(f"m{number % keys}")
        for _ in range(draw.randint(0, 4)):
            label = draw.choice([*self.rows])
            self.put(label, self.time(label), "local", "")

    def drawn_offset(self, clock: str) -> int:
        """How far a clock is ahead: as is said, or it begins at any number, or starts with almost nothing again."""
        said = self.declared.offsets()[clock]
        if said and self.draw.random() < 0.6:
            return said
        return self.draw.choice((self.draw.randrange(3000), -self.spans[clock][0]))

    def time(self, label: str) -> int:
        """A moment at which the clock of a label is that of its host."""
        first, until = self.spans[self.declared.clock_of[label]]
        return self.draw.randrange(first, min(until, 2000))

    def holds(self, label: str, time: int) -> bool:
        """Whether the clock of a label is its host's then."""
        first, until = self.spans[self.declared.clock_of[label]]
        return first <= time < until

    def put(self, label: str, time: int, kind: str, key: str) -> None:
        """Puts an event into a log, with a stamp that is lawful for its time, or with any."""
        clock = self.declared.clock_of[label]
        early, late = self.declared.bounds_of(label)
        stamp = time + self.offsets[clock] + self.draw.randint(-late, early)
        if self.draw.random() < self.wrong:
            stamp += self.draw.randint(-400, 400)
        self.rows[label].append((max(stamp, 0), kind, key, self.draw.choice(("", "", "a note"))))

    def put_message(self, key: str) -> None:
        """Puts a message, whose key may be sent or received again, or but once."""
        draw, send = self.draw, self.draw.choice([*self.rows])
        time = self.time(send)
        if draw.random() < 0.9:
            self.put(send, time, "send", key)
        for _ in range(5 if draw.random() < 0.9 else 0):
            receive = draw.choice([*self.rows])
            hosts = (self.declared.labels[send], self.declared.labels[receive])
            least, most = self.declared.links.get(hosts, (0, None))
            arrival = time + draw.randint(least, least + 300 if most is None else most)
            # (what arrives while another clock is the host's is wrong)
            if self.holds(receive, arrival) or draw.random() < self.wrong:
                self.put(receive, arrival, "receive", key)
                break
        if draw.random() < 0.3:
            label = draw.choice([*self.rows])
            self.put(label, self.time(label), draw.choice(("send", "receive")), key)

    def pieces(self) -> list[tuple[str, list[Row]]]:
        """The pieces: most rows of a log come upward by stamp, some late, and pieces of all logs in turn."""
        draw = self.draw
        waiting: dict[str, list[list[Row]]] = {}
        for label, rows in self.rows.items():
            rows.sort(key=lambda row: row[0] + (draw.randrange(1500) if draw.random() < 0.3 else 0))
            cuts = sorted(draw.randrange(len(rows) + 1) for _ in range(draw.randrange(5)))
            waiting[label] = [rows[a:b] for a, b in zip([0, *cuts], [*cuts, len(rows)])]
        found = []
        while waiting:
            label = draw.choice([*waiting])
            found.append((label, waiting[label].pop(0)))
            if not waiting[label]:
                del waiting[label]
        return found


class Held:
    """What a session holds, in the plainest way."""

    def __init__(self, declared: Declared) -> None:
        self.declared = declared
        self.rows: dict[str, list[Row]] = {label: [] for label in declared.labels}
        self.kept: list[str] = []

    def events(self) -> list[tuple[str, str, Row]]:
        """The events by label and number: name, label and row."""
        return [(f"{label}#{n}", label, row) for label, rows in self.rows.items() for n, row in enumerate(rows, 1)]

    def groups(self) -> list[tuple[str, list[str], list[str]]]:
        """The keys with their sends and their receives, in the order of their first events; where there is a window, a
        key stands once for each group of its events."""
        first = self.first_times()
        found: dict[tuple[str, int], tuple[list[str], list[str]]] = {}
        for name, _, (_, kind, key, _) in self.events():
            if key:
                found.setdefault((key, first[name]), ([], []))[kind == "receive"].append(name)
        return [(key, *ends) for (key, _), ends in found.items()]

    def first_times(self) -> dict[str, int]:
        """When the group of each event with a key begins; without a window all of a key are one group."""
        window, offsets = self.declared.window, self.declared.offsets()
        times: dict[str, list[tuple[int, str]]] = {}
        for name, label, (stamp, _, key, _) in self.events():
            if key:
                times.setdefault(key, []).append((stamp - offsets[self.declared.clock_of[label]], name))
        found: dict[str, int] = {}
        for own in map(sorted, times.values()):
            begin = before = own[0][0]
            for time, name in own:
                if window is not None and time - before > window:
                    begin = time
                found[name], before = begin, time
        return found

    def messages(self) -> list[tuple[str, str]]:
        """The messages, in the order of their sends."""
        place = {name: at for at, (name, _, _) in enumerate(self.events())}
        pairs = [(sends[0], receives[0]) for _, sends, receives in self.groups() if len(sends) == len(receives) == 1]
        return sorted(pairs, key=lambda pair: place[pair[0]])

    def host(self, name: str) -> str:
        """The host of an event."""
        return self.declared.labels[name.split("#")[0]]

    def problem(self) -> list[str]:
        """The lines of the problem."""
        follows = self.declared.follows()
        has_own = bool(self.events()) and any(self.declared.bounds.values())
        lines = [f"problem {3 if has_own else 2 if follows else 1}"]
        lines += [f"clock {name} " + " ".join(map(str, numbers)) for name, numbers in self.declared.clocks().items()]
        lines += [f"follow {earlier} {later} {gap}" for earlier, later, gap in follows]
        for name, label, row in self.events():
            own = [str(it) for it in self.declared.bounds_of(label)] if has_own else []
            lines.append(" ".join(["event", name, self.declared.clock_of[label], str(row[0]), *own]))
        for send, receive in self.messages():
            least, most = self.declared.links.get((self.host(send), self.host(receive)), (0, None))
            lines.append(f"message {send} {receive} {least} {'none' if most is None else most}")
        return [*lines, "end"]

    def alone(self) -> dict[str, int]:
        """How many keys have sends and receives, and no group with both, where there is a window."""
        if self.declared.window is None:
            return {}
        kinds: dict[str, set[str]] = {}
        for _, _, (_, kind, key, _) in self.events():
            kinds.setdefault(key, set()).add(kind)
        both = {key for key, its in kinds.items() if {"send", "receive"} <= its}
        return {"alone": len(both - {key for key, sends, receives in self.groups() if sends and receives})}

    def report(self, consistent: bool) -> dict[str, Any]:
        """The object that `report` prints."""
        groups = self.groups()
        ambiguous = [it for it in groups if it[1] and it[2] and len(it[1]) + len(it[2]) > 2]
        local = sum(row[1] == "local" for _, _, row in self.events())
        return {
            **self.alone(),
            "ambiguous": [
                {"key": f"log {key}", "receives": receives, "sends": sends} for key, sends, receives in ambiguous
            ],
            "consistent": consistent,
            "events": len(self.events()),
            "messages": len(self.messages()),
            "nokey": {it: local if it == "local" else 0 for it in NO_KEYS},
            "unmatched": sum(
                len(sends) + len(receives) for _, sends, receives in groups if not (sends and receives)
            ),
        }


def written(folder: str, name: str, lines: Sequence[str]) -> str:
    """Writes a file and returns its name."""
    with open(f"{folder}/{name}", "w", encoding="ascii") as it:
        it.writelines(f"{line}\n" for line in lines)
    return name


def wrong(where: str, reply: Sequence[str], wanted: object) -> NoReturn:
    raise AssertionError(f"{where}: {' / '.join(reply)[:1500]!r}, and {wanted!r} is wanted")


def want(where: str, reply: Sequence[str], wanted: Sequence[str]) -> None:
    """Wants a reply to have these lines. Raises AssertionError."""
    if [*reply] != [*wanted]:
        wrong(where, reply, " / ".join(wanted))


class State:
    """A session between two lines, with what its problem's text says."""

    def __init__(self, held: Held, folder: str, judge: str) -> None:
        self.held, self.folder, self.judge = held, folder, judge
        self.lines = held.problem()
        self.answers = Answers(self.lines)
        self.earliest = self.answers.earliest()
        self.names = [name for name, _, _ in held.events()]
        self.unjudged = {"interval", "merge"}  # what `ends` and `solve` have not answered yet

    def judged(self, *words: str) -> list[str]:
        """What a command of the judging program prints about the problem, as lines."""
        written(self.folder, "problem", self.lines)
        command = [self.judge, words[0], "problem", *words[1:]]
        return subprocess.run(command, capture_output=True, text=True, cwd=self.folder).stdout.splitlines()

    def check(self, line: str, reply: list[str], command: str, *events: str) -> None:
        """Compares the reply to a question, which stands in this line.

        Raises AssertionError where it is another one."""
        refusal = None if command in ("problem", "report", "blame") else self.refusal(command, events)
        if command == "problem":
            want(line, reply, self.lines)
        elif command == "report":
            report = self.held.report(self.earliest is not None)
            want(line, reply, [json.dumps(report, separators=(",", ":"))])
        elif command == "blame":
            want(line, reply, ["blame none"] if self.earliest is not None else self.judged("blame"))
        elif refusal:
            want(line, reply, [refusal])
        elif command == "thin":
            want(line, reply, self.judged("thin", *events))
        elif self.earliest is None:
            self.check_contradiction(line, reply)
        else:
            checks: dict[str, Callable[..., None]] = {
                "interval": self.check_interval,
                "order": self.check_order,
                "time": self.check_time,
                "times": self.check_times,
                "prove": self.check_prove,
                "merge": self.check_merge,
            }
            checks[command](line, reply, *events)

    def refusal(self, command: str, events: Sequence[str]) -> str | None:
        """The refusal of a question, if it is refused."""
        if any(it not in self.names for it in events):
            return "refused 28"
        by_source = command == "time" or (command == "times" and not events)
        return "refused 29" if by_source and self.source_reading() is None else None

    def source_reading(self) -> tuple[str, int] | None:
        """A reading of the source's clock, or None."""
        source = self.held.declared.source
        return min((it for it in self.answers.problem.readings if it[0] == source), default=None)

    def verified(self, line: str, reply: list[str]) -> None:
        """Gives a certificate to `verify`."""
        want(f"verify of {line}", self.judged("verify", written(self.folder, "certificate", reply)), ["yes"])

    def check_contradiction(self, line: str, reply: list[str]) -> None:
        try:
            check_cycle(self.answers.problem, reply)
        except NoCycle as why:
            wrong(line, reply, f"a cycle ({why})")
        self.verified(line, reply)

    def check_interval(self, line: str, reply: list[str], first: str, second: str) -> None:
        ends = self.answers.ends(first, second)
        if "interval" in self.unjudged:
            self.unjudged.remove("interval")
            want(f"ends {first} {second}", self.judged("ends", first, second), [f"{interval(ends)} {order(ends)}"])
        want(line, reply, [f"interval {interval(ends)}"])

    def check_order(self, line: str, reply: list[str], first: str, second: str) -> None:
        want(line, reply, [f"order {order(self.answers.ends(first, second))}"])

    def time_of(self, event: str) -> Ends:
        """When an event was by the clock of the source."""
        reading = self.source_reading()
        assert reading is not None
        least, greatest = self.answers.ends(reading, event)
        stamp = reading[1] * 10**9
        return None if least is None else least + stamp, None if greatest is None else greatest + stamp

    def check_time(self, line: str, reply: list[str], event: str) -> None:
        want(line, reply, [f"time {interval(self.time_of(event))}"])

    def check_times(self, line: str, reply: list[str], *since: str) -> None:
        ends = [self.answers.ends(*since, name) if since else self.time_of(name) for name in self.names]
        lines = [f"{name} {interval(both)}" for name, both in zip(self.names, ends)]
        want(line, reply, [f"times {len(lines)}", *lines])

    def check_prove(self, line: str, reply: list[str], first: str, second: str) -> None:
        least, greatest = self.answers.ends(first, second)
        for wanted in (f"ends {first} {second}", f"upper {ns(greatest)}", f"lower {ns(least, '-inf')}"):
            if wanted not in reply:
                wrong(line, reply, wanted)
        self.verified(line, reply)

    def check_merge(self, line: str, reply: list[str]) -> None:
        events, values = self.held.events(), self.earliest
        assert values is not None
        if "merge" in self.unjudged:
            self.unjudged.remove("merge")
            told = self.judged("solve")
            run = [f"event {name} {ns(values[name])}" for name in self.names]
            want("solve", told[: 2 + len(events)], ["certificate 1", "run", *run])
        times = [values[name] for name, _, _ in events]
        in_order = [event for _, event in sorted(zip(times, events), key=lambda it: it[0])]
        wanted = [f"{ns(values[name])} {name}" + (f" {row[3]}" if row[3] else "") for name, _, row in in_order]
        want(line, reply, [f"merge {len(events)}", *wanted])


def questions(draw: Random, names: list[str], kept: list[str]) -> list[str]:
    """Questions about these events, some of them about kept ones, and at times about one that is not there."""
    names = [*names, "z#1"] if not names or draw.random() < 0.02 else names
    pairs = [(draw.choice(names), draw.choice(names)) for _ in range(3)]
    pairs += [draw.choice(((it, draw.choice(names)), (draw.choice(names), it))) for it in kept]
    if kept:
        chosen = draw.choice(kept)
        pairs += [(chosen, name) for name in names]
    lines = [f"{draw.choice(('interval', 'interval', 'order'))} {one} {other}" for one, other in pairs]
    lines += [f"prove {one} {other}" for one, other in draw.sample(pairs, 2)]
    lines += [f"time {draw.choice(names)}" for _ in range(3)] + ["times", f"times {draw.choice(kept or names)}"]
    lines += [f"times {draw.choice(names)}", "merge", "report", "blame"]
    lines += [" ".join(["thin", *draw.choices(names, k=draw.randrange(4))])]
    return draw.sample(lines, draw.randint(1, len(lines)))


@dataclass(frozen=True)
class Line:
    """A line of a script, with the label and the rows of the piece that it adds, if it adds one."""

    text: str
    label: str | None = None
    rows: Sequence[Row] = ()


def script_of(draw: Random, declared: Declared, pieces: list[tuple[str, list[Row]]], folder: str) -> list[Line]:
    """Writes the pieces, and returns the script."""
    lines: list[Line] = []
    kept: list[str] = []
    came, keeps = dict.fromkeys(declared.labels, 0), draw.choice((0, 0.5, 1, 3))
    for number, (label, rows) in enumerate(pieces):
        path = written(folder, f"piece{number}", [",".join(map(str, row)) for row in rows])
        lines.append(Line(f"add {label} {path}", label, rows))
        came[label] += len(rows)
        names = [f"{it}#{n}" for it, count in came.items() for n in range(1, count + 1)]
        while names and draw.random() < keeps / (keeps + 1):
            kept.append(draw.choice(names))
            lines.append(Line(f"keep {kept[-1]}"))
        lines += [Line(text) for text in ["problem", *questions(draw, names, kept[:8])]]
    return lines


def check_addition(where: str, reply: list[str], state: State, label: str, rows: Sequence[Row]) -> State:
    """Adds the rows of a piece to what is held, compares the reply, and returns the state behind it."""
    held = state.held
    before = set(held.messages())
    held.rows[label] += rows
    after, state = set(held.messages()), State(held, state.folder, state.judge)
    counts = f"events {len(rows)} messages {len(after - before)} withdrawn {len(before - after)} pending 0"
    want(where, reply, [f"added {counts} {'inconsistent' if state.earliest is None else 'consistent'}"])
    return state


def check_keep(where: str, reply: list[str], held: Held, event: str) -> None:
    """Keeps an event, and compares the reply."""
    if event not in held.kept and len(held.kept) < 8:
        held.kept.append(event)
    want(where, reply, [f"kept {held.kept.index(event) + 1}" if event in held.kept else "refused 30"])


def run(number: int, folder: str, judge: str, seen: dict[str, int]) -> None:
    """Runs the session of a number, and counts what was seen."""
    draw = Random(number)
    declared = Declared(draw)
    written(folder, "hosts.toml", [declared.text()])
    script = script_of(draw, declared, Traces(draw, declared).pieces(), folder)
    written(folder, "script.txt", [line.text for line in script])
    replies = answered("hosts.toml", [line.text for line in script], folder)
    state = State(Held(declared), folder, judge)
    for at, (line, reply) in enumerate(zip(script, replies), 1):
        where = f"line {at}, {line.text}"
        if line.label:
            was, state = state.earliest, check_addition(where, reply, state, line.label, line.rows)
            seen["additions"] += 1
            seen["withdrawals"] += int(reply[0].split(" ")[6])
            seen["contradictions"] += was is not None and state.earliest is None
            seen["ends of contradictions"] += was is None and state.earliest is not None
        elif line.text.startswith("keep"):
            check_keep(where, reply, state.held, line.text.split(" ")[1])
        else:
            state.check(where, reply, *line.text.split(" "))
            seen["questions"] += 1


def leave(number: int, folder: str, why: Exception) -> None:
    """Tells what went wrong in a session, and keeps its files."""
    left = f"{LEFT}/session-{number}"
    shutil.rmtree(left, ignore_errors=True)
    shutil.copytree(folder, left)
    print(f"session {number}: {why}\nits files stay in {left}; random_sessions.py 1 {number} runs it again")


def main() -> int:
    parser = argparse.ArgumentParser(description=__doc__.split("\n\n")[0])
    parser.add_argument("--judge", metavar="PATH", help="another program for `ends`, `solve`, `blame`, `thin` and `verify`")
    parser.add_argument("sessions", metavar="SESSIONS", nargs="?", type=int, default=200, help="how many sessions; 200")
    parser.add_argument("seed", metavar="SEED", nargs="?", type=int, default=1, help="the number of the first; 1")
    said = parser.parse_args()
    judge = os.path.abspath(said.judge) if said.judge else program()
    seen = dict.fromkeys(("additions", "withdrawals", "contradictions", "ends of contradictions", "questions"), 0)
    for number in range(said.seed, said.seed + said.sessions):
        with tempfile.TemporaryDirectory() as folder:
            try:
                run(number, folder, judge, seen)
            except (AssertionError, RuntimeError) as why:
                leave(number, folder, why)
                return 1
    counts = ", ".join(f"{count} {name}" for name, count in seen.items())
    print(f"{said.sessions} sessions as their problems have it: {counts}")
    return 0


if __name__ == "__main__":
    sys.exit(main())
