"""Moves spans of OTLP to the earliest execution of a session, and puts what is certain of their order into attributes."""

import argparse
import os
import tempfile
from collections.abc import Iterable
from dataclasses import dataclass, field
from typing import Any

from explaining import Explainer
from inputs import Input, open_input
from log_formats.fields import need
from log_formats.hosts import rows_text, written_hosts
from log_formats.making import Rows
from log_formats.spans import Span
from log_formats.stamps import Unreadable
from own_program import RecordedSession
from timeline import AFTER, BEFORE, is_apart, order_of
from tracesync.numbers import UNITS, ns_text, read_ns
from tracesync.problems import read_problem
from tracesync.timelines import read_merge

# How a row of a span is made: by its kind and its ids alone.
PLAIN = argparse.Namespace(key=None, text=None, prefixes=["", ""], kind="kind", all_kind="local", sends=[], receives=[], also=None)
KEPT_MOST = 8


class Told(Exception):
    """The session gives no times, for the reasons that `lines` say."""

    def __init__(self, lines: list[str]) -> None:
        super().__init__("; ".join(lines))
        self.lines = lines


@dataclass
class Placed:
    """A span with the names of its events in the session: those of its start, of its end and of its own events."""

    span: Span
    names: dict[str | int, str] = field(default_factory=dict)

    @property
    def start(self) -> str:
        return self.names["start"]

    @property
    def end(self) -> str:
        return self.names["end"]


class SpanTimes:
    """The spans of a session: their rows, their times, and what it replies about their order."""

    def __init__(self, spans: list[Span], explainer: Explainer) -> None:
        self.explainer = explainer
        self.placed = {id(it): Placed(it) for it in spans}
        self.times: dict[str, int] = {}
        self.stamps: dict[str, int] = {}
        self.base = 0
        self.inputs: list[Input] = []
        # (ends of messages that take more than no time)
        self.lasting: set[tuple[str, str]] = set()

    def write_rows(self, folder: str) -> None:
        """Writes the rows of each host into a folder."""
        rows = Rows(PLAIN)
        for _, label, found in written_hosts([it.span for it in self.placed.values()]):
            path = os.path.join(folder, f"{label}.csv")
            with open(path, "x", encoding="utf-8") as out:
                out.write(rows_text(rows.row(it.moment, it.moment.fields, it.moment.key) for it in found))
            for number, it in enumerate(found, 1):
                # (of a start that has several rows, as that of a consumer with links, the first one is its event)
                self.placed[id(it.span)].names.setdefault(it.place, f"{label}#{number}")
                self.stamps[f"{label}#{number}"] = int(it.moment.ns)
            self.inputs.append(open_input(Input(label, label, path)))

    def add(self, session: RecordedSession) -> None:
        """Adds the rows of all hosts. Raises Told where a file is refused."""
        for it in self.inputs:
            line = f"add {it.label} {it.path}"
            reply = session.ask(line)[0].split(" ")
            if reply[0] == "refused":
                raise Told([f"{' '.join(reply)}: {self.explainer.refusals.told(line, reply[1:])}"])

    def take_merge(self, session: RecordedSession) -> None:
        """Takes the times of the earliest execution, in which the first event keeps its stamp. Raises Told where the declaration is contradicted."""
        problem, merged = session.ask("problem"), session.ask("merge")
        if merged[0].startswith("certificate"):
            raise Told(["The declaration is contradicted, so there are no times.", *self.explainer.told_cycle(merged, problem, dict(enumerate(self.inputs)))])
        self.lasting = {ends for ends, (least, _) in read_problem(problem).messages.items() if least > 0}
        self.times = {it.name: it.time for it in read_merge(merged)}
        first = next(iter(self.times), None)
        self.base = self.stamps[first] * UNITS - self.times[first] if first else 0

    def unix_ns(self, name: str) -> int:
        """Returns the ns since 1970 of an event, by the clock of the first one; what is below is cut off."""
        return (self.base + self.times[name]) // UNITS

    def traces(self) -> list[list[Placed]]:
        """Returns the spans of each trace, as they begin in this execution."""
        found: dict[str, list[Placed]] = {}
        for it in sorted(self.placed.values(), key=lambda it: self.times[it.start]):
            found.setdefault(it.span.trace, []).append(it)
        return list(found.values())

    def move(self, it: Placed, told: dict[str, str]) -> bool:
        """Writes times and attributes into the object that a span was read from. Returns whether its end had to be put to its start."""
        raw, start, end = it.span.raw, self.unix_ns(it.start), self.unix_ns(it.end)
        raw["startTimeUnixNano"], raw["endTimeUnixNano"] = str(start), str(max(start, end))
        for number, event in enumerate(raw.get("events") or []):
            event["timeUnixNano"] = str(self.unix_ns(it.names[number]))
        exact = {f"tracesync.{place}.ns": ns_text(self.times[it.names[place]]) for place in ("start", "end")}
        raw["attributes"] = [*(raw.get("attributes") or []), *attributes({**exact, **told})]
        return self.times[it.end] < self.times[it.start]


class Trace:
    """What a session replies about the spans of one trace, which stand as they begin in the earliest execution."""

    def __init__(self, session: RecordedSession, spans: list[Placed], lasting: set[tuple[str, str]]) -> None:
        self.session, self.spans, self.lasting, self.first = session, spans, lasting, spans[0].start
        session.ask(f"keep {self.first}")
        self.words = {name: session.ask(f"interval {self.first} {name}")[0].split(" ") for it in spans for name in (it.start, it.end)}

    def told(self, it: Placed) -> dict[str, str]:
        """Returns the attributes of a span."""
        return {"tracesync.since": f"{self.spans[0].span.id} start", **self.ends(it), **self.parent(it), **self.sibling(it)}

    def ends(self, it: Placed) -> dict[str, str]:
        """Returns how much later than the first event of its trace a span began and ended, at least and at most."""
        found = {}
        for place in ("start", "end"):
            words = self.words[it.names[place]]
            found |= {f"tracesync.{place}.least_ns": words[1], f"tracesync.{place}.most_ns": words[2]}
        return found

    def order(self, one: str, other: str) -> str:
        """Returns how one event lies to another in each execution: before, after, same or open. It is asked where neither the intervals since the
        first one show it, nor that both are the ends of a message whose least delay is above 0."""
        ends = {name: (read_ns(self.words[name][1]), read_ns(self.words[name][2])) for name in (one, other)}
        if one == self.first:
            return order_of(ends[other])
        if (one, other) in self.lasting or is_apart(ends[one], ends[other]):
            return BEFORE
        if (other, one) in self.lasting or is_apart(ends[other], ends[one]):
            return AFTER
        return self.session.ask(f"order {one} {other}")[0].split(" ")[1]

    def parent(self, it: Placed) -> dict[str, str]:
        """Returns how the ends of a span's parent lie to those of the span."""
        parent = next((other for other in self.spans if other.span.id == it.span.parent and other is not it), None)
        if not parent:
            return {}
        return {"tracesync.order.parent_start": self.order(parent.start, it.start), "tracesync.order.parent_end": self.order(parent.end, it.end)}

    def sibling(self, it: Placed) -> dict[str, str]:
        """Returns how a span lies to the next one of the same parent, as they begin in this execution."""
        siblings = [other for other in self.spans if other.span.parent == it.span.parent]
        at = next(number for number, other in enumerate(siblings) if other is it)
        if not it.span.parent or at + 1 == len(siblings):
            return {}
        other = siblings[at + 1]
        return {"tracesync.next": other.span.id, "tracesync.order.next_start": self.order(other.start, it.start), "tracesync.order.next_start_end": self.order(other.start, it.end)}


def attributes(found: dict[str, str]) -> list[dict[str, Any]]:
    """Returns texts as attributes of OTLP."""
    return [{"key": name, "value": {"stringValue": value}} for name, value in found.items()]


def check(spans: Iterable[Span]) -> None:
    """Raises ValueError where a span has attributes that are no array, or is there twice."""
    seen = set()
    for it in spans:
        try:
            need(isinstance(it.raw.get("attributes") or [], list), f"an array as `attributes` of the span {it.id}")
        except Unreadable as why:
            raise ValueError(str(why))
        if (it.trace, it.id, it.kind) in seen:
            raise ValueError(f"the span {it.id} of the trace {it.trace} is there twice")
        seen.add((it.trace, it.id, it.kind))


def move_spans(declaration: str, program: str, spans: list[Span]) -> tuple[int, int]:
    """Moves spans, and returns how many there are, and how many end before they begin in this execution. Raises Told where there are no times."""
    check(spans)
    found, told = SpanTimes(spans, Explainer(declaration, program)), {}
    with tempfile.TemporaryDirectory(prefix="tracesync-") as folder:
        found.write_rows(folder)
        with RecordedSession(declaration, program) as session:
            found.add(session)
            found.take_merge(session)
        traces = found.traces()
        # (a session keeps so many events, and to add all once more is less work than to ask from an event that is not kept)
        for at in range(0, len(traces), KEPT_MOST):
            with RecordedSession(declaration, program) as session:
                found.add(session)
                for trace in (Trace(session, it, found.lasting) for it in traces[at : at + KEPT_MOST]):
                    told |= {id(it.span): trace.told(it) for it in trace.spans}
    turned = [found.move(it, told[id(it.span)]) for it in found.placed.values()]
    return len(turned), sum(turned)
