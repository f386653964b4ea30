"""The timeline of a session: its events in one execution, how far each may lie from a chosen one, and what it says of pairs.

Nothing here is worked out that the program could answer: differences of real times are replies to `times` or `interval`, orders are replies
to `order`, or follow from the ends of one interval, or of two intervals from the same event. What was not asked is said to be unknown.
"""

import json
from collections import Counter
from collections.abc import Callable, Iterable, Iterator
from dataclasses import dataclass, field
from itertools import combinations
from typing import Any, Protocol, TypeVar

from chains import Proof, read_proof
from inputs import Input
from own_program import Look, RecordedSession
from progress import Progress
from records import Record, records_of
from tracesync.numbers import UNITS, Interval, read_interval
from tracesync.problems import Delay, Problem, read_problem
from tracesync.timelines import Merge, Times, read_merge, read_times

K = TypeVar("K")
T = TypeVar("T")
# A line for a session, and what takes the lines of its reply.
Question = tuple[str, Callable[[list[str]], None]]

FROM_MOST = 8
# How many messages of a link are asked for if not said, at most and at least: an answer may take a search over all events, so questions
# times events are kept below DELAYS_WORK; where links times events are more than LINKS_WORK, none is asked. PAIRS_WORK is the same of orders.
DELAYS_MOST, DELAYS_LEAST, DELAYS_WORK, LINKS_WORK, PAIRS_WORK = 1000, 1, 6_000_000, 100_000_000, 3_000_000
# How many proofs are asked for that nobody named, times the events: each reply has several lines for each event.
PROOFS_WORK = 10_000
# Of so few lines it is not told how many were answered.
FEW = 20
# The reply where the source has no event.
NO_SOURCE = "refused 29"
NO_RECORD = Record()
BEFORE, AFTER, SAME, OPEN = "before", "after", "same", "open"


@dataclass(slots=True)
class Event:
    """An event: its name, host, stamp in ns, time in the earliest execution in units, what it is, the same in few words,
    its ends by the clock of the source, and the packet or row that it is."""

    name: str
    host: str
    stamp: int
    time: int
    text: str = ""
    brief: str = ""
    source_time: Interval | None = None
    record: Record = NO_RECORD


@dataclass(slots=True)
class Message:
    """A message: its two events, its delay's ends in units where they were asked for, and those that are declared; a greatest may be None for
    no limit."""

    send: str
    receive: str
    delay: Interval | None = None
    declared: Interval = Interval(None, None)


@dataclass
class Timeline:
    """What is known of a session; `ends` has, for each event that was asked from, the ends to each event, None for an infinite one."""

    hosts: list[str] = field(default_factory=list)
    events: list[Event] = field(default_factory=list)
    messages: list[Message] = field(default_factory=list)
    ends: dict[str, dict[str, Interval]] = field(default_factory=dict)
    orders: dict[tuple[str, str], str] = field(default_factory=dict)
    proofs: dict[tuple[str, str], Proof] = field(default_factory=dict)
    report: dict[str, Any] = field(default_factory=dict)
    added: list[tuple[Input, str]] = field(default_factory=list)
    cycle: list[str] | None = None
    problem: list[str] = field(default_factory=list)
    notes: list[str] = field(default_factory=list)
    is_proved: bool = True

    def find(self, name: str) -> Event:
        """Returns the event of a name, which is one of them."""
        return next(it for it in self.events if it.name == name)


def order_of(ends: Interval) -> str:
    """Returns which of two events comes first, by the ends of the interval from the first to the second: exactly as `order` replies."""
    least, greatest = ends
    if least is not None and least > 0:
        return BEFORE
    if greatest is not None and greatest < 0:
        return AFTER
    return SAME if least == greatest == 0 else OPEN


def is_apart(one: Interval, other: Interval) -> bool:
    """Returns whether the first of two events is certainly earlier, by the ends of their intervals from one and the same event."""
    return one[1] is not None and other[0] is not None and one[1] < other[0]


class Asked(Protocol):
    """What replies to the lines of a session."""

    def ask_all(self, lines: list[str]) -> list[list[str]]:
        """Returns the lines of each reply."""


class Asking:
    """Asks a session for a timeline."""

    def __init__(self, session: Asked, inputs: list[Input], chosen: Iterable[str] = (), delays: int | None = None, pairs: int | None = None,
                 source: str | None = None, progress: Progress | None = None, proved: Iterable[tuple[str, str]] = ()) -> None:  # fmt: skip
        self.session, self.inputs, self.chosen, self.delays, self.pairs, self.source = session, inputs, list(chosen), delays, pairs, source
        self.proved = list(proved)
        self.progress = progress or Progress()
        self.found = Timeline()

    def timeline(self) -> Timeline:
        """Returns the timeline. Of a contradiction it has the cycle, the problem and the report alone."""
        found = self.found
        additions = [f"add {it.label} {it.path}" for it in self.inputs]
        *added, report, found.problem, merged = self.ask_parts({"adding the files": additions, "finding one timeline of all": ["report", "problem", "merge"]})
        found.added = [(it, reply[0]) for it, reply in zip(self.inputs, added)]
        found.report = json.loads(report[0])
        problem = read_problem(found.problem)
        if merged[0].startswith("certificate"):
            found.cycle = merged
        elif problem.events:
            self.progress.begin("reading what the packets are")
            self.take_events(problem, read_merge(merged))
            self.ask_rounds({
                "asking when events were": list(self.ends()),
                "asking for delays": list(self.delays_of(problem)),
                "asking when events were by the source": list(self.times()),
                "asking for proofs": list(self.proofs()),
            })  # fmt: skip
            self.ask_orders()
        return found

    def ask_parts(self, parts: dict[str, list[str]]) -> list[list[str]]:
        """Returns the replies to the lines of all parts, each told as what it is; all at once where a session reads its script to the end."""
        if isinstance(self.session, Look):
            parts = {"asking for all": [line for lines in parts.values() for line in lines]}
        replies = []
        for told, lines in parts.items():
            if lines:
                # (how long a file or a merge takes, the one before does not say)
                self.progress.begin(told, len(lines) if len(lines) > FEW else 0)
                replies += self.session.ask_all(lines)
        return replies

    def ask_rounds(self, rounds: dict[str, list[Question]]) -> None:
        """Asks rounds of questions, each a line and what takes the lines of its reply."""
        replies = self.ask_parts({told: [line for line, _ in questions] for told, questions in rounds.items()})
        for (_, take), reply in zip([it for questions in rounds.values() for it in questions], replies):
            take(reply)

    def take_events(self, problem: Problem, merged: Merge) -> None:
        """Takes the events in the order of the merge, hosts by their first events, and messages."""
        records, events = self.records(problem), self.found.events
        for name, time, text in merged:
            host, stamp = problem.events[name]
            it = records.get(name, NO_RECORD)
            events.append(Event(name, host, stamp, time, text or it.text, text or it.brief, None, it))
        self.found.hosts = list(dict.fromkeys([*(it.host for it in events), *problem.clocks]))
        # (a link has one declared delay, and mostly many messages)
        declared = {it: declared_of(it) for it in set(problem.messages.values())}
        self.found.messages = [Message(*ends, None, declared[it]) for ends, it in problem.messages.items()]

    def records(self, problem: Problem) -> dict[str, Record]:
        """Returns the packet or row behind each event; nothing of a label with another number of events."""
        found: dict[str, Record] = {}
        counts = Counter(name.partition("#")[0] for name in problem.events)
        for label in dict.fromkeys(it.label for it in self.inputs):
            own = [it for it in self.inputs if it.label == label]
            records = [record for it in own for record in records_of(it)]
            if len(records) == counts[label]:
                found |= {f"{label}#{number}": record for number, record in enumerate(records, 1)}
            elif own[0].kind == "capture":
                told = f"{label} has {counts[label]} events, and {len(records)} packets were read here"
                self.found.notes.append(f"{told}: they have no texts")
        return found

    def ends(self) -> Iterator[Question]:
        """Yields the questions how much later each event was than each chosen one, at least and at most: one for each of these, which is kept."""
        names = {it.name for it in self.found.events}
        for name in self.chosen or [self.found.events[0].name]:
            if name not in names:
                raise ValueError(f"there is no event {name}")
            own = self.found.ends[name] = {}
            yield f"keep {name}", lambda reply: None
            yield f"times {name}", lambda reply, own=own: own.update(times_of(reply))

    def delays_of(self, problem: Problem) -> Iterator[Question]:
        """Yields the questions for the delay of each message; of a link with too many, of some that lie evenly among all."""
        links: dict[tuple[str, str], list[Message]] = {}
        asked = 0
        for it in self.found.messages:
            links.setdefault((problem.events[it.send][0], problem.events[it.receive][0]), []).append(it)
        most = self.most(len(links))
        for messages in links.values():
            for it in evenly(messages, most):
                asked += 1
                yield f"interval {it.send} {it.receive}", setting(it, "delay", ends_of)
        if asked < len(self.found.messages):
            told = f"{asked} of {len(self.found.messages)} messages were asked for their delays, of each link some evenly among all"
            self.found.notes.append(f"{told}; --delays N asks N of each link" if self.delays is None else told)

    def most(self, groups: int) -> int:
        """Returns how many questions are asked of each of so many groups: what was said, or so many that all stay quick."""
        if self.delays is not None:
            return self.delays
        work = max(len(self.found.events), 1) * max(groups, 1)
        return min(max(DELAYS_WORK // work, DELAYS_LEAST), DELAYS_MOST) if work <= LINKS_WORK else 0

    def times(self) -> Iterator[Question]:
        """Yields the question when all events were by the clock of the source, if there is one."""
        if self.source:
            yield "times", self.take_times

    def take_times(self, reply: list[str]) -> None:
        """Takes when the events of other clocks were by that of the source; nothing where the source has no event."""
        if reply != [NO_SOURCE]:
            found = times_of(reply)
            for it in self.found.events:
                if it.host != self.source:
                    it.source_time = found[it.name]

    def proofs(self) -> Iterator[Question]:
        """Yields the questions for proofs: of named pairs, of each two chosen events, and from the first one to some."""
        names = [it.name for it in self.found.events]
        bases = self.chosen or names[:1]
        done: set[tuple[str, str]] = set()
        for one, other in (*self.proved, *combinations(bases, 2), *((bases[0], it) for it in self.first_events())):
            for name in (one, other):
                if name not in names:
                    raise ValueError(f"there is no event {name}")
            if one != other and (one, other) not in done and (other, one) not in done:
                done.add((one, other))
                yield f"prove {one} {other}", proving(self.found, (one, other))

    def first_events(self) -> list[str]:
        """Returns so many events as are quickly proved, from the first message on; none where each reply takes minutes."""
        if isinstance(self.session, Look):
            return []
        names = [it.name for it in self.found.events]
        ends = {name for it in self.found.messages for name in (it.send, it.receive)}
        first = next((at for at, name in enumerate(names) if name in ends), 0)
        return names[first : first + PROOFS_WORK // max(len(names), 1)]

    def ask_orders(self) -> None:
        """Asks for the order of pairs whose bars lie over one another, those nearest in the merge first."""
        found, names = self.found, [it.name for it in self.found.events]
        questions: list[Question] = []
        delays = {(it.send, it.receive): it.delay for it in found.messages if it.delay}
        most = self.pairs if self.pairs is not None else PAIRS_WORK // max(len(names), 1)
        for pair in near_pairs(names, next(iter(found.ends.values()))):
            if pair[0] in found.ends or pair[1] in found.ends:
                continue
            if pair in delays:
                found.orders[pair] = order_of(delays[pair])
            elif len(questions) < most:
                questions.append((f"order {pair[0]} {pair[1]}", putting(found.orders, pair, lambda words: words[1])))
            else:
                told = f"of the pairs whose bars lie over one another {f'only {most}' if most else 'none'} were asked for their order"
                found.notes.append(f"{told}{', the nearest in the list' if most else ''}; --pairs N asks N")
                break
        self.ask_rounds({"asking for orders": questions})


def declared_of(it: Delay) -> Interval:
    """Returns the ends of a declared delay in units."""
    return Interval(it.least * UNITS, None if it.most is None else it.most * UNITS)


def ends_of(words: list[str]) -> Interval:
    """Returns both ends that a reply to `interval` has."""
    if words[0] != "interval":
        raise ValueError(f"the session replied {' '.join(words)} to a question about two events")
    return read_interval(*words[1:3])


def times_of(reply: list[str]) -> Times:
    """Returns both ends of each event that a reply to `times` has."""
    if not reply[0].startswith("times "):
        raise ValueError(f"the session replied {reply[0]} to a question about all events")
    return read_times(reply)


def putting(found: dict[K, T], key: K, read: Callable[[list[str]], T]) -> Callable[[list[str]], None]:
    """Returns what puts under a key what is read of the words of a reply's first line."""

    def take(reply: list[str]) -> None:
        found[key] = read(reply[0].split(" "))

    return take


def setting(it: Message, name: str, read: Callable[[list[str]], Interval]) -> Callable[[list[str]], None]:
    """Returns what sets a field of a message to what is read of the words of a reply's first line."""

    def take(reply: list[str]) -> None:
        setattr(it, name, read(reply[0].split(" ")))

    return take


def proving(found: Timeline, pair: tuple[str, str]) -> Callable[[list[str]], None]:
    """Returns what takes a reply as the proof of a pair."""

    def take(reply: list[str]) -> None:
        found.proofs[pair] = read_proof(reply)

    return take


def evenly(found: list[T], most: int) -> list[T]:
    """Returns at most so many of a list, which lie evenly in it."""
    count = min(len(found), most)
    return [found[k * len(found) // count] for k in range(count)]


def near_pairs(names: list[str], ends: dict[str, Interval]) -> Iterator[tuple[str, str]]:
    """Yields the pairs of which neither is apart from the other by these ends, as they stand in the list: neighbours first."""
    lowest = float("inf")
    least_behind = [lowest] * (len(names) + 1)
    for at in range(len(names) - 1, -1, -1):
        least = ends[names[at]][0]
        lowest = min(lowest, float("-inf") if least is None else least)
        least_behind[at] = lowest
    highest = [float("inf") if greatest is None else greatest for greatest in (ends[it][1] for it in names)]
    live = list(range(len(names)))
    for apart in range(1, len(names)):
        # (behind each of these some event may still be as early)
        live = [at for at in live if at + apart < len(names) and highest[at] >= least_behind[at + apart]]
        if not live:
            return
        for at in live:
            if not is_apart(ends[names[at]], ends[names[at + apart]]):
                yield names[at], names[at + apart]


def make_timeline(session: RecordedSession | Look, inputs: list[Input], chosen: Iterable[str] = (), delays: int | None = None, pairs: int | None = None,
                  source: str | None = None, progress: Progress | None = None, proved: Iterable[tuple[str, str]] = ()) -> Timeline:  # fmt: skip
    """Returns the timeline that a session over inputs gives."""
    with session:
        return Asking(session, inputs, chosen, delays, pairs, source, progress, proved).timeline()
