#!/usr/bin/env python3
"""Measures how what a session does grows with what it holds: each figure is one of processor time, or of memory.

    bench/growth.py [--sizes N,N..] [--runs N] [--other PATH] [more options] [PART..]

With no PARTs all of these, over the logs of eight hosts that send messages to one another (workload.py):

    questions     all additions, one log a host, and each question
    kept          questions about a kept event beside those about one that is not, where eight are kept
    additions     one addition of 1, 10, 100 and 1,000 events at the end, where none is kept and where eight are
    withdrawals   an addition of a second send, which withdraws a message: any one, or one of the last tenth
    memory        bytes an event at rest, behind all additions, and at the peak
    pieces        20,000 events in 320 pieces beside 8
    labels        labels that sort in another order than their hosts
    downward      rows that come downward by stamp, within a piece or piece by piece

The first five are measured at each of the sizes, 1,000, 10,000, 100,000 and 1,000,000 events if none are named; the
limit of a session is 2^24. `labels` and `downward` are measured at so many events as those options say, at twice and
at four times as many. PROGRAM names the program, else it is the one that is built here; PATH a second one, whose
figures stand beside. Each figure is the least of N runs, 3 if it is not said, and a run has many additions or
questions where they are short; a figure that has taken --limit seconds, 10 if it is not said, takes no further run. A
script that is stopped prints what it has.
"""

import argparse
import os
import random
import sys
import tempfile
from collections.abc import Callable, Sequence
from dataclasses import dataclass

from common import MOST_EVENTS, program
from live import Live
from workload import HOSTS, Folder, Happening, Piece, Tail, by_host, cut, declaration, happenings

# How many additions of so many events a run has at most.
ADDITIONS = {1: 64, 10: 32, 100: 16, 1000: 8}
# Sessions of at most so many events begin anew where they should.
AFRESH = 100_000
GROWING = ("questions", "kept", "additions", "withdrawals", "memory")
TITLES = {
    "questions": "All additions, and a question, ms",
    "kept": "A question where eight events are kept, ms",
    "additions": "An addition at the end, ms",
    "withdrawals": "An addition that withdraws a message, ms",
    "memory": "Bytes an event",
    "pieces": "20,000 events in pieces, s",
    "labels": "All additions and a question, by the order of labels, ms",
    "downward": "All additions, by the order in which rows come, s",
}

# What a run took in all, and what it says of one addition or question; None where it has no room any more.
Measured = tuple[float | None, float | None]
Put = Callable[[str, str, float | None], None]


@dataclass(frozen=True)
class Settings:
    """The programs, how many runs each figure is the least of, and the seconds after which it takes no further run."""

    programs: Sequence[str]
    runs: int
    limit: float

    def least(self, measured: Callable[[], Measured]) -> float | None:
        """The least of what some runs say of one, of fewer where they take too long, or where one has no room any
        more."""
        found: list[float] = []
        taken = 0.0
        for _ in range(self.runs):
            seconds, each = measured()
            if seconds is None or each is None:
                break
            found.append(each)
            taken += seconds
            if taken > self.limit:
                break
        return min(found, default=None)

    def additions(self, at: int, folder: Folder, pieces: Sequence[Piece]) -> float | None:
        """The seconds of additions one by one by a program; None where they take much too long."""

        def run() -> Measured:
            live, taken = Live(self.programs[at], folder.declaration), 0.0
            for piece in pieces:
                taken += live.add([piece])[1]
                if taken > 20 * self.limit:
                    break
            live.close()
            return (taken, taken) if taken <= 20 * self.limit else (None, None)

        return self.least(run)


def short(figure: float | None) -> str:
    """A figure with three digits that count."""
    if figure is None:
        return "-"
    return f"{figure:.0f}" if figure >= 100 else f"{figure:#.3g}"


def ms(seconds: float | None) -> float | None:
    return None if seconds is None else 1000 * seconds


class Figures:
    """The figures of each part: for what, at how many events, those of the programs."""

    def __init__(self, programs: Sequence[str]) -> None:
        self.programs = programs
        self.rows: dict[str, dict[str, dict[int, dict[int, float | None]]]] = {part: {} for part in TITLES}

    def put(self, part: str, what: str, events: int, at: int, figure: float | None) -> None:
        self.rows[part].setdefault(what, {}).setdefault(events, {})[at] = figure
        print(f"{self.programs[at]}: {part}, {what}, {events} events: {short(figure)}", file=sys.stderr, flush=True)

    def cells(self, found: dict[int, float | None]) -> list[float | None]:
        """The figures of all programs, and how many times the first the second is."""
        cells = [found.get(at) for at in range(len(self.programs))]
        if len(cells) > 1:
            one, other = cells
            cells.append(other / one if one and other else None)
        return cells

    def show(self) -> None:
        both = len(self.programs) > 1
        for part, title in TITLES.items():
            if self.rows[part]:
                print(f"\n{title}:\n\n| what | events | program |" + (" other | times |" if both else ""))
                print("|---|---:|---:|" + ("---:|---:|" if both else ""))
            for what, sizes in self.rows[part].items():
                for events, found in sizes.items():
                    print(f"| {what} | {events} | " + " | ".join(map(short, self.cells(found))) + " |", flush=True)


def in_turn(folder: Folder, logs: Sequence[list[str]], pieces: int) -> list[Piece]:
    """The logs in so many pieces a host, those of all hosts in turn."""
    parts = [cut(rows, pieces) for rows in logs]
    return [folder.piece(f"h{host}", parts[host][turn]) for turn in range(pieces) for host in range(HOSTS)]


class Session:
    """A session that holds so many events, none or eight of which are kept, and what may come behind them."""

    def __init__(
        self, settings: Settings, at: int, events: int, happened: Sequence[Happening], has_kept: bool, path: str
    ) -> None:
        self.settings, self.at = settings, at
        self.events, self.happened, self.has_kept = events, happened, has_kept
        self.folder = Folder(path, declaration())
        self.live = Live(settings.programs[at], self.folder.declaration)
        self.begun_with: tuple[int, int] | None = None
        self.files: list[Piece] = []
        self.is_by_pieces = True
        self.open(events)

    def open(self, events: int) -> float:
        """Begins anew with so many events; the seconds that all additions took. They come in pieces, since whole logs
        may take long; where pieces take long, as they do where each addition costs what all events cost, they come in
        whole logs."""
        taken = self.load(events, max(1, events // 16_000)) if self.is_by_pieces else None
        if taken is None:
            self.is_by_pieces = False
            taken = self.load(events, 1) or 0.0
        if self.has_kept:
            self.live.ask([f"keep h{host}#1" for host in range(HOSTS)])
        self.tail, self.waiting = Tail(self.folder, self.happened, events), 0
        return taken

    def load(self, events: int, pieces: int) -> float | None:
        """Begins anew with the logs of so many events, each in so many pieces; the seconds, or None where many pieces
        take more than 10 for 100,000 events."""
        self.live.close()
        self.live, taken = Live(self.settings.programs[self.at], self.folder.declaration), 0.0
        for piece in self.logs(events, pieces):
            taken += self.live.add([piece])[1]
            if pieces > 1 and taken * 10_000 > max(events, 20_000):
                return None
        return taken

    def logs(self, events: int, pieces: int) -> list[Piece]:
        """The files of the logs, which are written where other ones were before."""
        if self.begun_with != (events, pieces):
            self.begun_with = events, pieces
            self.files = in_turn(self.folder, by_host(self.happened[:events]), pieces)
        return self.files

    def has_room(self, events: int) -> bool:
        return self.live.events + events <= MOST_EVENTS

    def add_behind(self, count: int, events: int) -> float | None:
        """Adds so many pieces of so many events; the seconds of all, or None where there is no room."""
        found = [self.tail.piece(events) for _ in range(count)]
        pieces = [it for it in found if it is not None]
        if len(pieces) < count or not self.has_room(count * events):
            return None
        return self.live.add(pieces)[1]

    def some_additions(self, events: int) -> Measured:
        """The seconds that a run of additions of so many events takes, and those of one. Small sessions begin anew, and
        have as many events as they should behind the first additions: those tell little, since the other ends of their
        messages wait."""
        begun = 0.0
        if self.events <= AFRESH:
            if self.events <= HOSTS * events:
                return None, None
            begun = self.open(self.events - HOSTS * events)
        if self.waiting != events:
            once, self.waiting = self.add_behind(1, events), events
            if once is None or once > self.settings.limit / 20:
                return once, once
            if self.add_behind(HOSTS - 1, events) is None:
                return None, None
        count = min(ADDITIONS[events], max(4, self.events // (10 * events)))
        taken = self.add_behind(count, events)
        return (None, None) if taken is None else (begun + taken, taken / count)

    def addition(self, events: int) -> float | None:
        """The seconds of an addition of so many events."""
        return self.settings.least(lambda: self.some_additions(events))

    def question(self, line: str) -> float | None:
        """The seconds of a question."""
        once = self.live.ask([line])[1]
        if once > self.settings.limit:
            return once
        count = max(1, min(200, int(0.02 / once)))

        def run() -> Measured:
            taken = self.live.ask([line] * count)[1]
            return taken, taken / count

        return self.settings.least(run)

    def withdraw(self, messages: list[int], count: int, stamp: int) -> Measured:
        """Sends so many of these messages a second time, which it takes from the list; the seconds of all, and of
        one."""
        if len(messages) < count or not self.has_room(count):
            return None, None
        chosen = [messages.pop() for _ in range(count)]
        pieces = [self.folder.piece(f"h{self.happened[2 * it][0]}", [f"{stamp + it},send,m{it},"]) for it in chosen]
        replies, taken = self.live.add(pieces)
        if not all(" withdrawn 1 " in reply for reply in replies):
            sys.exit(f"no withdrawal: {replies}")
        return taken, taken / count

    def withdrawal(self, messages: list[int]) -> float | None:
        """The seconds of a second send of one of these messages."""
        limit = self.settings.limit
        stamp = max(int(row.split(",")[0]) for _, row in self.happened[-2000:]) + 10**9
        once, _ = self.withdraw(messages, 1, stamp)
        if once is None or once > limit:
            return once
        count = 4 if once < limit / 8 else 1
        return self.settings.least(lambda: self.withdraw(messages, count, stamp))


PAIR = "h0#2 h1#2"


def measure_questions(session: Session, put: Put) -> None:
    """All additions, and each question, where none is kept."""
    ways = (
        ("additions of whole logs", 1),
        ("additions of 2,000 events of each host in turn", session.events // 16_000),
    )
    for what, pieces in ways:
        if pieces:
            logs = by_host(session.happened[: session.events])
            files = in_turn(session.folder, logs, pieces)
            put("questions", what, ms(session.settings.additions(session.at, session.folder, files)))
    for line in (f"interval {PAIR}", f"order {PAIR}", "time h1#2", "merge", f"prove {PAIR}", "problem", "report"):
        put("questions", f"`{line.split(' ')[0]}`", ms(session.question(line)))


def measure_kept(session: Session, put: Put) -> None:
    """Questions where eight events are kept."""
    for command in ("interval", "order", "prove"):
        put("kept", f"`{command}`, not kept", ms(session.question(f"{command} {PAIR}")))
        put("kept", f"`{command}`, kept", ms(session.question(f"{command} h0#1 h1#2")))


def measure_withdrawals(session: Session, kept: str, put: Put) -> None:
    """Withdrawals of any message, and of a late one."""
    if session.events <= AFRESH:
        session.open(session.events)
    count = session.events // 2
    for what, front in (("any message", 0), ("a late one", count * 9 // 10)):
        messages = list(range(front, count if front else count * 9 // 10))
        random.Random(count).shuffle(messages)
        put("withdrawals", f"{what}, {kept}", ms(session.withdrawal(messages)))


def measure_session(session: Session, parts: Sequence[str], put: Put) -> None:
    """Measures a session in these parts."""
    kept = "eight kept" if session.has_kept else "none kept"
    if "memory" in parts:
        rest, peak = session.live.memory()
        put("memory", f"at rest, {kept}", 1024 * rest / session.events)
        put("memory", f"at the peak, {kept}", 1024 * peak / session.events)
    if "questions" in parts and not session.has_kept:
        measure_questions(session, put)
    if "kept" in parts and session.has_kept:
        measure_kept(session, put)
    if "additions" in parts:
        for events in ADDITIONS:
            put("additions", f"{events} events, {kept}", ms(session.addition(events)))
    if "withdrawals" in parts:
        measure_withdrawals(session, kept, put)


def measure_growth(parts: Sequence[str], sizes: Sequence[int], settings: Settings, figures: Figures) -> None:
    """Measures the parts that need sessions of each size."""
    for events in sizes:
        happened = happenings(min(MOST_EVENTS, events + 48_576))
        for at in range(len(settings.programs)):
            for has_kept in (False, True):
                if list(parts) == [("questions" if has_kept else "kept")]:
                    continue
                with tempfile.TemporaryDirectory() as path:
                    session = Session(settings, at, events, happened, has_kept, path)
                    # (what is put is put at once, so that the names are those of now)
                    measure_session(session, parts, lambda part, what, it: figures.put(part, what, events, at, it))
                    session.live.close()


def measure_pieces(settings: Settings, figures: Figures) -> None:
    """Measures 20,000 events in few and in many pieces."""
    logs = by_host(happenings(20_000))
    for at in range(len(settings.programs)):
        with tempfile.TemporaryDirectory() as path:
            folder, found = Folder(path, declaration()), []
            for pieces in (1, 40):
                found.append(settings.additions(at, folder, in_turn(folder, logs, pieces)))
                figures.put("pieces", f"{8 * pieces} pieces", 20_000, at, found[-1])
            few, many = found
            figures.put("pieces", "times as long", 20_000, at, many / few if few and many else None)


def measure_labels(events: int, settings: Settings, figures: Figures) -> None:
    """Measures labels that sort as their hosts and otherwise."""
    names = {
        "labels as hosts": [f"h{host}" for host in range(HOSTS)],
        "labels otherwise": [f"l{host * 5 % HOSTS}" for host in range(HOSTS)],
    }
    for size in (events, 2 * events, 4 * events):
        logs = by_host(happenings(size))
        for at in range(len(settings.programs)):
            for what, labels in names.items():
                with tempfile.TemporaryDirectory() as path:
                    put: Put = lambda said, _, it: figures.put(  # noqa: E731
                        "labels", f"{said}, {what}", size, at, it  # noqa: B023
                    )
                    measure_labelled(settings, at, labels, logs, path, put)


def measure_labelled(
    settings: Settings, at: int, labels: Sequence[str], logs: Sequence[list[str]], path: str, put: Put
) -> None:
    """Measures a session over logs with these labels."""
    declared = declaration("{}")
    for host, label in enumerate(labels):
        declared = declared.replace(f"[labels.{host}]", f"[labels.{label}]")
    folder = Folder(path, declared)
    pieces = [folder.piece(label, rows) for label, rows in zip(labels, logs)]
    put("additions", "", ms(settings.additions(at, folder, pieces)))
    live = Live(settings.programs[at], folder.declaration)
    for piece in pieces:
        live.add([piece])

    def asked(line: str) -> float | None:
        def once() -> Measured:
            taken = live.ask([line])[1]
            return taken, taken

        return settings.least(once)

    for line in (f"interval {labels[0]}#2 {labels[1]}#2", "problem", "merge"):
        put(f"`{line.split(' ')[0]}`", "", ms(asked(line)))
    live.close()


def orders_of(folder: Folder, events: int) -> dict[str, list[Piece]]:
    """Rows that come upward and downward, in few pieces and in many."""
    upward = [sorted(rows, key=lambda row: int(row.split(",")[0])) for rows in by_host(happenings(events))]
    downward = [rows[::-1] for rows in upward]
    return {
        "8 pieces, upward": in_turn(folder, upward, 1),
        "8 pieces, rows downward": in_turn(folder, downward, 1),
        "320 pieces, upward": in_turn(folder, upward, 40),
        "320 pieces, the last first": in_turn(folder, upward, 40)[::-1],
        "320 pieces, downward": in_turn(folder, downward, 40),
    }


def measure_downward(events: int, settings: Settings, figures: Figures) -> None:
    """Measures the orders in which rows come."""
    for size in (events, 2 * events, 4 * events):
        for at in range(len(settings.programs)):
            with tempfile.TemporaryDirectory() as path:
                folder = Folder(path, declaration())
                for what, pieces in orders_of(folder, size).items():
                    figures.put("downward", what, size, at, settings.additions(at, folder, pieces))


def arguments() -> argparse.Namespace:
    parser = argparse.ArgumentParser(
        description=__doc__.split("\n\n")[0], epilog="The docstring of this file says what the parts are."
    )
    sizes = [1000, 10_000, 100_000, 1_000_000]
    numbers = lambda text: [int(it) for it in text.split(",")]  # noqa: E731
    counts = "how many events; 1000,10000,100000,1000000"
    parser.add_argument("--sizes", metavar="N,N..", type=numbers, default=sizes, help=counts)
    parser.add_argument("--runs", metavar="N", type=int, default=3, help="of how many runs the least counts; 3")
    parser.add_argument("--other", metavar="PATH", help="a second program, whose figures stand beside")
    limit = "when a figure takes no further run; 10"
    parser.add_argument("--limit", metavar="SECONDS", type=float, default=10, help=limit)
    parser.add_argument("--labels", metavar="N", type=int, default=10_000, help="the events of `labels`; 10,000")
    parser.add_argument("--downward", metavar="N", type=int, default=2500, help="the events of `downward`; 2,500")
    parser.add_argument("parts", metavar="PART", nargs="*", help=", ".join(TITLES))
    said = parser.parse_args()
    unknown = set(said.parts) - set(TITLES)
    if unknown:
        parser.error(f"there is no part {min(unknown)}")
    return said


def main() -> None:
    said = arguments()
    parts = said.parts or list(TITLES)
    settings = Settings([program(), *([os.path.abspath(said.other)] if said.other else [])], said.runs, said.limit)
    figures = Figures(settings.programs)
    try:
        if "pieces" in parts:
            measure_pieces(settings, figures)
        if "labels" in parts:
            measure_labels(said.labels, settings, figures)
        if "downward" in parts:
            measure_downward(said.downward, settings, figures)
        growing = [it for it in parts if it in GROWING]
        if growing:
            measure_growth(growing, said.sizes, settings, figures)
    finally:
        figures.show()


if __name__ == "__main__":
    main()
