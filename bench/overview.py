#!/usr/bin/env python3
"""Measures what stands on the first page of docs/PERFORMANCE.md: each command and each line of a session.

    bench/overview.py [--runs N] [EVENTS..]

With no EVENTS at 10,000, 100,000 and 1,000,000 events. The problems are those of generate.py, with a reading for each
event and half as many messages; the sessions those of workload.py, eight hosts with a log each. Figures are processor
time, the lesser of N runs, 2 if it is not said, and the peak of memory where it can be told. PROGRAM names the
program, else it is the one that is built here.
"""

import argparse
import sys
import tempfile
from collections.abc import Iterator, Sequence
from random import Random

from common import generated, least, program, run
from live import Live
from workload import HOSTS, Folder, Tail, by_host, declaration, happenings

MORE = 3000

Figure = tuple[float, int | None]  # processor seconds, and KiB if they are told


def short(seconds: float) -> str:
    """A time with its unit."""
    for unit, most, times in (("s", 1, 1), ("ms", 1e-3, 1e3), ("us", 0, 1e6)):
        if seconds >= most:
            return f"{seconds * times:.0f} {unit}" if seconds * times >= 100 else f"{seconds * times:.2g} {unit}"
    return "-"


def best(runs: int, words: Sequence[str], printed: str) -> Figure:
    """What a command takes at least."""
    found = least([run([program(), *words], printed=printed) for _ in range(runs)])
    if found.status:
        sys.exit(f"{' '.join(words)}: status {found.status}")
    return found.processor, found.peak


def commands(events: int, runs: int, folder: str) -> Iterator[tuple[str, Figure]]:
    """What each command over texts takes."""
    stem = generated(events - events % 2, folder=folder)
    problem, execution, cert, printed = f"{stem}.problem", f"{stem}.execution", f"{folder}/cert", f"{folder}/printed"
    yield "`obey`", best(runs, ["obey", problem, execution], printed)
    yield "`solve`", best(runs, ["solve", problem], cert)
    yield "`verify` of what `solve` printed", best(runs, ["verify", problem, cert], printed)
    with open(problem, encoding="ascii") as it:
        names = [line.split(" ")[1] for line in it if line.startswith("event ")]
    yield "`ends` of two events", best(runs, ["ends", problem, names[7], names[-9]], printed)
    yield "`widen`, without a contradiction", best(runs, ["widen", problem], printed)
    asked, thinned = [names[7], names[-9]], f"{folder}/thinned"
    yield "`thin` for two events", best(runs, ["thin", problem, *asked], thinned)
    yield "`ends` of these in what is left", best(runs, ["ends", thinned, *asked], printed)


class Session:
    """A session over the logs of so many events, and events of it that are drawn."""

    def __init__(self, events: int, path: str) -> None:
        self.folder, self.events, self.draw = Folder(path, declaration()), events, Random(events)
        self.happened = happenings(events + MORE)
        self.tail = Tail(self.folder, self.happened, events)
        self.live = Live(program(), self.folder.declaration)

    def event(self) -> str:
        return f"h{self.draw.randrange(HOSTS)}#{1 + self.draw.randrange(self.events // 10)}"

    def add_all(self) -> float:
        """The seconds of all additions."""
        logs = enumerate(by_host(self.happened[: self.events]))
        return sum(self.live.add([self.folder.piece(f"h{host}", rows)])[1] for host, rows in logs)

    def add_one(self) -> float:
        """The seconds of an addition of one event, in the mean of 64."""
        pieces = [it for it in (self.tail.piece(1) for _ in range(64)) if it is not None]
        return self.live.add(pieces)[1] / len(pieces)

    def ask(self, lines: Sequence[str]) -> float:
        """The seconds of a line, in the mean of these."""
        return self.live.ask(lines)[1] / len(lines)

    @property
    def peak(self) -> int:
        return self.live.memory()[1]


def lines(events: int, path: str) -> Iterator[tuple[str, Figure]]:
    """What each line of a session takes."""
    it = Session(events, path)
    yield "all additions, a log a host", (it.add_all(), it.peak)
    yield "one event more", (it.add_one(), None)
    for what in ("interval", "order", "prove"):
        yield f"`{what}`", (it.ask([f"{what} {it.event()} {it.event()}"]), None)
    yield "`time`", (it.ask([f"time {it.event()}" for _ in range(64)]), None)
    yield "`times P`", (it.ask([f"times {it.event()}"]), None)
    for what in ("times", "merge", "problem", "report"):
        yield f"`{what}`", (it.ask([what]), it.peak if what == "report" else None)
    kept = [it.event() for _ in range(8)]
    yield "`keep`, each of eight", (it.ask([f"keep {event}" for event in kept]), it.peak)
    questions = [f"interval {it.draw.choice(kept)} {it.event()}" for _ in range(256)]
    yield "`interval` about a kept event", (it.ask(questions), None)
    yield "one event more, eight kept", (it.add_one(), it.peak)
    it.live.close()


def main() -> None:
    parser = argparse.ArgumentParser(description=__doc__.split("\n\n")[0])
    parser.add_argument("--runs", metavar="N", type=int, default=2, help="of how many runs the lesser counts; 2")
    which = "10000, 100000 and 1000000, if none is named"
    parser.add_argument("sizes", metavar="EVENTS", nargs="*", type=int, help=which)
    said = parser.parse_args()
    sizes = said.sizes or [10_000, 100_000, 1_000_000]
    figures: dict[str, list[Figure]] = {}
    for events in sizes:
        with tempfile.TemporaryDirectory() as folder:
            for made in (commands(events, said.runs, folder), lines(events, folder)):
                for what, figure in made:
                    figures.setdefault(what, []).append(figure)
                    print(f"{events}: {what}: {figure}", file=sys.stderr, flush=True)
    print("| | " + " | ".join(f"{it:,} events" for it in sizes) + " |\n|---" + "|---:" * len(sizes) + "|")
    for what, found in figures.items():
        cells = (short(seconds) + (f", {peak / 1024:.0f} MiB" if peak else "") for seconds, peak in found)
        print(f"| {what} | {' | '.join(cells)} |")


if __name__ == "__main__":
    main()
