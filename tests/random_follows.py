#!/usr/bin/env python3
"""Runs commands over random problems with clocks that follow each other, and wants what their bounds say.

    tests/random_follows.py [--limits] [PROBLEMS [SEED]]

PROBLEMS, 300 if it is not said, have the numbers from SEED, 1 if it is not said, upward; `random_follows.py 1 N` runs
number N alone. Each has up to six clocks in chains, some without readings, with gaps, drift and errors of stamps, and
messages that may contradict them. The reference is the plainest there is, in whole numbers: a bound for every two
readings of a clock, and of two clocks that come after each other, and the least weight from each node to each other.
`solve`, `ends`, `obey` and `widen` must print what follows from it, `verify` and `judge` say yes to what is printed,
and a line that is put wrong must be refused where it stands.

--limits runs texts at the limits instead, with as many clocks, events and messages as there may be and with one more:
some minutes, and memory and room for files of some GB.

PROGRAM names the program, else it is the one that is built here. The files of a problem that goes wrong stay in
tests/out/follows-N, and what was printed stands beside what is wanted; then the status is 1.
"""

import argparse
import itertools
import os
import shutil
import subprocess
import sys
import tempfile
from collections.abc import Iterable, Iterator
from random import Random

from check_cycle import NoCycle, check_cycle
from support.problems import UNITS, Ends, Node, Problem, interval, ns, order
from support.program import LEFT, program

ABOVE = 2**62
# The words of a bound, its tail, its head and its weight: the value of the head is at most that of the tail and the
# weight.
Named = tuple[str, Node, Node, int]


class Chained:
    """A problem as its text says it."""

    def __init__(self) -> None:
        self.clocks: dict[str, tuple[int, int, int, int]] = {}
        self.follows: dict[str, tuple[str, int]] = {}
        self.events: dict[str, tuple[str, int]] = {}
        self.messages: dict[tuple[str, str], tuple[int, int | None]] = {}

    def lines(self) -> list[str]:
        lines = [f"problem {2 if self.follows else 1}"]
        lines += [f"clock {name} {' '.join(map(str, numbers))}" for name, numbers in self.clocks.items()]
        lines += [f"follow {earlier} {later} {gap}" for later, (earlier, gap) in self.follows.items()]
        lines += [f"event {name} {clock} {stamp}" for name, (clock, stamp) in self.events.items()]
        for (send, receive), (least, most) in self.messages.items():
            lines.append(f"message {send} {receive} {least} {'none' if most is None else most}")
        return [*lines, "end"]

    def stamps(self, clock: str) -> list[int]:
        return sorted({stamp for at, stamp in self.events.values() if at == clock})

    def nodes(self) -> list[Node]:
        """The events, then the readings by clock and stamp."""
        return [*self.events, *((clock, stamp) for clock in self.clocks for stamp in self.stamps(clock))]

    def before(self, clock: str) -> list[str]:
        """The clocks that this one comes after, the nearest first."""
        found = []
        while clock in self.follows:
            clock = self.follows[clock][0]
            found.append(clock)
        return found

    def span(self, clock: str, low: int, high: int) -> Iterator[Named]:
        short, long, _, _ = self.clocks[clock]
        yield f"span-most {clock} {low} {high}", (clock, low), (clock, high), (high - low) * (UNITS + long)
        yield f"span-least {clock} {low} {high}", (clock, high), (clock, low), (low - high) * (UNITS - short)

    def stamped(self) -> Iterator[Named]:
        for event, (clock, stamp) in self.events.items():
            _, _, early, late = self.clocks[clock]
            yield f"late {event}", (clock, stamp), event, late * UNITS
            yield f"early {event}", event, (clock, stamp), early * UNITS

    def follow(self, earlier: str, s: int, later: str, t: int) -> Iterator[Named]:
        yield f"follow {earlier} {s} {later} {t}", (later, t), (earlier, s), -self.follows[later][1] * UNITS

    def delays(self) -> Iterator[Named]:
        for (send, receive), (least, most) in self.messages.items():
            if most is not None:
                yield f"delay-most {send} {receive}", send, receive, most * UNITS
            yield f"delay-least {send} {receive}", receive, send, -least * UNITS

    def every_bound(self) -> Iterator[Named]:
        """Each bound that is declared."""
        for clock in self.clocks:
            for low, high in itertools.combinations(self.stamps(clock), 2):
                yield from self.span(clock, low, high)
        yield from self.stamped()
        for later in self.clocks:
            for earlier in self.before(later):
                for s, t in itertools.product(self.stamps(earlier), self.stamps(later)):
                    yield from self.follow(earlier, s, later, t)
        yield from self.delays()

    def short_list(self) -> Iterator[Named]:
        """The bounds that `obey` goes through, in its order."""
        for clock in self.clocks:
            stamps = self.stamps(clock)
            for low, high in zip(stamps, stamps[1:]):
                yield from self.span(clock, low, high)
        yield from self.stamped()
        for later in self.clocks:
            near = next((clock for clock in self.before(later) if self.stamps(clock)), None)
            if near and self.stamps(later):
                yield from self.follow(near, self.stamps(near)[-1], later, self.stamps(later)[0])
        yield from self.delays()

    def widened(self, more: int) -> "Chained":
        """The problem with each greatest delay so much greater."""
        wide = Chained()
        wide.clocks, wide.follows, wide.events = self.clocks, self.follows, self.events
        for pair, (least, most) in self.messages.items():
            wide.messages[pair] = (least, None if most is None else most + more)
        return wide


class Least:
    """The least weight from each node to each other over every bound, by R. W. Floyd, CACM 5 (6), 1962."""

    def __init__(self, problem: Chained) -> None:
        self.nodes = problem.nodes()
        self.bounds = {words: (tail, head, weight) for words, tail, head, weight in problem.every_bound()}
        self.place = place = {node: at for at, node in enumerate(self.nodes)}
        weights: list[list[int | None]]
        weights = [[0 if one == other else None for other in self.nodes] for one in self.nodes]
        self.weights = weights
        for tail, head, weight in self.bounds.values():
            row, at = weights[place[tail]], place[head]
            before = row[at]
            if before is None or weight < before:
                row[at] = weight
        for middle in range(len(self.nodes)):
            self.go_through(middle)
        self.consistent = all((row[at] or 0) >= 0 for at, row in enumerate(weights))

    def go_through(self, middle: int) -> None:
        """Takes the ways through one node where they are shorter."""
        on = self.weights[middle]
        for row in self.weights:
            first = row[middle]
            if first is None:
                continue
            for at, second in enumerate(on):
                here = row[at]
                if second is not None and (here is None or first + second < here):
                    row[at] = first + second

    def earliest(self) -> list[int]:
        """The least value of each node where none is below 0."""
        return [max(-weight for weight in row if weight is not None) for row in self.weights]

    def ends(self, first: Node, second: Node) -> Ends:
        """The least and the greatest units by which the second node is later than the first."""
        one, other = self.place[first], self.place[second]
        least, most = self.weights[other][one], self.weights[one][other]
        return None if least is None else -least, most


def ends_line(ends: Ends) -> str:
    """The line that `ends` prints."""
    return f"{interval(ends)} {order(ends)}"


def value_lines(nodes: Iterable[Node], values: Iterable[int]) -> list[str]:
    """The lines of an execution with these values."""
    words = (f"event {node}" if isinstance(node, str) else f"reading {node[0]} {node[1]}" for node in nodes)
    return [f"{word} {ns(value)}" for word, value in zip(words, values)]


def drawn_clocks(draw: Random, problem: Chained) -> list[str]:
    """Draws clocks and follows; the names of the clocks."""
    names = draw.sample("abcdefghijk", draw.randint(2, 6))
    for name in names:
        short, long = (draw.choice((0, 0, 0, 20_000, 100_000_000)) for _ in range(2))
        problem.clocks[name] = (short, long, draw.choice((0, 0, 3, 40)), draw.choice((0, 0, 5, 50)))
    free = set(names)  # those that nothing follows yet
    laters = draw.sample(names[1:], draw.randint(0, len(names) - 1)) if draw.random() < 0.9 else []
    for later in laters:
        befores = [name for name in names[: names.index(later)] if name in free]
        if befores:
            # (often the one right before, so that chains are long)
            earlier = befores[-1] if draw.random() < 0.7 else draw.choice(befores)
            free.discard(earlier)
            problem.follows[later] = (earlier, draw.choice((0, 0, 1, 7, 100, 2_000)))
    return names


def drawn_times(draw: Random, problem: Chained, names: list[str], wrong: float) -> dict[str, int]:
    """Draws events with their stamps; the true times of the events, some of which are put wrong.

    Clocks take their turns along a chain."""
    starts: dict[str, int] = {}
    offsets = {name: draw.randrange(5000) for name in names}
    for name in names:
        earlier, gap = problem.follows.get(name, (None, 0))
        starts[name] = starts[earlier] + 1000 + gap + 200 if earlier else draw.randrange(500)
    used = [name for name in names if draw.random() < 0.7] or names[:1]
    times = {}
    for number in range(draw.randint(2, 12)):
        clock = draw.choice(used)
        _, _, early, late = problem.clocks[clock]
        time = starts[clock] + draw.randrange(1000)
        stamp = time - starts[clock] + offsets[clock] + draw.randint(-late, early)
        if draw.random() < 0.2 and problem.stamps(clock):
            stamp = draw.choice(problem.stamps(clock))
        if draw.random() < wrong:
            time += draw.randint(-3000, 3000)
        times[f"e{number}"] = time
        problem.events[f"e{number}"] = (clock, max(stamp, 0))
    return times


def drawn(draw: Random) -> Chained:
    """A problem whose true times are drawn first."""
    problem = Chained()
    names, wrong = drawn_clocks(draw, problem), draw.choice((0, 0, 0, 0.05, 0.3))
    times = drawn_times(draw, problem, names, wrong)
    for send, receive in itertools.permutations(times, 2):
        taken = times[receive] - times[send]
        if draw.random() < 0.12 and (taken >= 0 or draw.random() < wrong):
            least = max(taken - draw.choice((0, 10, 300)), 0)
            most = draw.choice((None, least, least + 10, least + 600))
            problem.messages[send, receive] = (least, most)
    return problem


class Runs:
    """Runs of the program in a folder, over the files of one problem."""

    def __init__(self, folder: str) -> None:
        self.folder = folder

    def put(self, name: str, lines: Iterable[str]) -> str:
        with open(f"{self.folder}/{name}", "w", encoding="ascii", newline="\n") as out:
            out.writelines(f"{line}\n" for line in lines)
        return name

    def run(self, *words: str) -> tuple[int, list[str]]:
        """The status and the lines of a run."""
        done = subprocess.run([program(), *words], capture_output=True, text=True, cwd=self.folder)
        return done.returncode, done.stdout.split("\n")[:-1]

    def want(self, words: list[str], status: int, lines: list[str]) -> None:
        """Wants this status and these lines. Raises AssertionError."""
        found = self.run(*words)
        if found != (status, lines):
            raise AssertionError(f"{' '.join(words)} printed {found}, and {(status, lines)} is wanted")


def check_contradiction(runs: Runs, problem: Chained) -> None:
    """Wants that `solve` shows a contradiction that is one."""
    status, lines = runs.run("solve", "problem")
    try:
        check_cycle(Problem(problem.lines()), lines)
    except NoCycle as why:
        raise AssertionError(f"solve ended with {status} and printed {lines}: {why}") from None
    if status:
        raise AssertionError(f"solve ended with {status}")
    runs.put("certificate", lines)


def check_obeyed(draw: Random, runs: Runs, problem: Chained, least: Least) -> None:
    """Wants that `obey` finds the first bound that some values break, or none."""
    values = dict(zip(least.nodes, least.earliest()))
    for node in least.nodes:
        if draw.random() < 0.2:
            values[node] += draw.randint(-500, 500) * draw.choice((1, UNITS))
    runs.put("moved", ["execution 1", *value_lines(values, values.values()), "end"])
    for words, tail, head, weight in problem.short_list():
        if values[head] - values[tail] > weight:
            line = f"broken {words} {ns(weight)} {ns(values[head] - values[tail])}"
            return runs.want(["obey", "problem", "moved"], 1, [line])
    if any(values[head] - values[tail] > weight for tail, head, weight in least.bounds.values()):
        raise AssertionError("the short list does not suffice")
    return runs.want(["obey", "problem", "moved"], 0, ["obeys"])


def check_execution(draw: Random, runs: Runs, problem: Chained, least: Least) -> None:
    """Wants the earliest execution, and the ends of some pairs of events."""
    nodes = value_lines(least.nodes, least.earliest())
    runs.put("certificate", ["certificate 1", "run", *nodes, "end"])
    runs.put("execution", ["execution 1", *nodes, "end"])
    runs.want(["solve", "problem"], 0, ["certificate 1", "run", *nodes, "end"])
    runs.want(["obey", "problem", "execution"], 0, ["obeys"])
    events = [*problem.events]
    for _ in range(4):
        first, second = draw.choice(events), draw.choice(events)
        runs.want(["ends", "problem", first, second], 0, [ends_line(least.ends(first, second))])
    for _ in range(2):
        check_obeyed(draw, runs, problem, least)


def least_widening(problem: Chained) -> int | None:
    """By how many ns the greatest delays must be greater at least; None where no number below 2^62 will do."""
    if not Least(problem.widened(ABOVE - 1)).consistent:
        return None
    low, high = 0, ABOVE - 1
    while low < high:
        middle = (low + high) // 2
        if Least(problem.widened(middle)).consistent:
            high = middle
        else:
            low = middle + 1
    return low


def check_widening(runs: Runs, problem: Chained) -> None:
    """Wants the least widening, and what shows it."""
    extra = least_widening(problem)
    status, lines = runs.run("widen", "problem")
    wanted = ["widening 1", f"least {'none' if extra is None else extra}"]
    if status or lines[:2] != wanted:
        raise AssertionError(f"widen ended with {status} and printed {lines}, and {wanted} is wanted")
    runs.put("widening", lines)
    runs.want(["judge", "problem", "widening"], 0, ["yes"])


# A text with one line wrong: why, the lines, the number of the fault and the line where it stands.
Wrong = tuple[str, list[str], int, int]


def wrong_follows(problem: Chained, lines: list[str], first: int) -> Iterator[Wrong]:
    """Texts whose first follow is put wrong."""
    later, (earlier, gap) = next(iter(problem.follows.items()))
    for why, line, number in (
        ("the other way round", f"follow {later} {earlier} {gap}", 2),
        ("one clock", f"follow {later} {later} {gap}", 2),
        ("an unknown clock", f"follow {earlier} zz {gap}", 2),
        ("a gap out of range", f"follow {earlier} {later} {ABOVE}", 3),
        ("an unknown clock and such a gap", f"follow zz {later} {ABOVE}", 2),
        ("no gap", f"follow {earlier} {later}", 1),
        ("a gap below 0", f"follow {earlier} {later} -1", 1),
    ):
        yield why, [*lines[:first], line, *lines[first + 1 :]], number, first + 1


def lines_more(problem: Chained) -> Iterator[tuple[str, str, int]]:
    """Lines that are wrong behind the last follow: why, the line, and the number of its fault."""
    later, (earlier, gap) = next(iter(problem.follows.items()))
    places = [*problem.clocks]
    yield "twice", f"follow {earlier} {later} {gap}", 2
    for name in places:
        if name not in problem.follows and places.index(earlier) < places.index(name):
            yield "an earlier clock again", f"follow {earlier} {name} 0", 2
        if places.index(name) < places.index(later) and name != earlier:
            yield "a later clock again", f"follow {name} {later} 0", 2
    yield "a clock behind a follow", "clock zz 0 0 0 0", 1


def wrong_lines(problem: Chained) -> Iterator[Wrong]:
    """Texts with one line wrong."""
    lines = problem.lines()
    first = 1 + len(problem.clocks)
    if not problem.follows:
        yield "a head without follows", ["problem 2", *lines[1:]], 1, 1 + first
        return
    end = first + len(problem.follows)
    yield "the other head", ["problem 1", *lines[1:]], 1, first + 1
    yield "no follow", [*lines[:first], *lines[end:]], 1, first + 1
    yield from wrong_follows(problem, lines, first)
    for why, line, number in lines_more(problem):
        yield why, [*lines[:end], line, *lines[end:]], number, end + 1
    if problem.events:
        later, (earlier, gap) = next(iter(problem.follows.items()))
        behind = end + 1
        late = f"follow {earlier} {later} {gap}"
        yield "a follow behind an event", [*lines[:behind], late, *lines[behind:]], 1, behind + 1


def check_refusals(runs: Runs, problem: Chained) -> None:
    """Wants each wrong line to be refused where it stands."""
    for why, lines, number, line in wrong_lines(problem):
        runs.put("wrong", lines)
        found, wanted = runs.run("solve", "wrong"), (4, [f"problem {number} {line}"])
        if found != wanted:
            raise AssertionError(f"{why}: {found}, and {wanted} is wanted")


def check_problem(number: int, folder: str) -> tuple[Chained, Least]:
    """Wants all of one problem."""
    draw = Random(number)
    problem, runs = drawn(draw), Runs(folder)
    runs.put("problem", problem.lines())
    least = Least(problem)
    if least.consistent:
        check_execution(draw, runs, problem, least)
    else:
        check_contradiction(runs, problem)
    runs.want(["verify", "problem", "certificate"], 0, ["yes"])
    check_widening(runs, problem)
    check_refusals(runs, problem)
    return problem, least


CLOCKS, EVENTS, MESSAGES, BYTES = 65_536, 2**21, 2**21, 2**31


def chain_lines(clocks: int) -> Iterator[str]:
    """Clocks, each following the one before, with an event on each: a gap of its place in ns."""
    yield "problem 2"
    yield from (f"clock c{k} 0 0 0 0" for k in range(clocks))
    yield from (f"follow c{k - 1} c{k} {k}" for k in range(1, clocks))


def many_clocks(runs: Runs) -> None:
    """A chain of all clocks: the gaps add up where each has a reading, and the last counts where none between has
    one."""
    total = CLOCKS * (CLOCKS - 1) // 2
    runs.put("problem", [*chain_lines(CLOCKS), *(f"event e{k} c{k} 5" for k in range(CLOCKS)), "end"])
    runs.want(["ends", "problem", "e0", f"e{CLOCKS - 1}"], 0, [f"{ns(total * UNITS)} +inf before"])
    runs.put("problem", [*chain_lines(CLOCKS), "event p c0 5", f"event q c{CLOCKS - 1} 5", "end"])
    runs.want(["ends", "problem", "p", "q"], 0, [f"{ns((CLOCKS - 1) * UNITS)} +inf before"])
    runs.put("problem", [*chain_lines(CLOCKS + 1), "end"])
    runs.want(["solve", "problem"], 4, [f"problem 4 {CLOCKS + 2}"])


def many_lines(events: int, messages: int) -> Iterator[str]:
    """Two clocks that follow each other, each with half of the events; each message goes from an event to the next
    one."""
    half = events // 2
    yield from ("problem 2", "clock c 0 0 0 0", "clock d 0 0 0 0", "follow c d 7")
    yield from (f"event e{k} {'c' if k < half else 'd'} {k % half}" for k in range(events))
    yield from (f"message e{k} e{k + 1 if k + 1 < events else 0} 0 none" for k in range(min(messages, events - 1)))
    yield from (f"message e{k} e{k + 2} 0 none" for k in range(messages - events + 1))
    yield "end"


def many_events(runs: Runs) -> None:
    """As many events and messages as there may be, and one more of each."""
    runs.put("problem", many_lines(EVENTS, MESSAGES))
    least = EVENTS // 2 - 1 + 7 + EVENTS // 2 - 1
    runs.want(["ends", "problem", "e0", f"e{EVENTS - 1}"], 0, [f"{ns(least * UNITS)} +inf before"])
    status, lines = runs.run("solve", "problem")
    first, last = "event e0 0.000000000", f"event e{EVENTS - 1} {ns(least * UNITS)}"
    if status or lines[:3] != ["certificate 1", "run", first] or lines[1 + EVENTS] != last:
        raise AssertionError(f"solve ended with {status} and printed {lines[:3]}")
    runs.put("certificate", lines)
    runs.want(["verify", "problem", "certificate"], 0, ["yes"])
    runs.put("problem", many_lines(EVENTS + 2, 0))
    runs.want(["solve", "problem"], 4, [f"problem 4 {4 + EVENTS + 1}"])
    runs.put("problem", many_lines(EVENTS, MESSAGES + 1))
    runs.want(["solve", "problem"], 4, [f"problem 4 {4 + EVENTS + MESSAGES + 1}"])


def many_bytes(runs: Runs) -> None:
    """A text that is too long, and one that is as long as may be, whose second line is no line."""
    runs.put("problem", ["problem 2"])
    os.truncate(f"{runs.folder}/problem", BYTES + 1)
    runs.want(["solve", "problem"], 4, ["problem 5 0"])
    os.truncate(f"{runs.folder}/problem", BYTES)
    runs.want(["solve", "problem"], 4, ["problem 1 2"])


def check_limits() -> int:
    """Runs the texts at the limits; the status."""
    failed = 0
    for case in (many_clocks, many_events, many_bytes):
        with tempfile.TemporaryDirectory(prefix="follows-") as folder:
            try:
                case(Runs(folder))
            except AssertionError as error:
                print(f"{case.__name__}: {str(error)[:2000]}", flush=True)
                failed += 1
    print(f"{3 - failed} passed, {failed} failed")
    return 1 if failed else 0


def leave(number: int, folder: str, why: AssertionError) -> None:
    """Tells what went wrong in a problem, and keeps its files."""
    kept = f"{LEFT}/follows-{number}"
    shutil.rmtree(kept, ignore_errors=True)
    shutil.copytree(folder, kept)
    print(f"problem {number}: {str(why)[:3000]}\nits files are in {kept}")


def main() -> int:
    parser = argparse.ArgumentParser(description=__doc__.split("\n\n")[0])
    parser.add_argument("--limits", action="store_true", help="run the texts at the limits")
    parser.add_argument("problems", metavar="PROBLEMS", nargs="?", type=int, default=300, help="how many problems; 300")
    parser.add_argument("seed", metavar="SEED", nargs="?", type=int, default=1, help="the number of the first; 1")
    said = parser.parse_args()
    if said.limits:
        return check_limits()
    counts = {"with an execution": 0, "without": 0, "with follows": 0}
    for number in range(said.seed, said.seed + said.problems):
        with tempfile.TemporaryDirectory(prefix="follows-") as folder:
            try:
                problem, least = check_problem(number, folder)
            except AssertionError as why:
                leave(number, folder, why)
                return 1
        counts["with an execution" if least.consistent else "without"] += 1
        counts["with follows"] += any(words.startswith("follow ") for words in least.bounds)
    print(f"{said.problems} problems: " + ", ".join(f"{count} {what}" for what, count in counts.items()))
    return 0


if __name__ == "__main__":
    sys.exit(main())
