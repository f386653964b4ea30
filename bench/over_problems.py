"""Commands over problems of generate.py beside C++ programs of the same task: see runner.py."""

import os
import subprocess
from collections.abc import Iterator, Sequence
from dataclasses import dataclass, field

from common import (
    OUT, Run, beside, compiled, fail, generated, kib, milliseconds, output, peak_of, program, quotient, read,
    same_answer, want_status, write,
)  # fmt: skip
from check_cycle import NoCycle, check_files

Cells = Sequence[object]


@dataclass(frozen=True)
class Options:
    """How many runs each figure is the least of, up to how many events a slow reference runs, and how many messages of
    a drift there are at most."""

    runs: int
    reference_up_to: int
    drifting: int


@dataclass
class Growth:
    """How many times the time of the row before each time is, as cells."""

    before: dict[str, float] = field(default_factory=dict)

    def times(self, name: str, seconds: float | None) -> str:
        cell = quotient(seconds, self.before.get(name))
        if seconds is None:
            self.before.pop(name, None)
        else:
            self.before[name] = seconds
        return cell


def wall(runs: dict[str, Run], name: str) -> float | None:
    return runs[name].wall if name in runs else None


def shows_contradiction(runs: dict[str, Run], problem: str) -> None:
    """Wants each of these commands to have printed a cycle that is one."""
    want_status(runs, problem)
    for name in runs:
        try:
            check_files(problem, output(name))
        except NoCycle as why:
            fail(f"{name} shows no contradiction of {problem}: {why}")


def numbers_of(words: Sequence[str]) -> dict[str, int]:
    """The numbers that a command prints behind words, by the word before each."""
    printed = subprocess.run(words, stdout=subprocess.PIPE, text=True, check=True).stdout.split()
    return {name: int(number) for name, number in zip(printed, printed[1:]) if number.isdigit()}


class Obey:
    """`obey` beside obey.cpp, which judges the same bounds."""

    head = (
        "events", "problem, bytes", "execution, bytes", "tracesync, ms", "C++, ms", "ratio",
        "tracesync, KiB", "C++, KiB", "bytes an event",
    )  # fmt: skip

    def __init__(self, options: Options) -> None:
        self.options, self.reference = options, compiled("obey")
        self.check_broken(1000)

    def run(self, stem: str, count: int) -> dict[str, Run]:
        words = ["obey", f"{stem}.problem", f"{stem}.execution"]
        found = beside(count, {"tracesync": [program(), *words], "obey": [self.reference, *words]})
        same_answer(found, "tracesync", "obey", stem)
        return found

    def check_broken(self, events: int) -> None:
        """Wants both to tell of the one bound that is broken."""
        self.run(generated(events, "broken"), 1)
        if not read(output("obey")).startswith(b"broken delay-most "):
            fail("no bound is broken")

    def rows(self, events: int) -> Iterator[Cells]:
        stem = generated(events)
        found = self.run(stem, self.options.runs)
        if read(output("obey")) != b"obeys\n":
            fail(f"the generated execution is refused in {stem}")
        words = ["obey", f"{stem}.problem", f"{stem}.execution"]
        peaks = [peak_of([it, *words]) for it in (program(), self.reference)]
        times = [found[it].wall for it in ("tracesync", "obey")]
        sizes = [os.path.getsize(it) for it in words[1:]]
        each = "-" if peaks[0] is None else peaks[0] * 1024 // events
        yield [events, *sizes, *map(milliseconds, times), quotient(*times), *map(kib, peaks), each]


class Solve:
    """`solve` beside solve.cpp, a queue of nodes over the short list of bounds, and the steps that steps.cpp counts."""

    head = (
        "events", "nodes", "arcs", "tracesync, ms", "C++, ms", "ratio", "tracesync, KiB", "C++, KiB",
        "steps, short list", "steps, merged", "tracesync, times the row before", "C++, times the row before",
    )  # fmt: skip

    def __init__(self, options: Options) -> None:
        self.options, self.growth = options, Growth()
        self.obey, self.solve, self.steps = (compiled(it) for it in ("obey", "solve", "steps"))
        self.check_contradiction(1000)

    def check_contradiction(self, events: int) -> None:
        """Wants a contradiction to be shown; the two algorithms may show it by different cycles."""
        problem = f"{generated(events, 'contradict')}.problem"
        found = beside(1, {it: [way, "solve", problem] for it, way in self.ways().items()})
        shows_contradiction(found, problem)
        same_answer(found, "tracesync", "steps", problem)
        counted = subprocess.run([self.steps, "count", problem], stdout=subprocess.PIPE, text=True)
        if "contradictions" not in counted.stdout.split("\n"):
            fail(f"steps finds no contradiction in {problem}")

    def ways(self) -> dict[str, str]:
        return {"tracesync": program(), "solve": self.solve, "steps": self.steps}

    def check_run(self, problem: str) -> None:
        """Wants what was printed to be an execution, and what the counted algorithm ends with."""
        printed = read(output("tracesync"))
        if not printed.startswith(b"certificate 1\nrun\n"):
            fail(f"solve prints no execution of {problem}")
        steps = beside(1, {"steps": [self.steps, "solve", problem]})
        same_answer({**steps, "tracesync": steps["steps"]}, "tracesync", "steps", problem)
        execution = write(f"{OUT}/solve.execution", b"execution 1\n" + printed.removeprefix(b"certificate 1\nrun\n"))
        beside(1, {"obey": [self.obey, "obey", problem, execution]})
        if read(output("obey")) != b"obeys\n":
            fail(f"the certificate breaks a bound of {problem}")

    def rows(self, events: int) -> Iterator[Cells]:
        problem, is_small = f"{generated(events, 'problem')}.problem", events <= self.options.reference_up_to
        ways = {"tracesync": [program(), "solve", problem]}
        if is_small:
            ways["solve"] = [self.solve, "solve", problem]
        found = beside(self.options.runs, ways)
        want_status(found, problem)
        if is_small:
            same_answer(found, "tracesync", "solve", problem)
        peaks = [peak_of(ways[it]) if it in ways else None for it in ("tracesync", "solve")]
        counts = numbers_of([self.steps, "count" if is_small else "merged", problem])
        ours, theirs = wall(found, "tracesync"), wall(found, "solve")
        times = [milliseconds(ours), milliseconds(theirs), quotient(ours, theirs)]
        grown = [self.growth.times("ours", ours), self.growth.times("theirs", theirs)]
        self.check_run(problem)
        steps = [counts.get("short", "-"), counts["merged"]]
        yield [events, counts["nodes"], counts["arcs"], *times, *map(kib, peaks), *steps, *grown]


def first_and_last(problem: str) -> tuple[str, str]:
    """The names of the first and the last event of a problem."""
    first = last = ""
    with open(problem, encoding="ascii") as lines:
        for line in lines:
            if line.startswith("event "):
                last = line.split(" ")[1]
                first = first or last
    return first, last


def turned(line: str) -> str:
    """The answer for two events the other way round, of the answer for them. None of its ends is infinite."""
    least, greatest, order = line.split()
    negative = {it: it[1:] if it[0] == "-" else it if it == "0.000000000" else f"-{it}" for it in (least, greatest)}
    return f"{negative[greatest]} {negative[least]} {({'before': 'after', 'after': 'before'}).get(order, order)}\n"


class Ends:
    """`ends` of the first and the last event beside ends.cpp: by the same algorithm and by a plain one."""

    head = (
        "events", "tracesync, ms", "C++, ms", "ratio", "plain, ms", "tracesync, KiB", "C++, KiB",
        "tracesync, times the row before", "C++, times the row before",
    )  # fmt: skip

    def __init__(self, options: Options) -> None:
        self.options, self.reference, self.growth = options, compiled("ends"), Growth()
        self.check_contradiction(1000)
        self.check_pairs(1000)

    def run(self, count: int, has_plain: bool, *words: str) -> dict[str, Run]:
        ways = {"tracesync": [program(), "ends", *words], "ends": [self.reference, "ends", *words]}
        return beside(count, {**ways, **({"plain": [self.reference, "plain", *words]} if has_plain else {})})

    def check_contradiction(self, events: int) -> None:
        """Wants all three to show a contradiction; the plain algorithm may show it by another cycle."""
        problem = f"{generated(events, 'contradict')}.problem"
        shows_contradiction(self.run(1, True, problem, *first_and_last(problem)), problem)

    def check_pairs(self, events: int) -> None:
        """Wants the same answer for events in the other order, for an event and itself, and for one that is not
        there."""
        problem = f"{generated(events, 'problem')}.problem"
        first, last = first_and_last(problem)
        for pair in ((last, first), (last, last), (first, "none")):
            found = self.run(1, True, problem, *pair)
            same_answer(found, "tracesync", "ends", f"{problem} {pair}")
            same_answer(found, "tracesync", "plain", f"{problem} {pair}")

    def check_turned(self, problem: str, first: str, last: str) -> None:
        """Wants the answer for the two events the other way round to be the same one, turned."""
        words = [program(), "ends", problem, last, first]
        printed = subprocess.run(words, stdout=subprocess.PIPE, text=True, check=True).stdout
        if turned(printed) != read(output("tracesync")).decode():
            fail(f"the two directions differ on {problem}")

    def rows(self, events: int) -> Iterator[Cells]:
        problem, is_small = f"{generated(events, 'problem')}.problem", events <= self.options.reference_up_to
        pair = first_and_last(problem)
        found = self.run(self.options.runs, is_small, problem, *pair)
        want_status(found, problem)
        for other in [it for it in found if it != "tracesync"]:
            same_answer(found, "tracesync", other, problem)
        self.check_turned(problem, *pair)
        peaks = [peak_of([it, "ends", problem, *pair]) for it in (program(), self.reference)]
        ours, theirs, plain = (wall(found, it) for it in ("tracesync", "ends", "plain"))
        times = [milliseconds(ours), milliseconds(theirs), quotient(ours, theirs), milliseconds(plain)]
        yield [events, *times, *map(kib, peaks), self.growth.times("ours", ours), self.growth.times("theirs", theirs)]


class Widen:
    """`widen` beside rounds.cpp, which searches by rounds alone, over three kinds of traces: one without a
    contradiction, one in which a link declares too small a greatest delay, and one-way messages to a clock that
    declares too small a drift."""

    head = (
        "events", "contradiction", "least, ns", "rounds", "tracesync, ms", "C++, ms", "ratio",
        "tracesync, KiB", "C++, KiB",
    )  # fmt: skip

    def __init__(self, options: Options) -> None:
        self.options, self.reference = options, compiled("rounds")

    def problem(self, events: int, trace: str) -> str:
        """Writes a trace; the problem's path. Of a drift there is a message for each twelve events, and not too many of
        them."""
        if trace != "drift":
            return f"{generated(events, 'problem' if trace == 'none' else trace)}.problem"
        count = min(events // 12, self.options.drifting)
        return f"{generated(count, trace, alone=events // count - 2)}.problem"

    def rows(self, events: int) -> Iterator[Cells]:
        for trace in ("none", "link", "drift"):
            problem = self.problem(events, trace)
            ways = {"tracesync": [program(), "widen", problem], "rounds": [self.reference, problem]}
            found = beside(self.options.runs, ways)
            same_answer(found, "tracesync", "rounds", problem)
            words = [program(), "judge", problem, output("tracesync")]
            if subprocess.run(words, stdout=subprocess.PIPE).stdout != b"yes\n":
                fail(f"the widening of {problem} is not judged yes")
            rounds = read(f"{OUT}/rounds.stderr").decode().split()[1]
            extra = read(output("tracesync")).decode().split("\n")[1].removeprefix("least ")
            times = [found[it].wall for it in ways]
            peaks = [peak_of(it) for it in ways.values()]
            yield [events, trace, extra, rounds, *map(milliseconds, times), quotient(*times), *map(kib, peaks)]
            os.remove(problem)
