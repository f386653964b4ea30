#!/usr/bin/env python3
"""Runs `blame` and `widen` over random problems that contradict themselves, and wants what each widening, tried by hand,
says.

    tests/random_blames.py [CONTRADICTIONS [SEED]]

CONTRADICTIONS, 300 if it is not said, are made from the numbers from SEED, 1 if it is not said, upward; a number whose
problem has an execution is passed over, once `blame` says so. Each has two or three clocks, of which some follow each
other, and a few events and messages, some problems with bounds of each event, with numbers so small that the least
widening of most candidates is, too. The reference is the plainest there is: the problem's text with the numbers of a
candidate greater, or less, by 0, 1, 2 and so on, and the earliest values over its bounds; beyond 400 what is left is
halved. `judge` must say yes to what `widen` prints, and no to another number. Every fourth problem is also made logs
and a declaration of, and the session's `blame` must be what is true, in the same way, of the text that its `problem`
prints.

PROGRAM names the program, else it is the one that is built here. The files of a problem that goes wrong stay in
tests/out/blames-N; then the status is 1.
"""

import argparse
import shutil
import subprocess
import sys
import tempfile
from collections.abc import Callable
from random import Random

from support.problems import UNITS, Answers, Problem
from support.program import LEFT, program
from support.replies import answered

MOST = 2**62 - 1
# Widenings that are tried one after the other.
TRIED = 400
# Events stand near one of these moments, so that a part per billion of what lies between counts whole ns.
MOMENT = UNITS
# The numbers whose problems are asked about in a session, too, are multiples of this.
ASKED = 4

Lines = list[str]
# What is widened: the words for it.
What = tuple[str, ...]


def drawn(draw: Random) -> Lines:
    """A problem of a few lines, made from times that it would allow, with some numbers put wrong."""
    clocks = {clock: draw.randrange(40) for clock in ["a", "b", "c"][: draw.choice((2, 2, 3))]}
    lines, has_own = [], draw.random() < 0.3
    for clock in clocks:
        short, long, early, late = (draw.choice((0, 0, draw.randint(1, 9))) for _ in range(4))
        lines.append(f"clock {clock} {short} {long} {early} {late}")
    chain = sorted(draw.sample([*clocks], draw.choice((0, 0, 0, 2, len(clocks)))))
    times = drawn_times(draw, [*clocks], chain)
    lines += drawn_follows(draw, chain, times)
    # (by how many ns a number may be wrong: of some problems with follows the gaps alone are)
    wrong = 1 if chain and draw.random() < 0.5 else 25
    for event, time in times.items():
        stamp = time + clocks[event[0]] + draw.choice((0, 0, 0, 0, min(draw.randrange(20), wrong - 1)))
        own = f" {draw.choice((0, 0, draw.randint(1, 9)))} {draw.choice((0, 0, draw.randint(1, 9)))}" if has_own else ""
        lines.append(f"event {event} {event[0]} {stamp}{own}")
    for send, sent in times.items():
        for receive, received in times.items():
            taken = received - sent
            if send != receive and 0 <= taken < MOMENT // 2 and draw.random() < 0.6:
                least = max(taken - draw.choice((0, 4, 20)), 0) + draw.choice((0, 0, 0, draw.randrange(wrong)))
                most = max(least, taken - min(draw.choice((0, 0, 10)), wrong - 1)) + draw.choice((0, 5))
                lines.append(f"message {send} {receive} {least} {draw.choice(('none', most))}")
    return [f"problem {3 if has_own else 2 if chain else 1}", *lines, "end"]


def drawn_times(draw: Random, clocks: Lines, chain: Lines) -> dict[str, int]:
    """When events of these clocks happen; what is on a clock of the chain mostly comes behind those before it."""
    names = [f"{draw.choice(clocks)}{number}" for number in range(draw.randint(4, 7))]
    times = {name: draw.randrange(3) * MOMENT + draw.randrange(60) for name in names}
    if draw.random() < 0.9:
        own = sorted((it for it in names if it[0] in chain), key=lambda it: it[0])
        times.update(zip(own, sorted(times[it] for it in own)))
    return times


def drawn_follows(draw: Random, chain: Lines, times: dict[str, int]) -> Lines:
    """The follows of a chain of clocks, whose gaps are about as long as the times allow, in any order."""
    lines = []
    for earlier, later in zip(chain, chain[1:]):
        ends = [time for name, time in times.items() if name[0] <= earlier and name[0] in chain]
        begins = [time for name, time in times.items() if name[0] == later]
        gap = min(begins, default=0) - max(ends, default=0) + draw.choice((0, 0, -5, draw.randrange(25)))
        lines.append(f"follow {earlier} {later} {max(gap, 0)}")
    return draw.sample(lines, len(lines))


def widened(lines: Lines, what: What, extra: int) -> Lines:
    """The problem where what is named is widened by so much."""
    clock_of = {words[1]: words[2] for words in map(str.split, lines) if words[0] == "event"}
    return [" ".join(widened_line(line.split(), clock_of, what, extra)) for line in lines]


def widened_line(words: Lines, clock_of: dict[str, str], what: What, extra: int) -> Lines:
    kind, *names = what
    if words[0] == "clock" and kind in ("stamps", "rates") and names in ([], [words[1]]):
        short, long, early, late = map(int, words[2:])
        if kind == "stamps":
            early, late = min(early + extra, MOST), min(late + extra, MOST)
        else:
            short, long = min(short + extra, UNITS - 1), min(long + extra, UNITS)
        return [*words[:2], *map(str, (short, long, early, late))]
    if words[0] == "event" and kind == "stamps" and names in ([], [words[2]]):
        return [*words[:4], *(str(min(int(it) + extra, MOST)) for it in words[4:])]
    if words[0] == "follow" and kind == "gaps":
        return [*words[:3], str(max(int(words[3]) - extra, 0))]
    if words[0] == "message" and kind in ("delays", "least") and names in ([], [clock_of[words[1]], clock_of[words[2]]]):
        least, most = words[3:]
        if kind == "least":
            least = str(max(int(least) - extra, 0))
        elif most != "none":
            most = str(int(most) + extra)
        return [*words[:3], least, most]
    return words


def least_widening(lines: Lines, what: What) -> int | None:
    """The least widening that heals, tried by hand; None where none does."""

    def heals(extra: int) -> bool:
        return Answers(widened(lines, what, extra)).earliest() is not None

    if not heals(MOST):
        return None
    for extra in range(TRIED):
        if heals(extra):
            return extra
    return halved(heals, TRIED, MOST)


def halved(heals: Callable[[int], bool], low: int, high: int) -> int:
    """The least that heals from low to high, where high does."""
    while low < high:
        middle = (low + high) // 2
        low, high = (low, middle) if heals(middle) else (middle + 1, high)
    return low


def candidates(lines: Lines) -> list[What]:
    """What `blame` tells of, in its order."""
    problem = Problem(lines)
    found: list[What] = [("delays",), ("least",), ("stamps",), ("rates",), *([("gaps",)] if problem.follows else [])]
    for clock in problem.clocks:
        found += [("stamps", clock), ("rates", clock)]
    used = {(problem.events[send][0], problem.events[receive][0]) for send, receive in problem.messages}
    for start in problem.clocks:
        for target in problem.clocks:
            found += [(kind, start, target) for kind in ("delays", "least") if (start, target) in used]
    return found


def others(lines: Lines) -> list[What]:
    """What else may be widened: a link without a message, and gaps where there are none."""
    told, names = candidates(lines), [*Problem(lines).clocks]
    pairs = [(start, target) for start in names for target in names if ("delays", start, target) not in told]
    found: list[What] = [(kind, *pair) for pair in pairs[:1] for kind in ("delays", "least")]
    return found if ("gaps",) in told else [*found, ("gaps",)]


def blamed(lines: Lines, found: dict[What, int | None]) -> Lines:
    """What `blame` prints of a contradiction, by the least widenings."""
    told = []
    for what in candidates(lines):
        number = "none" if found[what] is None else f"{found[what]} {'ppb' if what[0] == 'rates' else 'ns'}"
        told.append(" ".join(["blame", *what, number]))
    return [*told, "end"]


def as_logs(lines: Lines) -> tuple[str, dict[str, Lines]]:
    """A declaration with a label for each clock, and the rows of each: a send and a receive for each message."""
    problem = Problem(lines)
    hosts: dict[str, str] = {}  # (the host of each clock: the first one of its chain)
    for clock in problem.clocks:
        hosts[clock] = hosts[problem.follows[clock][0]] if clock in problem.follows else clock
    rows: dict[str, Lines] = {clock: [] for clock in problem.clocks}
    for event, (clock, stamp) in problem.events.items():
        if not any(event in pair for pair in problem.messages):
            rows[clock].append(f"{stamp},local,,")
    links: dict[tuple[str, str], tuple[int, int | None]] = {}
    for number, ((send, receive), delays) in enumerate(problem.messages.items()):
        for event, kind in ((send, "send"), (receive, "receive")):
            clock, stamp = problem.events[event]
            rows[clock].append(f"{stamp},{kind},{number},")
        links[hosts[problem.events[send][0]], hosts[problem.events[receive][0]]] = delays
    return declaration(problem, hosts, links), rows


def declaration(problem: Problem, hosts: dict[str, str], links: dict[tuple[str, str], tuple[int, int | None]]) -> str:
    """The declaration of these hosts: their clocks, labels and links."""
    lines = []
    for host in dict.fromkeys(hosts.values()):
        lines.append(f"[hosts.{host}]")
        for clock in (it for it in problem.clocks if hosts[it] == host):
            short, long, early, late = problem.clocks[clock]
            lines += [f"[[hosts.{host}.clocks]]", f'name = "{clock}"', f"short = {short}", f"long = {long}"]
            lines += [f"early = {early}", f"late = {late}", f"gap = {problem.follows.get(clock, ('', 0))[1]}"]
    for clock, host in hosts.items():
        lines += [f"[labels.{clock}]", f'host = "{host}"', 'kind = "log"', f'clock = "{clock}"']
    for (start, target), (least, most) in links.items():
        greatest = [] if most is None else [f"most = {most}"]
        lines += ["[[links]]", f'from = "{start}"', f'to = "{target}"', f"least = {least}", *greatest]
    return "\n".join(lines) + "\n"


class Runs:
    """Runs of the program in a folder."""

    def __init__(self, folder: str) -> None:
        self.folder = folder

    def put(self, name: str, lines: Lines) -> None:
        with open(f"{self.folder}/{name}", "w", encoding="ascii", newline="\n") as out:
            out.writelines(f"{line}\n" for line in lines)

    def run(self, *words: str) -> tuple[int, Lines]:
        done = subprocess.run([program(), *words], capture_output=True, text=True, cwd=self.folder)
        return done.returncode, done.stdout.split("\n")[:-1]

    def want(self, words: Lines, status: int, lines: Lines) -> None:
        """Wants this status and these lines. Raises AssertionError."""
        found = self.run(*words)
        if found != (status, lines):
            raise AssertionError(f"{' '.join(words)} printed {found}, and {(status, lines)} is wanted")


def check_widening(runs: Runs, what: What, extra: int | None) -> None:
    """Wants this least widening, with a text that shows it, and another number refused."""
    number = "none" if extra is None else str(extra)
    named = [] if what == ("delays",) else [*what]
    status, lines = runs.run("widen", "problem", *what)
    wanted = ["widening 1", " ".join(["least", number, *named])]
    if status or lines[:2] != wanted:
        raise AssertionError(f"widen {' '.join(what)} ended with {status} and printed {lines}, and {wanted} is wanted")
    runs.put("widening", lines)
    runs.want(["judge", "problem", "widening"], 0, ["yes"])
    if extra:
        for other in {extra + 1, max(extra - 1, 1)} - {extra}:
            runs.put("widening", [lines[0], " ".join(["least", str(other), *named]), *lines[2:]])
            status, printed = runs.run("judge", "problem", "widening")
            if status != 1 or not printed[0].startswith("no "):
                raise AssertionError(f"judge of {' '.join(what)} by {other} ended with {status} and printed {printed}")


def check_problem(lines: Lines, folder: str) -> bool:
    """Wants what is true of a problem; whether it contradicts itself."""
    runs = Runs(folder)
    runs.put("problem", lines)
    if Answers(lines).earliest() is not None:
        runs.want(["blame", "problem"], 0, ["blame none"])
        return False
    found = {what: least_widening(lines, what) for what in [*candidates(lines), *others(lines)]}
    runs.want(["blame", "problem"], 0, blamed(lines, found))
    for what, extra in found.items():
        check_widening(runs, what, extra)
    runs.want(["widen", "problem", "rates", "z"], 11, ["unknown clock"])
    return True


def check_session(lines: Lines, folder: str) -> None:
    """Wants of a session over logs of such events what is true of the problem that it prints."""
    text, rows = as_logs(lines)
    runs = Runs(folder)
    runs.put("hosts.toml", text.split("\n")[:-1])
    script = []
    for label, own in rows.items():
        runs.put(f"{label}.csv", own)
        script.append(f"add {label} {label}.csv")
    *_, own, told, report = answered("hosts.toml", [*script, "problem", "blame", "report"], folder)
    found: Lines = ["blame none"]
    if Answers(own).earliest() is None:
        found = blamed(own, {what: least_widening(own, what) for what in candidates(own)})
    if told != found:
        raise AssertionError(f"the session's blame is {told}, and {found} is wanted")
    if f'"consistent":{"true" if told == ["blame none"] else "false"},' not in report[0]:
        raise AssertionError(f"behind {told[0]} the report is {report[0]}")


def main() -> int:
    parser = argparse.ArgumentParser(description=__doc__.split("\n\n")[0])
    parser.add_argument("contradictions", metavar="CONTRADICTIONS", nargs="?", type=int, default=300, help="how many; 300")
    parser.add_argument("seed", metavar="SEED", nargs="?", type=int, default=1, help="the number of the first; 1")
    said = parser.parse_args()
    number, without, with_execution = said.seed, 0, 0
    while without < said.contradictions:
        lines = drawn(Random(number))
        with tempfile.TemporaryDirectory(prefix="blames-") as folder:
            try:
                is_wrong = check_problem(lines, folder)
                if number % ASKED == 0:
                    check_session(lines, folder)
            except (AssertionError, RuntimeError) as why:
                kept = f"{LEFT}/blames-{number}"
                shutil.rmtree(kept, ignore_errors=True)
                shutil.copytree(folder, kept)
                print(f"problem {number}: {str(why)[:3000]}\nits files are in {kept}")
                return 1
        without, with_execution, number = without + is_wrong, with_execution + (not is_wrong), number + 1
    print(f"{without} contradictions, {with_execution} problems with an execution")
    return 0


if __name__ == "__main__":
    sys.exit(main())
