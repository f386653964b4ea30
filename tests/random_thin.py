#!/usr/bin/env python3
"""Runs `thin` over random problems, and wants what the whole problem says of each two events that are left.

    tests/random_thin.py [PROBLEMS [SEED]]

PROBLEMS, 300 if it is not said, are made from the numbers from SEED, 1 if it is not said, upward. Each has two or three
clocks, of which some follow each other, whose rates are off by up to a tenth, and many messages, most of them on links
of one least and one greatest delay; some events have several messages, some problems contradict themselves, and in some
events have bounds of their own. The reference is the plainest there is: all bounds of the whole problem and of the text
that is printed, and the greatest differences over them. No message may stay that another one implies, but for those
of events that are asked about, that have several messages, or that stay for a follow.

Every third problem is that of a session over logs, whose line `thin` must reply what the command prints of it.

PROGRAM names the program, else it is the one that is built here. The files of a problem that goes wrong stay in
tests/out/thin-N; then the status is 1.
"""

import argparse
import shutil
import subprocess
import sys
import tempfile
from random import Random
from typing import NamedTuple

from support.problems import UNITS, Answers, Problem
from support.program import LEFT, program, write
from support.replies import answered

Lines = list[str]
Pair = tuple[str, str]


def drawn(draw: Random) -> tuple[Lines, Lines]:
    """The text of a problem, and events that are asked about."""
    clocks = ["a", "b", "c"][: draw.choice((2, 2, 3))]
    head = [f"clock {it} {drawn_rate(draw)} {drawn_rate(draw)} {draw.randrange(4)} {draw.randrange(4)}" for it in clocks]
    chain = draw.sample(clocks, 2) if draw.random() < 0.2 else []
    chain.sort()
    head += [f"follow {chain[0]} {chain[1]} {draw.randrange(3)}"] if chain else []
    own = draw.random() < 0.2
    links = {(a, b): (draw.randrange(3), draw.choice(("none", 40, 60))) for a in clocks for b in clocks if a != b}
    events, messages, names = [], [], []
    for number in range(draw.randrange(12)):
        link = draw.choice([*links])
        least, most = links[link] if draw.random() < 0.9 else (0, "none")
        sent = draw.randrange(200) + 300 * (link[0] == chain[-1:][0] if chain else 0)
        ends = (f"{link[0]}{number}s", f"{link[1]}{number}r")
        stamps = (sent, max(0, sent + draw.randrange(-2, 20) + 300 * (link[1] in chain[1:])))
        for name, clock, stamp in zip(ends, link, stamps):
            events.append(" ".join(["event", name, clock, str(stamp), *own_bounds(draw, own)]))
        messages.append(f"message {ends[0]} {ends[1]} {least} {most}")
        names += [*ends]
    if len(names) > 3 and draw.random() < 0.3:
        messages.append(f"message {names[0]} {names[3]} 0 none")
    version = 3 if own and events else 2 if chain else 1
    asked = draw.sample(names, min(len(names), draw.choice((0, 0, 1, 2, 3))))
    return [f"problem {version}", *head, *events, *messages, "end"], asked


def drawn_session(draw: Random, folder: str) -> Lines:
    """Writes a declaration and logs, and returns the script that adds these."""
    hosts = ["a", "b", "c"][: draw.choice((2, 2, 3))]
    declared: Lines = []
    for host in hosts:
        declared += [f"[hosts.{host}]", *(f"{it} = {drawn_rate(draw)}" for it in ("short", "long"))]
        declared += [f"{it} = {draw.randrange(4)}" for it in ("early", "late")]
        declared += [f"[labels.{host}]", f'host = "{host}"', 'kind = "log"']
    links = [(a, b) for a in hosts for b in hosts if a != b]
    for sender, receiver in links:
        declared += ["[[links]]", f'from = "{sender}"', f'to = "{receiver}"', f"least = {draw.randrange(3)}"]
        declared += draw.choice(([], ["most = 40"]))
    write(f"{folder}/hosts.toml", "".join(f"{it}\n" for it in declared))
    logs: dict[str, Lines] = {host: [] for host in hosts}
    for number in range(draw.randrange(14)):
        sender, receiver = draw.choice(links)
        sent = draw.randrange(200)
        logs[sender].append(f"{sent},send,m{number},")
        logs[receiver].append(f"{max(0, sent + draw.randrange(-2, 30))},receive,m{number},")
    for host, rows in logs.items():
        write(f"{folder}/{host}.csv", "".join(f"{it}\n" for it in rows))
    return [f"add {host} {host}.csv" for host in hosts]


def check_session(draw: Random, folder: str) -> tuple[Lines, Lines]:
    """Wants a session to reply to `thin` what the command prints of its problem, and returns this, and which events are asked about."""
    script = drawn_session(draw, folder)
    lines = answered("hosts.toml", [*script, "problem"], folder)[-1]
    names = [it.split(" ")[1] for it in lines if it.startswith("event ")]
    asked = draw.choices(names, k=draw.randrange(4)) if names else []
    reply = answered("hosts.toml", [*script, " ".join(["thin", *asked])], folder)[-1]
    wanted = thinned(write(f"{folder}/problem.txt", "".join(f"{it}\n" for it in lines)), asked)
    assert reply == wanted, f"the session replies {reply}, and the command prints {wanted}"
    return lines, asked


def drawn_rate(draw: Random) -> int:
    return draw.choice((0, 0, 10_000_000, draw.randrange(100_000_000)))


def own_bounds(draw: Random, own: bool) -> Lines:
    return [str(draw.choice((0, 2))), str(draw.choice((1, 3)))] if own else []


def thinned(path: str, asked: Lines) -> Lines:
    """What the program prints of a problem."""
    done = subprocess.run([program(), "thin", path, *asked], capture_output=True, text=True)
    assert done.returncode == 0, f"thin: status {done.returncode}, {done.stdout[:200]} {done.stderr[-300:]}"
    return done.stdout.splitlines()


def check_ends(whole: Answers, small: Answers) -> None:
    """Wants the ends of each two events that are left to be those of the whole."""
    for first in small.problem.events:
        for second in small.problem.events:
            wanted, got = whole.ends(first, second), small.ends(first, second)
            assert wanted == got, f"from {first} to {second}: {got}, and in the whole {wanted}"


class Sent(NamedTuple):
    """A message by its events, with all that two messages must have alike, so that one can imply the other, its
    coordinates, and when it was received and sent."""

    ends: Pair
    alike: tuple[object, ...]
    u: int
    v: int
    stamps: tuple[int, int]

    def is_as_fast_as(self, other: "Sent") -> bool:
        return self.alike == other.alike and self.u >= other.u and self.v >= other.v


def sent_in(problem: Problem, lines: Lines) -> list[Sent]:
    """The messages of a problem."""
    own = {it.split(" ")[1]: it.split(" ")[4:] for it in lines if it.startswith("event ")}
    found = []
    for ends, delays in problem.messages.items():
        (sender, s), (receiver, t) = problem.events[ends[0]], problem.events[ends[1]]
        (sender_short, sender_long), (short, long) = problem.clocks[sender][:2], problem.clocks[receiver][:2]
        alike = (sender, receiver, delays, *(tuple(own[it]) for it in ends))
        found.append(Sent(ends, alike, s * (UNITS - sender_short) - t * (UNITS + long), s * (UNITS + sender_long) - t * (UNITS - short), (t, s)))
    return found


def is_implied(one: Sent, sent: list[Sent], has_most: bool) -> bool:
    """Whether other messages imply one; of two that imply each other, that the other one was received before it, or
    sent before."""
    others = [it for it in sent if it.stamps != one.stamps]
    fast = any(it.is_as_fast_as(one) and (not one.is_as_fast_as(it) or it.stamps < one.stamps) for it in others)
    slow = any(one.is_as_fast_as(it) and (not it.is_as_fast_as(one) or it.stamps < one.stamps) for it in others)
    return fast and (slow or not has_most)


def held_by_follows(problem: Problem) -> set[str]:
    """The events with the last reading of each clock that another one follows, and with the first of each that follows."""
    held = set()
    for later, (earlier, _) in problem.follows.items():
        for clock, edge in ((earlier, max), (later, min)):
            stamps = {name: stamp for name, (own, stamp) in problem.events.items() if own == clock}
            held |= {name for name, stamp in stamps.items() if stamp == edge(stamps.values())}
    return held


def check_size(problem: Problem, lines: Lines, kept: Problem, asked: Lines) -> None:
    """Wants no message to be left that others imply, but for those that have to stay."""
    sent = sent_in(problem, lines)
    uses = [it for ends in problem.messages for it in ends]
    held = held_by_follows(problem)
    for one in sent:
        must = any(it in asked or uses.count(it) > 1 or it in held for it in one.ends)
        if one.ends in kept.messages and not must:
            assert not is_implied(one, sent, problem.messages[one.ends][1] is not None), f"{one.ends} is implied, and is left"


def check(lines: Lines, asked: Lines, folder: str) -> tuple[int, int, bool]:
    """Checks a problem, and tells how many messages it has, how many are left, and whether it has an execution."""
    path = write(f"{folder}/problem.txt", "".join(f"{it}\n" for it in lines))
    text = thinned(path, asked)
    write(f"{folder}/thinned.txt", "".join(f"{it}\n" for it in text))
    whole, small = Answers(lines), Answers(text)
    assert set(asked) <= {*small.problem.events}, f"asked about {asked}, and not all are left"
    rest = iter(lines[1:])
    assert all(it in rest for it in text[1:]), "a line is new, or stands elsewhere"
    assert [it for it in text if it.startswith(("clock ", "follow "))] == [it for it in lines if it.startswith(("clock ", "follow "))]
    has_execution = whole.earliest() is not None
    assert (small.earliest() is not None) == has_execution, "one of the two has an execution"
    if has_execution:
        check_ends(whole, small)
    check_size(whole.problem, lines, small.problem, asked)
    return len(whole.problem.messages), len(small.problem.messages), has_execution


def main() -> int:
    parser = argparse.ArgumentParser(description=__doc__.split("\n\n")[0])
    parser.add_argument("problems", metavar="PROBLEMS", nargs="?", type=int, default=300, help="how many; 300")
    parser.add_argument("seed", metavar="SEED", nargs="?", type=int, default=1, help="the number of the first; 1")
    said = parser.parse_args()
    messages = left = contradictions = 0
    for number in range(said.seed, said.seed + said.problems):
        lines, asked = drawn(Random(number))
        with tempfile.TemporaryDirectory(prefix="thin-") as folder:
            try:
                if number % 3 == 0:
                    lines, asked = check_session(Random(number), folder)
                had, has, has_execution = check(lines, asked, folder)
            except (AssertionError, RuntimeError) as why:
                kept = f"{LEFT}/thin-{number}"
                shutil.rmtree(kept, ignore_errors=True)
                shutil.copytree(folder, kept)
                print(f"problem {number}, asked about {asked}: {str(why)[:3000]}\nits files are in {kept}")
                return 1
        messages, left, contradictions = messages + had, left + has, contradictions + (not has_execution)
    assert left < messages or said.problems < 20, "nothing was left out"
    print(f"{said.problems} problems, {contradictions} without an execution: {left} of {messages} messages left")
    return 0


if __name__ == "__main__":
    sys.exit(main())
