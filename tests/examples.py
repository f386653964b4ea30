#!/usr/bin/env python3
"""Runs the sessions of examples/ with each question, and checks what they say of one another.

    tests/examples.py

Each certificate that `prove` replies is given to `verify` with the reply to `problem`, which must print `yes`. The
merge has a line for each event, in the order of the times; with the report's numbers each event is counted once; an
event's time by the source has ends in their order. The captures that a script makes are those that are kept. PROGRAM
names the program, else it is the one that is built here. It ends with status 1 where something is otherwise.
"""

import argparse
import json
import os
import subprocess
import sys
import tempfile
from dataclasses import dataclass
from fractions import Fraction
from functools import partial

from support.program import TOP, program, read, write
from support.replies import answered, script_of


@dataclass(frozen=True)
class Example:
    """A folder of examples/ with a session, pairs of events to prove, and events to tell the time of."""

    folder: str
    pairs: list[tuple[str, str]]
    timed: tuple[str, ...] = ()
    declaration: str = "hosts.toml"
    script: str = "script.txt"

    def additions(self) -> list[str]:
        """The lines that add logs and captures."""
        lines = read(f"{TOP}/examples/{self.folder}/{self.script}").decode().split("\n")
        return [line for line in lines if line.startswith("add ")]

    def ask(self, *lines: str) -> list[list[str]]:
        """The replies to lines behind the additions."""
        additions = self.additions()
        declaration = f"examples/{self.folder}/{self.declaration}"
        return answered(declaration, [*additions, *lines], TOP)[len(additions) :]


EXAMPLES = [
    Example("captures", [("left#6", "right#6"), ("right#58", "left#1"), ("left#3", "left#3")]),
    Example("session", [("db#2", "web#2"), ("web#1", "db#1")]),
    Example("stepped", [("b-before#4", "b-after#1"), ("b-after#1", "a#5")], (), "split.toml", "split.txt"),
    Example(
        "restarted",
        [("first#2", "second#1"), ("first#2", "gate#1"), ("gate#3", "first#1")],
        ("second#1", "second#5", "gate#1"),
    ),
    Example("timeline", [("db#1", "app#4"), ("gate#1", "db#4")], ("gate#2", "db#1", "app#7")),
    Example("vantage", [("a#1", "f#1"), ("f#8", "n-lan#2"), ("n-wan#3", "n-lan#3")], (), "nat.toml", "nat.txt"),
    Example("vantage", [("k1#1", "k2#1"), ("k2#8", "k1#2")], (), "pods.toml", "pods.txt"),
]


def check_merge(events: list[str], merge: list[str]) -> None:
    """Wants a merge to have these events, in the order of their times."""
    times = [Fraction(line.split(" ")[0]) for line in merge[1:]]
    assert merge[0] == f"merge {len(events)}", "merge has another number of events"
    assert sorted(line.split(" ")[1] for line in merge[1:]) == sorted(events), "merge has other events"
    assert times == sorted(times), "merge is not sorted"


def check_report(events: list[str], text: str) -> None:
    """Wants a report to count each event once."""
    report = json.loads(text)
    listed = sum(len(group["sends"]) + len(group["receives"]) for group in report["ambiguous"])
    counted = 2 * report["messages"] + sum(report["nokey"].values()) + report["unmatched"] + listed
    assert report["events"] == len(events) == counted, f"the report's numbers do not add up: {text}"


def check_proofs(pairs: list[tuple[str, str]], problem: list[str], proofs: list[list[str]]) -> None:
    """Wants each proof to be accepted over the problem."""
    with tempfile.TemporaryDirectory() as folder:
        path = write(f"{folder}/problem", script_of(problem))
        for (first, second), proof in zip(pairs, proofs):
            certificate = write(f"{folder}/certificate", script_of(proof))
            told = subprocess.run([program(), "verify", path, certificate], capture_output=True)
            assert told.stdout == b"yes\n", f"prove {first} {second}: {told.stdout!r}"


def check(example: Example) -> None:
    """Asks all questions of one example. Raises AssertionError where a reply is otherwise."""
    problem, merge, report = example.ask("problem", "merge", "report")
    events = [line.split(" ")[1] for line in problem if line.startswith("event ")]
    check_merge(events, merge)
    check_report(events, report[0])
    check_proofs(example.pairs, problem, example.ask(*(f"prove {first} {second}" for first, second in example.pairs)))
    for event, reply in zip(example.timed, example.ask(*(f"time {it}" for it in example.timed))):
        least, greatest = (Fraction(it) for it in reply[0].split(" ")[1:])
        assert least <= greatest, f"time {event}"
    found = f"{len(events)} events, {len(example.pairs)} certificates accepted, {len(example.timed)} times"
    print(f"{example.folder}: {found}")


def check_made() -> None:
    """Wants the captures and the log of examples/vantage to be those that make.py there writes."""
    with tempfile.TemporaryDirectory() as folder:
        subprocess.run([sys.executable, f"{TOP}/examples/vantage/make.py", folder], check=True)
        made = sorted(os.listdir(folder))
        for name in made:
            assert read(f"{folder}/{name}") == read(f"{TOP}/examples/vantage/{name}"), f"make.py writes another {name}"
    print(f"vantage: {len(made)} files as they are made")


def main() -> int:
    argparse.ArgumentParser(description=__doc__.split("\n\n")[0]).parse_args()
    checks = [(it.folder, partial(check, it)) for it in EXAMPLES]
    for folder, wanted in [*checks, ("vantage", check_made)]:
        try:
            wanted()
        except (AssertionError, RuntimeError) as why:
            print(f"{folder}: {why}")
            return 1
    return 0


if __name__ == "__main__":
    sys.exit(main())
