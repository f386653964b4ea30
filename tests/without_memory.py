#!/usr/bin/env python3
"""Runs each command with each of its requests for memory failing in turn.

    tests/without_memory.py [--every N] [--only WORD] [--without WORD]

Each command runs over files of examples/, and each of some sessions over files that are made here, first with all
memory, and then with the first, the second, .. request refused, until a run makes no more of them. A run with a
refused request must end with status 9 and print a front of the whole output, or end and print as if nothing had been
refused. The last session has ten thousand rows. Of its requests each of the first 2,000 is refused, and of those
behind them every N-th, 25 if it is not said: there are more than 20,000, and all of them would take half an hour.
With --only those alone are run whose titles have WORD, with --without those whose titles have it not. PROGRAM names
the program, else it is the one that is built here.
"""

import argparse
import os
import subprocess
import sys
import tempfile
from collections.abc import Iterator
from dataclasses import dataclass

from support.captures import AROUND_RECORD, classic_head, classic_record
from support.program import LEFT, TOP, program, read, write
from support.replies import script_of

REFUSING = f"{LEFT}/fail_memory.so"
# The words of each command, and its script.
COMMANDS: list[tuple[list[str], str | None]] = [
    (["obey", "examples/obey/problem.txt", "examples/obey/obeys.txt"], None),
    (["obey", "examples/obey/problem.txt", "examples/obey/broken.txt"], None),
    (["solve", "examples/first-hour/problem.txt"], None),
    (["solve", "examples/first-hour/contradiction.txt"], None),
    (["ends", "examples/first-hour/problem.txt", "db#2", "web#2"], None),
    (["ends", "examples/first-hour/contradiction.txt", "db#2", "web#2"], None),
    (["verify", "examples/first-hour/problem.txt", "examples/first-hour/run.cert"], None),
    (["verify", "examples/first-hour/contradiction.txt", "examples/first-hour/cycle.cert"], None),
    (["verify", "examples/first-hour/problem.txt", "examples/first-hour/ends.cert"], None),
    (["blame", "examples/first-hour/contradiction.txt"], None),
    (["thin", "examples/first-hour/problem.txt", "db#2", "web#2"], None),
    (["thin", "examples/guide/restarted.txt"], None),
    (["session", "examples/session/hosts.toml"], "examples/session/script.txt"),
    (["session", "examples/session/hosts.toml"], "examples/session/healed.txt"),
    (["session", "examples/captures/hosts.toml"], "examples/captures/script.txt"),
]


QUESTIONS = [
    "interval a#1 b#1", "order a#1 b#1", "merge", "problem", "prove a#1 b#1", "report", "time a#1", "times", "times b#1",
    "blame", "thin", "thin a#1 b#1",
]  # fmt: skip
CLOCK_QUESTIONS = [
    "interval before#1 after#1", "order before#3 after#2", "merge", "problem", "prove before#3 after#1", "report",
    "time after#3", "times", "times gate#2", "blame", "thin before#3",
]  # fmt: skip

Files = dict[str, bytes]  # the files of a session by their names


def links_of(pairs: list[tuple[str, str]], least: int, most: int) -> str:
    """Links with these bounds, as a declaration has them."""
    tables = (f'[[links]]\nfrom = "{one}"\nto = "{other}"\nleast = {least}\nmost = {most}\n' for one, other in pairs)
    return "".join(tables)


def declaration(kind: str, first: str = "", second: str = "") -> bytes:
    """Two hosts with a label each, the first of which is the source, and links of 10 to 20 ns."""
    hosts = "".join(
        f'[hosts.{it}]\n{more}[labels.{it}]\nhost = "{it}"\nkind = "{kind}"\n'
        for it, more in (("a", first), ("b", second))
    )
    links = links_of([("a", "b"), ("b", "a")], 10, 20)
    return f'source = "a"\n{hosts}{links}'.encode()


def logs(second_receive: int) -> Files:
    """The files of two logs with a message each way, of a second send, and their declaration."""
    return {
        "hosts.toml": declaration("log"),
        "a.csv": f"100,send,m1,\n{second_receive},receive,m2,\n".encode(),
        "b.csv": b"250,receive,m1,\n300,send,m2,\n",
        "c.csv": b"200,send,m1,\n",
    }


def captures(cut: int) -> Files:
    """The files of two captures with the same messages, as datagrams without a frame; that of a is cut into two."""
    # (link type 101: IP alone)
    head = classic_head()[:20] + (101).to_bytes(4, "little")
    one = bytes.fromhex("4500001c00070000401100000a0000010a0000021388177000080000")
    other = bytes.fromhex("4500001c00080000401100000a0000020a0000011770138800080000")
    whole = head + classic_record(100, one) + classic_record(180, other)
    return {
        "hosts.toml": declaration("capture", 'addresses = ["10.0.0.1"]\n', 'addresses = ["10.0.0.2"]\n'),
        "front": whole[:cut],
        "rest": whole[cut:],
        "b": head + classic_record(250, one) + classic_record(300, other),
    }


def rows(*lines: str) -> bytes:
    """A log of these rows."""
    return "".join(f"{line}\n" for line in lines).encode()


def kept_logs() -> Files:
    """The files of two logs of five rows each, of one row more, and their declaration."""
    return {
        "hosts.toml": declaration("log"),
        "a.csv": rows("100,send,m1,", "180,receive,m2,", "200,local,,a note", "220,send,m3,", "250,send,m4,"),
        "b.csv": rows("250,receive,m1,", "300,send,m2,", "340,local,,", "372,receive,m3,", "500,receive,m5,"),
        "c.csv": rows("401,receive,m4,"),
    }


NINE = ["a#1", "a#2", "a#3", "a#4", "a#5", "b#1", "b#2", "b#3", "b#4"]


def two_clocks() -> Files:
    """The files of three logs, two of which are stamped by one host's clocks, and their declaration."""
    clocks = '[{ name = "mill-old" }, { name = "mill-new", long = 40, gap = 6 }]'
    hosts = f'source = "mill-old"\n[hosts.mill]\nlate = 2\nclocks = {clocks}\n[hosts.yard]\n'
    named = (("after", "mill", 'clock = "mill-new"\n'), ("before", "mill", ""), ("gate", "yard", 'clock = "yard"\n'))
    labels = "".join(f'[labels.{label}]\nhost = "{host}"\nkind = "log"\n{more}' for label, host, more in named)
    links = links_of([("mill", "yard"), ("yard", "mill")], 3, 40)
    return {
        "hosts.toml": f"{hosts}{labels}{links}".encode(),
        "before.csv": rows("500,send,order,", "540,receive,answer,", "560,local,,shut down"),
        "after.csv": rows("7,local,,started", "9,send,again,", "30,receive,last,"),
        "gate.csv": rows("81,receive,order,", "110,send,answer,", "160,receive,again,", "165,send,last,"),
    }


def many_rows() -> Files:
    """The files of two logs of 5,000 rows each, each row an end of a message, and their declaration."""
    left, right = [], []
    for number in range(2500):
        left += [f"{1000 * number},send,m{number},", f"{1000 * number + 140},receive,r{number},"]
        right += [f"{1000 * number + 315},receive,m{number},", f"{1000 * number + 420},send,r{number},"]
    return {"hosts.toml": declaration("log"), "a.csv": rows(*left), "b.csv": rows(*right)}


HEAD, RECORD = 24, AROUND_RECORD + 28
CUTS = (10, HEAD, HEAD + RECORD - 1, HEAD + RECORD + 22, HEAD + 2 * RECORD)
MANY = "ten thousand rows"


@dataclass(frozen=True)
class Session:
    """A session over files that are made here; `refusals` of its lines are refused."""

    title: str
    files: Files
    lines: list[str]
    refusals: int = 0


KEEPS = [f"keep {it}" for it in NINE]
TWO = ["add a a.csv", "add b b.csv"]
SESSIONS = [
    Session("two logs", logs(180), TWO + QUESTIONS),
    Session("a second send", logs(190), [*TWO, "add a c.csv", *QUESTIONS]),
    Session("a contradiction", logs(195), TWO + QUESTIONS),
    # (the ninth event that is to be kept is refused)
    Session("nine keeps", kept_logs(), [*TWO, *KEEPS, *QUESTIONS, "add a c.csv", *QUESTIONS], 1),
    Session(
        "two clocks",
        two_clocks(),
        ["add before before.csv", "add gate gate.csv", "add after after.csv", "keep after#1", *CLOCK_QUESTIONS],
    ),
    *(
        Session(f"a capture cut at {cut}", captures(cut), ["add a front", "add a rest", "add b b", *QUESTIONS])
        for cut in CUTS
    ),
    Session(MANY, many_rows(), [*TWO, "keep a#1", "interval a#1 b#5000", "merge", "report", "problem"]),
]


def run(words: list[str], source: bytes, folder: str, number: int) -> tuple[int, bytes]:
    """The status and the output of a run whose request for memory of this number is refused; of none, if it is 0."""
    environment = dict(os.environ)
    if number:
        environment |= {"LD_PRELOAD": REFUSING, "FAIL_MEMORY": str(number)}
    done = subprocess.run([program(), *words], input=source, capture_output=True, cwd=folder, env=environment)
    return done.returncode, done.stdout


def refuse_each(title: str, words: list[str], source: bytes, folder: str, every: int = 1, refusals: int = 0) -> None:
    """Refuses one request after another, behind the first 2,000 every so many, and prints how many there were.

    Raises AssertionError where a run ends otherwise than it should."""
    whole = run(words, source, folder, 0)
    assert whole[0] in (0, 1) and whole[1].count(b"refused") == refusals, f"{title}: {whole}"
    number, refused, spared = 0, 0, 0
    while spared < 40:
        number += 1 if number < 2000 else every
        status, printed = run(words, source, folder, number)
        if (status, printed) == whole:
            spared += 1
        else:
            is_front = status == 9 and whole[1].startswith(printed)
            assert is_front, f"{title}, request {number}: status {status}, {printed!r}"
            refused, spared = refused + 1, 0
    assert refused, f"{title}: no request was refused"
    print(f"{title}: {refused} requests refused, status 9 each", flush=True)


def cases(every: int) -> Iterator[tuple[str, list[str], bytes, str, int, int]]:
    """What refuse_each is asked for: the commands over examples, then the sessions."""
    for words, script in COMMANDS:
        yield " ".join(words), words, read(f"{TOP}/{script}") if script else b"", TOP, 1, 0
    for it in SESSIONS:
        with tempfile.TemporaryDirectory() as folder:
            for name, content in it.files.items():
                write(f"{folder}/{name}", content)
            step = every if it.title == MANY else 1
            yield it.title, ["session", "hosts.toml"], script_of(it.lines), folder, step, it.refusals


def compile_refusal() -> None:
    """Makes the library that lets requests fail."""
    os.makedirs(LEFT, exist_ok=True)
    words = [os.environ.get("CC", "gcc"), "-O2", "-Wall", "-shared", "-fPIC", "-o", REFUSING]
    subprocess.run([*words, f"{TOP}/tests/fail_memory.c", "-ldl"], check=True)


def main() -> int:
    parser = argparse.ArgumentParser(description=__doc__.split("\n\n")[0])
    parser.add_argument("--every", metavar="N", type=int, default=25, help="of many requests refuse every N-th; 25")
    parser.add_argument("--only", metavar="WORD", default="", help="run those whose titles have this")
    parser.add_argument("--without", metavar="WORD", help="leave out those whose titles have this")
    said = parser.parse_args()
    compile_refusal()
    for case in cases(said.every):
        if said.only in case[0] and not (said.without and said.without in case[0]):
            try:
                refuse_each(*case)
            except AssertionError as why:
                print(why)
                return 1
    return 0


if __name__ == "__main__":
    sys.exit(main())
