#!/usr/bin/env python3
"""Captures real traffic of two hosts, one of which also writes a log of whole ms, and wants the log to widen nothing.

    tests/logged.py [--seeds N] [--quick]

Each of N seeds, 10 if it is not said and 2 with --quick, has two hosts in namespaces, joined by a cable and captured at
both ends. Host `b` answers some requests by HTTP, and writes a row when an answer is on its way: the time by its own
clock, which stamps its packets too, cut off to whole ms. Then the stamps of `b`, those of its log before they are cut,
are moved by hours, and by a rate within the declared one, as in vantage.py.

There are three sessions: over the captures alone; over captures and log, whose label has a `late` of 1 ms; and over the
same with that `late` at host `b`. Of some pairs of packets, one of each host, the interval is asked. Each must have the
real time between them. With the `late` at the label it is less than 1 us wider than without the log, and with the one
at the host about as much wider as a log of ms is coarse: by 0.9 ms at least, and by no more than twice 1.1 ms. The
interval from a packet to a row has the real time, too, and is 1 ms wide, and as much as the rate may be off. And
`tools/declare` over these files gives the ms to the label of the log, and leaves the host's bounds to its capture.

It needs root, and `ip` of iproute2; without them a line says so, and the status is 0. PROGRAM names the program, else
it is the one that is built here. It prints what it counted. Where something is wrong it says what, and the status is 1;
the files of a faulty seed stay in tests/out/logged.
"""

import argparse
import os
import shutil
import socket
import subprocess
import sys
import tempfile
import time
import tomllib
from collections.abc import Sequence
from concurrent.futures import ThreadPoolExecutor
from dataclasses import dataclass, replace
from random import Random

from support.cables import Cables, Taken
from support.conversations import MOST_OF_A_READ, Address, bound
from support.places import FIRST, HOST, LABEL, LEAST, LINK, RATES, STAMPS, ethernet, near, numbered, with_bits
from support.problems import UNITS, is_outside, units_of
from support.program import LEFT, TOP, program, write
from support.replies import answered

# What the clock of `b` may be off, in ns and in parts per billion.
MOST_OFFSET, MOST_RATE = 4 * 3600 * 10**9, 40_000
# How many requests there are, and of how many pairs of packets the interval is asked.
REQUESTS, ASKED = 20, 30
# How far behind its stamp a row may be that is cut off to whole ms, by a clock of the declared rate.
MS, LATE = 10**6, 1_000_051
ROWS = '\n[labels.rows]\nhost = "b"\nkind = "log"\n{}'
END, ANSWER = b"\r\n\r\n", b"HTTP/1.1 200 OK\r\nContent-Length: 2\r\nConnection: close\r\n\r\nok"


@dataclass(frozen=True)
class Made:
    """What was captured, and the rows: the true time of each, and its stamp."""

    taken: Taken
    rows: Sequence[tuple[int, int]]


def join(network: Cables) -> None:
    """Joins `a` and `b` by a cable, and captures both its ends."""
    network.cable(("a", "eth0"), ("b", "eth0"))
    for number, host in enumerate("ab", 1):
        network.watch(host, host, "eth0")
        network.address((host, "eth0"), *with_bits(FIRST, number))
    network.raise_all(("a", "eth0"), ("b", "eth0"))
    for one, other in ("ab", "ba"):
        network.passes(f"{one} to {other}", (one, "eth0", True), (other, "eth0", False))


def read_to(connection: socket.socket, end: bytes) -> None:
    """Reads up to these bytes, or, where there are none, up to the end of the connection."""
    found = b""
    while not (end and found.endswith(end)):
        part = connection.recv(MOST_OF_A_READ)
        if not part:
            return
        found += part


def serve(listener: socket.socket, times: list[int]) -> None:
    """Answers each request, and then takes the time of its row."""
    with listener:
        for _ in range(REQUESTS):
            with listener.accept()[0] as connection:
                read_to(connection, END)
                connection.sendall(ANSWER)
                times.append(time.time_ns())


def ask(connections: Sequence[socket.socket], address: Address, draw: Random) -> None:
    """Asks one request after the other, each over a connection of its own."""
    for number, it in enumerate(connections):
        with it:
            it.connect(address)
            it.sendall(b"GET /%d HTTP/1.1\r\nHost: b" % number + END)
            read_to(it, b"")
        time.sleep(draw.random() * 0.004)


def made(network: Cables, draw: Random) -> Made:
    """What is captured and written while they talk, with the stamps of each host's own clock."""
    times: list[int] = []
    one, other = (numbered(FIRST, number)[0] for number in (1, 2))
    listener, address = bound(network.spaces["b"], other, socket.AF_INET, socket.SOCK_STREAM)
    listener.listen()
    asking = [bound(network.spaces["a"], one, socket.AF_INET, socket.SOCK_STREAM)[0] for _ in range(REQUESTS)]
    with ThreadPoolExecutor(2) as pool:
        network.listen([pool.submit(serve, listener, times), pool.submit(ask, asking, address, draw)])
    taken = network.taken()
    first = min(it.time for records in taken.values() for it in records)
    offset, rate = draw.randint(-MOST_OFFSET, MOST_OFFSET), draw.randint(-MOST_RATE, MOST_RATE)

    def shown(it: int) -> int:
        """What the clock of `b` shows at a time."""
        return it + offset + (it - first) * rate // 10**9

    taken["a"] = [replace(it, stamp=it.time) for it in taken["a"]]
    taken["b"] = [replace(it, stamp=shown(it.time)) for it in taken["b"]]
    return Made(taken, [(it, shown(it) // MS * MS) for it in times])


def declaration(at_label: bool, has_log: bool = True) -> str:
    """What is declared, with the bound of the log at its label or at its host."""
    said = ["payload_bytes = 8\ntcp_options = true\n"]
    for number, host in enumerate("ab", 1):
        late = LATE if host == "b" and has_log and not at_label else STAMPS[1]
        said.append(HOST.format(host, *RATES, STAMPS[0], late) + f"{near(numbered(FIRST, number)[0])}\n")
        said.append(LABEL.format(host, host, ""))
    said += [ROWS.format(f"late = {LATE}\n" if at_label else "")] if has_log else []
    return "".join([*said, *(LINK.format(one, other, LEAST) for one, other in ("ab", "ba"))])


def widths(replies: Sequence[str]) -> list[int]:
    """How wide intervals are, in ns."""
    ends = (it.split(" ")[1:] for it in replies)
    return [(units_of(most) - units_of(least)) // UNITS for least, most in ends]


class Sessions:
    """The sessions over what was made, in a folder."""

    def __init__(self, folder: str, made: Made) -> None:
        self.folder, self.wrong = folder, list[str]()
        self.times = {f"{host}#{n}": it.time for host, records in made.taken.items() for n, it in enumerate(records, 1)}
        self.times |= {f"rows#{n}": time for n, (time, _) in enumerate(made.rows, 1)}
        for host, records in made.taken.items():
            write(f"{folder}/{host}.pcap", ethernet(records))
        write(f"{folder}/rows.csv", "".join(f"{stamp},local,,GET /{n}\n" for n, (_, stamp) in enumerate(made.rows)))

    def ask(self, name: str, text: str, labels: Sequence[str], pairs: Sequence[tuple[str, str]]) -> list[int]:
        """How wide the intervals of these pairs are; what is wrong of them is kept."""
        path = write(f"{self.folder}/{name}.toml", text)
        adds = [f"add {it} {self.folder}/{it}.{'csv' if it == 'rows' else 'pcap'}" for it in labels]
        replies = [it[0] for it in answered(path, [*adds, *(f"interval {one} {other}" for one, other in pairs)])]
        added, intervals = replies[: len(adds)], replies[len(adds) :]
        if not all(it.endswith(" consistent") for it in added) or " messages 0 " in added[1]:
            self.wrong.append(f"{name}: {added}")
            return []
        for (one, other), it in zip(pairs, intervals):
            truth = self.times[other] - self.times[one]
            if is_outside(it, truth):
                self.wrong.append(f"{name}: {one} {other}: {it}, and the truth is {truth}")
        return widths(intervals)

    def want(self, holds: bool, why: str) -> None:
        if not holds:
            self.wrong.append(why)

    def declared(self) -> None:
        """Wants what tools/declare writes to have the ms at the label of the log, and not at its host."""
        words = [f"{it}={self.folder}/{it}.pcap" for it in "ab"] + [f"rows@b={self.folder}/rows.csv"]
        ran = subprocess.run([f"{TOP}/tools/declare", *words, "--program", program()], capture_output=True, text=True)
        found = tomllib.loads(ran.stdout)
        late = [found["labels"]["rows"].get("late", 0), found["hosts"]["b"]["late"]]
        self.want(late[0] >= MS and late[1] < MS // 100, f"tools/declare: late {late} of the log and of its host {ran.stderr}")


def judge(folder: str, made: Made, draw: Random, told: list[list[int]]) -> list[str]:
    """Asks the sessions, and returns what is wrong; told are the widths of the intervals of each."""
    sessions = Sessions(folder, made)
    ends = [[name for name in sessions.times if name.startswith(f"{label}#")] for label in ("a", "b", "rows")]
    pairs = [(draw.choice(ends[0]), draw.choice(ends[1])) for _ in range(ASKED)]
    rows = [(draw.choice(ends[1]), it) for it in ends[2]]
    alone = sessions.ask("alone", declaration(True, has_log=False), "ab", pairs)
    beside = sessions.ask("beside", declaration(True), ["a", "b", "rows"], [*pairs, *rows])
    coarse = sessions.ask("coarse", declaration(False), ["a", "b", "rows"], pairs)
    if not sessions.wrong:
        for pair, one, two, three in zip(pairs, alone, beside, coarse):
            sessions.want(two - one < 1000, f"{' '.join(pair)}: {one} ns wide, and with the log {two}")
            sessions.want(0.9 * MS <= three - one <= 2.2 * MS, f"{' '.join(pair)}: {one} ns wide, and with 1 ms at the host {three}")
        for pair, it in zip(rows, beside[ASKED:]):
            # (of what lies between by the clock of `b` as much is open as its rate may be off)
            between = abs(sessions.times[pair[0]] - sessions.times[pair[1]]) + MS
            sessions.want(0.9 * MS <= it <= 1.1 * MS + between * sum(RATES) // 10**9, f"{' '.join(pair)}: {it} ns wide")
        for widths, its in zip(told, (alone, beside[:ASKED], coarse, beside[ASKED:])):
            widths += its
        sessions.declared()
    return sessions.wrong


def run(folder: str, seeds: int) -> list[str]:
    """Runs all seeds, and returns what is wrong."""
    wrong: list[str] = []
    told: list[list[int]] = [[], [], [], []]
    with Cables("ab", join) as network:
        for seed in range(1, seeds + 1):
            draw, place = Random(f"logged {seed}"), f"{folder}/{seed}"
            os.makedirs(place)
            faults = judge(place, made(network, draw), draw, told)
            if faults:
                shutil.copytree(place, f"{LEFT}/logged/{seed}", dirs_exist_ok=True)
            wrong += [f"seed {seed}: {it}" for it in faults]
    for name, widths in zip(("captures alone", "with the log", "its ms at the host", "from packets to rows"), told):
        if widths:
            shown = sorted(widths)
            print(f"{name}: {len(shown)} intervals, {shown[0] / 1000:.1f} to {shown[-1] / 1000:.1f} us wide, half of them at most {shown[len(shown) // 2] / 1000:.1f}")
    return wrong


def main() -> int:
    parser = argparse.ArgumentParser(description=__doc__.split("\n\n")[0])
    parser.add_argument("--seeds", type=int, default=10, metavar="N", help="how many seeds there are (10)")
    parser.add_argument("--quick", action="store_true", help="two seeds")
    said = parser.parse_args()
    program()  # (it ends the script where there is none)
    if os.geteuid() or not shutil.which("ip"):
        print("logged: left out, since it needs root and `ip` of iproute2")
        return 0
    with tempfile.TemporaryDirectory() as folder:
        wrong = run(folder, 2 if said.quick else said.seeds)
    for it in wrong[:20]:
        print(f"logged: {it}")
    return 1 if wrong else 0


if __name__ == "__main__":
    sys.exit(main())
