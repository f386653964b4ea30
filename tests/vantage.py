#!/usr/bin/env python3
"""Captures real traffic at places between hosts, and compares the program's answers with what is true there.

    tests/vantage.py [--seeds N] [--quick] [--keep FOLDER] [CASE..]

Each of N seeds, 10 if it is not said and 1 with --quick, has five cases, or those that are named. Hosts talk by TCP and
UDP over IPv4 and IPv6, and but for the first case either of them begins.

- `translated`: a host, a box whose kernel masquerades, and a host behind it, over IPv4. The box is captured on both
  sides, and talks with both hosts itself. 2 % of the records are dropped from each capture.
- `routed`: the same without translation, so that both sides see one packet with one key.
- `switched`: two hosts at a bridge without an address, which is captured both ways at one of its ports.
- `tagged`: two hosts that send and receive by a device of tagged frames, and capture all interfaces.
- `bridged`: two hosts that send and receive by a bridge over their interface, and capture all interfaces.

In the last two each capture has each packet twice. The captures are cooked ones of LINKTYPE_LINUX_SLL2, and pcapng
with an interface for each interface.

What is true: one kernel clock stamps all captures, and support/cables.py knows which records are of one packet. Then
the stamps of each host but the first are moved by hours, and by a rate within the declared one, as in namespaces.py.

What is wanted, of each session that says where its traces were taken: the messages are the sends and receives of one
packet on one cable, all of these and no others, but for segments over IPv6 that are alike, as acknowledgements may be
within a tick of their timestamps. The intervals between events of the two outer hosts, which in the first three cases
have no message with each other, have the real time between them, and their ends are those that support/problems.py
works out from what is declared and true. Packets of another interface, and those of which nothing says the side, have
no key and are counted.

Of sessions that say less, or what is wrong: where nothing tells the sides of a router, or the interfaces, apart, all
packets are `ambiguous`. Where the segments of a router are exchanged, near is taken for beyond at one end of a cable,
or an interface is named that is not there, there are no messages on that cable. Where near is taken for beyond at both
ends, it is a contradiction.

A seed fixes what is drawn, and not when the kernel does what. It needs root, and `ip` of iproute2; without them a line
says so, and the status is 0; so it is of a case for which the kernel lacks something. PROGRAM names the program, else
it is the one that is built here. It prints what it counted. Where something is wrong it says what, and the status is 1;
the files of a faulty session stay in tests/out/vantage. --keep leaves those of the first seed in a folder.
"""

import argparse
import json
import os
import re
import shutil
import socket
import subprocess
import sys
import tempfile
from collections import Counter
from collections.abc import Mapping, Sequence
from concurrent.futures import Future, ThreadPoolExecutor
from contextlib import ExitStack
from dataclasses import dataclass, field, replace
from random import Random

from support.cables import Cables, Taken
from support.captures import untagged
from support.conversations import Address, ask, ask_datagrams, bound, serve, serve_datagrams
from support.kinds import OVER_IPV6, kind_of
from support.places import CASES, LEAST, RATES, STAMPS, Case, Session, Talker, declaration
from support.problems import UNITS, Answers, Problem, interval, is_outside, units_of
from support.program import LEFT, program, write
from support.replies import answered
from support.spaces import Record

# What the clock of a host may be off, in ns and in parts per billion.
MOST_OFFSET, MOST_RATE = 4 * 3600 * 10**9, 40_000
# Of how many pairs of events the interval is asked, and of how many it is worked out.
ASKED, WORKED_OUT = 30, 2
# Where a segment over IPv6 has the label of its flow in a frame, what is behind it, and its window and checksum.
FLOW, HEADER, WINDOW = 15, 18, 68
# How many faults of a session are printed.
SHOWN = 5
# As many as conversations have ends.
THREADS = 24
# A connection that carries much each way, how many turns another one takes, and how many datagrams are answered.
MUCH, TURNS, DATAGRAMS = range(20_000, 30_000), 12, 20


@dataclass
class Found:
    """What a session came to, over all seeds."""

    possible: Counter[str] = field(default_factory=Counter)
    messages: Counter[str] = field(default_factory=Counter)
    widths: list[int] = field(default_factory=list)  # of intervals, in units


def converse(pool: ThreadPoolExecutor, network: Cables, draw: Random, one: Talker, other: Talker) -> list[Future[None]]:
    """Begins a connection that carries much each way, one that takes many turns, and datagrams."""
    family = socket.AF_INET6 if ":" in other[1] else socket.AF_INET

    def ends(kind: int) -> tuple[socket.socket, socket.socket, Address]:
        """A socket of both, and the other's address."""
        (asking, _), (answering, address) = (bound(network.spaces[host], at, family, kind) for host, at in (one, other))
        return asking, answering, address

    begun = []
    much = [(draw.choice(MUCH), 1), (1, draw.choice(MUCH))]
    many = [(draw.randrange(1, 600), draw.randrange(1, 2_000)) for _ in range(TURNS)]
    for turns in (much, many):
        asking, answering, address = ends(socket.SOCK_STREAM)
        answering.listen()
        begun += [pool.submit(serve, answering, turns), pool.submit(ask, asking, address, turns)]
    few = [(draw.randrange(8, 600), draw.randrange(8, 600)) for _ in range(DATAGRAMS)]
    asking, answering, address = ends(socket.SOCK_DGRAM)
    begun.append(pool.submit(serve_datagrams, answering, Random(draw.random()), few))
    begun.append(pool.submit(ask_datagrams, asking, address, Random(draw.random()), few))
    return begun


def captured(network: Cables, case: Case, draw: Random) -> Taken:
    """What is captured while they talk, with the stamps that each host has written."""
    with ThreadPoolExecutor(THREADS) as pool:
        network.listen([it for pair in case.talks for it in converse(pool, network, draw, *pair)])
    taken = network.taken()
    first = min(it.time for records in taken.values() for it in records)
    clocks = {host: [draw.randint(-it, it) for it in (MOST_OFFSET, MOST_RATE)] for host in case.hosts}
    clocks[case.hosts[0]] = [0, 0]
    for tap, records in taken.items():
        offset, rate = clocks[network.places[tap]]
        stamped = (replace(it, stamp=it.time + offset + (it.time - first) * rate // 10**9) for it in records)
        taken[tap] = [it for it in stamped if draw.random() >= case.dropped]
    return taken


def true_pairs(session: Session, taken: Taken) -> list[tuple[str, str]]:
    """The events of each two records of one packet that are to be a message."""

    def events(flow: str, name: str) -> dict[int, tuple[str, bytes]]:
        """The events of a label that are of these packets, and what these are like, by the number of the packet."""
        label = session.labels[name]
        named = [(f"{name}#{n}", it) for n, it in enumerate(taken[label.tap], 1) if it.packet[0] == flow]
        return {it.packet[1]: (n, content(it.frame)) for n, it in named if label.interface in ("", it.interface)}

    found = []
    for flow, sender, receiver in session.ties:
        sends, receives = events(flow, sender), events(flow, receiver)
        copies = Counter(it for _, it in sends.values())
        found += [(name, receives[n][0]) for n, (name, it) in sends.items() if n in receives and copies[it] == 1]
    return found


def content(frame: bytes) -> bytes:
    """What tells a packet from others: of a segment over IPv6 neither its window nor its checksum, nor the label of its
    flow, which is another one where it is sent again."""
    bare = untagged(frame)
    return bare[:FLOW] + bare[HEADER:WINDOW] + bare[WINDOW + 4 :] if kind_of(bare) == OVER_IPV6 else bare


def described(session: Session, records: Mapping[str, Record], pairs: Sequence[tuple[str, str]]) -> list[str]:
    """The problem of what is declared and true, as it is printed."""
    hosts = {name: label.host for name, label in session.labels.items()}
    lines = [f"clock {host} {' '.join(map(str, RATES + STAMPS))}" for host in dict.fromkeys(hosts.values())]
    lines += [f"event {name} {hosts[name.split('#')[0]]} {it.stamp}" for name, it in records.items()]
    return lines + [f"message {send} {receive} {LEAST} none" for send, receive in pairs]


def judge(folder: str, session: Session, taken: Taken, draw: Random, found: Found) -> list[str]:
    """Asks a session, counts, and returns what is wrong."""
    records = {f"{name}#{n}": it for name, label in session.labels.items() for n, it in enumerate(taken[label.tap], 1)}
    kinds = {name: kind_of(untagged(it.frame)) for name, it in records.items()}
    path = write(f"{folder}/hosts.toml", declaration(session))
    for name, label in session.labels.items():
        write(f"{folder}/{name}.pcap", label.written(taken[label.tap]))
    names = [[it for it in records if it.startswith(f"{end}#")] for end in session.ends]
    asked = [tuple(draw.choice(it) for it in names) for _ in range(ASKED if names else 0)]
    adds = [f"add {name} {folder}/{name}.pcap" for name in session.labels]
    script = [*adds, "problem", "report", *(f"interval {one} {other}" for one, other in asked)]
    replies = answered(path, script)
    added, (problem, report, *intervals) = replies[: len(adds)], replies[len(adds) :]
    is_consistent = added[-1][0].endswith(" consistent")
    if is_consistent != session.is_consistent:
        return ["not found out" if is_consistent else "a contradiction"]
    if not is_consistent:
        return []

    pairs, messages = true_pairs(session, taken), set(Problem(problem).messages)
    found.possible.update(kinds[send] for send, _ in pairs)
    found.messages.update(kinds[send] for send, _ in messages)
    wrong = [f"a false pair: {send} {receive}" for send, receive in sorted(messages - set(pairs))]
    wrong += [f"no message of {kinds[it[0]]}: {' '.join(it)}" for it in pairs if it not in messages]
    told = json.loads(report[0])
    ambiguous = sum(len(it["sends"]) + len(it["receives"]) for it in told["ambiguous"])
    told = {**dict.fromkeys(("side", "interface"), 0), **told["nokey"], **told, "ambiguous": ambiguous}
    wrong += [f"{key}: {told[key]} and not {it}" for key, it in session.reported.items() if told[key] != it]

    truths = [records[other].time - records[one].time for one, other in asked]
    replied = [it[0] for it in intervals]
    outside = [it for it in zip(asked, replied, truths) if is_outside(*it[1:])]
    wrong += [f"{' '.join(pair)}: {it}, and the truth is {truth}" for pair, it, truth in outside]
    found.widths += [units_of(most) - units_of(least) for _, least, most in (it.split(" ") for it in replied)]
    if asked and not wrong:
        answers = Answers(described(session, records, sorted(messages)))
        for (one, other), it in list(zip(asked, replied))[:WORKED_OUT]:
            if (worked_out := f"interval {interval(answers.ends(one, other))}") != it:
                wrong.append(f"{one} {other}: {it} and not {worked_out}")
    return wrong


def shortened(faults: list[str]) -> list[str]:
    """The first of some faults, and how many more there are."""
    return faults if len(faults) <= SHOWN else [*faults[:SHOWN], f"and {len(faults) - SHOWN} more"]


def show(case: Case, name: str, found: Found) -> None:
    """Prints what was counted of a session, over all seeds."""
    line = f"{case.name}, {name}: {found.possible.total()} possible, {found.messages.total()} messages"
    if found.widths:
        widths = sorted(it / UNITS / 1000 for it in found.widths)
        least, middle, most = widths[0], widths[len(widths) // 2], widths[-1]
        line += f", intervals {least:.1f} to {most:.1f} us wide, half of them at most {middle:.1f}"
    print(line)
    for kind in sorted(found.possible):
        print(f"    {kind:40} {found.possible[kind]:6} possible {found.messages[kind]:6} messages")


def run_case(folder: str, case: Case, seeds: int, kept: str | None) -> list[str]:
    """Runs a case with all its seeds, and returns what is wrong."""
    wrong: list[str] = []
    totals: dict[str, Found] = {}
    with ExitStack() as stack:
        try:
            network = stack.enter_context(Cables(case.hosts, case.join))
        except (OSError, subprocess.CalledProcessError) as why:
            print(f"{case.name}: left out, since this kernel does not do it: {getattr(why, 'stderr', why)}")
            return []
        for seed in range(1, seeds + 1):
            draw = Random(f"{case.name} {seed}")
            taken = captured(network, case, draw)
            for session in case.sessions(network, taken):
                place = f"{folder}/{case.name}/{seed}/{re.sub('[^a-z0-9]+', '_', session.name)}"
                os.makedirs(place)
                faults = judge(place, session, taken, draw, totals.setdefault(session.name, Found()))
                wrong += [f"{case.name}, seed {seed}, {session.name}: {it}" for it in shortened(faults)]
                left = [f"{LEFT}/vantage/{case.name}-{seed}"] if faults else []
                left += [f"{kept}/{case.name}"] if kept and seed == 1 else []
                for it in left:
                    shutil.copytree(place, f"{it}/{os.path.basename(place)}", dirs_exist_ok=True)
                shutil.rmtree(place)
    for name, found in totals.items():
        show(case, name, found)
    sys.stdout.flush()
    return wrong


def main() -> int:
    parser = argparse.ArgumentParser(description=__doc__.split("\n\n")[0])
    parser.add_argument("--seeds", type=int, default=10, metavar="N", help="how many seeds each case has (10)")
    parser.add_argument("--quick", action="store_true", help="one seed")
    parser.add_argument("--keep", metavar="FOLDER", help="leave the files of the first seed there")
    parser.add_argument("cases", metavar="CASE", nargs="*", help="the cases; all of them, if none is named")
    said = parser.parse_args()
    unknown = set(said.cases) - {it.name for it in CASES}
    if unknown:
        parser.error(f"there is no case {min(unknown)}")
    program()  # (it ends the script where there is none)
    if os.geteuid() or not shutil.which("ip"):
        print("vantage: left out, since it needs root and `ip` of iproute2")
        return 0
    wrong: list[str] = []
    with tempfile.TemporaryDirectory() as folder:
        for case in CASES:
            if not said.cases or case.name in said.cases:
                wrong += run_case(folder, case, 1 if said.quick else said.seeds, said.keep)
    for it in wrong:
        print(f"vantage: {it}")
    return 1 if wrong else 0


if __name__ == "__main__":
    sys.exit(main())
