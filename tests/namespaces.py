#!/usr/bin/env python3
"""Captures real traffic between two network namespaces, and compares the program's answers with what is true there.

    tests/namespaces.py [--seeds N] [--quick]

Each of N seeds, 10 if it is not said and 2 with --quick, has five cases: captures of all packets; 2 % of the frames
lost on the way; some doubled and overtaken; 10 % of the records dropped from each capture, of a way that loses, doubles
and reorders too; and the same where keys come again. In the first four connections of TCP and datagrams of UDP go both
ways, over IPv4 and IPv6, some of these in fragments, and over IPv6 some behind extension headers. A session over each
two captures is declared with `tcp_options` and `fragments`, and with neither. In the last case datagrams of UDP over
IPv4 have few identifications and equal first bytes, so that each key is used ten times, with half a second between two
uses. A session is declared with a `window` of a quarter of that, and with none.

What is true: one kernel clock stamps both captures, and support/network.py knows which record is a copy of which
packet. Then the stamps of `b` are moved by hours, and by a rate within the declared one; the program is not told, but
with a `window` it is told the hours to some 10 ms, by `offset`.

What is wanted: no message joins a send with the receive of another packet, captures are no contradiction, and the
interval from a send to each receive of it has the real time between them. With the words, and 2 % lost on the way,
99 % of the TCP segments over IPv6 of which each capture has one record are messages; where nothing is lost, so is each
fragment, and each datagram behind extension headers. Where keys come again each datagram of which each capture has one
record is a message if these lie within the `window`, and without one next to none is. Two exchanged records, false
stamps, and an `offset` that is false by the time between two uses of a key have to be found out, else this test could
not fail; of one that is false by half of that time `report` has to say that keys stand `alone`.

What is assumed: a segment is sent again a tick of its timestamps later, 1 ms, since the box holds each frame longer;
and datagrams differ in their first eight bytes, but for those whose keys come again: of these the box hands on each
one long before the next. Without the words segments without an identification, which are those over IPv6, and over IPv4
what Linux answers a SYN by, are known by too little: what is wrong of them is counted, and no failure.

A seed fixes what is drawn, and not when the kernel does what. It needs root, and `ip` of iproute2; without them a line
says so, and the status is 0. PROGRAM names the program, else it is the one that is built here. It prints what it
counted. Where something is wrong it says what, and the status is 1; the captures of a faulty pair stay in tests/out/namespaces.
"""

import argparse
import json
import os
import shutil
import socket
import subprocess
import sys
import tempfile
import time
from collections import Counter
from collections.abc import Mapping, Sequence
from concurrent.futures import Future, ThreadPoolExecutor
from contextlib import ExitStack
from dataclasses import dataclass, field, replace
from enum import Enum
from random import Random

from support.captures import classic, frame
from support.conversations import Address, ask, bound, serve
from support.kinds import BARE, EXTENDED, OVER_IPV6, kind_of
from support.network import ADDRESSES, HOSTS, Network, Shares
from support.problems import Problem, is_outside
from support.program import LEFT, program, write
from support.replies import answered
from support.spaces import QUIET, Record, within

# How long the box waits for a frame at a time, in seconds.
WAIT = 0.01
# What the clock of `b` may be off, in ns and in parts per billion.
MOST_OFFSET, MOST_RATE = 4 * 3600 * 10**9, 40_000
# How wrong a stamp is that has to be found out, in ns.
WRONG = 10 * 10**9
# To how many ns a declaration says how far the clock of `b` is ahead.
ABOUT = 10_000_000
# Of the segments that can be messages, how many are; and of what is known by a key that comes again, without a window.
LEAST_FOUND, MOST_FOUND = 0.99, 0.01
# As many as conversations have ends, those of datagrams one for both.
THREADS = 21
# Datagrams: how many, and how many bytes each has behind its first eight; the wide ones are more than a frame carries.
FEW, WIDE = (120, range(40)), (30, range(1_500, 6_000))
# Keys that come again: how many each host has, how often each of them is used, and after how many seconds at least.
KEYS, USES, BETWEEN = 40, 10, 0.5
# How far apart events of one key may be that belong together, in ns.
WINDOW = int(BETWEEN * 10**9) // 4
# An extension header of IPv6: its next header, which the kernel writes, no more than eight bytes, and options of six
# bytes that say nothing (RFC 8200).
EXTENSION = bytes((0, 0, 1, 4)) + bytes(4)
HOST = """
[hosts.{0}]
short = 50_000
long = 50_003
early = 0
late = 2
addresses = ["10.9.0.{1}"]
addresses6 = ["fd00:0:0:0:0:0:0:{1}"]
{2}[labels.{0}]
host = "{0}"
kind = "capture"
"""
LINK = '[[links]]\nfrom = "{}"\nto = "{}"\nleast = 1\n'
# What has keys that come again, in their case.
AGAIN = "UDP over IPv4"
# What is known by too little without the words.
ASSUMED = (OVER_IPV6, BARE)
# What has a key with the words alone, and is one message each where nothing is lost.
APART = ("fragments over IPv4", "fragments over IPv6", EXTENDED)
COUNTS = ("packets", "possible", "messages", "false", "ambiguous")

Captures = dict[str, list[Record]]  # by host
Pairs = list[tuple[str, str]]  # sends and receives


class Words(Enum):
    """What a declaration says of keys."""

    BOTH = "with tcp_options and fragments"
    NEITHER = "without tcp_options and fragments"
    WINDOW = "with a window"
    NO_WINDOW = "without a window"


@dataclass(frozen=True)
class Case:
    """What happens on the way, which share of its records each capture drops, and whether keys come again."""

    name: str
    shares: Shares
    dropped: float = 0
    comes_again: bool = False

    @property
    def words(self) -> tuple[Words, Words]:
        """What the declarations of both sessions say, of which the first is to find what can be found."""
        return (Words.WINDOW, Words.NO_WINDOW) if self.comes_again else (Words.BOTH, Words.NEITHER)


CASES = [
    Case("whole", Shares()),
    Case("loss", Shares(lost=0.02)),
    Case("doubled and overtaken", Shares(doubled=0.03, overtaken=0.05)),
    Case("dropped records", Shares(lost=0.02, doubled=0.01, overtaken=0.02), 0.1),
    Case("again", Shares(lost=0.02, doubled=0.01, overtaken=0.02), 0.1, True),
]


@dataclass
class Found:
    """What the sessions of a case came to: by the kind of packet, but for contradictions and wrong intervals."""

    packets: Counter[str] = field(default_factory=Counter)
    possible: Counter[str] = field(default_factory=Counter)
    messages: Counter[str] = field(default_factory=Counter)
    false: Counter[str] = field(default_factory=Counter)
    ambiguous: Counter[str] = field(default_factory=Counter)
    contradictions: int = 0
    outside: int = 0
    alone: int = 0

    def add(self, other: "Found") -> None:
        for name in COUNTS:
            getattr(self, name).update(getattr(other, name))
        self.contradictions += other.contradictions
        self.outside += other.outside

    def faults(self, words: Words) -> list[str]:
        """What is wrong of a session."""
        told = [kind for kind in self.false if words is not Words.NEITHER or kind not in ASSUMED]
        wrong = [f"{self.false[kind]} false pairs of {kind}" for kind in told]
        if not self.false:
            wrong += ["a contradiction"] * self.contradictions
            wrong += [f"{self.outside} intervals beside the truth"] * (self.outside > 0)
        return wrong


def throw(ends: Sequence[socket.socket], draw: Random, count: int, sizes: range) -> None:
    """Sends datagrams from both ends, each with other first bytes."""
    with ends[0], ends[1]:
        for _ in range(count):
            draw.choice(ends).send(draw.randbytes(8) + bytes(draw.choice(sizes)))
            time.sleep(draw.random() * 0.003)


def repeat(ends: Sequence[socket.socket], raws: Sequence[socket.socket], draw: Random) -> None:
    """Sends datagrams from both ends, each with one of few identifications, the same first bytes, and a serial number
    behind them."""
    addresses, ports = zip(*(it.getsockname() for it in ends))
    first, ident = draw.randbytes(8), draw.randrange(1, 1 << 15)
    with ends[0], ends[1], raws[0], raws[1]:
        for serial in range(KEYS * USES):
            word = first + serial.to_bytes(8, "big")
            for raw, one, other in ((raws[0], 0, 1), (raws[1], 1, 0)):
                made = frame(1 + one, 1 + other, word, ident + serial % KEYS, (ports[one], ports[other]))
                raw.sendto(made[14:], (addresses[other], 0))
            time.sleep(BETWEEN / KEYS)


def bound_at(network: Network, host: str, family: int, kind: int) -> tuple[socket.socket, Address]:
    """A socket of a host, and its address."""
    return bound(network.spaces[host], ADDRESSES[family][host], family, kind)


def joined(network: Network, family: int, has_headers: bool) -> list[socket.socket]:
    """Both ends of a conversation by datagrams, with or without extension headers."""
    (one, here), (two, there) = (bound_at(network, host, family, socket.SOCK_DGRAM) for host in HOSTS)
    one.connect(there)
    two.connect(here)
    for it in (one, two) if has_headers else ():
        it.setsockopt(socket.IPPROTO_IPV6, socket.IPV6_HOPOPTS, EXTENSION)
        it.setsockopt(socket.IPPROTO_IPV6, socket.IPV6_DSTOPTS, EXTENSION)
    return [one, two]


def talk(pool: ThreadPoolExecutor, network: Network, draw: Random) -> list[Future[None]]:
    """Begins all conversations: over both families a connection each way that carries much and one that takes many
    turns, and datagrams, of which some are wide; and over IPv6 some behind extension headers."""
    begun = []
    for family in ADDRESSES:
        for host, other in (HOSTS, HOSTS[::-1]):
            much = [(draw.randrange(60_000, 90_000), 1)]
            many = [(draw.randrange(1, 600), draw.randrange(1, 5000)) for _ in range(20)]
            for turns in (much, many):
                listener, address = bound_at(network, other, family, socket.SOCK_STREAM)
                listener.listen()
                connection, _ = bound_at(network, host, family, socket.SOCK_STREAM)
                begun += [pool.submit(serve, listener, turns), pool.submit(ask, connection, address, turns)]
        for count, sizes in (FEW, WIDE):
            begun.append(pool.submit(throw, joined(network, family, False), Random(draw.random()), count, sizes))
    begun.append(pool.submit(throw, joined(network, socket.AF_INET6, True), Random(draw.random()), *FEW))
    return begun


def talk_again(pool: ThreadPoolExecutor, network: Network, draw: Random) -> list[Future[None]]:
    """Begins a conversation by datagrams over IPv4 whose keys come again."""
    raws = []
    for host in HOSTS:
        with within(network.spaces[host]):
            raws.append(socket.socket(socket.AF_INET, socket.SOCK_RAW, socket.IPPROTO_RAW))
    return [pool.submit(repeat, joined(network, socket.AF_INET, False), raws, draw)]


def captured(network: Network, case: Case, draw: Random) -> Captures:
    """What both hosts capture while they talk, from before the first packet until behind the last one."""
    with ThreadPoolExecutor(THREADS) as pool:
        begun = (talk_again if case.comes_again else talk)(pool, network, draw)
        quiet = 0.0
        # (what was waited for counts, and not what the clock shows, since this process may be held up)
        while quiet < QUIET:
            has_come = network.pass_on(case.shares, draw, WAIT)
            quiet = 0.0 if has_come or not all(it.done() for it in begun) else quiet + WAIT
        for it in begun:
            it.result()  # (which raises what went wrong)
    taken = network.taken()
    first = taken["b"][0].time
    offset, rate = draw.randint(-MOST_OFFSET, MOST_OFFSET), draw.randint(-MOST_RATE, MOST_RATE)
    taken["b"] = [replace(it, stamp=it.time + offset + (it.time - first) * rate // 10**9) for it in taken["b"]]
    return {host: [it for it in taken[host] if draw.random() >= case.dropped] for host in HOSTS}


def declaration(words: Words, ahead: int) -> str:
    """What is declared: with a window also that the clock of `b` is so many ns ahead."""
    said, window = str(words is not Words.NEITHER).lower(), ""
    offsets = dict.fromkeys(HOSTS, "")
    if words is Words.WINDOW:
        window, offsets["b"] = f"window = {WINDOW}\n", f"offset = {ahead}\n"
    hosts = "".join(HOST.format(host, number, offsets[host]) for number, host in enumerate(HOSTS, 1))
    links = LINK.format(*HOSTS) + LINK.format(*HOSTS[::-1])
    return f"payload_bytes = 8\ntcp_options = {said}\nfragments = {said}\n{window}{hosts}{links}"


def about(captures: Captures) -> int:
    """About how many ns the clock of `b` is ahead."""
    first = captures["b"][0]
    return round((first.stamp - first.time) / ABOUT) * ABOUT


def true_pairs(captures: Captures) -> Pairs:
    """The sends and receives that are of one packet."""
    sends = {it.packet: f"{host}#{n}" for host in HOSTS for n, it in enumerate(captures[host], 1) if it.is_send}
    receives = [(it, f"{host}#{n}") for host in HOSTS for n, it in enumerate(captures[host], 1) if not it.is_send]
    return [(sends[it.packet], name) for it, name in receives if it.packet in sends]


def near(pairs: Pairs, records: Mapping[str, Record], words: Words, ahead: int) -> Pairs:
    """Those of these sends and receives that are near enough to each other for the window, if there is one."""
    times = {name: it.stamp - (ahead if name.startswith("b") else 0) for name, it in records.items()}
    return [it for it in pairs if words is not Words.WINDOW or abs(times[it[0]] - times[it[1]]) <= WINDOW]


def judge(folder: str, captures: Captures, words: Words, ahead: int = 0) -> Found:
    """What a session over the captures comes to, beside what is true of them; it is told that `b` is so far ahead."""
    found = Found()
    records = {f"{host}#{n}": it for host in HOSTS for n, it in enumerate(captures[host], 1)}
    kinds = {name: kind_of(it.frame) for name, it in records.items()}
    pairs = [it for it in true_pairs(captures) if kinds[it[0]]]
    path = write(f"{folder}/hosts.toml", declaration(words, ahead))
    for host in HOSTS:
        write(f"{folder}/{host}.pcap", classic((it.stamp, it.frame) for it in captures[host]))
    adds = [f"add {host} {folder}/{host}.pcap" for host in HOSTS]
    asked = [f"interval {send} {receive}" for send, receive in pairs]
    _, added, problem, report, *intervals = answered(path, [*adds, "problem", "report", *asked])
    found.packets.update(kinds.values())
    # (of a packet that came twice neither copy is a message)
    copies = Counter(send for send, _ in pairs)
    found.possible.update(kinds[send] for send, receive in near(pairs, records, words, ahead) if copies[send] == 1)
    for send, receive in Problem(problem).messages:
        found.messages[kinds[send]] += 1
        if records[send].packet != records[receive].packet:
            found.false[kinds[send]] += 1
    reported = json.loads(report[0])
    found.alone = reported.get("alone", 0)
    for it in reported["ambiguous"]:
        found.ambiguous.update(kinds[name] for name in it["sends"] + it["receives"])
    found.contradictions = int(not added[0].endswith(" consistent"))
    truths = [records[receive].time - records[send].time for send, receive in pairs]
    wrong = (is_outside(reply[0], truth) for reply, truth in zip(intervals, truths))
    found.outside = 0 if found.contradictions else sum(wrong)
    return found


def missed(folder: str, captures: Captures) -> list[str]:
    """Wants two exchanged records, and a stamp that is wrong either way, to be found out; says what is not."""

    def judged(*changes: tuple[int, Record]) -> Found:
        changed = list(captures["b"])
        for n, it in changes:
            changed[n] = it
        return judge(folder, {**captures, "b": changed}, Words.BOTH)

    at = [n for n, it in enumerate(captures["b"]) if kind_of(it.frame) == "TCP over IPv4" and not it.is_send][:2]
    one, two = (captures["b"][n] for n in at)
    exchanged = judged((at[0], replace(one, frame=two.frame)), (at[1], replace(two, frame=one.frame)))
    early, late = (judged((at[0], replace(one, stamp=one.stamp + it))) for it in (-WRONG, WRONG))
    found = [("exchanged records", exchanged.false.total() == 2), ("a stamp before its send", early.contradictions > 0)]
    found.append(("a stamp that is too late", late.outside > 0))
    return [f"not found out: {what}" for what, is_found in found if not is_found]


def missed_again(folder: str, captures: Captures) -> list[str]:
    """Wants an offset that is false by the time from a datagram to the next one of its key to be found out, and one
    that is false by half of it to leave keys alone."""
    uses: dict[bytes, list[int]] = {}
    for it in captures["a"]:
        if it.is_send:
            uses.setdefault(it.frame[18:20], []).append(it.time)
    first, second = max(uses.values(), key=len)[:2]
    found, half = (judge(folder, captures, Words.WINDOW, about(captures) + (second - first) // it) for it in (1, 2))
    wrong = [] if found.false else ["not found out: a false offset"]
    if half.messages[AGAIN] or not half.alone:
        wrong.append(f"of an offset that is false by half: {half.messages[AGAIN]} messages, {half.alone} keys alone")
    return wrong


def show(case: Case, words: Words, found: Found) -> None:
    """Prints what was counted of a case."""
    wrong = f"{found.contradictions} contradictions, {found.outside} intervals beside the truth"
    print(f"{case.name}, {words.value}: {wrong}")
    for kind in sorted(filter(None, found.packets)):
        print(f"    {kind:40}", *(f"{getattr(found, it)[kind]:6} {it}" for it in COUNTS), flush=True)


def lacking(case: Case, totals: dict[Words, Found]) -> list[str]:
    """What is wrong of how many messages there are, over all seeds of a case."""
    full, bare = (totals[words] for words in case.words)
    least: list[tuple[str, float]] = []
    if case is CASES[0]:
        least = [(kind, 1) for kind in APART]
    elif case.name == "loss":
        least = [(OVER_IPV6, LEAST_FOUND)]
    elif case.comes_again:
        least = [(AGAIN, 1)]
    wrong = []
    for kind, share in least:
        possible, messages = full.possible[kind], full.messages[kind]
        if not possible or messages < share * possible:
            wrong.append(f"{case.name}: only {messages} of {possible} are messages of {kind}")
    if case.comes_again and bare.messages[AGAIN] > MOST_FOUND * bare.possible[AGAIN]:
        wrong.append(f"{case.name}: {bare.messages[AGAIN]} are messages of {AGAIN} without a window")
    return wrong


def run_case(network: Network, folder: str, case: Case, seeds: int) -> list[str]:
    """Runs a case with all its seeds, and returns what is wrong."""
    wrong: list[str] = []
    totals = {words: Found() for words in case.words}
    for seed in range(1, seeds + 1):
        captures = captured(network, case, Random(f"{case.name} {seed}"))
        for words, total in totals.items():
            found = judge(folder, captures, words, about(captures))
            faults = [f"{case.name}, seed {seed}, {words.value}: {it}" for it in found.faults(words)]
            if faults:
                shutil.copytree(folder, f"{LEFT}/namespaces/{case.name.replace(' ', '_')}-{seed}", dirs_exist_ok=True)
            wrong += faults
            total.add(found)
        if seed == 1 and (case is CASES[0] or case.comes_again):
            wrong += (missed_again if case.comes_again else missed)(folder, captures)
    for words, total in totals.items():
        show(case, words, total)
    return wrong + lacking(case, totals)


def main() -> int:
    parser = argparse.ArgumentParser(description=__doc__.split("\n\n")[0])
    parser.add_argument("--seeds", type=int, default=10, metavar="N", help="how many seeds each case has (10)")
    parser.add_argument("--quick", action="store_true", help="two seeds")
    said = parser.parse_args()
    program()  # (it ends the script where there is none)
    if os.geteuid() or not shutil.which("ip"):
        print("namespaces: left out, since it needs root and `ip` of iproute2")
        return 0
    with ExitStack() as stack:
        try:
            network = stack.enter_context(Network())
        except (OSError, subprocess.CalledProcessError) as why:
            print(f"namespaces: left out, since there are no namespaces here: {getattr(why, 'stderr', why)}")
            return 0
        folder = stack.enter_context(tempfile.TemporaryDirectory())
        wrong = [it for case in CASES for it in run_case(network, folder, case, 2 if said.quick else said.seeds)]
    for it in wrong:
        print(f"namespaces: {it}")
    return 1 if wrong else 0


if __name__ == "__main__":
    sys.exit(main())
