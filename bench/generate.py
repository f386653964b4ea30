#!/usr/bin/env python3
"""Writes a problem and an execution of it, for a number of events.

Eight hosts exchange messages. Host h0 keeps perfect time, the others declare a drift of up to 20,000
parts per billion either way, and every stamp is read at most 50 ns before its event. Each message
takes 1,000 to 100,000 ns, and says so. Real time is an execution of this: the clocks that are
generated have an offset and no drift, and each event happens just as its stamp is read.

The same number of events gives the same texts. With --broken the last message declares 1 ns less
than it took, which breaks one bound, the last delay-most of all. With --contradict it declares that
it took at least ten times the greatest delay. From a hundred events on the others tell that it took
less, so no real times obey the problem, and no execution is written.

With --link every message from h1 to h2 declares that it took at most a quarter of the greatest delay. No execution is
written, and from a thousand events on there is none.

With --one-way the number is that of messages, all from h1 to h0, and ten events of h0 alone come with each of them.
--drift is the same, but that messages take 1,000 to 1,100 ns, and that the clock of h1 is 0.02% fast, where 0.002% is
declared: from fifty messages on no real times obey that. No execution is written. With --alone another number of
events of h0 comes with each message.
"""

import argparse
import os
from typing import TextIO

CLOCKS = 8
ALONE = 10
MOST_EVENTS = 2**24
DRIFT = 20_000
FAST = 200_000
NEAR = 1_100
LATE = 50
LEAST = 1_000
MOST = 100_000


class Draws:
    """The multiplicative generator of Park, Miller and Stockmeyer, CACM 36 (7), 1993."""

    MULTIPLIER = 48_271
    MODULUS = 2**31 - 1

    def __init__(self, seed: int) -> None:
        self.state = seed

    def below(self, limit: int) -> int:
        self.state = self.state * self.MULTIPLIER % self.MODULUS
        return self.state % limit


class Trace:
    """Events in their order, each with a clock, a real time and a stamp, all in ns."""

    def __init__(self, offsets: list[int], fast: int = 0) -> None:
        self.offsets = offsets
        # In parts per billion, that of each second clock.
        self.fast = fast
        self.events: list[tuple[int, int, int]] = []
        self.names: list[str] = []
        self.counts = [0] * len(offsets)
        self.stamps: list[set[int]] = [set() for _ in offsets]

    def stamp(self, clock: int, time: int) -> int:
        return self.offsets[clock] + time + time * self.fast * (clock % 2) // 10**9

    def is_read(self, clock: int, time: int) -> bool:
        return self.stamp(clock, time) in self.stamps[clock]

    def add(self, clock: int, time: int) -> None:
        stamp = self.stamp(clock, time)
        self.stamps[clock].add(stamp)
        self.counts[clock] += 1
        self.names.append(f"h{clock}#{self.counts[clock]}")
        self.events.append((clock, time, stamp))


def generate(count: int) -> tuple[Trace, list[int]]:
    """A trace of messages, and the delays of these: events 2 * k and 2 * k + 1 are those of message k."""
    draws = Draws(count + 1)
    trace = Trace([draws.below(10**9) for _ in range(CLOCKS)])
    delays: list[int] = []
    time = 10**9
    while len(trace.events) < count:
        time += 1 + draws.below(100_000)
        sender = draws.below(CLOCKS)
        receiver = (sender + 1 + draws.below(CLOCKS - 1)) % CLOCKS
        delay = LEAST + draws.below(MOST - LEAST + 1)
        # A clock reads each stamp once: one event a reading.
        if trace.is_read(sender, time) or trace.is_read(receiver, time + delay):
            continue
        trace.add(sender, time)
        trace.add(receiver, time + delay)
        delays.append(delay)
    return trace, delays


def generate_one_way(count: int, alone_each: int, fast: int, most: int) -> tuple[Trace, list[int]]:
    """A trace of messages from h1 to h0, and the delays of these, as above; then the events of h0 alone."""
    draws = Draws(count + 1)
    trace = Trace([draws.below(10**9) for _ in range(2)], fast)
    delays: list[int] = []
    alone: list[int] = []
    time = 10**9
    while len(delays) < count:
        for _ in range(alone_each):
            time += 1 + draws.below(10_000)
            alone.append(time)
        time += 1 + draws.below(10_000)
        delay = LEAST + draws.below(most - LEAST + 1)
        trace.add(1, time)
        trace.add(0, time + delay)
        delays.append(delay)
    for time in alone:
        trace.add(0, time)
    return trace, delays


def bounds_of(trace: Trace, delays: list[int], form: str | None, k: int) -> tuple[int, int | str]:
    """What a message declares of its delay, by the form of the problem."""
    is_last = k + 1 == len(delays)
    if form == "broken" and is_last:
        return LEAST, delays[k] - 1
    if form == "contradict" and is_last:
        return 10 * MOST, "none"
    if form == "link" and [trace.events[2 * k + end][0] for end in (0, 1)] == [1, 2]:
        return LEAST, MOST // 4
    return LEAST, NEAR if form == "drift" else MOST


def write_problem(out: TextIO, trace: Trace, delays: list[int], form: str | None) -> None:
    out.write("problem 1\n")
    for clock in range(len(trace.offsets)):
        drift = DRIFT if clock > 0 else 0
        out.write(f"clock h{clock} {drift} {drift} 0 {LATE}\n")
    for name, (clock, _, stamp) in zip(trace.names, trace.events):
        out.write(f"event {name} h{clock} {stamp}\n")
    for k in range(len(delays)):
        least, most = bounds_of(trace, delays, form, k)
        out.write(f"message {trace.names[2 * k]} {trace.names[2 * k + 1]} {least} {most}\n")
    out.write("end\n")


def write_execution(out: TextIO, trace: Trace) -> None:
    out.write("execution 1\n")
    for name, (_, time, _) in zip(trace.names, trace.events):
        out.write(f"event {name} {time}.000000000\n")
    for clock in range(len(trace.offsets)):
        for stamp in sorted(trace.stamps[clock]):
            time = stamp - trace.offsets[clock]
            out.write(f"reading h{clock} {stamp} {time}.000000000\n")
    out.write("end\n")


FORMS = (
    ("problem", "N.problem alone"),
    ("broken", "break one bound: N-broken.problem and N-broken.execution"),
    ("contradict", "N-contradict.problem alone"),
    ("link", "N-link.problem alone"),
    ("one-way", "N-one-way.problem alone"),
    ("drift", "N-drift.problem alone"),
)


def arguments() -> argparse.ArgumentParser:
    parser = argparse.ArgumentParser(description=__doc__.split("\n\n")[0])
    count = "the number of events, even, from 2 to 2^24; of messages if --one-way or --drift"
    parser.add_argument("count", metavar="N", type=int, help=count)
    parser.add_argument("folder", metavar="FOLDER", help="where N.problem and N.execution are written")
    forms = parser.add_mutually_exclusive_group()
    for form, what in FORMS:
        forms.add_argument(f"--{form}", dest="form", action="store_const", const=form, help=what)
    alone = "how many events of h0 alone come with each message of --one-way or --drift"
    parser.add_argument("--alone", metavar="N", type=int, default=ALONE, help=alone)
    return parser


def main() -> None:
    parser = arguments()
    said = parser.parse_args()
    if said.form in ("one-way", "drift"):
        if not 0 <= said.alone <= MOST_EVENTS or not 1 <= said.count <= MOST_EVENTS // (said.alone + 2):
            parser.error(f"at most {MOST_EVENTS} events, one message at least")
        fast, most = (FAST, NEAR) if said.form == "drift" else (0, MOST)
        trace, delays = generate_one_way(said.count, said.alone, fast, most)
    else:
        if said.count % 2 != 0 or not 2 <= said.count <= MOST_EVENTS:
            parser.error("an even number of events from 2 to 2^24")
        trace, delays = generate(said.count)
    suffix = "" if said.form in (None, "problem") else f"-{said.form}"
    stem = os.path.join(said.folder, f"{said.count}{suffix}")
    with open(stem + ".problem", "w", encoding="ascii", newline="\n") as out:
        write_problem(out, trace, delays, said.form)
    if said.form in (None, "broken"):
        with open(stem + ".execution", "w", encoding="ascii", newline="\n") as out:
            write_execution(out, trace)


if __name__ == "__main__":
    main()
