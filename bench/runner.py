#!/usr/bin/env python3
"""Measures the program beside other programs that do the same, and prints a Markdown table for each kind of
measurement.

    bench/runner.py [--runs N] [more options] KIND [SIZE..]

The kinds, their sizes, and what stands beside the program:

    obey        events; obey.cpp
    solve       events; solve.cpp, and the steps that steps.cpp counts
    ends        events; ends.cpp, by the same algorithm and by a plain one
    widen       events; rounds.cpp, over three kinds of traces
    trial       numbers; trial.cpp, which computes all rows anew or repairs them
    additions   a number; how the cost of an addition grows, and the steps that trial.cpp counts
    captures    MB; capinfos of Wireshark
    mergecap    MB; mergecap of Wireshark, to classic pcap, and to pcapng with comments

Each figure is the least of N runs, 3 if it is not said; the runs of the programs take turns. Both must print the
same, byte for byte, where there is one answer, or the script ends with status 1. A peak of memory is that of a run of
its own, by /usr/bin/time; without it a peak that is not clearly above that of Python is not told, and its cell is
`-`. PROGRAM names the program, else it is the one that is built here; CXX names another compiler than g++. Problems,
programs and what was printed stay in bench/out.
"""

import argparse
import os
from collections.abc import Callable, Iterator, Sequence
from dataclasses import dataclass
from typing import Protocol

import captures
import over_problems
import trial
from common import MOST_EVENTS, table_head, table_row


class Bench(Protocol):
    """A kind of measurement: the head of its table, and the rows for a size."""

    @property
    def head(self) -> Sequence[str]: ...

    def rows(self, size: int, /) -> Iterator[Sequence[object]]: ...


@dataclass(frozen=True)
class Kind:
    """How a kind is made of the options, and its sizes if none are named."""

    made: Callable[[argparse.Namespace], Bench]
    sizes: Sequence[int]
    least: int | None = None  # of events, which are even numbers; None where sizes are something else


def problem_options(said: argparse.Namespace) -> over_problems.Options:
    return over_problems.Options(said.runs, said.reference_up_to, said.drifting)


def trial_options(said: argparse.Namespace) -> trial.Options:
    return trial.Options(said.runs, os.path.abspath(said.other) if said.other else None)


def capture_options(said: argparse.Namespace) -> captures.Options:
    return captures.Options(said.runs, said.frames, said.pcapng)


GROWING = (1000, 10_000, 100_000, 2**20)
KINDS = {
    "obey": Kind(lambda it: over_problems.Obey(problem_options(it)), (1000, 2**13, 2**16, 2**20), 2),
    "solve": Kind(lambda it: over_problems.Solve(problem_options(it)), GROWING, 2),
    "ends": Kind(lambda it: over_problems.Ends(problem_options(it)), GROWING, 2),
    "widen": Kind(lambda it: over_problems.Widen(problem_options(it)), GROWING, 100),
    "trial": Kind(lambda it: trial.Trial(trial_options(it)), (7, 1000, 1_000_000, 2**32 - 1)),
    "additions": Kind(lambda it: trial.Additions(trial_options(it)), (7,)),
    "captures": Kind(lambda it: captures.Captures(capture_options(it)), (100, 200, 400)),
    "mergecap": Kind(lambda it: captures.Mergecap(capture_options(it)), (200,)),
}


def arguments() -> argparse.ArgumentParser:
    parser = argparse.ArgumentParser(
        description=__doc__.split("\n\n")[0], epilog="The docstring of this file says what stands beside the program."
    )
    parser.add_argument("--runs", metavar="N", type=int, default=3, help="of how many runs the least counts; 3")
    parser.add_argument(
        "--reference-up-to", metavar="N", type=int, default=100_000,
        help="above so many events solve.cpp and the plain algorithm of ends.cpp are left out; 100,000",
    )  # fmt: skip
    drifting = "the most messages of a drift in `widen`; 833"
    parser.add_argument("--drifting", metavar="N", type=int, default=833, help=drifting)
    parser.add_argument("--other", metavar="PATH", help="a second tracesync beside, in `trial` and `additions`")
    frames = "the bytes of a frame, which may be said again; 60000 and 1500"
    parser.add_argument("--frame", metavar="N", dest="frames", type=int, action="append", help=frames)
    parser.add_argument("--pcapng", action="store_true", help="captures are in pcapng, in `captures`")
    parser.add_argument("kind", metavar="KIND", choices=KINDS, help=", ".join(KINDS))
    sizes = "events, numbers or MB, for each of which there are rows"
    parser.add_argument("sizes", metavar="SIZE", nargs="*", type=int, help=sizes)
    return parser


def main() -> None:
    parser = arguments()
    said = parser.parse_args()
    said.frames = said.frames or [60_000, 1500]
    kind = KINDS[said.kind]
    sizes = said.sizes or kind.sizes
    for size in sizes:
        if kind.least is not None and (size % 2 or not kind.least <= size <= MOST_EVENTS):
            parser.error(f"{size} is no even number from {kind.least} to 2^24")
    if said.runs < 1:
        parser.error("one run at least")
    bench = kind.made(said)
    table_head(bench.head)
    for size in sizes:
        for row in bench.rows(size):
            table_row(row)


if __name__ == "__main__":
    main()
