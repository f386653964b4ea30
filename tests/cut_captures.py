#!/usr/bin/env python3
"""Cuts the captures of examples/captures anywhere, and wants the answers that the whole files have.

    tests/cut_captures.py [RUNS [SEED]]

Each of RUNS runs, 200 if it is not said, adds both captures in up to eight pieces, which come in turn from either,
and then asks for the problem, which has every event with its stamp and every message. It must be the one of the whole
captures. In the additions the events must add up, and behind the last piece nothing may be pending. SEED is the seed
of the cuts, 1 if it is not said. PROGRAM names the program, else it is the one that is built here.
"""

import argparse
import sys
import tempfile
from collections.abc import Iterator
from random import Random

from support.program import TOP, read, write
from support.replies import added, answered

FOLDER = f"{TOP}/examples/captures"
NAMES = ("left", "right")


def pieces_of(data: bytes, draw: Random) -> list[bytes]:
    """A capture in up to eight pieces."""
    cuts = sorted(draw.randrange(len(data) + 1) for _ in range(draw.randrange(8)))
    return [data[a:b] for a, b in zip([0, *cuts], [*cuts, len(data)])]


def in_turn(queues: dict[str, list[bytes]], draw: Random) -> Iterator[tuple[str, bytes]]:
    """The pieces of all captures, in an order that is drawn."""
    while any(queues.values()):
        name = draw.choice([name for name, queue in queues.items() if queue])
        yield name, queues[name].pop(0)


def check_cut(captures: dict[str, bytes], counts: dict[str, int], problem: list[str], draw: Random) -> None:
    """Adds the captures in pieces. Raises AssertionError where the answers are others than those of the whole ones."""
    with tempfile.TemporaryDirectory() as folder:
        queues = {name: pieces_of(data, draw) for name, data in captures.items()}
        pieces = [(name, write(f"{folder}/{n}", piece)) for n, (name, piece) in enumerate(in_turn(queues, draw))]
        script = [f"add {name} {path}" for name, path in pieces]
        *additions, found = answered(f"{FOLDER}/hosts.toml", [*script, "problem"])
    events, pending = dict.fromkeys(captures, 0), dict.fromkeys(captures, 0)
    for (name, _), reply in zip(pieces, additions):
        came, waits = added(reply)
        events[name] += came
        pending[name] = waits
    assert found == problem, (script, "another problem")
    assert events == counts, (script, events)
    assert not any(pending.values()), (script, pending)


def main() -> int:
    parser = argparse.ArgumentParser(description=__doc__.split("\n\n")[0])
    parser.add_argument("runs", metavar="RUNS", nargs="?", type=int, default=200, help="how many runs; 200")
    parser.add_argument("seed", metavar="SEED", nargs="?", type=int, default=1, help="the seed of the cuts; 1")
    said = parser.parse_args()
    captures = {name: read(f"{FOLDER}/{name}.pcap") for name in NAMES}
    whole = [*(f"add {name} {FOLDER}/{name}.pcap" for name in NAMES), "problem"]
    *additions, problem = answered(f"{FOLDER}/hosts.toml", whole)
    counts = {name: added(reply)[0] for name, reply in zip(NAMES, additions)}
    draw = Random(said.seed)
    for _ in range(said.runs):
        check_cut(captures, counts, problem, draw)
    print(f"{said.runs} runs, each as the whole captures")
    return 0


if __name__ == "__main__":
    sys.exit(main())
