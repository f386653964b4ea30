#!/usr/bin/env python3
"""Makes logs of several hosts whose clocks differ by up to a second, for tests and for pictures. The same numbers give the same logs.

    tools/tests/making_logs.py FOLDER EVENTS HOSTS

Messages go between random hosts and take 1 to 100 us; a tenth of what happens is a note of one host. Prints the words LABEL=FILE.
"""

import random
import sys


def logs(events: int, hosts: int) -> list[list[str]]:
    """Returns the rows of each host, as lines, with at least so many in all."""
    draw = random.Random(events)
    offsets = [draw.randrange(10**9) for _ in range(hosts)]
    rows: list[list[tuple[int, str]]] = [[] for _ in range(hosts)]
    time, messages = 10**9, 0
    while sum(map(len, rows)) < events:
        time += draw.randrange(1, 200_000)
        sender = draw.randrange(hosts)
        receiver = (sender + 1 + draw.randrange(hosts - 1)) % hosts
        if draw.random() < 0.1:
            rows[sender].append((time, f"local,,note {len(rows[sender])}"))
            continue
        messages += 1
        rows[sender].append((time, f"send,m{messages},"))
        rows[receiver].append((time + draw.randrange(1000, 100_000), f"receive,m{messages},{'got it' if messages % 5 == 0 else ''}"))
    return [[f"{offset + time},{rest}" for time, rest in sorted(found)] for offset, found in zip(offsets, rows)]


def main(folder: str, events: str, hosts: str) -> None:
    words = []
    for number, lines in enumerate(logs(int(events), int(hosts))):
        words.append(f"h{number}={folder}/h{number}.csv")
        with open(f"{folder}/h{number}.csv", "w", encoding="utf-8") as it:
            it.write("".join(f"{line}\n" for line in lines))
    print(" ".join(words))


if __name__ == "__main__":
    main(*sys.argv[1:])
