#!/usr/bin/env python3
"""Measures families of inputs that somebody could choose to make the program slow: each at n, 2n and 4n.

    bench/families.py [--runs N] [FAMILY..]

Without a FAMILY all of them. Each line has the processor seconds of one run at the three sizes, the least of N runs,
2 if it is not said, and the exponent of the growth from n to 4n, beside that of n log n. Above 1.3 the line says so,
but for the two families that are known to grow with the square (docs/PERFORMANCE.md). PROGRAM names the program,
else it is the one that is built here.
"""

import argparse
import math
import os
import struct
import sys
import tempfile
from collections.abc import Callable, Iterable, Iterator, Sequence
from random import Random

from common import program, read, run, write
from support.captures import classic, frame

# The words of a command, and the name of its script.
Words = tuple[list[str], str]
# How many steps the longest certificate has: one of 2^26, which are lawful, would be 2.6 GB.
MOST_STEPS = 1 << 23
# What a command prints that shows no fault, where it does not end with status 0.
SHOWN = b"no cycle join 1\n"


def seconds(words: Words) -> float:
    """The processor seconds of a run, from which no fault may come."""
    command, script = words
    ended = run([program(), *command], script, "printed", "said")
    front = read("printed")[:300] if os.path.getsize("printed") < 1 << 24 else b""
    is_right = front == SHOWN if command[0] == "verify" else ended.status == 0 and b"refused" not in front
    if not is_right:
        sys.exit(f"{command}: status {ended.status}, {front!r}")
    return ended.processor


def put(name: str, content: bytes | str) -> str:
    write(name, content)
    return name


def problem(lines: Iterable[str], version: int = 1) -> Words:
    """`solve` of a problem with these lines."""
    text = f"problem {version}\n" + "".join(f"{it}\n" for it in lines) + "end\n"
    return ["solve", put("it", text)], put("script", "")


def session(declaration: str, script: Iterable[str]) -> Words:
    """A session over a declaration."""
    put("hosts.toml", declaration)
    return ["session", "hosts.toml"], put("script", "".join(f"{it}\n" for it in script))


def host(name: str, more: str = "") -> str:
    """A host of a declaration."""
    return f"[hosts.{name}]\n{more}"


def label(name: str, of: str, kind: str = "log", more: str = "") -> str:
    """A label of a declaration."""
    return f'[labels.{name}]\nhost = "{of}"\nkind = "{kind}"\n{more}'


def names_with_a_common_front(n: int) -> Words:
    """Events of a problem whose names are alike but for their ends, in no order."""
    places = [*range(n)]
    Random(1).shuffle(places)
    return problem(["clock a 0 0 0 0", *(f"event {'x' * 40}{place:08x} a {at}" for at, place in enumerate(places))])


def names_downward(n: int) -> Words:
    return problem(["clock a 0 0 0 0", *(f"event {n - at:08x} a {at}" for at in range(n))])


def clocks_of_a_host(n: int) -> Words:
    clocks = ",".join(f'{{name="{"x" * 24}{n - at:08x}"}}' for at in range(n))
    return session(host("a", f"clocks=[{clocks}]\n"), [])


def clocks(n: int) -> list[str]:
    """Clocks of a problem that keep perfect time."""
    return [f"clock c{at} 0 0 0 0" for at in range(n)]


def follows(places: Iterable[int]) -> list[str]:
    """Follows of one chain, each by the place of its earlier clock."""
    return [f"follow c{at} c{at + 1} 1" for at in places]


def follows_from_the_end(n: int) -> Words:
    return problem([*clocks(n), *follows(range(n - 2, -1, -1))], 2)


def follows_from_the_front(n: int) -> Words:
    return problem([*clocks(n), *follows(range(n - 1))], 2)


def by_halves(n: int) -> Iterator[int]:
    """The places of the follows of one chain, of which each joins two chains that are as long as each other."""
    step = 1
    while step < n:
        yield from range(step - 1, n - 1, 2 * step)
        step *= 2


def obeyed(n: int, places: Iterable[int], stamped: Sequence[int]) -> Words:
    """`obey` of a chain whose follows stand in this order, with an event on each of these clocks, and times with gaps
    of 1 ns."""
    events = [f"event e{at} {at}.000000000" for at in stamped]
    readings = [f"reading c{at} 0 {at}.000000000" for at in stamped]
    put("times", "".join(f"{it}\n" for it in ["execution 1", *events, *readings, "end"]))
    words, script = problem([*clocks(n), *follows(places), *(f"event e{at} c{at} 0" for at in stamped)], 2)
    return ["obey", words[1], "times"], script


def chain_from_the_front(n: int) -> Words:
    return obeyed(n, range(n - 1), range(n))


def chain_from_the_end(n: int) -> Words:
    return obeyed(n, range(n - 2, -1, -1), range(n))


def chain_by_halves(n: int) -> Words:
    return obeyed(n, by_halves(n), range(n))


def chain_of_two_events(n: int) -> Words:
    """Events on the first and the last clock alone."""
    return obeyed(n, range(n - 1), (0, n - 1))


def cycle_of_follows(n: int) -> Words:
    """`verify` of a cycle with the most steps that a certificate may have, each a follow from the first clock of a
    chain to one somewhere behind it."""
    words, script = problem([*clocks(n), *follows(range(n - 1)), *(f"event e{at} c{at} 0" for at in range(n))], 2)
    with open("cycle", "w", encoding="ascii") as it:
        it.write("certificate 1\ncycle\n")
        it.writelines(f"step follow c0 0 c{1 + at * 7919 % (n - 1)} 0 -1.000000000\n" for at in range(MOST_STEPS))
        it.write("end\n")
    return ["verify", words[1], "cycle"], script


def message_words(n: int) -> Words:
    """Messages whose words are alike but for their ends, and as many rows without one."""
    put("it.log", "".join(f"{at},send,{'m' * 50}{at ^ 0x5555:08x},\n{at},local,,\n" for at in range(n // 2)))
    return session(host("a") + label("one", "a"), ["add one it.log", "report"])


def packets_of_chosen_numbers(n: int) -> Words:
    put("it.pcap", classic((at, frame(1, 2, struct.pack(">Q", at << 40))) for at in range(n)))
    hosts = "payload_bytes = 8\n" + host("a", 'addresses = ["10.9.0.1"]\n')
    return session(hosts + label("one", "a", "capture"), ["add one it.pcap", "report"])


def addresses_and_packets(n: int) -> Words:
    """As many addresses as packets of strangers."""
    addresses = ",".join(f'"11.{at >> 16}.{at >> 8 & 255}.{at & 255}"' for at in range(n))
    put("it.pcap", classic((at, frame(1, 2, struct.pack(">Q", at))) for at in range(n)))
    return session(host("a", f"addresses = [{addresses}]\n") + label("one", "a", "capture"), ["add one it.pcap"])


def links_and_messages(n: int) -> Words:
    """As many links as messages, each between other hosts."""
    side = math.isqrt(n)
    hosts = "".join(host(f"h{at}") + label(f"h{at}", f"h{at}") for at in range(2 * side))
    pairs = ((one, side + other) for one in range(side) for other in range(side))
    links = "".join(f'[[links]]\nfrom = "h{one}"\nto = "h{other}"\nmost = 9\n' for one, other in pairs)
    for one in range(side):
        put(f"h{one}", "".join(f"{at},send,{one}.{at},\n" for at in range(side)))
        put(f"h{side + one}", "".join(f"{at},receive,{at}.{one},\n" for at in range(side)))
    return session(hosts + links, [f"add h{at} h{at}" for at in range(2 * side)])


def labels_and_additions(n: int) -> Words:
    put("row", "1,local,,\n")
    return session(host("a") + "".join(label(f"x{at}", "a") for at in range(n)), [f"add x{at} row" for at in range(n)])


def hosts_and_additions(n: int) -> Words:
    put("row", "1,local,,\n")
    hosts = "".join(host(f"h{at}") + label(f"h{at}", f"h{at}") for at in range(n))
    return session(hosts, [f"add h{n - 1 - at} row" for at in range(n)])


def clocks_and_additions(n: int) -> Words:
    """One row on each clock of one host, from the last one to the first."""
    put("row", "1,local,,\n")
    clocks = ",".join(f'{{name="c{at}"}}' for at in range(n))
    labels = "".join(label(f"x{at}", "a", more=f'clock = "c{at}"\n') for at in range(n))
    return session(host("a", f"clocks=[{clocks}]\n") + labels, [f"add x{n - 1 - at} row" for at in range(n)])


def stamps_downward(n: int) -> Words:
    put("it.log", "".join(f"{n - at},local,,\n" for at in range(n)))
    return session(host("a") + label("one", "a"), ["add one it.log"])


def one_key(n: int) -> Words:
    put("it.log", "1,send,m,\n" * n)
    return session(host("a") + label("one", "a"), ["add one it.log", "report"])


def withdrawn_again(n: int) -> Words:
    """Messages that come one by one, and are withdrawn by a second send each."""
    put("one.log", "".join(f"{at},send,{at},\n" for at in range(n)))
    put("two.log", "".join(f"{at},receive,{at},\n" for at in range(n)))
    put("again.log", "".join(f"{n + at},send,{at},\n" for at in range(n)))
    hosts = host("a") + host("b") + label("one", "a") + label("two", "b")
    return session(hosts, ["add one one.log", "add two two.log", "add one again.log"])


def one_stamp(n: int) -> Words:
    """Events at one stamp, whose stamps are exact, with a message each."""
    events = [f"event a{at} a 5" for at in range(n)] + [f"event b{at} b {at}" for at in range(n)]
    messages = [f"message b{at} a{at} 0 none" for at in range(n)]
    return problem(["clock a 0 0 0 0", "clock b 0 0 0 0", *events, *messages])


def no_time_over_many_clocks(n: int) -> Words:
    """A chain of messages that take no time, each to another clock, told from its end."""
    events = [f"event e{at} c{at} 5" for at in range(n)]
    messages = [f"message e{at} e{at + 1} 0 0" for at in range(n - 2, -1, -1)]
    return problem([*clocks(n), *events, *messages])


def sender_at_half_rate(n: int) -> Words:
    """One-way messages of a clock that may run at half the rate, and does."""
    pairs = ((f"event a{at} a {1000 + 50 * at}", f"event b{at} b {1001 + 100 * at}") for at in range(n))
    messages = [f"message a{at} b{at} 0 1" for at in range(n)]
    events = (line for pair in pairs for line in pair)
    return problem(["clock a 0 1000000000 0 0", "clock b 0 0 0 0", *events, *messages])


FAMILIES: dict[Callable[[int], Words], int] = {
    names_with_a_common_front: 1 << 16,
    names_downward: 1 << 16,
    clocks_of_a_host: 1 << 14,
    follows_from_the_end: 1 << 14,
    follows_from_the_front: 1 << 14,
    chain_from_the_front: 1 << 14,
    chain_from_the_end: 1 << 14,
    chain_by_halves: 1 << 14,
    chain_of_two_events: 1 << 14,
    cycle_of_follows: 1 << 14,
    message_words: 1 << 16,
    packets_of_chosen_numbers: 1 << 16,
    addresses_and_packets: 1 << 14,
    links_and_messages: 1 << 14,
    labels_and_additions: 1 << 13,
    hosts_and_additions: 1 << 13,
    clocks_and_additions: 1 << 13,
    stamps_downward: 1 << 16,
    one_key: 1 << 16,
    withdrawn_again: 1 << 14,
    one_stamp: 1 << 11,
    no_time_over_many_clocks: 1 << 11,
    sender_at_half_rate: 1 << 11,
}
QUADRATIC = {one_stamp, clocks_and_additions}


def measure(family: Callable[[int], Words], n: int, runs: int) -> list[str]:
    """The cells of a family's row."""
    times = [min(seconds(family(size)) for _ in range(runs)) for size in (n, 2 * n, 4 * n)]
    exponent = math.log(max(times[2], 1e-9) / max(times[0], 1e-9), 4)
    loglinear = math.log(4 * math.log(4 * n) / math.log(n), 4)
    steep = " quadratic?" if exponent > 1.3 and family not in QUADRATIC else ""
    name = family.__name__.replace("_", " ")
    return [name, str(n), *(f"{it:.3f}" for it in times), f"{exponent:.2f}{steep}", f"{loglinear:.2f}"]


def main() -> None:
    names = [it.__name__ for it in FAMILIES]
    parser = argparse.ArgumentParser(description=__doc__.split("\n\n")[0])
    parser.add_argument("--runs", metavar="N", type=int, default=2, help="of how many runs the least counts; 2")
    parser.add_argument("families", metavar="FAMILY", nargs="*", help=", ".join(names))
    said = parser.parse_args()
    lacking = [it for it in said.families if it not in names]
    if lacking:
        parser.error(f"there is no family {lacking[0]}")
    print("| family | n | n, s | 2n, s | 4n, s | exponent | of n log n |\n|---|---:|---:|---:|---:|---:|---:|")
    with tempfile.TemporaryDirectory() as folder:
        os.chdir(folder)
        for family, n in FAMILIES.items():
            if not said.families or family.__name__ in said.families:
                print(f"| {' | '.join(measure(family, n, said.runs))} |", flush=True)


if __name__ == "__main__":
    main()
