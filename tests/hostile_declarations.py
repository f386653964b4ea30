#!/usr/bin/env python3
"""Gives the program declarations that mean it ill, and wants the answers that docs/FORMATS.md has for them.

    tests/hostile_declarations.py [CHANGES [SEED]]

There are declarations made by hand, most of them with tables of clocks, or with labels that say where a trace was
taken, at their limits and one past them; each of them that is small is also cut at each byte. There are labels with any
two faults, and with any two subnets, on each side. Then come CHANGES documents, 2000 if it is not said, each of which
is a small one with bytes, numbers, names or lines changed at random, by SEED, 1 if it is not said. A plain reader of
declarations works out what each document declares, or its first fault. Over a document with a fault a session must
end with status 3 and print that fault; over any other one a row is added to each label and a message to each link,
and the problem must be the one that the reader has. Nothing may be said on the standard error, and no run may take 5
s of a processor, or 100 s in all.

PROGRAM names the program, else it is the one that is built here. Each document that goes wrong stays in
tests/out/declaration-N.toml; then the status is 1. At last the slowest document is told, and how many had which
answer.
"""

import collections
import itertools
import re
import sys
import tempfile
from collections.abc import Iterable, Iterator
from random import Random

from support.declarations import (
    CAPTURE_KEYS, CLOCK_KEYS, ENTRIES, HOST_KEYS, LARGEST, SUBNET_KEYS, SUBNETS, Declared, read_declaration,
)  # fmt: skip
from support.hostile import (
    NANOS, Folder, Language, Outcome, Source, arguments, change_number, change_word, changes, copy_in, cut_out, cuts,
    move_line, put_byte, put_line, put_sign,
)  # fmt: skip
from support.program import write_left

# A session is given rows for so many labels, and messages over so many links.
MOST = 20


def problem_of(declared: Declared, counts: dict[str, int], messages: list) -> str:
    """The text of the problem behind a session in which so many rows of each label came, and these messages."""
    has_own = bool(counts) and any(declared.bounds.values())
    lines = [f"problem {3 if has_own else 2 if declared.follows else 1}"]
    lines += [f"clock {name} " + " ".join(map(str, numbers)) for name, numbers in declared.clocks.items()]
    lines += ["follow " + " ".join(map(str, it)) for it in declared.follows]
    for name, count in counts.items():
        own = "".join(f" {it}" for it in declared.bounds_of(name))
        lines += [f"event {name}#{n} {declared.labels[name][2]} 1{own}" for n in range(1, count + 1)]
    lines += [f"message {a}#{i} {b}#{j} {least} {most}" for ((a, i), (b, j)), (least, most) in sorted(messages)]
    return "".join(f"{it}\n" for it in [*lines, "end"])


def session(declared: Declared) -> tuple[dict[str, int], str]:
    """The lines that add rows to the first labels and to the first links, with how many messages each of them makes,
    and the problem behind them."""
    logs = [name for name, (_, kind, _) in declared.labels.items() if kind == "log"][:MOST]
    at = {declared.labels[name][0]: name for name in reversed(logs)}
    script, counts, messages = {f"add {name} row": 0 for name in logs}, dict.fromkeys(logs, 1), []
    for key, ((one, other), bounds) in enumerate(list(declared.links.items())[:MOST]):
        if one in at and other in at:
            ends = []
            for label in (at[one], at[other]):
                counts[label] += 1
                ends.append((label, counts[label]))
            clocks_of = (declared.labels[label][2] for label, _ in ends)
            is_message = declared.is_near(*clocks_of) and declared.is_one_segment(at[one], at[other])
            script |= {f"add {at[one]} send{key}": 0, f"add {at[other]} receive{key}": int(is_message)}
            messages += [(ends, bounds)] * is_message
    return script, problem_of(declared, counts, messages)


def is_right(outcome: Outcome, script: dict[str, int], problem: str) -> bool:
    """Whether a session has the replies to these additions, and then this problem."""
    added = "".join(f"added events 1 messages {it} withdrawn 0 pending 0" for it in script.values())
    said = re.sub(r" (in)?consistent\n", "", outcome.text.removesuffix(problem))
    return outcome.run.status == 0 and said == added and outcome.text.endswith(problem)


class Documents:
    """Runs the program over documents, in a folder, and counts."""

    def __init__(self, path: str) -> None:
        self.folder, self.slowest, self.wrong, self.count = Folder(path), (0.0, "", 0), 0, 0
        self.answers: collections.Counter[str] = collections.Counter()
        self.folder.put("row", "1,local,,\n")
        for key in range(MOST):
            for kind in ("send", "receive"):
                self.folder.put(f"{kind}{key}", f"1,{kind},m{key},\n")

    def check(self, title: str, document: bytes, wanted: str | None = None) -> None:
        """Compares the answer over a document with the one that is wanted, or else with what the reader says."""
        self.count += 1
        self.folder.put("hosts.toml", document)
        declared = wanted or read_declaration(document)
        script, problem = ({}, "") if isinstance(declared, str) else session(declared)
        self.folder.put("script", "".join(f"{it}\n" for it in [*script, "problem"]))
        outcome = self.folder.run(["session", "hosts.toml"], "script")
        self.slowest = max(self.slowest, (outcome.run.processor, title, len(document)))
        if isinstance(declared, str):
            answer, right = declared, (outcome.run.status, outcome.text) == (3, declared)
        else:
            answer, right = problem, is_right(outcome, script, problem)
        self.answers["lawful" if problem else answer.strip()] += 1
        if not right or outcome.said:
            self.tell(title, document, f"{outcome}"[:700] + f", and {answer[:300]!r} is wanted")

    def tell(self, title: str, document: bytes, why: str) -> None:
        self.wrong += 1
        print(f"{title}: {why}; it stays in {write_left(f'declaration-{self.wrong}.toml', document)}", flush=True)


LABELS = """[labels.one]
host = "a"
kind = "log"
[labels.two]
host = "b"
kind = "log"
[[links]]
from = "a"
to = "b"
least = 3
most = 9
"""
VALUES = [
    "[]", "{}", '{ name = "x" }', "[{}]", "[[]]", "[[[]]]", "[1]", '["x"]', "[{}, 1]", "1", "-1", "0x1f", "1.5",
    "inf", "nan", "true", '"x"', "'x'", '"""x"""', "1979-05-27", "07:32:00", "1979-05-27T07:32:00",
    "1979-05-27T07:32:00Z", '[{ name = "x" }]', '[{ name = "x" }, { name = "y" }]',
    '[{ name = "x" }, { name = "x" }]', '[{ name = "x" }, []]', '[[{ name = "x" }]]', '[{ name = ["x"] }]',
    '[{ name = { name = "x" } }]', '[{ gap = 1 }]', '[{ name = "x", name = "y" }]', '[{ name = "x", gaps = 1 }]',
    '[{ name = "" }]', '[{ name = "x#1" }]', '[{ name = "x y" }]', '[{ name = "x\\u0000" }]',
    '[{ name = "\\u00e9" }]', '[{ "name" = "x" }]', '[{ name = "x", "name" = "y" }]', '[{ name = "b" }]',
    '[{ name = "a" }]', '[{ name = "a" }, { name = "b" }]', '[{ name.first = "x" }]',
    '[{ name = "x" }, { name = "y", clocks = [] }]',
    '[\n  { name = "x" }, # the first\n  { name = "y", gap = 7 },\n]', '[{\n name = "x",\n gap = 1,\n}]',
    '[{ name = "x", }]', '[{ name = "x",, }]', '[{ , }]', '[{ name = "\\x78\\e" }]', '[{ name = "\\x78" }]',
]  # fmt: skip
NUMBERS: list[int | str] = [
    0, 1, -1, 999_999_999, 10**9, 10**9 + 1, NANOS - 1, NANOS, -NANOS, (1 << 63) - 1, 1 << 63, -(1 << 63),
    -(1 << 63) - 1, 10**40, "-0", "+7", "1_0", "0x1F", "01",
]  # fmt: skip
MORE = [
    "[hosts.a.clocks]\n", "[[hosts.a.clocks]]\nname = 'z'\n", "[hosts.a.clocks.x]\n", "[hosts.a]\n",
    "[hosts.a2]\n", "[hosts.Z]\n", "hosts = 1\n", "[hosts.a.c]\n", "[hosts.b.clocks]\n", "[[hosts.b.clocks]]\n",
]  # fmt: skip
CLOCKS = """[hosts.a]
late = 5
clocks = [{ name = "a1", offset = -3 }, { name = "a2", gap = 5, short = 7 }]
[hosts.b]
"""
# A document whose last table is a label behind one of a log, and keys with each fault that such a label may have.
CAPTURE = """[hosts.a]
addresses = ["10.0.0.1"]
addresses6 = ["fd00:0:0:0:0:0:0:1"]
[hosts.b]
[[links]]
from = "a"
to = "b"
[labels.one]
host = "a"
kind = "log"
segment = "here"
[labels.two]
host = "b"
"""
FAULTS = [
    "more = 1", 'beyond = "10.0.0.1"', "beyond = [1]", 'clock = "c"', 'segment = ""', "interface = -1",
    f"interface = {1 << 32}", "early = -1", f"late = {NANOS}", 'late = "1"', 'addresses = ["10.0.0.1/33"]',
    'addresses6 = ["fd00:0:0:0:0:0:0:1/127"]',
    'beyond = ["10.0.0.1", "10.0.0.1/32"]', 'beyond6 = ["::"]', 'addresses = ["10.0.0.0/8"]\nbeyond = ["10.0.0.0/8"]',
    'addresses6 = ["0:0:0:0:0:0:0:0/0"]\nbeyond6 = ["0:0:0:0:0:0:0:0/0"]', 'addresses = [""]\nbeyond = [1.5]',
]  # fmt: skip
# First addresses of subnets, and what stands behind them, by whether they are of IPv6.
FIRSTS = {
    False: ("0.0.0.0", "128.0.0.0", "10.3.1.0", "10.3.1.1"),
    True: ("0:0:0:0:0:0:0:0", "fd00:0:0:0:0:0:0:0", "1:2:3:4:5:6:7:8"),
}
BITS = {
    False: ("", "/0", "/1", "/24", "/31", "/32", "/33"),
    True: ("", "/0", "/1", "/8", "/33", "/125", "/126", "/127", "/128", "/129"),
}
MISSPELLED = [
    "10.3.1.0/024", "10.3.1.0/+24", "10.3.1.0/-0", "10.3.1.0/ 24", "10.3.1.0 /24", "10.3.1.0/24 ", "10.3.1.0/24/24",
    "10.3.1.0//24", "10.3.1.0/", "/24", "/", "", "10.3.1/24", "10.3.1.0.0/24", "10.03.1.0/24", "10.3.256.0/24",
    "10.3.1.0/0x18", "10.3.1.0/2_4", "10.3.1.0/24.0", "10.3.1.0/255.255.255.0", "10.3.1.0/4294967320",
    "10.3.1.0/18446744073709551640", "10.3.1.0/256", "10.3.1.0/\\u0662", "10.3.1.0\\u0000/24",
    "10.3.1.0/24\\u0000", "fd00:0:0:0:0:0:0:0/8", "::/0", "0:0:0:0:0:0:0.0.0.0/0", "0:0:0:0:0:0:0/0",
    "0:0:0:0:0:0:0:0:0/0", "0:0:0:0:0:0:0:00000/0", "0:0:0:0:0:0:0:g/0", "Fd00:0:0:0:0:0:0:0/08",
    "Fd00:0:0:0:0:0:0:0/340282366920938463463374607431768211464",
]  # fmt: skip


def of_values() -> Iterator[tuple[str, str]]:
    """Documents with any value for the clocks of a host, and with any number for a key of theirs."""
    # (what they have in common stands in front, so that it is cut once)
    for value in VALUES:
        yield f"clocks = {value}", f"{LABELS}[hosts.a]\nclocks = {value}\n[hosts.b]\n"
    for number in NUMBERS:
        yield f"window = {number}", f"window = {number}\n{LABELS}{CLOCKS}"
    for key in CLOCK_KEYS:
        values: list[int | str] = NUMBERS if key != "name" else ['"x"', "1"]
        for number in values:
            words = [f"{key} = {number}", *([] if key == "name" else ['name = "y"'])]
            lines, table = "\n".join(words), ", ".join(words)
            hosts = f'[[hosts.a.clocks]]\nname = "x"\n[[hosts.a.clocks]]\n{lines}\n[hosts.b]\n'
            yield f"{key} = {number}", f"{LABELS}{hosts}"
            yield f"{key} = {number} of a first clock", f"{LABELS}[hosts.a]\nclocks = [{{ {table} }}]\n[hosts.b]\n"
            if key in HOST_KEYS:
                host = f"[hosts.a]\n{key} = {number}\nclocks = [{{ name = 'x', {key} = 0 }}]\n[hosts.b]\n"
                yield f"{key} = {number} of a host", LABELS + host


def of_names() -> Iterator[tuple[str, str]]:
    """Documents with names of clocks, sources and hosts."""
    for clock in ("a1", "a2", "a", "b", "c", ""):
        yield f"clock = {clock}", LABELS.replace('"log"', f'"log"\nclock = "{clock}"', 1) + CLOCKS
        yield f"source = {clock}", f'source = "{clock}"\n{LABELS}{CLOCKS}'
    for length in (1, 31, 32, 33):
        name = "n" * length
        yield f"a clock's name of {length}", f'{LABELS}[hosts.a]\nclocks = [{{ name = "{name}" }}]\n[hosts.b]\n'
        yield f"a host's name of {length}", f'[hosts.{name}]\nclocks = [{{ name = "x" }}]\n'


def subnets(is_wide: bool) -> list[str]:
    """Texts of subnets of a version, some with bits that they may not have."""
    return [first + bits for first in FIRSTS[is_wide] for bits in BITS[is_wide]]


def array(texts: Iterable[str]) -> str:
    return "[" + ", ".join(f'"{it}"' for it in texts) + "]"


def of_places() -> Iterator[tuple[str, str]]:
    """Documents whose labels say where a trace was taken."""
    capture = f'{CAPTURE}kind = "capture"\n'
    for value in VALUES:
        yield f"beyond6 = {value}", f"{capture}beyond6 = {value}\n"
    for number in [*NUMBERS, (1 << 32) - 1, 1 << 32, (1 << 32) + 1]:
        yield f"interface = {number}", f"{capture}interface = {number}\n"
    for key, number in itertools.product(("early", "late"), NUMBERS):
        yield f"{key} = {number} of a capture", f"{capture}{key} = {number}\n"
        yield f"{key} = {number} of a log", f'late = 7\n[hosts.c]\nlate = 5\n{CAPTURE}kind = "log"\n{key} = {number}\n'
    for key, (_, is_wide) in SUBNET_KEYS.items():
        for text in subnets(is_wide):
            yield f"{key} of {text}", f'{capture}{key} = ["{text}"]\n'
    for text in MISSPELLED:
        yield f"addresses of {text!r}", f'{capture}addresses = ["{text}"]\n'
        yield f"addresses6 of {text!r}", f'{capture}addresses6 = ["{text}"]\n'
    for name in ("here", "there", "Here", "a", "", "h e", "n" * 32, "n" * 33, "\\u00e9"):
        yield f"segment {name!r} of a log", f'{CAPTURE}kind = "log"\nsegment = "{name}"\n'
        yield f"segment {name!r} of a capture", f'{capture}segment = "{name}"\n'


def of_logs() -> Iterator[tuple[str, str]]:
    """Documents of logs with keys of captures, and of labels with any two faults."""
    for kind in ("log", "capture", "Log"):
        label = f'{CAPTURE}kind = "{kind}"\n'
        for key in CAPTURE_KEYS:
            for value in ("[]", "0", '["10.0.0.1"]', "-1"):
                yield f"{key} = {value} of a {kind}", f"{label}{key} = {value}\n"
        for two in itertools.permutations(FAULTS, 2):
            lines = "\n".join(two)
            yield f"{lines!r} of a {kind}", f"{label}{lines}\n"


def of_pairs() -> Iterator[tuple[str, str]]:
    """Documents of labels with two subnets, on one side and on two."""
    capture = f'{CAPTURE}kind = "capture"\n'
    keys = [*SUBNET_KEYS]
    for is_wide in (False, True):
        near, beyond = (it for it in keys if SUBNET_KEYS[it][1] == is_wide)
        for one, other in itertools.product(subnets(is_wide), repeat=2):
            yield f"{near} of {one} and {other}", f"{capture}{near} = {array((one, other))}\n"
            lines = f"{beyond} = {array([one])}\n{near} = {array([other])}\n"
            yield f"{beyond} of {one}, {near} of {other}", capture + lines


def of_many() -> Iterator[tuple[str, str]]:
    """Documents of labels with as many subnets as there may be, and one more."""
    capture = f'{CAPTURE}kind = "capture"\n'
    texts = {
        False: [f"10.{it >> 8}.{it & 255}.0/24" for it in range(999)],
        True: [f"{it:x}:0:0:0:0:0:0:0/16" for it in range(999)],
    }
    for count in (SUBNETS - 1, SUBNETS, SUBNETS + 1, SUBNETS + 2, 999):
        for key, (_, is_wide) in SUBNET_KEYS.items():
            some = texts[is_wide][:count]
            yield f"{count} {key}", f"{capture}{key} = {array(some)}\n"
            yield f"{count} {key}, the last as the first", f"{capture}{key} = {array([*some[:-1], some[0]])}\n"
            yield f"{count} {key}, the first misspelled", f"{capture}{key} = {array(['x', *some[1:]])}\n"
            yield f"{count} {key}, the last misspelled", f"{capture}{key} = {array([*some[:-1], 'x'])}\n"
            yield f"{count} {key} of a log", f'{CAPTURE}kind = "log"\n{key} = {array(some)}\n'
        ends = [count * it // 4 for it in range(5)]
        parts = [(key, texts[key.endswith("6")][ends[at] : ends[at + 1]]) for at, key in enumerate(SUBNET_KEYS)]
        lines = [f"{key} = {array(some)}\n" for key, some in parts]
        yield f"{count} subnets under all keys", capture + "".join(lines)
        twins = [f"{key} = {array([*some[:-1], parts[at % 2][1][0]])}\n" for at, (key, some) in enumerate(parts)]
        for at in range(4):
            yield f"{count} subnets, one twice, at {at}", capture + "".join([*lines[:at], twins[at], *lines[at + 1 :]])
        yield f"{count} subnets, some twice", capture + "".join(twins)
    wide = [f"{1 << 15 >> it:x}:0:0:0:0:0:0:0/{it + 1}" for it in range(16)]
    yield "subnets of each width", f"{capture}beyond6 = {array(wide)}\n"


def of_shapes() -> Iterator[tuple[str, str]]:
    """Documents whose tables stand otherwise."""
    for more in MORE:
        yield f"behind it {more!r}", CLOCKS + more
    yield "tables before their host", '[[hosts.a.clocks]]\nname = "x"\n[hosts.a]\nlate = 1\n'
    yield "a table in a clock", '[[hosts.a.clocks]]\nname = "x"\n[hosts.a.clocks.more]\n'
    yield "a clock in dots", 'hosts.a.clocks = [{ name = "x" }]\nhosts.b.late = 3\n'
    yield "a key twice", "[hosts.a]\nclocks = []\nclocks = []\n"
    yield "ends of lines", ("\ufeff" + LABELS + CLOCKS).replace("\n", "\r\n")
    addresses = [f'addresses = ["10.0.0.{it}"]\naddresses6 = ["fd00:0:0:0:0:0:0:{it}"]\n' for it in (1, 2)]
    tables = 'clocks = [{ name = "x" }, { name = "y" }]\n'
    yield "both kinds of addresses", f"{LABELS}[hosts.a]\n{addresses[0]}{tables}[hosts.b]\n{addresses[1]}"


def small() -> dict[str, bytes]:
    """The small documents, by their titles."""
    return {title: it.encode() for made in (of_values, of_names, of_places, of_shapes) for title, it in made()}


def paired() -> dict[str, bytes]:
    """The documents with two things that may go against each other, by their titles."""
    return {title: it.encode() for made in (of_logs, of_pairs, of_many) for title, it in made()}


def clocks(first: int, count: int, more: str = "") -> str:
    """The tables of so many clocks."""
    return "[" + ",".join(f'{{name="{it:x}"{more}}}' for it in range(first, first + count)) + "]"


def large() -> Iterator[tuple[str, str, str | None]]:
    """The large documents, and what is wanted of one that Python reads slowly."""
    half = ENTRIES // 2
    of_two = f"[hosts.zy]\nclocks={clocks(0, half)}\n[hosts.zz]\nclocks="
    yield "65,536 clocks of one host", f"[hosts.zz]\nclocks={clocks(0, ENTRIES, ',gap=1')}\n", None
    yield "65,536 clocks of two hosts", f"{of_two}{clocks(half, half)}\n", None
    yield "65,537 clocks of one host", f"[hosts.zz]\nclocks={clocks(0, ENTRIES + 1)}\n", None
    yield "65,537 clocks of two hosts", f"{of_two}{clocks(half, half + 1)}\n", None
    yield "65,536 clocks and a host", f"[hosts.zy]\nclocks={clocks(0, ENTRIES)}\n[hosts.zz]\n", None
    in_tables = "".join(f'[[hosts.zz.clocks]]\nname="{it:x}"\nlate={it}\n' for it in range(ENTRIES))
    yield "65,536 clocks in tables", in_tables, None
    of_one_clock = "".join(f'[hosts.z{it:x}]\nclocks=[{{name="{it:x}"}}]\n' for it in range(ENTRIES))
    yield "65,536 hosts of one clock", of_one_clock, None
    yield "65,536 hosts", "".join(f"[hosts.z{it:x}]\n" for it in range(ENTRIES)), None
    yield "65,537 hosts", "".join(f"[hosts.z{it:x}]\n" for it in range(ENTRIES + 1)), None
    labels = "".join(f'[labels.{it:x}]\nhost="zz"\nkind="log"\nclock="{ENTRIES - 1 - it:x}"\n' for it in range(ENTRIES))
    yield "65,536 labels of 65,536 clocks", f"[hosts.zz]\nclocks={clocks(0, ENTRIES)}\n{labels}", None
    all_but_one = clocks(0, ENTRIES - 1)[:-1]
    of_subnets = array(f"{it}.0.0.0/8" for it in range(SUBNETS)).replace(" ", "")
    label = f'host="zz"\nkind="capture"\nbeyond={of_subnets}\n'
    in_labels = "".join(f"[labels.{it:x}]\n{label}" for it in range(1000))
    yield f"1,000 labels of {SUBNETS} subnets", f"[hosts.zz]\n{in_labels}", None
    of_segment = 'host="zz"\nkind="capture"\nsegment="{0:x}"\ninterface={0}\nbeyond=["{1}.{2}.0.0/16"]\n'
    in_segments = "".join(
        f"[labels.{it:x}]\n{of_segment.format(it, it >> 8, it & 255)}" for it in range(ENTRIES)
    )
    yield "65,536 labels of 65,536 segments", f"[hosts.zz]\n{in_segments}", None
    yield "the last clock has the first one's name", f"[hosts.zz]\nclocks={all_but_one},{{name='0'}}]\n", None
    yield "2^24 bytes", (CLOCKS + LABELS).ljust(LARGEST - 1) + "\n", None
    yield "2^24 + 1 bytes", (CLOCKS + LABELS).ljust(LARGEST) + "\n", None
    yield "one name of 2^24 bytes", ('[hosts.a]\nclocks=[{name="' + "n" * LARGEST)[: LARGEST - 4] + '"}]\n', None
    yield "a gap of 4,000 digits", f'[hosts.a]\nclocks=[{{name="x",gap={"9" * 4000}}}]\n', None
    yield "empty tables", "[hosts.a]\nclocks=[" + "{}," * 5_000_000 + "]\n", "declaration 2 hosts 1\n"


# The first fault of a document that is no TOML.
FIRST = "declaration 1 top 0\n"


def deep() -> Iterator[tuple[str, str, str]]:
    """Documents with arrays, tables and keys in one another, of which 80 are read, and what is wanted."""
    for count in (1, 40, 77, 78, 79, 80, 81, 1000, 4_000_000):
        kind = lambda most, fault=3: f"declaration {fault} hosts 1\n" if count <= most else FIRST  # noqa: E731, B023
        yield f"clocks in {count} arrays", f"[hosts.a]\nclocks={'[' * (count + 1)}{']' * (count + 1)}\n", kind(79)
        yield f"a name in {count} arrays", f"[hosts.a]\nclocks=[{{name={'[' * count}{']' * count}}}]\n", kind(78)
        yield f"{count} tables in one another", f"[hosts.a]\nclocks=[{'{a=' * count}1{'}' * count}]\n", kind(79, 2)
        yield f"{count} arrays without an end", f"[hosts.a]\nclocks=[{'[' * count}\n", kind(0)
        yield f"a key of {count} parts more", f"[hosts.a]\nclocks{'.a' * count} = 1\n", kind(79)
        yield f"a head of {count} parts more", f"[hosts.a.clocks{'.a' * count}]\n", kind(77)
        yield f"tables in a head of {count} parts more", f"[[hosts.a.clocks{'.a' * count}]]\n", kind(77)


LANGUAGE = Language(
    signs=b"[]{}=,./:\"'#\n\r \t\\-_0123456789abxyn",
    numbers=NUMBERS,
    number=re.compile(rb"-?\d+"),
    word=re.compile(rb"""["'.\[ ]([A-Za-z0-9]+)["'\] ]"""),
    # (numbers, names and lines are changed more often)
    ways=[
        *[put_byte] * 2, *[put_sign] * 2, cut_out, copy_in, *[change_number] * 3, *[change_word] * 3,
        *[put_line] * 2, move_line,
    ],  # fmt: skip
)


def main() -> int:
    said = arguments(__doc__)
    with tempfile.TemporaryDirectory() as path:
        runs, documents = Documents(path), small()
        for title, document in documents.items():
            runs.check(title, document)
        for title, text, wanted in [*large(), *deep()]:
            runs.check(title, text.encode(), wanted)
        for title, document in (pairs := paired()).items():
            runs.check(title, document)
        cut = cuts(documents, LARGEST)
        for document, title in cut.items():
            runs.check(title, document)
        inputs = [*documents.values(), *pairs.values()]
        for title, document in changes(Source(Random(said.seed), inputs, LANGUAGE), inputs, said.changes):
            runs.check(title, document)
    for answer, count in sorted(runs.answers.items()):
        print(f"{count:8} {answer}")
    seconds, title, length = runs.slowest
    print(f"the slowest document: {title}, {length} bytes, {seconds:.2f} s")
    counts = f"{len(documents)} small ones, {len(pairs)} of two things, {len(cut)} cut"
    print(f"{runs.count} documents, {counts}; {runs.wrong} went wrong")
    return 1 if runs.wrong else 0


if __name__ == "__main__":
    sys.exit(main())
