#!/usr/bin/env python3
"""Gives each reader of the program texts and bytes that mean it ill: no run may crash, hang, or end with another
status than docs/FORMATS.md has.

    tests/hostile_inputs.py [CHANGES [SEED]]

The readers are those of problems, executions, certificates, widenings, scripts, logs and captures;
tests/hostile_declarations.py has that of declarations. For each there are small inputs, lawful ones and some at their
limits and one past them. Each small one is cut at each byte; then come CHANGES inputs for each reader, 2000 if it is
not said, each of which is a small one with bytes, numbers, words or lines changed at random, by SEED, 1 if it is not
said; and at last large ones. Every run must end by itself within 5 s of a processor, or 100 s in all, say nothing on
the standard error, and end with a status of its command, whose last line is the one that the status has; a session
has as many replies as lines, each of one of the forms.

PROGRAM names the program, else it is the one that is built here. Each input that goes wrong stays in
tests/out/hostile-N; then the status is 1. At last there is a line for each reader: how many runs, how many of them
were lawful, and its slowest input by time for each byte among those of 2^16 bytes or more.
"""

import collections
import re
import subprocess
import sys
import tempfile
from collections.abc import Iterator, Mapping, Sequence
from dataclasses import dataclass
from random import Random

from support.captures import INTERFACE, SECTION, blocks, classic, frame, frame6
from support.hostile import ALL_WAYS, NANOS, Folder, Language, Outcome, Source, arguments, changes, cuts
from support.program import program, read, write_left
from support.replies import replies_of

# The line that a status has.
LINES = {
    2: "usage: .*",
    3: "declaration .*",
    4: r"problem \d+ \d+",
    5: r"execution \d+ \d+",
    6: r"certificate \d+ \d+",
    7: "read fault",
    10: "script limit",
    11: "unknown event",
}
NS = r"-?\d+\.\d{9}"
# What a merge has on the standard error.
NOTES = re.compile(r"(\S+ (pending \d+|passed simple \d+ obsolete \d+ other \d+)\n)*")
# The first line of a reply.
REPLY = re.compile(
    rf"added events \d+ messages \d+ withdrawn \d+ pending \d+ (passed \d+ )?(in)?consistent|interval ({NS}|-inf) ({NS}|\+inf)"
    rf"|order (before|after|same|open)|time ({NS}|-inf) ({NS}|\+inf)"
    r"|kept [1-8]|(merge|times) \d+|certificate 1|problem [123]|\{.*\}"
    r"|refused (2[01237-9]|30|24 [12]|2[56] \d+( [1-4])?|31 \d+)"
)

PROBLEM = """problem 2
clock a 20000 20001 0 50
clock b 0 0 0 0
clock c 10 10 1 2
follow b c 30
event a#1 a 100
event a#2 a 195
event b#1 b 250
event b#2 b 300
event c#1 c 5
message a#1 b#1 10 200
message b#2 a#2 0 none
message a#2 c#1 0 5000
end
"""
BAD = """problem 1
clock a 0 0 0 0
clock b 0 0 0 0
event a#1 a 100
event a#2 a 180
event b#1 b 250
event b#2 b 300
message a#1 b#1 10 20
message b#2 a#2 10 20
end
"""
# The same with bounds of each event.
OWN = re.sub("^(event .*)$", r"\1 3 0", BAD.replace("problem 1", "problem 3"), flags=re.MULTILINE)
DECLARATION = """source = "a"
payload_bytes = 8
[hosts.a]
addresses = ["10.9.0.1"]
addresses6 = ["fd00:0:0:0:0:0:0:1"]
[hosts.b]
late = 50
addresses = ["10.9.0.2"]
addresses6 = ["fd00:0:0:0:0:0:0:2"]
clocks = [{ name = "b1" }, { name = "b2", gap = 9 }]
[labels.left]
host = "a"
kind = "capture"
[labels.one]
host = "a"
kind = "log"
[labels.right]
host = "b"
kind = "capture"
[labels.two]
host = "b"
kind = "log"
clock = "b2"
[[links]]
from = "a"
to = "b"
least = 3
most = 900
"""
LOG = b"100,send,m1,hello\n200,receive,m2,\n300,local,,\"a, \"\"b\"\"\"\n"
OTHER = b"150,receive,m1,x\r\n\r\n260,send,m2,\n"
QUESTIONS = """interval one#1 two#1
order one#1 two#1
time two#1
times
merge
prove one#1 two#2
keep one#1
times one#1
problem
report
thin two#1 one#2
"""
SCRIPT = (
    f"add one one.log\nadd two two.log\n{QUESTIONS}add left left.pcap\nadd right right.pcap\n"
    "interval left#1 right#1\nkeep left#1\nadd one two.log\nreport\nproblem\n"
)
FRAMES = [(10**9 + 100, frame(1, 2, b"abcdefgh")), (10**9 + 200, frame6(2, 1, b"ijklmnop")), (10**9 + 300, b"\0" * 20)]
BACK = [(10**9 + 150, frame(1, 2, b"abcdefgh")), (10**9 + 170, frame6(2, 1, b"ijklmnop"))]
CAPTURE_SCRIPT = """add left it
add right right.pcap
interval left#1 right#1
order left#2 right#2
times right#1
merge
report
problem
"""
FILES: dict[str, bytes | str] = {
    "p": PROBLEM,
    "bad": BAD,
    "hosts.toml": DECLARATION,
    "one.log": LOG,
    "two.log": OTHER,
    "left.pcap": classic(FRAMES),
    "right.pcap": classic(BACK),
    "script": SCRIPT,
    "log.script": f"add one it\nadd two two.log\n{QUESTIONS}",
    "capture.script": CAPTURE_SCRIPT,
}


@dataclass(frozen=True)
class Command:
    """A command that reads an input, which stands in the file `it`: its words, its script, and the statuses that it may
    have."""

    words: Sequence[str]
    script: str
    statuses: set[int]


COMMANDS = {
    "problem": [
        Command(["solve", "it"], "empty", {0, 4}),
        Command(["ends", "it", "a#1", "b#1"], "empty", {0, 4, 11}),
        Command(["widen", "it"], "empty", {0, 4}),
        Command(["thin", "it", "a#1"], "empty", {0, 4, 11}),
    ],
    "execution": [Command(["obey", "p", "it"], "empty", {0, 1, 5})],
    "certificate": [Command(["verify", it, "it"], "empty", {0, 1, 6}) for it in ("p", "bad")],
    "widening": [Command(["judge", "bad", "it"], "empty", {0, 1, 6})],
    "script": [Command(["session", "hosts.toml"], "it", {0}), Command(["mergecap", "hosts.toml"], "it", {0, 12})],
    "log": [Command(["session", "hosts.toml"], "log.script", {0})],
    "capture": [Command(["session", "hosts.toml"], "capture.script", {0})],
}


def fault_of_session(text: str, script: bytes) -> str:
    """What is wrong with the form of the replies to a script, if anything."""
    lines, replies = script.split(b"\n"), replies_of(text.splitlines())
    if len(replies) != len(lines) - (not lines[-1]):
        return f"{len(replies)} replies"
    return next((f"a reply {it[0]!r}" for it in replies if not REPLY.fullmatch(it[0])), "")


def fault_of(command: Command, outcome: Outcome, script: bytes) -> str:
    """What is wrong with a run, if anything."""
    status, text = outcome.run.status, outcome.text
    if status not in command.statuses:
        return "a status of its own"
    is_merge = command.words[0] == "mergecap" and status == 0
    if not NOTES.fullmatch(outcome.said) if is_merge else outcome.said:
        return "the standard error"
    if command.words[0] == "mergecap":
        return "" if status == 0 or re.fullmatch(r"(refused .*|size|inconsistent|links|range)\n", text) else "no reason"
    if command.words[0] == "session":
        return fault_of_session(text, script)
    if status in LINES:
        return "" if re.fullmatch(LINES[status] + "\n", text) else "another line"
    if status == 1:
        return "" if re.fullmatch(r"(no|broken) .*\n", text) else "another line"
    answer = rf"(obeys|yes|({NS}|-inf) ({NS}|\+inf) (before|after|same|open))\n"
    return "" if text.endswith("\nend\n") or re.fullmatch(answer, text) else "another answer"


class Readers:
    """Runs the commands of each reader in a folder, and counts."""

    def __init__(self, path: str) -> None:
        self.folder, self.wrong = Folder(path), 0
        self.count: collections.Counter[str] = collections.Counter()
        self.lawful: collections.Counter[str] = collections.Counter()
        self.slowest: dict[str, tuple[float, str, int]] = {}
        for name, content in FILES.items():
            self.folder.put(name, content)

    def check(self, reader: str, title: str, content: bytes) -> None:
        """Runs each command that reads this, and looks at its answer."""
        path = self.folder.put("it", content)
        for command in COMMANDS[reader]:
            outcome = self.folder.run(command.words, command.script)
            self.count[reader] += 1
            self.lawful[reader] += outcome.run.status in (0, 1)
            if len(content) >= 1 << 16:
                figure = (outcome.run.processor / len(content), f"{title} by {command.words[0]}", len(content))
                self.slowest[reader] = max(self.slowest.get(reader, (0.0, "", 0)), figure)
            script = read(path) if command.script == "it" else FILES.get(command.script, "")
            why = fault_of(command, outcome, script.encode() if isinstance(script, str) else script)
            if why:
                ended = f"{' '.join(command.words)}: status {outcome.run.status}"
                shown = f"{outcome.text[-200:]!r} {outcome.said[-200:]!r}"
                self.tell(reader, title, content, f"{ended}, {why}: {shown}")

    def tell(self, reader: str, title: str, content: bytes, why: str) -> None:
        self.wrong += 1
        print(f"{reader}, {title}: {why}; it stays in {write_left(f'hostile-{self.wrong}', content)}", flush=True)


NUMBERS: list[int | str] = [
    0, 1, 2, 9, 999_999_999, 10**9, 10**9 + 1, 2**32 - 1, 2**32, NANOS - 1, NANOS, 2**63, 2**64 - 1, 2**64,
    2**120 // 10**9, 2**120, 10**40, "00", "-1", "+1", "-0", "none", "0x1",
]  # fmt: skip
LANGUAGE = Language(
    signs=b" \n\r\t,\"#.-+0129azAZ\0\xff",
    numbers=NUMBERS,
    number=re.compile(rb"\d+"),
    word=re.compile(rb"([A-Za-z0-9#._-]+)"),
    ways=ALL_WAYS,
)
LIMITS = [0, NANOS - 1, NANOS, 2**64 - 1, 2**64]
# The greatest real time that a text may have, one above it, and two below 0.
TIMES = [
    "1329227995784915872903807060.280344576", "1329227995784915872903807060.280344577", "-0.000000000", "-1.000000000",
]  # fmt: skip

Inputs = dict[str, bytes | str]


def problems() -> Inputs:
    """Small problems, by their titles."""
    found = {"two clocks of a host": PROBLEM, "a contradiction": BAD, "no events": "problem 1\nend\n"}
    found |= {"bounds of events": OWN, "bounds of events, and follows": PROBLEM.replace("problem 2", "problem 3")}
    found |= {f"a bound of {it}": OWN.replace("event a#2 a 180 3 0", f"event a#2 a 180 {it} {it}") for it in LIMITS}
    found |= {f"a stamp of {it}": PROBLEM.replace("event a#2 a 195", f"event a#2 a {it}") for it in LIMITS}
    found |= {f"a delay of {it}": PROBLEM.replace(" 10 200", f" 0 {it}") for it in LIMITS}
    found |= {f"a rate of {it}": PROBLEM.replace("20000 20001", f"{it} {it}") for it in (999_999_999, 10**9, 10**9 + 1)}
    found |= {f"a name of {it}": BAD.replace("a#1", "n" * it) for it in (1, 48, 49)}
    return {**found, **{f"a clock of {it}": BAD.replace(" a ", f" {'c' * it} ") for it in (32, 33)}}


def answers(path: str) -> dict[str, Inputs]:
    """Small executions, certificates and widenings, made of what the program answers."""

    def answer(*words: str, script: str = "") -> str:
        return subprocess.run([program(), *words], input=script, capture_output=True, text=True, cwd=path).stdout

    solved, cycle, widening = (answer(*it) for it in (["solve", "p"], ["solve", "bad"], ["widen", "bad"]))
    replies = replies_of(answer("session", "hosts.toml", script=SCRIPT).splitlines())
    proof = "\n".join(next(it for it in replies if it[0] == "certificate 1")) + "\n"
    values = "\n".join(solved.splitlines()[2:]) + "\n"
    times = {f"a time of {it}": re.sub(r"(event b#1) \S+", rf"\1 {it}", f"execution 1\n{values}") for it in TIMES}
    steps = "\n".join(cycle.splitlines()[1:]) + "\n"
    least = {f"least {it}": re.sub("least .*", f"least {it}", widening, count=1) for it in LIMITS}
    return {
        "execution": {"earliest": f"execution 1\n{values}", **times},
        "certificate": {
            "an execution": solved,
            "a contradiction": cycle,
            "a proof": proof,
            "no proof": f"certificate 1\nends a#1 b#1\n{values}",
        },
        "widening": {"the least": widening, "none": f"widening 1\nleast none\n{steps}", **least},
    }


def scripts() -> Inputs:
    """Small scripts, by their titles."""
    long = {f"a line of {it} bytes": f"add one {'p' * (it - 8)}\nreport\n" for it in (4095, 4096, 4097)}
    return {"all commands": SCRIPT, "no last line feed": SCRIPT[:-1], **long}


def logs() -> Inputs:
    """Small logs, by their titles."""
    found: Inputs = {"three rows": LOG, "a mark in front": b"\xef\xbb\xbf" + LOG, "empty": b""}
    found |= {f"a text of {it}": b"1,local,," + b"t" * it + b"\n" for it in (200, 201)}
    found |= {f"a message of {it}": b"1,send," + b"m" * it + b",\n" for it in (64, 65)}
    return {**found, **{f"a stamp of {it}": b"%d,local,,\n" % it for it in LIMITS}}


def captures() -> Inputs:
    """Small captures, and some of one packet at the limit, by their titles."""
    found: Inputs = {
        "classic": classic(FRAMES),
        "of microseconds": classic(FRAMES, ">", 0xA1B2C3D4),
        "blocks": blocks(FRAMES),
        "two sections": blocks(FRAMES) * 2,
        "no packets": classic([]),
    }
    found |= {f"a packet of {it}": classic([(5, bytes(it))]) for it in (262144, 262145)}
    return {**found, **{f"a block of {it}": blocks([(5, bytes(it))]) for it in (262144, 262145)}}


def small(path: str) -> Mapping[str, Inputs]:
    """Of each reader the small inputs, by their titles."""
    return {"problem": problems(), **answers(path), "script": scripts(), "log": logs(), "capture": captures()}


# How many entries most of the large inputs have.
MANY = 1 << 17
STEP = "step span-most a 100 195 95.001900095\n"


def large_problems() -> Iterator[tuple[str, str]]:
    """Large problems, by their titles."""
    clocks = ["".join(f"clock c{it:x} 0 0 0 0\n" for it in range(count)) for count in (1 << 16, (1 << 16) + 1)]
    upward = "".join(f"follow c{it - 1:x} c{it:x} 1\n" for it in range((1 << 16) - 1, 0, -1))
    events = "".join(f"event e{it:x} a {it}\n" for it in range(MANY))
    yield "many events", f"problem 1\nclock a 0 0 0 0\n{events}end\n"
    own = "".join(f"event e{it:x} a {it} {it} 7\n" for it in range(MANY))
    yield "many events with bounds", f"problem 3\nclock a 0 0 0 0\n{own}end\n"
    yield "many clocks", f"problem 1\n{clocks[0]}end\n"
    yield "one clock too many", f"problem 1\n{clocks[1]}end\n"
    yield "a long chain, from its end", f"problem 2\n{clocks[0]}{upward}end\n"
    yield "one line", "problem 1" + " " * (1 << 24) + "\nend\n"
    yield "long numbers", "problem 1\nclock a 0 0 0 0\n" + f"event x a {'9' * (1 << 22)}\nend\n"


def large_answers() -> Iterator[tuple[str, str, str]]:
    """Large executions, certificates and widenings: the reader, a title and the input."""
    times = "".join(f"event e{it:x} {it}.000000000\n" for it in range(MANY))
    yield "execution", "many events", f"execution 1\n{times}end\n"
    yield "execution", "one long number", f"execution 1\nevent a#1 {'9' * (1 << 22)}.000000000\nend\n"
    for title, count in (("2^18 steps", 1 << 18), ("2^22 steps", 1 << 22)):
        yield "certificate", title, "certificate 1\ncycle\n" + STEP * count + "end\n"
    inside = "".join(f"inside c{it:x}\n" for it in range(MANY))
    yield "certificate", "many inside", f"certificate 1\nends a#1 b#1\nleast none\n{inside}end\n"
    yield "widening", "2^18 steps", "widening 1\nleast none\ncycle\n" + STEP * (1 << 18) + "end\n"


def large_scripts() -> Iterator[tuple[str, str]]:
    """Large scripts, by their titles."""
    yield "many questions", "add one one.log\n" + "order one#1 one#2\n" * MANY
    yield "short lines", "\n" * (1 << 20)
    yield "one line", "x" * (1 << 24)
    yield "long lines", ("x" * 5000 + "\n") * 2000
    yield "many reports", "add one one.log\n" + "report\n" * 20000


def large_logs() -> Iterator[tuple[str, bytes]]:
    """Large logs, by their titles."""
    yield "many rows", b"".join(b"%d,local,,\n" % it for it in range(MANY))
    yield "downward", b"".join(b"%d,send,m%d,\n" % (MANY - it, it) for it in range(MANY))
    yield "one key", b"1,send,m,\n" * MANY
    yield "commas", b"," * (1 << 24)
    yield "one quoted field", b'"' + b"x" * (1 << 24)
    yield "empty lines", b"\n" * (1 << 24)
    yield "more rows than fit", b"1,local,,\n" * ((1 << 24) + 1)


def large_captures() -> Iterator[tuple[str, bytes]]:
    """Large captures, by their titles."""
    yield "empty records", classic((it, b"") for it in range(MANY))
    yield "packets of one key", classic((it, FRAMES[0][1]) for it in range(MANY))
    yield "different packets", classic((it, frame(1, 2, b"%08x" % it)) for it in range(MANY))
    yield "many interfaces", SECTION + INTERFACE * MANY
    yield "many sections", SECTION * MANY
    yield "zeros", classic([]) + bytes(1 << 22)


def large() -> Iterator[tuple[str, str, bytes]]:
    """Large inputs: a reader, a title and the input."""
    for reader, texts in (("problem", large_problems), ("script", large_scripts)):
        yield from ((reader, title, text.encode()) for title, text in texts())
    for reader, inputs in (("log", large_logs), ("capture", large_captures)):
        yield from ((reader, title, it) for title, it in inputs())
    yield from ((reader, title, text.encode()) for reader, title, text in large_answers())


def check_small(runs: Readers, reader: str, inputs: dict[str, bytes], count: int, seed: int) -> None:
    """Runs a reader over small inputs, over their fronts, and over so many changed ones."""
    for title, content in inputs.items():
        runs.check(reader, title, content)
    for content, title in cuts(inputs, 1500).items():
        runs.check(reader, title, content)
    some = [it for it in inputs.values() if len(it) < 5000]
    for title, content in changes(Source(Random(f"{seed} {reader}"), some, LANGUAGE), some, count):
        runs.check(reader, title, content)


def main() -> int:
    said = arguments(__doc__)
    with tempfile.TemporaryDirectory() as path:
        runs = Readers(path)
        for reader, inputs in small(path).items():
            whole = {title: it.encode() if isinstance(it, str) else it for title, it in inputs.items()}
            check_small(runs, reader, whole, said.changes, said.seed)
        for reader, title, content in large():
            runs.check(reader, title, content)
    for reader, count in runs.count.items():
        each, title, length = runs.slowest[reader]
        slowest = f"{title}, {length} bytes, {each * 1e9:.0f} ns a byte"
        print(f"{reader}: {count} runs, {runs.lawful[reader]} with status 0 or 1; the slowest: {slowest}")
    print(f"{sum(runs.count.values())} runs, {runs.wrong} went wrong")
    return 1 if runs.wrong else 0


if __name__ == "__main__":
    sys.exit(main())
