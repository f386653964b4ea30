#!/usr/bin/env python3
"""Runs the built program as a process, and compares its status and what it prints. The gate runs it behind the proofs.

    tests/process.py [WORD]

What no contract can say is looked at here: that the exit status is that of the run, for each status from 0 to 12; that
a session answers a line before it reads the next one; that files, input and output are read and written whole where the
host gives or takes a part at a time, or fails; that streams which were set not to wait are waited for; that notes come
on the standard error; and that sizes just above the small ones of other tests do not end in want of memory. With WORD
only cases whose names have it are run. PROGRAM names the program, else it is the one that is built here. Reads and
writes fail or are cut by a library of fail_calls.c, which is built here with cc and loaded before the C library.
"""

from __future__ import annotations

import argparse
import fcntl
import os
import resource
import select
import socket
import struct
import subprocess
import sys
import tempfile
import termios
import threading
import time
from collections.abc import Callable, Iterable
from dataclasses import dataclass

from support.program import TOP, program

PROGRAM = program()
SECONDS = 60

HOSTS = """[hosts.a]
[hosts.b]
[labels.a]
host = "a"
kind = "log"
[labels.b]
host = "b"
kind = "log"
[[links]]
from = "a"
to = "b"
least = 10
most = 20
[[links]]
from = "b"
to = "a"
least = 10
most = 20
"""
A_LOG, B_LOG = "100,send,m1,\n180,receive,m2,\n", "250,receive,m1,\n300,send,m2,\n"
PROBLEM = """problem 1
clock a 0 0 0 0
clock b 0 0 0 0
event a#1 a 100
event a#2 a 180
event b#1 b 250
event b#2 b 300
message a#1 b#1 10 20
message b#2 a#2 10 20
end
"""
ADDS = "add a a.csv\nadd b b.csv\n"
FIRST, SECOND = (f"added events 2 messages {n} withdrawn 0 pending 0 consistent\n" for n in (0, 2))
ADDED = FIRST + SECOND
BETWEEN = "interval 10.000000000 20.000000000\n"


@dataclass
class Ran:
    """How a run ended."""

    status: int
    out: bytes


@dataclass
class Failed(Exception):
    """What a case found."""

    why: str


@dataclass
class Room:
    """A folder with the files of a case, and the runs in it."""

    folder: str
    shim: str

    def write(self, name: str, data: str | bytes) -> str:
        with open(f"{self.folder}/{name}", "wb") as it:
            it.write(data.encode() if isinstance(data, str) else data)
        return name

    def run(
        self, words: Iterable[str], script: str | bytes = b"", memory: int = 0, notes: str = "", **faults: int
    ) -> Ran:
        """Runs the program, which must write these notes; `memory` bounds its address space, `faults` are the variables
        of fail_calls.c."""
        said = {f"FAULT_{name.upper()}": str(n) for name, n in faults.items()}
        more = {**os.environ, **said, **({"LD_PRELOAD": self.shim} if said else {})}
        limit = (lambda: resource.setrlimit(resource.RLIMIT_AS, (memory, memory))) if memory else None
        data = script.encode() if isinstance(script, str) else script
        kept = {"capture_output": True, "cwd": self.folder, "env": more, "timeout": SECONDS, "preexec_fn": limit}
        done = subprocess.run([PROGRAM, *words], input=data, **kept)
        if done.stderr != notes.encode():
            raise Failed(f"the standard error has {done.stderr[:200]!r}, not {notes!r}")
        return Ran(done.returncode, done.stdout)


def agree(found: Ran, status: int, out: str | bytes) -> None:
    """Raises where a run did not end and print so."""
    want = out.encode() if isinstance(out, str) else out
    if found.status != status:
        raise Failed(f"status {found.status}, not {status}; it printed {found.out[:200]!r}")
    if found.out != want:
        at = next((k for k, (x, y) in enumerate(zip(found.out, want)) if x != y), min(len(found.out), len(want)))
        told, wanted = found.out[at : at + 80], want[at : at + 80]
        raise Failed(f"{len(found.out)} bytes, not {len(want)}; from byte {at} on {told!r}, not {wanted!r}")


VALUES = """event a#1 0.000000000
event a#2 80.000000000
event b#1 10.000000000
event b#2 60.000000000
reading a 100 0.000000000
reading a 180 80.000000000
reading b 250 10.000000000
reading b 300 60.000000000
end
"""
SOLVED, EXECUTION = f"certificate 1\nrun\n{VALUES}", f"execution 1\n{VALUES}"
BROKEN = EXECUTION
for said, later in (("b#1 10.", "b#1 21."), ("250 10.", "250 21."), ("b#2 60.", "b#2 71."), ("300 60.", "300 71.")):
    BROKEN = BROKEN.replace(said, later)
USAGE = (
    "usage: tracesync obey PROBLEM EXEC | solve PROBLEM | ends PROBLEM P Q | verify PROBLEM CERT | session DECL"
    " | trial N | widen PROBLEM WHAT.. | judge PROBLEM WIDENING | blame PROBLEM | thin PROBLEM P.."
    " | mergecap DECL [pcapng [EVENT]] | --help | --version\n"
)
with open(f"{TOP}/crates/commands/src/help.rt", encoding="utf-8") as source:
    HELP = source.read().split('HELP: &[u8] = br"', 1)[1].split('\n";', 1)[0] + "\n"
with open(f"{TOP}/CHANGELOG.md", encoding="utf-8") as source:
    NEWEST = source.read().split("\n## ", 1)[1].split(".", 1)[0]
EMPTY_CAPTURE = struct.pack("<IHHIIII", 0xA1B23C4D, 2, 4, 0, 0, 262144, 1)


def logs(room: Room) -> None:
    """The files of two logs, of their problem, and of texts about it."""
    texts = {
        "hosts.toml": HOSTS, "a.csv": A_LOG, "b.csv": B_LOG, "bad.toml": "hosts = ", "empty.txt": "",
        "problem.txt": PROBLEM, "solved.txt": SOLVED, "execution.txt": EXECUTION, "broken.txt": BROKEN,
        "cut.txt": EXECUTION.replace("reading b 300 60.000000000\n", ""),
    }
    for name, text in texts.items():
        room.write(name, text)


# ---- the exit status


def statuses(room: Room) -> None:
    """Each status that words, files and input bring a run to, with all that it prints."""
    logs(room)
    rows: list[tuple[int, list[str], str, str | bytes]] = [
        (0, ["session", "hosts.toml"], ADDS + "interval a#1 b#1\n", ADDED + BETWEEN),
        (0, ["solve", "problem.txt"], "", SOLVED),
        (0, ["obey", "problem.txt", "execution.txt"], "", "obeys\n"),
        (0, ["ends", "problem.txt", "a#1", "b#1"], "", "10.000000000 20.000000000 before\n"),
        (0, ["verify", "problem.txt", "solved.txt"], "", "yes\n"),
        (0, ["thin", "problem.txt", "a#1", "a#1"], "", PROBLEM),
        (0, ["mergecap", "hosts.toml"], "", EMPTY_CAPTURE),
        (0, ["--help"], "", HELP),
        (0, ["--version"], "", f"tracesync {NEWEST}\n"),
        (1, ["obey", "problem.txt", "broken.txt"], "", "broken delay-most a#1 b#1 20.000000000 21.000000000\n"),
        (2, [], "", USAGE),
        (2, ["session"], ADDS, USAGE),
        (2, ["thin"], "", USAGE),
        (3, ["session", "bad.toml"], ADDS, "declaration 1 top 0\n"),
        (3, ["session", "/dev/zero"], "", "declaration 8 top 0\n"),
        (4, ["solve", "empty.txt"], "", "problem 1 1\n"),
        (5, ["obey", "problem.txt", "cut.txt"], "", "execution 1 9\n"),
        (6, ["verify", "problem.txt", "empty.txt"], "", "certificate 1 1\n"),
        (7, ["solve", "absent.txt"], "", "read fault\n"),
        (7, ["session", "absent.toml"], "", "read fault\n"),
        (11, ["ends", "problem.txt", "a#1", "c#1"], "", "unknown event\n"),
        (11, ["thin", "problem.txt", "a#1", "c#1", "b#1"], "", "unknown event\n"),
        (12, ["mergecap", "hosts.toml"], "merge\n", "refused 20\n"),
    ]
    for status, words, script, out in rows:
        try:
            agree(room.run(words, script, memory=1 << 30), status, out)
        except Failed as found:
            raise Failed(f"{' '.join(words) or 'no words'}: {found.why}") from found


def full_outputs(room: Room) -> None:
    """Status 8 where the output cannot be written, whichever command it is."""
    logs(room)
    problem = "problem.txt"
    rows: list[tuple[int, list[str], bytes]] = [
        (8, ["obey", problem, "execution.txt"], b""), (8, ["solve", problem], b""),
        (8, ["ends", problem, "a#1", "b#1"], b""), (8, ["verify", problem, "solved.txt"], b""),
        (8, ["session", "hosts.toml"], b"x\n"), (8, ["trial", "7"], b""), (8, ["widen", problem], b""),
        (8, ["judge", problem, "empty.txt"], b""), (8, ["thin", problem], b""), (8, ["mergecap", "hosts.toml"], b""), (8, [], b""),
        # (a session without a line prints nothing, and so loses nothing)
        (0, ["session", "hosts.toml"], b""),
    ]
    for status, words, script in rows:
        with open("/dev/full", "wb") as full:
            done = subprocess.run([PROGRAM, *words], input=script, stdout=full, cwd=room.folder, timeout=SECONDS)
        if done.returncode != status:
            raise Failed(f"{' '.join(words) or 'no words'}: status {done.returncode}, not {status}")


def little_memory(room: Room) -> None:
    """Status 9 where memory runs out in a session, behind whole replies."""
    logs(room)
    room.write("many.csv", "".join(f"{n},local,,\n" for n in range(40_000)))
    found = room.run(["session", "hosts.toml"], ADDS + "add a many.csv\n", memory=12 << 20)
    agree(found, 9, ADDED)


def long_script(room: Room) -> None:
    """Status 10 for a script of one byte more than 2^30, behind the replies to all whole lines."""
    logs(room)
    line = b"x" * ((1 << 20) - 1) + b"\n"
    words, piped = [PROGRAM, "session", "hosts.toml"], subprocess.PIPE
    with subprocess.Popen(words, stdin=piped, stdout=piped, cwd=room.folder) as ran:
        def feed() -> None:
            for _ in range(1024):
                ran.stdin.write(line)
            ran.stdin.write(b"x")
            ran.stdin.close()

        feeder = threading.Thread(target=feed)
        feeder.start()
        out = ran.stdout.read()
        feeder.join()
        status = ran.wait(SECONDS)
    agree(Ran(status, out), 10, "refused 20\n" * 1024 + "script limit\n")


# ---- a session answers line by line


def replies_at_once(room: Room) -> None:
    """The reply to a line comes before the next line is given."""
    logs(room)
    asked = [("add a a.csv", FIRST), ("add b b.csv", SECOND), ("interval a#1 b#1", BETWEEN), ("x", "refused 20\n")]
    words, piped = [PROGRAM, "session", "hosts.toml"], subprocess.PIPE
    with subprocess.Popen(words, stdin=piped, stdout=piped, cwd=room.folder) as ran:
        try:
            for line, want in asked:
                os.write(ran.stdin.fileno(), f"{line}\n".encode())
                if not select.select([ran.stdout], [], [], 10)[0]:
                    raise Failed(f"no reply to {line} within ten seconds")
                found = os.read(ran.stdout.fileno(), 65536)
                if found != want.encode():
                    raise Failed(f"{line}: {found!r}, not {want!r}")
        finally:
            ran.kill()


# ---- files, input and output


def long_log(count: int) -> str:
    return "".join(f"{n * 10},local,,\n" for n in range(1, count + 1))


def added(count: int) -> str:
    return f"added events {count} messages 0 withdrawn 0 pending 0 consistent\n"


def long_inputs(room: Room) -> None:
    """A file of over 1 MiB and a script of over 64 KiB are read whole, also where few bytes come at a time."""
    logs(room)
    count = 80_000
    room.write("long.csv", long_log(count))
    asked = [k * 7919 % count + 1 for k in range(4_000)]
    script = "add a long.csv\nkeep a#1\n" + "".join(f"interval a#1 a#{k}\n" for k in asked)
    ends = [f"{(k - 1) * 10}.000000000" for k in asked]
    want = added(count) + "kept 1\n" + "".join(f"interval {end} {end}\n" for end in ends)
    agree(room.run(["session", "hosts.toml"], script), 0, want)
    agree(room.run(["session", "hosts.toml"], script, short=1021), 0, want)


def interrupted_calls(room: Room) -> None:
    """A read or a write that a signal interrupts is made again, of the input, of a file and of the output."""
    logs(room)
    count = 2_000
    room.write("long.csv", long_log(count))
    script = f"add long.csv long.csv\nadd a long.csv\ninterval a#1 a#{count}\nmerge\n"
    merged = f"merge {count}\n" + "".join(f"{n * 10}.000000000 a#{n + 1}\n" for n in range(count))
    end = f"{(count - 1) * 10}.000000000"
    want = f"refused 21\n{added(count)}interval {end} {end}\n{merged}"
    for each in (2, 3, 7):
        agree(room.run(["session", "hosts.toml"], script, each=each, short=1021), 0, want)


def piped_files(room: Room) -> None:
    """Files that are pipes are read to their end, as they come."""
    logs(room)
    count = 20_000
    text = long_log(count).encode()
    os.mkfifo(f"{room.folder}/pipe")

    def feed() -> None:
        with open(f"{room.folder}/pipe", "wb", buffering=0) as it:
            for k in range(0, len(text), 10_007):
                it.write(text[k : k + 10_007])

    # (a program that never opens the pipe leaves this thread waiting, which must not hold up the end)
    feeder = threading.Thread(target=feed, daemon=True)
    feeder.start()
    found = room.run(["session", "hosts.toml"], f"add a pipe\ninterval a#1 a#{count}\n")
    feeder.join(SECONDS)
    agree(found, 0, added(count) + f"interval {(count - 1) * 10}.000000000 {(count - 1) * 10}.000000000\n")


def failing_reads(room: Room) -> None:
    """A file that fails behind its first 64 KiB is refused, and nothing of it is taken."""
    logs(room)
    room.write("long.csv", long_log(20_000))
    script = "add a long.csv\nadd a a.csv\ninterval a#1 a#2\n"
    found = room.run(["session", "hosts.toml"], script, behind=65_536)
    # (the first event is that of a.csv, and the next one comes 80 ns behind it; in long.csv it would be 10)
    agree(found, 0, f"refused 22\n{FIRST}interval 80.000000000 80.000000000\n")


def cut_block(room: Room) -> None:
    """A pending block of 8 MiB and a piece of 4 MiB behind its head are taken in 96 MiB of memory."""
    room.write("hosts.toml", '[hosts.a]\naddresses = ["10.0.0.1"]\n[labels.a]\nhost = "a"\nkind = "capture"\n')
    section = struct.pack("<IIIHHqI", 0x0A0D0D0A, 28, 0x1A2B3C4D, 1, 0, -1, 28)
    room.write("head", section + struct.pack("<II", 6, 1 << 23))
    room.write("more", bytes(1 << 22))
    found = room.run(["session", "hosts.toml"], "add a head\nadd a more\n", memory=96 << 20)
    want = "".join(f"added events 0 messages 0 withdrawn 0 pending {n} consistent\n" for n in (8, 8 + (1 << 22)))
    agree(found, 0, want)


# ---- streams that were set not to wait (O_NONBLOCK)


def waited_inputs(room: Room) -> None:
    """A pipe without anything ready is waited for, at its first byte and behind a reply, and stays set as it was."""
    logs(room)
    read, write = os.pipe()
    os.set_blocking(read, False)
    words, piped = [PROGRAM, "session", "hosts.toml"], subprocess.PIPE
    with subprocess.Popen(words, stdin=read, stdout=piped, cwd=room.folder) as ran:
        try:
            for piece in ("add a a.csv\nad", "d b b.csv\n", "interval a#1 b#1\n"):
                time.sleep(0.3)
                os.write(write, piece.encode())
            os.close(write)
            agree(Ran(ran.wait(SECONDS), ran.stdout.read()), 0, ADDED + BETWEEN)
        finally:
            ran.kill()
    if os.get_blocking(read):
        raise Failed("the pipe is set to wait now")
    os.close(read)


def ready(pipe: int) -> int:
    """How many bytes a pipe holds."""
    return struct.unpack("i", fcntl.ioctl(pipe, termios.FIONREAD, bytes(4)))[0]


def waited_outputs(room: Room) -> None:
    """A pipe that is full is waited for: its reader gets a reply of over 64 KiB whole."""
    logs(room)
    count = 8_000
    room.write("long.csv", long_log(count))
    script = room.write("script.txt", "add a long.csv\nmerge\nx\n")
    read, write = os.pipe()
    os.set_blocking(write, False)
    with open(f"{room.folder}/{script}", "rb") as asked, open(read, "rb") as out:
        with subprocess.Popen([PROGRAM, "session", "hosts.toml"], stdin=asked, stdout=write, cwd=room.folder) as ran:
            try:
                os.close(write)
                # (it holds 65,536 bytes, but for less than a line at the end of each page)
                while ready(read) < 60_000 and ran.poll() is None:
                    time.sleep(0.05)
                time.sleep(0.3)
                found = out.read()
                merged = f"merge {count}\n" + "".join(f"{n * 10}.000000000 a#{n + 1}\n" for n in range(count))
                agree(Ran(ran.wait(SECONDS), found), 0, f"{added(count)}{merged}refused 20\n")
            finally:
                ran.kill()


def hasty_sockets(room: Room) -> None:
    """A socket cannot be opened anew: one without anything ready is a read fault."""
    logs(room)
    ours, theirs = socket.socketpair()
    theirs.setblocking(False)
    kept = {"stdin": theirs, "stdout": subprocess.PIPE, "cwd": room.folder, "timeout": SECONDS}
    with ours, theirs:
        done = subprocess.run([PROGRAM, "session", "hosts.toml"], **kept)
    agree(Ran(done.returncode, done.stdout), 7, "read fault\n")


# ---- notes


def notes(room: Room) -> None:
    """What captures have beside a merge comes on the standard error; all else is the same where that is full."""
    label = '[labels.{}]\nhost = "a"\nkind = "capture"\n'
    room.write("hosts.toml", '[hosts.a]\naddresses = ["10.0.0.1"]\n' + label.format("cut") + label.format("passed"))
    record = struct.pack("<IIII", 0, 100, 1, 1) + b"x"
    room.write("cut", EMPTY_CAPTURE + record + record[:5])
    section = struct.pack("<IIIHHqI", 0x0A0D0D0A, 28, 0x1A2B3C4D, 1, 0, -1, 28)
    interface = struct.pack("<IIHHIHHB3xII", 1, 32, 1, 0, 0, 9, 1, 9, 0, 32)
    simple = struct.pack("<IIIII", 3, 20, 4, 0, 20)
    enhanced = struct.pack("<IIIIIII", 6, 36, 0, 0, 250, 1, 1) + b"y\0\0\0" + struct.pack("<I", 36)
    room.write("passed", section + interface + simple + enhanced + simple + simple[:8])
    words, script = ["mergecap", "hosts.toml"], "add cut cut\nadd passed passed\n"
    told = "cut pending 5\npassed pending 8\npassed passed simple 2 obsolete 0 other 0\n"
    merged = EMPTY_CAPTURE + struct.pack("<IIII", 0, 0, 1, 1) + b"x" + struct.pack("<IIII", 0, 150, 1, 1) + b"y"
    agree(room.run(words, script, notes=told), 0, merged)
    agree(room.run(words, script + "merge\n"), 12, "refused 20\n")
    with open("/dev/full", "wb") as full:
        kept = {"stdout": subprocess.PIPE, "stderr": full, "cwd": room.folder, "timeout": SECONDS}
        done = subprocess.run([PROGRAM, *words], input=script.encode(), **kept)
    agree(Ran(done.returncode, done.stdout), 0, merged)


# ---- sizes above those of other tests


def many_events(room: Room) -> None:
    """A log of 6,000 rows is added and merged, and eight of its events are kept; a problem of 200 is solved."""
    logs(room)
    count = 6_000
    room.write("long.csv", long_log(count))
    keeps = "".join(f"keep a#{k}\n" for k in range(1, 9))
    kept = "".join(f"kept {k}\n" for k in range(1, 9))
    merged = f"merge {count}\n" + "".join(f"{n * 10}.000000000 a#{n + 1}\n" for n in range(count))
    script = f"add a long.csv\n{keeps}keep a#9\nmerge\n"
    agree(room.run(["session", "hosts.toml"], script), 0, added(count) + kept + "refused 30\n" + merged)
    events = "".join(f"event e{n} c {n * 10}\n" for n in range(200))
    room.write("many.txt", f"problem 1\nclock c 0 0 0 0\n{events}end\n")
    agree(room.run(["ends", "many.txt", "e0", "e199"]), 0, "1990.000000000 1990.000000000 before\n")
    solved = room.run(["solve", "many.txt"])
    if solved.status or not solved.out.startswith(b"certificate 1\nrun\n"):
        raise Failed(f"solve: status {solved.status}, {solved.out[:80]!r}")
    room.write("certificate.txt", solved.out)
    agree(room.run(["verify", "many.txt", "certificate.txt"]), 0, "yes\n")


def withdrawals(room: Room) -> None:
    """Messages are withdrawn one by one, each with a second send of its key."""
    logs(room)
    room.write("sends.csv", "".join(f"{1000 * n},send,k{n},\n" for n in range(1, 40)))
    room.write("receives.csv", "".join(f"{1000 * n + 150},receive,k{n},\n" for n in range(1, 40)))
    script = "add a sends.csv\nadd b receives.csv\n"
    want = "".join(f"added events 39 messages {n} withdrawn 0 pending 0 consistent\n" for n in (0, 39))
    for n in range(1, 40):
        room.write(f"again{n}.csv", f"{50_000 + n},send,k{n},\n")
        script += f"add a again{n}.csv\n"
        want += "added events 1 messages 0 withdrawn 1 pending 0 consistent\n"
    agree(room.run(["session", "hosts.toml"], script), 0, want)


def contradictions(room: Room) -> None:
    """A contradiction comes with a late receive, stays beside other additions, and goes with a second send."""
    logs(room)
    room.write("slow.csv", "100,send,m1,\n195,receive,m2,\n")
    room.write("local.csv", "400,local,,\n")
    room.write("second.csv", "301,send,m2,\n")
    script = "add a slow.csv\nadd b b.csv\nadd b local.csv\nadd b second.csv\nadd b local.csv\n"
    replies = [
        "events 2 messages 0 withdrawn 0 pending 0 consistent",
        "events 2 messages 2 withdrawn 0 pending 0 inconsistent",
        "events 1 messages 0 withdrawn 0 pending 0 inconsistent",
        "events 1 messages 0 withdrawn 1 pending 0 consistent",
        "events 1 messages 0 withdrawn 0 pending 0 consistent",
    ]
    agree(room.run(["session", "hosts.toml"], script), 0, "".join(f"added {it}\n" for it in replies))


CASES: list[Callable[[Room], None]] = [
    statuses, full_outputs, little_memory, long_script, replies_at_once, long_inputs, interrupted_calls, piped_files,
    failing_reads, cut_block, waited_inputs, waited_outputs, hasty_sockets, notes, many_events, withdrawals,
    contradictions,
]


def tried(case: Callable[[Room], None], shim: str) -> bool:
    """Runs a case in a folder of its own, and says what it came to."""
    with tempfile.TemporaryDirectory() as folder:
        try:
            case(Room(folder, shim))
        except (Failed, subprocess.TimeoutExpired) as found:
            print(f"{case.__name__}: FAILED: {found.why if isinstance(found, Failed) else found}", flush=True)
            return False
    print(f"{case.__name__}: ok", flush=True)
    return True


def main() -> int:
    arguments = argparse.ArgumentParser(description=__doc__, formatter_class=argparse.RawDescriptionHelpFormatter)
    arguments.add_argument("word", nargs="?", default="", help="only cases whose names have it")
    word = arguments.parse_args().word
    with tempfile.TemporaryDirectory() as folder:
        shim = f"{folder}/fail_calls.so"
        subprocess.run(["cc", "-O1", "-shared", "-fPIC", "-o", shim, f"{TOP}/tests/fail_calls.c", "-ldl"], check=True)
        ended = [tried(case, shim) for case in CASES if word in case.__name__]
    print(f"the program as a process: {sum(ended)} of {len(ended)} cases hold")
    return 0 if ended and all(ended) else 1


if __name__ == "__main__":
    sys.exit(main())
