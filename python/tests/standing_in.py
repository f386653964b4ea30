"""A program that stands in: it knows its replies, and ends or waits where it is told to."""

import os
import sys
import tempfile
import unittest
from typing import Dict

from tracesync import Session

HOSTS = """[hosts.a]
[hosts.b]
[labels.a]
host = "a"
kind = "log"
[labels.b]
host = "b"
kind = "log"
"""
CYCLE = """certificate 1
cycle
step delay-most a#1 b#1 900.000000000
step delay-least a#1 b#1 -1000.000000000
end"""
PROOF = """certificate 1
ends a#1 b#1
upper +inf
inside a
event a#1 0.000000000
reading a 100 0.000000000
lower 25.500000000
step delay-least a#1 b#1 -25.500000000
event a#1 0.000000000
reading a 100 0.000000000
end"""
PROBLEM = """problem 2
clock a1 1 2 3 4
clock a2 0 0 0 0
follow a1 a2 5
event a#1 a1 100
event b#1 a2 200
message a#1 b#1 10 20
message b#1 a#1 0 none
end"""
BLAMES = """blame delays none
blame least none
blame stamps 24 ns
blame rates 1000000000 ppb
blame gaps 5 ns
blame stamps a1 4611686018427387903 ns
blame rates a1 none
blame stamps none none
blame rates none 1 ppb
blame delays a1 none none
blame least a1 none 3 ns
blame delays a2 a1 7 ns
blame least a2 a1 none
end"""
WIDENING = """widening 1
least {}
event a#1 0.000000000
cycle
end"""
REPORT = '{"ambiguous":[],"consistent":true,"events":0,"messages":0,"nokey":{"local":0},"unmatched":0}'
REPLIES: Dict[str, str] = {
    "report": REPORT,
    "problem": PROBLEM,
    "blame": BLAMES,
    "thin": "problem 1\nend",
    "thin a#1 b#1": PROBLEM,
    "thin a#1 a#9": "refused 28",
    "add a a.csv": "added events 2 messages 0 withdrawn 0 pending 0 consistent",
    "add b b.csv": "added events 1 messages 1 withdrawn 0 pending 7 inconsistent",
    "add b c.pcapng": "added events 1 messages 0 withdrawn 1 pending 0 passed 5 consistent",
    "add c c.csv": "refused 21",
    "interval a#1 b#1": "interval -0.000000001 +inf",
    "interval a#1 a#1": "interval 0.000000000 0.000000000",
    "interval a#1 a#2": "interval -inf 1329227995784915872903807060.280344576",
    "interval b#1 b#1": CYCLE,
    "interval a#1 a#9": "refused 28",
    "order a#1 b#1": "order before",
    "order b#1 a#1": "order open",
    "order b#1 b#1": CYCLE,
    "time a#1": "time 100.000000000 +inf",
    "time a#2": "time -inf 200.500000000",
    "time b#1": "time 1.000000000 1.000000000",
    "times": "times 3\na#1 100.000000000 +inf\na#2 -inf 200.500000000\nb#1 1.000000000 1.000000000",
    "times a#1": "times 3\na#1 0.000000000 0.000000000\na#2 -inf 1329227995784915872903807060.280344576\nb#1 -0.000000001 +inf",
    "times a#9": "refused 28",
    "times b#1": CYCLE,
    "merge": "merge 3\n0.000000000 a#1\n66.000000001 b#1 a note\n66.000000001 a#2",
    "prove a#1 b#1": PROOF,
    "keep a#1": "kept 3",
    "keep a#2": "refused 30",
}
# What is no reply: a line that is cut, a status, and a wait without an end.
PROGRAM = f"""#!{sys.executable} -IB
import os, sys, time
REPLIES = {REPLIES!r}
STAND_IN = os.environ.get("STAND_IN")
if sys.argv[1] in ("blame", "widen", "judge"):
    if STAND_IN == "old":
        print("usage: tracesync solve PROBLEM | session DECL")
        sys.exit(2)
    if STAND_IN == "forgetful":
        sys.exit(9)
    if open(sys.argv[2]).read() != {PROBLEM!r} + "\\n":
        print("problem 1 1")
        sys.exit(4)
    if sys.argv[1] == "judge":
        lines = open(sys.argv[3]).read().split("\\n")
        if lines[0] != "widening 1":
            print("certificate 1 1")
            sys.exit(6)
        print("yes" if lines[1] == "least 5 gaps" else "no run broken late a#1 0.000000000 1.000000000")
        sys.exit(lines[1] != "least 5 gaps")
    words = sys.argv[3:]
    if sys.argv[1] == "widen":
        number = "none" if words[:1] == ["least"] else "5"
        print({WIDENING!r}.format(" ".join([number, *words])))
    else:
        print("blame none" if STAND_IN == "healed" else {BLAMES!r})
    sys.exit()
if STAND_IN in ("older", "old", "forgetful"):
    # (no session knows these lines)
    REPLIES = {{line: reply for line, reply in REPLIES.items() if line.split(" ")[0] not in ("blame", "times")}}
if STAND_IN == "healed":
    REPLIES["blame"] = "blame none"
if STAND_IN == "deaf":
    import signal
    signal.signal(signal.SIGINT, signal.SIG_IGN)
said = open(sys.argv[2]).read() if os.path.isfile(sys.argv[2]) else None
if said is None or "drift" in said:
    print("read fault" if said is None else "declaration 2 hosts 1", flush=True)
    sys.exit(7 if said is None else 3)
for line in sys.stdin:
    line = line.rstrip("\\n")
    if line == "keep wait#1":
        time.sleep(1000)
    if line == "keep cut#1":
        print("kept", end="", flush=True)
        sys.exit(8)
    if line == "keep memory#1":
        sys.exit(9)
    if line == "keep long#1":
        print("script limit", flush=True)
        sys.exit(10)
    if line.startswith("keep n"):
        print(f"kept {{line[6:]}}", flush=True)
    else:
        print(REPLIES.get(line, "refused 20"), flush=True)
if STAND_IN == "deaf":
    time.sleep(1000)
"""


class StandingIn(unittest.TestCase):
    """A test in a folder of its own, with a declaration, a log of each host, and the program that stands in."""

    def setUp(self) -> None:
        room = tempfile.TemporaryDirectory()
        self.addCleanup(room.cleanup)
        self.room = os.path.realpath(room.name)
        files = {"hosts.toml": HOSTS, "program": PROGRAM, "a.csv": "100,local,,\n", "b.csv": "1,local,,\n"}
        for name, text in files.items():
            self.write(name, text)
        self.program = f"{self.room}/program"
        os.chmod(self.program, 0o755)
        self.addCleanup(os.chdir, os.getcwd())
        os.chdir(self.room)

    def write(self, name: str, text: str) -> str:
        """Writes a file, and returns its name."""
        with open(f"{self.room}/{name}", "w", encoding="utf-8") as it:
            it.write(text)
        return name

    def session(self) -> Session:
        found = Session("hosts.toml", self.program)
        self.addCleanup(found.close)
        return found


def pid_of(session: Session) -> int:
    """Returns the number of the process behind a session."""
    return session._lines._process.pid


def is_running(pid: int) -> bool:
    """Returns whether there is a process of this number that has not ended."""
    try:
        with open(f"/proc/{pid}/stat", encoding="utf-8", errors="replace") as it:
            return it.read().rpartition(")")[2].split()[0] != "Z"
    except FileNotFoundError:
        return False
