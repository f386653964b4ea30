"""Runs ./tracesync and the scripts of tools/ in a copy of the repository, and looks at what they say and their statuses. Left out where
no program is there; test_rows.py has the cases of tools/rows."""

import subprocess
import sys
import tempfile
import unittest
from xml.etree import ElementTree

from common import PROGRAM, TOP

sys.path.insert(0, f"{TOP}/tests")
from support.tree import copy_tree  # noqa: E402

PROBLEM = "examples/obey/problem.txt"
TIMELINE = "./tracesync session examples/timeline/hosts.toml < examples/timeline/script.txt"
PART = "printf 'merge 2\\n0.000000000 a#1\\n7.000000000 b#1\\nproblem 1\\nclock a 0 0 0 0\\nclock b 0 0 0 0\\nevent a#1 a 1\\nevent b#1 b 1\\nmessage a#1 b#1 0 none\\nend\\n'"

# The command, its status, a part of what it prints on the standard output, and one on the standard error ('' is nothing at all).
CASES = [
    ("./tracesync --help", 0, "session DECL < SCRIPT", ""),
    ("./tracesync --version", 0, "tracesync, commit ", ""),
    ("cd examples/obey && ../../tracesync ends problem.txt a#1 b#1", 0, "10.000000000 20.000000000 before\n", ""),
    (f"./tracesync obey {PROBLEM} examples/obey/broken.txt", 1, "broken delay-most a#1 b#1", ""),
    ("./tracesync", 2, "usage: tracesync", ""),
    (f"./tracesync obey {PROBLEM} nosuch", 7, "read fault\n", "there is no file nosuch\n"),
    (f"./tracesync verify nosuch {PROBLEM}", 7, "read fault\n", "there is no file nosuch\n"),
    ("./tracesync solve examples", 7, "read fault\n", "examples is a folder\n"),
    (f"./tracesync solve <(cat {PROBLEM})", 0, "certificate 1\nrun\n", ""),
    ("./tracesync session nosuch < /dev/null", 7, "read fault\n", "there is no file nosuch\n"),
    ("./tracesync session examples/captures/hosts.toml < examples", 7, "read fault\n", "the standard input is a folder, and a script comes from there"),
    ("./tracesync mergecap nosuch < /dev/null", 7, "read fault\n", "there is no file nosuch\n"),
    ("./tracesync mergecap examples/captures/hosts.toml < examples", 7, "read fault\n", "the standard input is a folder, and a script comes from there"),
    ("grep add examples/dual/script.txt | ./tracesync mergecap examples/dual/hosts.toml", 12, "links\n", ""),
    (f"./tracesync solve {PROBLEM} > /dev/full", 8, "", ""),
    ("tools/build --help", 0, "usage: tools/build", ""),
    ("tools/build", 0, "", "no source is newer"),
    ("tools/first-look --help", 0, "usage: tools/first-look", ""),
    ("tools/crate-graph --check", 0, "", ""),
    ("tools/contracts --help", 0, "usage: tools/contracts", ""),
    ("tools/contracts --check", 0, "", ""),
    ("tools/declare --help", 0, "usage: tools/declare", ""),
    ("tools/declare left=examples/captures/left.pcap", 1, "[hosts.left]", "not found out: which address is left's"),
    ("tools/timeline --help", 0, "usage: tools/timeline", ""),
    ("tools/timeline left=examples/captures/left.pcap right=examples/captures/right.pcap", 0, "56 messages among 116 events.", ""),
    ("tools/explain --help", 0, "tools/explain DECL.toml", ""),
    ("tools/explain examples/captures/hosts.toml", 0, "left: its clock is within 50 ppm", ""),
    (f"{TIMELINE} | tools/explain --script examples/timeline/script.txt", 0, "merge 13", "13 events in the order of one execution"),
    ("tools/test --help", 0, "usage: tools/test", ""),
    ("tools/diagram --help", 0, "usage: tools/diagram", ""),
    ("tools/diagram --what", 2, "", "--what is no option"),
    ("tools/diagram < /dev/null", 1, "", "the standard input: line 1: expected what a session replies to `merge` and `problem`"),
    ("printf 'merge 2\\n1.5 a#1\\n' > cut; tools/diagram cut", 1, "", "cut: line 3: expected a time and an event, the 2. of the 2"),
    ("printf 'merge 1\\n1.5 a#1\\nproblem 1\\nevent a#1\\nend\\n' | tools/diagram", 1, "", "the standard input: line 4: expected 4 words of `event`"),
    ("printf 'problem 1\\nclock a 0 0 0 0\\n' | tools/diagram", 1, "", "line 3: expected more lines of the problem that begins at line 1"),
    (f"{TIMELINE} | tools/diagram | cmp - docs/timeline.svg", 0, "", ""),
    (f"{TIMELINE} | tools/diagram --around db#2 --events 4", 0, "<svg", "events 4 to 7 of 13, around db#2"),
    (f"{TIMELINE} | tools/diagram --hosts db,app", 0, "<svg", "11 of 13 events, at 2 hosts"),
    (f"{TIMELINE} | tools/diagram --hosts db,web", 1, "", "there is no host web"),
    (f"{TIMELINE} | tools/diagram --around web#1", 1, "", "there is no event web#1"),
    (f"{TIMELINE} | tools/diagram --around gate#1 --hosts db", 1, "", "gate#1 is at none of these hosts"),
    (f"{PART} | tools/diagram -", 0, "b#1 at 7 ns", ""),
    (f"{{ printf 'times 2\\nend#1 0.000000000 +inf\\na#1 -inf +inf\\n'; {PART}; }} | tools/diagram -", 0, "b#1 at 7 ns", ""),
    (f"{PART} | tools/diagram --events 1", 0, "stroke-dasharray", "events 1 to 1 of 2"),
]


@unittest.skipUnless(PROGRAM, "no program is there")
class Tools(unittest.TestCase):
    def test_commands_in_a_copy_of_the_repository(self) -> None:
        with tempfile.TemporaryDirectory() as room:
            copy_tree(f"{room}/repository", PROGRAM)
            for command, status, printed, said in CASES:
                with self.subTest(command=command):
                    self.check(command, status, printed, said, f"{room}/repository")

    def check(self, command: str, status: int, printed: str, said: str, folder: str) -> None:
        """Runs a command; wants its status, and these parts on its outputs, of which '' is nothing at all."""
        ran = subprocess.run(["bash", "-c", command], cwd=folder, stdin=subprocess.DEVNULL, capture_output=True, text=True)
        self.assertEqual(ran.returncode, status, ran.stderr.strip()[-200:])
        for wanted, text in ((printed, ran.stdout), (said, ran.stderr)):
            self.assertTrue(wanted in text and (wanted or not text), f"{text[:200]!r} in place of {wanted!r}")
        if "<svg" in ran.stdout:
            ElementTree.fromstring(ran.stdout)


if __name__ == "__main__":
    unittest.main()
