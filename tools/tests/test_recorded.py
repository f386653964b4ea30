"""tools/timeline from its command line to its status, with a program that gives the replies it knows."""

import json
import os
import subprocess
import sys
import tempfile
import unittest

from common import TOOLS
from reading_formats import data_of
from test_timeline import PROBLEM

# A program: its replies are those of the tests of timelines, and others that stand in a file beside it.
STAND_IN = """#!{python}
import json, sys
sys.dont_write_bytecode = True
sys.path[:0] = ["{tools}/tests", "{tools}/lib", "{tools}/../python"]
from test_timeline import Replies
with open(sys.argv[0] + ".json") as it:
    session = Replies(**json.load(it))
for line in sys.stdin:
    print("\\n".join(session.ask(line.rstrip("\\n"))), flush=True)
"""
A, B = "100,send,m1,\n180,receive,m2,\n", "250,receive,m1,\n300,send,m2,<b>&\n301,local,,\n"
NO_MESSAGES = {
    "problem": [it for it in PROBLEM.split("\n") if not it.startswith("message")],
    "report": ['{"ambiguous":[],"consistent":true,"events":5,"messages":0,"nokey":{"local":1},"unmatched":4}'],
}


class Recorded(unittest.TestCase):
    def timeline(self, replies: dict[str, list[str]], logs: tuple[str, str], *words: str) -> tuple[int, str, str]:
        """Returns the status, what was said, and the page."""
        with tempfile.TemporaryDirectory() as room:
            program = os.path.join(room, "program")
            texts = {"a.csv": logs[0], "b.csv": logs[1], "program.json": json.dumps(replies)}
            for name, text in {**texts, "program": STAND_IN.format(python=sys.executable, tools=TOOLS)}.items():
                with open(os.path.join(room, name), "w", encoding="utf-8") as it:
                    it.write(text)
            os.chmod(program, 0o755)
            command = [sys.executable, f"{TOOLS}/timeline", "a=a.csv", "b=b.csv", "--html", "page.html", *words]
            ran = subprocess.run([*command, "--program", program], cwd=room, capture_output=True, text=True)
            page = os.path.join(room, "page.html")
            with open(page if os.path.exists(page) else os.devnull, encoding="utf-8") as it:
                return ran.returncode, ran.stdout + ran.stderr, it.read()

    def test_a_page_of_a_part_says_so(self) -> None:
        status, said, page = self.timeline({}, (A, B), "--page", "2")
        told = "the page has events 1 to 2 of 5, and clocks and delays of all; --from EVENT makes one around another event, --page N one of N"
        self.assertEqual((status, said.count(f"Note: {told}."), page.count(told)), (0, 1, 1), said)

    def test_a_timeline_with_messages_is_status_0(self) -> None:
        status, said, page = self.timeline({}, (A, B), "--prove", "b#1,a#2")
        self.assertEqual((status, "2 messages among 5 events." in said), (0, True), said)
        data = data_of(page)
        first = data["proofs"][0]
        self.assertEqual([data["events"][first[it]][0] for it in ("first", "second")], ["b#1", "a#2"])
        self.assertEqual([data["records"][k] for k in (0, 1)], [[-1, 0, 0, "m1"], [-1, 1, 0, "m1"]])

    def test_no_messages_is_status_1_with_what_would_mend_it(self) -> None:
        logs = (A.replace("receive", "send"), B.replace("receive", "send"))
        status, said, page = self.timeline(NO_MESSAGES, logs)
        self.assertEqual((status, page.count("<html")), (1, 1), said)
        self.assertIn("THERE ARE NO MESSAGES", said)
        self.assertIn("No row of a log is a `receive`: tools/rows --help tells", said)

    def test_pairs_that_are_none(self) -> None:
        for word in ("a#1", "a#1,", "a#1,b#1,b#2", "a#1,a#1"):
            status, said, _ = self.timeline({}, (A, B), "--prove", word)
            self.assertEqual((status, "two events are wanted" in said), (1, True), said)
        self.assertIn("there is no event b#9", self.timeline({}, (A, B), "--prove", "a#1,b#9")[1])


if __name__ == "__main__":
    unittest.main()
