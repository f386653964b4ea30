"""A terminal is told what is asked, and how long it takes; nothing else gets a sign of that."""

import contextlib
import io
import os
import pty
import subprocess
import sys
import tempfile
import time
import unittest

import timeline
from common import TOOLS
from progress import Progress
from test_outputs import STAND_IN
from test_timeline import Replies, made


def read_all(terminal: int) -> str:
    """Returns all that was written on a terminal that is closed now."""
    found = b""
    with contextlib.suppress(OSError):
        while part := os.read(terminal, 4096):
            found += part
    os.close(terminal)
    return found.decode()


class Line(unittest.TestCase):
    def test_steps_and_the_time_that_is_left(self) -> None:
        progress = Progress()
        progress.begin("asking for delays", 2000)
        progress.done, progress.began = 500, progress.began - 10
        self.assertEqual(progress.line(), "asking for delays: 500 of 2,000, about 30 s more")

    def test_without_a_number_of_steps_the_time_that_has_passed(self) -> None:
        progress = Progress()
        progress.begin("reading the \x1bfiles")
        progress.began -= 3
        self.assertEqual(progress.line(), "reading the ?files: 3 s")

    def test_no_terminal_gets_nothing(self) -> None:
        out = io.StringIO()
        progress = Progress(out, 0.001)
        progress.begin("asking", 3)
        time.sleep(0.02)
        progress.end()
        self.assertEqual((out.getvalue(), progress.thread), ("", None))

    def test_a_line_is_written_over_and_taken_off(self) -> None:
        read, write = pty.openpty()
        with open(write, "w", encoding="utf-8") as out:
            progress = Progress(out, 0.01)
            progress.begin("asking", 3)
            time.sleep(0.4)
            progress.end()
        said = read_all(read)
        self.assertTrue(said.startswith("\rasking: 0 of 3, 0 s\rasking: 0 of 3, "), said)
        self.assertRegex(said, "\r {19,}\r$")
        self.assertNotIn("\n", said)


class Tool(unittest.TestCase):
    def test_a_slow_program_is_told_on_a_terminal(self) -> None:
        with tempfile.TemporaryDirectory() as room:
            slow = STAND_IN.replace("for line in sys.stdin:", "import time\nfor line in sys.stdin:\n    time.sleep(0.25)")
            for name, text in (("program", slow), ("a.csv", "100,local,,\n180,local,,\n"), ("b.csv", "250,local,,\n300,local,,\n301,local,,\n")):
                with open(f"{room}/{name}", "w", encoding="utf-8") as it:
                    it.write(text)
            os.chmod(f"{room}/program", 0o755)
            read, write = pty.openpty()
            ran = subprocess.run([sys.executable, f"{TOOLS}/timeline", "a=a.csv", "b=b.csv", "--program", "./program"], cwd=room, stdout=subprocess.PIPE, stderr=write)
            os.close(write)
            said = read_all(read)
        self.assertEqual(ran.returncode, 0)
        self.assertIn("asking when events were: ", said)


class Size(unittest.TestCase):
    def most(self, events: int, links: int, said: int | None = None) -> int:
        found, _ = made()
        asking = timeline.Asking(Replies(), [], delays=said)
        asking.found.events = found.events[:1] * events
        return asking.most(links)

    def test_fewer_delays_of_many_events(self) -> None:
        self.assertEqual([self.most(events, 2) for events in (100, 4000, 43_206, 2_000_000)], [1000, 750, 69, timeline.DELAYS_LEAST])

    def test_fewer_delays_of_many_links(self) -> None:
        self.assertEqual([self.most(11_631, links) for links in (1, 2, 20)], [515, 257, 25])
        self.assertEqual([self.most(1_000_000, links) for links in (1, 6, 56, 100, 101)], [6, 1, 1, 1, 0])

    def test_a_number_that_was_said_holds(self) -> None:
        self.assertEqual(self.most(2_000_000, 2, 5000), 5000)

    def test_what_was_asked_of_how_many_is_told(self) -> None:
        found = timeline.Asking(Replies(), [], delays=0, pairs=0, source="a").timeline()
        pairs = "of the pairs whose bars lie over one another none were asked for their order; --pairs N asks N"
        self.assertEqual(found.notes, ["0 of 2 messages were asked for their delays, of each link some evenly among all", pairs])


if __name__ == "__main__":
    unittest.main()
