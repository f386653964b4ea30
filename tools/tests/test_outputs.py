"""tools/timeline from its words to its files, over a program that stands in and knows its replies."""

import csv
import os
import subprocess
import sys
import tempfile
import unittest

from common import TOOLS, TOP

# Replies as `test_timeline` has them, but for a text that a spreadsheet would run and a terminal obey.
STAND_IN = f"""#!{sys.executable}
import sys
sys.dont_write_bytecode = True
sys.path[:0] = ["{TOOLS}/tests", "{TOOLS}/lib", "{TOP}/python"]
from test_timeline import MERGE, Replies
replies = Replies(merge=MERGE.replace("<b>&", "=1+1\\x1b[31m").split("\\n"))
for line in sys.stdin:
    print("\\n".join(replies.ask(line.rstrip("\\n"))), flush=True)
"""


class Outputs(unittest.TestCase):
    def setUp(self) -> None:
        room = tempfile.TemporaryDirectory()
        self.addCleanup(room.cleanup)
        self.room = room.name
        for name, text in (("program", STAND_IN), ("a.csv", "100,local,,\n180,local,,\n"), ("b.csv", "250,local,,\n300,local,,\n301,local,,\n")):
            with open(f"{self.room}/{name}", "w", encoding="utf-8") as it:
                it.write(text)
        os.chmod(f"{self.room}/program", 0o755)

    def timeline(self, *words: str, status: int = 0) -> subprocess.CompletedProcess[str]:
        command = [sys.executable, f"{TOOLS}/timeline", "a=a.csv", "b=b.csv", "--program", "./program", "--folder", "kept", *words]
        ran = subprocess.run(command, cwd=self.room, capture_output=True, text=True)
        self.assertEqual(ran.returncode, status, ran.stdout + ran.stderr)
        return ran

    def read(self, name: str) -> str:
        with open(f"{self.room}/{name}", encoding="utf-8", newline="") as it:
            return it.read()

    def test_the_page_and_the_picture_are_kept_in_the_folder(self) -> None:
        for _ in range(2):
            self.assertIn("2 messages among 5 events.", self.timeline().stdout)
        self.assertEqual(sorted(os.listdir(f"{self.room}/kept")), [".hosts.toml", "delays.svg", "hosts.toml", "offsets.svg", "replies.txt", "script.txt", "timeline.html", "timeline.svg"])

    def test_without_messages_the_page_is_drawn_and_the_status_is_1(self) -> None:
        with open(f"{self.room}/program", "w", encoding="utf-8") as it:
            it.write(STAND_IN.replace("import MERGE", "import REPORT, MERGE").replace("Replies(", "Replies(report=[REPORT.replace('messages\\\":2', 'messages\\\":0')], "))
        said = self.timeline(status=1).stdout
        self.assertIn("THERE ARE NO MESSAGES", said)
        self.assertIn("No row of a log is a `send`", said)
        self.assertIn("Wrote kept/timeline.html", said)

    def test_a_cell_is_no_formula_and_a_line_no_escape(self) -> None:
        said = self.timeline("--csv", "out.csv", "--list", "-")
        rows = list(csv.reader(self.read("out.csv").splitlines()))
        self.assertEqual((rows[3][0], rows[3][8], rows[4][5]), ("b#2", "'=1+1?[31m", "+inf"))
        self.assertIn("=1+1?[31m", said.stdout)
        self.assertNotIn("\x1b", said.stdout + said.stderr)

    def test_a_row_that_is_none_is_told_with_its_file(self) -> None:
        with open(f"{self.room}/b.csv", "a", encoding="utf-8") as it:
            it.write("302;local;;\n")
        self.assertIn("\nb.csv: record 4 is no row STAMP,KIND,KEY,TEXT: ", self.timeline().stdout)

    def test_no_link_in_the_folder_is_followed(self) -> None:
        for name in (".hosts.toml", "hosts.toml", "script.txt", "replies.txt", "timeline.html", "timeline.svg", "offsets.svg", "delays.svg"):
            with self.subTest(name), tempfile.TemporaryDirectory() as other:
                with open(f"{other}/victim", "w", encoding="utf-8") as it:
                    it.write("precious")
                os.makedirs(f"{self.room}/kept", exist_ok=True)
                os.symlink(f"{other}/victim", f"{self.room}/kept/{name}")
                said = self.timeline(status=1).stderr
                self.assertEqual(said, f"timeline: kept/{name} is a symbolic link, which is not followed: remove it, or let --folder name another folder\n")
                with open(f"{other}/victim", encoding="utf-8") as it:
                    self.assertEqual(it.read(), "precious")
                os.remove(f"{self.room}/kept/{name}")

    def test_pictures_over_time_go_to_where_the_command_line_says(self) -> None:
        said = self.timeline("--offsets", "clocks.svg", "--one-way", "delays.svg").stdout
        self.assertEqual([self.read(name).count("<svg xmlns") for name in ("clocks.svg", "delays.svg")], [1, 1])
        self.assertNotIn("timeline.html", said)

    def test_an_output_goes_to_where_the_command_line_says(self) -> None:
        os.symlink("elsewhere", f"{self.room}/out.json")
        self.timeline("--json", "out.json")
        self.assertTrue(self.read("elsewhere").startswith("{"))


if __name__ == "__main__":
    unittest.main()
