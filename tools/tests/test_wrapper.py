"""The script ./tracesync becomes the program: one process, one status. A program that stands in its place is run, so none is built."""

import os
import shutil
import signal
import subprocess
import tempfile
import unittest

from common import TOP
from front import HELP_FILE, help_of

# Prints its process and its words, and then does what its first word says.
STAND_IN = """#!/bin/sh
echo "$$ $*"
case $1 in
  sleep) exec sleep 60 ;;
  read) exec cat ;;
  *) exit "${1#status}" ;;
esac
"""
# Tells which file is not there, and then that it was run.
COMMANDS = """#!/bin/sh
exit 7
"""


class Wrapper(unittest.TestCase):
    def setUp(self) -> None:
        room = tempfile.TemporaryDirectory()
        self.addCleanup(room.cleanup)
        self.room = room.name
        shutil.copy2(f"{TOP}/tracesync", f"{self.room}/tracesync")
        self.put(STAND_IN)

    def put(self, text: str) -> None:
        """Puts a program into the place of the one that is built, newer than all sources."""
        folder = f"{self.room}/crates/tracesync/out"
        os.makedirs(folder, exist_ok=True)
        with open(f"{self.room}/crates.txt", "w", encoding="utf-8") as it:
            it.write("tracesync:\n")
        os.utime(f"{self.room}/crates.txt", (1, 1))
        with open(f"{folder}/tracesync", "w", encoding="utf-8") as it:
            it.write(text)
        os.chmod(f"{folder}/tracesync", 0o755)

    def run_it(self, *words: str, **more: object) -> subprocess.CompletedProcess[str]:
        return subprocess.run([f"{self.room}/tracesync", *words], cwd=self.room, capture_output=True, text=True, **{"stdin": subprocess.DEVNULL, **more})  # type: ignore[call-overload]

    def test_the_process_is_the_programs(self) -> None:
        ran = subprocess.Popen([f"{self.room}/tracesync", "sleep"], stdout=subprocess.PIPE, text=True)
        self.addCleanup(ran.wait)
        self.addCleanup(ran.kill)
        assert ran.stdout
        self.addCleanup(ran.stdout.close)
        self.assertEqual(ran.stdout.readline(), f"{ran.pid} sleep\n")

    def test_no_signal_leaves_the_program_running(self) -> None:
        for number in (signal.SIGKILL, signal.SIGTERM, signal.SIGINT, signal.SIGHUP, signal.SIGQUIT):
            ran = subprocess.Popen([f"{self.room}/tracesync", "sleep"], stdout=subprocess.PIPE, text=True)
            assert ran.stdout
            program = int(ran.stdout.readline().split(" ")[0])
            ran.send_signal(number)
            self.assertEqual(ran.wait(10), -number)
            # (the end of its output comes when no process holds it any more)
            alive = os.path.exists(f"/proc/{program}")
            if alive:
                os.kill(program, signal.SIGKILL)
            ran.stdout.close()
            self.assertFalse(alive, number)

    def test_words_and_status_are_the_programs(self) -> None:
        for status in (0, 1, 2, 7, 8, 9, 12):
            ran = self.run_it(f"status{status}", "a b", "*")
            self.assertEqual((ran.returncode, ran.stdout.partition(" ")[2], ran.stderr), (status, f"status{status} a b *\n", ""))

    def test_the_input_is_the_callers(self) -> None:
        self.assertEqual(self.run_it("read", stdin=None, input="a\nb\n").stdout.partition("\n")[2], "a\nb\n")

    def test_a_file_that_cannot_be_read_is_named_before(self) -> None:
        self.put(COMMANDS)
        os.mkdir(f"{self.room}/folder")
        open(f"{self.room}/file", "w").close()
        cases = (
            ("solve nosuch", "there is no file nosuch\n"), ("widen folder", "folder is a folder\n"), ("thin nosuch", "there is no file nosuch\n"), ("thin folder" + 9 * " a#1", "folder is a folder\n"), ("thin file a#1", ""), ("thin", ""), ("ends nosuch a b", "there is no file nosuch\n"), ("obey file nosuch", "there is no file nosuch\n"),
            ("verify nosuch file", "there is no file nosuch\n"), ("judge nosuch folder", "there is no file nosuch\ntracesync: folder is a folder\n"), ("session nosuch", "there is no file nosuch\n"),
            ("mergecap nosuch", "there is no file nosuch\n"), ("solve file", ""), ("trial 7", ""), ("solve", ""), ("solve nosuch nosuch", ""), ("session file", ""), ("", ""),
        )  # fmt: skip
        for words, wanted in cases:
            ran = self.run_it(*words.split())
            self.assertEqual((ran.returncode, ran.stdout, ran.stderr), (7, "", f"tracesync: {wanted}" if wanted else ""), words)

    def test_an_input_that_is_none_is_named_before(self) -> None:
        self.put(COMMANDS)
        for how, wanted in (("<&-", "the standard input is closed"), ("< /", "the standard input is a folder"), (">&-", "the standard output is closed"), ("< /dev/null", "")):
            ran = subprocess.run(["bash", "-c", f"./tracesync session crates.txt {how}"], cwd=self.room, stdin=subprocess.DEVNULL, capture_output=True, text=True)
            self.assertEqual((ran.returncode, bool(ran.stderr)), (7, bool(wanted)), ran.stderr)
            self.assertIn(wanted, ran.stderr)

    def test_help_builds_nothing(self) -> None:
        os.remove(f"{self.room}/crates/tracesync/out/tracesync")
        os.makedirs(f"{self.room}/crates/commands/src")
        shutil.copyfile(f"{TOP}/{HELP_FILE}", f"{self.room}/{HELP_FILE}")
        with open(f"{TOP}/{HELP_FILE}", encoding="utf-8") as it:
            self.assertEqual(self.run_it("--help").stdout, help_of(it.read()))
        self.assertTrue(self.run_it("--version").stdout.startswith("tracesync, commit "))

    def test_what_cannot_be_built_is_not_run(self) -> None:
        os.makedirs(f"{self.room}/tools")
        with open(f"{self.room}/tools/build", "w", encoding="utf-8") as it:
            it.write("#!/bin/sh\nexit 1\n")
        os.chmod(f"{self.room}/tools/build", 0o755)
        os.remove(f"{self.room}/crates/tracesync/out/tracesync")
        ran = self.run_it("status0")
        self.assertEqual((ran.returncode, ran.stdout, ran.stderr), (126, "", "tracesync: the program was not built\n"))


if __name__ == "__main__":
    unittest.main()
