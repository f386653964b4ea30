"""The words of the tools: what is no option is told in one line with status 2, and an option takes whatever stands behind it."""

import contextlib
import io
import subprocess
import sys
import unittest

from command_line import Parser, natural
from common import TOOLS

TOLD = ("build", "declare", "diagram", "explain", "rows", "spans", "test", "timeline")


def parser() -> Parser:
    found = Parser("tool", "First.\n\nRest.")
    found.add_argument("files", nargs="+")
    found.option("--one", "ONE", "may be there once")
    found.option("--many", "MANY", "may come often", action="append", default=[])
    found.option("--number", "N", "a number", type=natural(1), default=7)
    found.add_argument("--flag", action="store_true")
    return found


class Words(unittest.TestCase):
    def refused(self, *words: str) -> str:
        said = io.StringIO()
        with contextlib.redirect_stderr(said), self.assertRaises(SystemExit) as ended:
            parser().read(words)
        self.assertEqual(ended.exception.code, 2, words)
        return said.getvalue()

    def test_options_and_files_in_any_order(self) -> None:
        said = parser().read(["a", "--one", "-x", "b", "--flag", "--many=1", "c", "--many", "--one"])
        self.assertEqual((said.files, said.one, said.many, said.flag, said.number), (["a", "b", "c"], "-x", ["1", "--one"], True, 7))

    def test_what_is_wrong_is_one_line(self) -> None:
        cases = (
            (["--what", "a"], "--what is no option"), (["a", "--o", "1"], "--o is no option"), (["a", "--one"], "argument --one: expected one argument"), ([], "the following arguments are required: files"),
            (["a", "--one", "1", "--one", "2"], "argument --one: it is there twice"), (["a", "--number", "0"], "argument --number: 0 is no number from 1 on"),
            (["a", "--number", "x\x1b"], "argument --number: x? is no number from 1 on"), (["a", "--number", "-1"], "argument --number: -1 is no number from 1 on"), (["a", "--flag=1"], "argument --flag: ignored explicit argument '1'"),
        )  # fmt: skip
        for words, wanted in cases:
            self.assertEqual(self.refused(*words), f"tool: {wanted}; --help tells more\n", words)

    def test_each_tool_tells_its_usage_and_refuses_what_is_no_option(self) -> None:
        for tool in TOLD:
            ran = subprocess.run([sys.executable, f"{TOOLS}/{tool}", "--help"], capture_output=True, text=True)
            self.assertEqual((ran.returncode, ran.stderr, "usage: " in ran.stdout, f"tools/{tool}" in ran.stdout), (0, "", True, True))
            ran = subprocess.run([sys.executable, f"{TOOLS}/{tool}", "--what"], stdin=subprocess.DEVNULL, capture_output=True, text=True)
            self.assertEqual((ran.returncode, ran.stdout, len(ran.stderr.splitlines())), (2, "", 1), ran.stderr)


if __name__ == "__main__":
    unittest.main()
