"""Texts that others wrote reach no terminal as an escape, and no spreadsheet as a formula."""

import csv
import io
import os
import subprocess
import sys
import tempfile
import unittest

import declaring
import tables
import texts
from common import TOOLS
from explaining import Explainer
from test_timeline import made
from tracesync.numbers import UNITS
from words import list_lines

# The title of a terminal's window, colours, a line that is written over, and letters that run backward.
EVIL = "\x1b]0;TITLE\x07\x1b[31mred\r\x9b1m\u202ekcab"


class Texts(unittest.TestCase):
    def assert_plain(self, text: str) -> None:
        self.assertEqual([it for it in text if not it.isprintable() and it != "\n"], [], text)

    def test_signs_that_cannot_be_seen(self) -> None:
        self.assertEqual(texts.plain("a\nb\t\x1b[0m\u202eé ü"), "a?b??[0m?é ü")

    def test_cells(self) -> None:
        cases = (("=1+1", "'=1+1"), ("+1", "'+1"), ("-1", "'-1"), ("@a", "'@a"), ("\t=1", "?=1"), ("\r=1", "?=1"), ("a\r=1", "a?=1"), ("'=1", "''=1"), ("a=1", "a=1"), ("", ""), (" =1", " =1"))
        for text, wanted in cases:
            self.assertEqual(texts.cell(text), wanted, text)

    def test_a_declaration(self) -> None:
        for value in ({"hosts": {EVIL: {}}, "labels": {EVIL: {"host": EVIL, "kind": "log"}}}, {"hosts": {"a": {"addresses": [EVIL]}}, "source": EVIL}):
            with tempfile.TemporaryDirectory() as room:
                with open(f"{room}/hosts.toml", "w", encoding="utf-8") as it:
                    it.write(toml(value))
                ran = run("explain", f"{room}/hosts.toml")
            self.assertEqual(ran.returncode, 0, ran.stderr)
            self.assertIn("TITLE", ran.stdout)
            self.assert_plain(ran.stdout + ran.stderr)

    def test_a_declaration_that_is_refused(self) -> None:
        with tempfile.TemporaryDirectory() as room:
            with open(f"{room}/hosts.toml", "w", encoding="utf-8") as it:
                it.write(toml({EVIL: 1, "hosts": {"a": {}}}))
            told = Explainer(declaration=f"{room}/hosts.toml").reply("", ["declaration 2 top 0"]).words
        self.assertIn("TITLE", "\n".join(told))
        self.assert_plain("\n".join(told))

    def test_a_row_that_is_refused(self) -> None:
        with tempfile.TemporaryDirectory() as room:
            with open(f"{room}/evil.csv", "w", encoding="utf-8", newline="") as it:
                it.write(f"1,local,,\n{EVIL.partition(chr(13))[0]},x\n")
            told = Explainer().reply(f"add a {room}/evil.csv", ["refused 26 2 1"]).words
        self.assertIn("It is: ", told[0])
        self.assertIn("TITLE", told[0])
        self.assert_plain("\n".join(told))

    def test_lines_of_a_script_and_replies(self) -> None:
        cases = ((EVIL, "refused 20"), (f"add {EVIL} x", "refused 21"), (f"add a {EVIL}", "refused 22"), (f"keep {EVIL}", "refused 28"), (f"order {EVIL} b", "order before"),
                 (f"add {EVIL} x", "added events 1 messages 0 withdrawn 0 pending 0 consistent"), ("", f"kept {EVIL}"))  # fmt: skip
        for line, reply in cases:
            told = Explainer().reply(line, [reply]).words
            self.assertIn("TITLE", "\n".join(told), line)
            self.assert_plain("\n".join(told))

    def test_replies_of_another_program(self) -> None:
        with tempfile.TemporaryDirectory() as room:
            with open(f"{room}/replies", "w", encoding="utf-8", newline="") as it:
                it.write(f"order {EVIL}\n{EVIL}\nadded\ninterval a b\ntime\n{{}}\n[]\n{{\nmerge x\nkept\nrefused\nrefused 26\nrefused x\n")
            ran = run("explain", f"{room}/replies")
        self.assertEqual((ran.returncode, ran.stdout.count("TITLE"), "Traceback" in ran.stderr), (1, 2, False), ran.stderr)
        self.assert_plain(ran.stdout + ran.stderr)

    def test_a_picture_of_replies(self) -> None:
        replies = f"merge 1\n0.000000000 a#1 {EVIL}\nproblem 1\nclock a 0 0 0 0\nevent a#1 a 1\nend\n"
        ran = run("diagram", said=replies.replace("\r", ""))
        self.assertEqual(ran.returncode, 0, ran.stderr)
        self.assertIn("TITLE", ran.stdout)
        self.assert_plain(ran.stdout + ran.stderr)

    def test_a_chrony_conf(self) -> None:
        with tempfile.TemporaryDirectory() as room:
            for name, text in (("a.csv", "1,local,,\n2,local,,\n3,local,,\n"), ("chrony.conf", f"maxslewrate {EVIL.replace(' ', '')}\n")):
                with open(f"{room}/{name}", "w", encoding="utf-8", newline="") as it:
                    it.write(text)
            ran = run("declare", f"a={room}/a.csv", "--chrony", f"a={room}/chrony.conf")
        self.assertEqual((ran.returncode, len(ran.stderr.splitlines())), (1, 1), ran.stderr)
        self.assert_plain(ran.stderr)

    def test_the_name_of_a_file(self) -> None:
        with tempfile.TemporaryDirectory() as room:
            path = f"{room}/x\x1b[31m"
            os.mkdir(path)
            ran = run("declare", f"a={path}")
        self.assertEqual((ran.returncode, "is a folder" in ran.stderr), (1, True))
        self.assert_plain(ran.stderr)

    def test_a_list_in_words(self) -> None:
        found, _ = made()
        found.events[2].text = EVIL
        self.assertIn("TITLE", list_lines(found)[3])
        self.assert_plain("".join(list_lines(found)))

    def test_plain_is_the_one_of_declarations(self) -> None:
        self.assertIs(declaring.plain, texts.plain)


class Formulas(unittest.TestCase):
    def test_no_cell_of_a_text_or_of_a_name_is_a_formula(self) -> None:
        for sign in ("=", "+", "-", "@", "\t=", "\r=", "\n=", "a\r=", "a\n="):
            found, _ = made()
            found.events[1].text = f"{sign}cmd|' /C calc'!A0"
            found.events[1].host = f"{sign}b"
            rows = list(csv.reader(io.StringIO(tables.as_csv(found), newline="")))
            self.assertEqual([len(row) for row in rows], [9] * 6, sign)
            self.assertEqual([it for row in rows for it in (*row[:2], *row[7:]) if it[:1] in tuple("=+-@\t\r\n")], [], sign)
            self.assertIn(f"{sign[-1]}cmd|' /C calc'!A0", rows[2][8])

    def test_the_name_of_an_event_is_a_text_in_each_column(self) -> None:
        found, _ = made()
        found.events[0].name = found.messages[0].send = "-a#1"
        found.ends["a#1"]["-a#1"] = found.ends["a#1"]["a#1"]
        rows = list(csv.reader(io.StringIO(tables.as_csv(found))))
        self.assertEqual((rows[1][0], rows[2][7]), ("'-a#1", "'-a#1"))

    def test_numbers_stay_numbers(self) -> None:
        found, _ = made()
        found.ends["a#1"]["b#1"] = (-5 * UNITS, None)
        found.events[1].time = -3 * UNITS
        rows = list(csv.reader(io.StringIO(tables.as_csv(found))))
        self.assertEqual(rows[2][3:6], ["-3.000000000", "-5.000000000", "+inf"])


def toml(value: dict[str, object]) -> str:
    """Returns a document with these tables, in which each sign of a text is escaped."""
    return "\n".join(f"{quoted(name)} = {inline(it)}" for name, it in value.items()) + "\n"


def inline(value: object) -> str:
    if isinstance(value, dict):
        return "{ " + ", ".join(f"{quoted(name)} = {inline(it)}" for name, it in value.items()) + " }"
    if isinstance(value, list):
        return f"[{', '.join(inline(it) for it in value)}]"
    return quoted(value) if isinstance(value, str) else str(value)


def quoted(text: str) -> str:
    return '"' + "".join(it if it.isascii() and it.isalnum() else f"\\u{ord(it):04X}" for it in text) + '"'


def run(tool: str, *words: str, said: str = "") -> subprocess.CompletedProcess[str]:
    """Runs a tool; what it prints keeps each return and each escape."""
    ran = subprocess.run([sys.executable, f"{TOOLS}/{tool}", *words], input=said.encode(), capture_output=True)
    return subprocess.CompletedProcess(ran.args, ran.returncode, ran.stdout.decode(), ran.stderr.decode())


if __name__ == "__main__":
    unittest.main()
