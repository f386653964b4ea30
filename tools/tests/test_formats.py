"""What the tools know of formats by heart is what docs/FORMATS.md says."""

import re
import unittest

import words
from common import TOP
from tracesync import declaration, errors, refusals, replies

with open(f"{TOP}/docs/FORMATS.md", encoding="utf-8") as it:
    FORMATS = it.read()


def rows(*titles: str) -> list[list[str]]:
    """Returns the rows of the table with these titles, each with its cells."""
    lines = FORMATS.split("\n")
    at = lines.index(f"| {' | '.join(titles)} |") + 2
    found = []
    while lines[at].startswith("|"):
        found.append([it.strip() for it in lines[at].strip("|").split(" | ")])
        at += 1
    return found


def codes(text: str) -> list[str]:
    return re.findall(r"`([^`]*)`", text)


class Formats(unittest.TestCase):
    def test_commands_of_a_session_and_how_many_words_each_has(self) -> None:
        found = {line.split(" ")[0]: len(line.split(" ")) - 1 for row in rows("Command", "Reply") for line in codes(row[0])}
        self.assertEqual(refusals.COMMANDS, found)

    def test_each_refusal_is_told_and_no_other(self) -> None:
        numbers = {line.split(" ")[1] for row in rows("Refusal", "The line, or what it asks for") for line in codes(row[0])}
        told = {str(it) for it in range(100) if refusals.Refusals().told("add a b", [str(it)]) != f"refusal {it}"}
        self.assertEqual((told, len(numbers) > 10), (numbers, True))

    def test_each_refusal_has_a_cause(self) -> None:
        lines = [line for row in rows("Refusal", "The line, or what it asks for") for line in codes(row[0])]
        self.assertEqual(set(refusals.CAUSES), {int(line.split(" ")[1]) for line in lines})
        causes = {int(row[1]) for row in rows("At", "Number", "Cause")}
        self.assertEqual(set(declaration.CAUSES), causes)

    def test_statuses_of_a_session(self) -> None:
        statuses = {int(row[0]) for row in rows("Status", "When", "Printed")}
        self.assertLessEqual(set(errors.STATUSES) - {126}, statuses)

    def test_keys_of_a_report(self) -> None:
        keys = {it for row in rows("Key", "Value") for it in codes(row[0])}
        self.assertEqual(set(replies.Report.__annotations__), keys)
        reasons = {it for row in rows("Reason", "The event is") for it in codes(row[0])}
        self.assertEqual(set(replies.Counts.__annotations__), reasons)

    def test_causes_of_a_row(self) -> None:
        self.assertEqual(list(refusals.ROW_CAUSES), [row[0] for row in rows("Number", "Cause", "The record")])

    def test_keys_of_a_declaration(self) -> None:
        self.assertEqual(declaration.TOP, {codes(row[0])[0] for row in rows("At the top", "What it has", "Where it is left out")})
        found: dict[str, set[str]] = {}
        table = ""
        for row in rows("In the table of", "Key", "What it has", "Where it is left out"):
            table = row[0] or table
            found.setdefault(table, set()).update(codes(row[1]))
        wanted = {"a host": declaration.HOST, "a clock": declaration.CLOCK, "a label": declaration.LABEL, "a link": declaration.LINK}
        self.assertEqual(found, wanted)

    def test_reasons_without_a_key(self) -> None:
        causes = {it.lower() for row in rows("At", "Cause", "Where") for it in row[1].split(", ")}
        # (that a row of a log is local, and that a packet is of another interface, or has no side, stand in the text behind the table)
        self.assertEqual(set(words.REASONS), causes | {"interface", "local", "side"})


if __name__ == "__main__":
    unittest.main()
