"""Addresses at the wrong one of two hosts are exchanged where a session contradicts itself."""

import os
import sys
import tempfile
import unittest
from collections.abc import Sequence

import making_networks as net
from common import PROGRAM
from declaring import Declaring
from exchanging import Exchange, Trial, exchanges
from gathering import Gathering
from making_networks import E1, SERVER, Place

# A program that stands in: it contradicts a declaration that has no such line, and finds four messages with each file.
STAND_IN = """#!{python} -IB
import sys
text = open(sys.argv[2]).read()
for line in sys.stdin:
    is_right = {line!r} in text.split("\\n[")[{at}]
    print("added events 8 messages 4 withdrawn 0 pending 0", "consistent" if is_right else "inconsistent", flush=True)
"""


class Exchanging(unittest.TestCase):
    def setUp(self) -> None:
        room = tempfile.TemporaryDirectory()
        self.addCleanup(room.cleanup)
        self.room = room.name

    def declaring(self, *places: Place) -> Declaring:
        net.converse(places)
        return Declaring(Gathering(self.room, lambda _: None).inputs(net.files(self.room, *places)))

    def hosts(self) -> Declaring:
        """Returns what is declared of two hosts."""
        return self.declaring(Place("a", E1, SERVER, 0, "a", "b", 7, 9_001), Place("b", E1, SERVER, 0, "a", "b", 900_003, 9_001))

    def stand_in(self, line: str, at: int) -> str:
        with open(f"{self.room}/program", "w", encoding="utf-8") as it:
            it.write(STAND_IN.format(python=sys.executable, line=line, at=at))
        os.chmod(it.name, 0o755)
        return it.name

    def mended(self, declaring: Declaring, program: str) -> tuple[str, str]:
        """Returns the text and the note of a trial."""
        found, note = Trial(declaring.inputs, program, self.room).mended(declaring)
        return found.text(), note

    def addresses(self, text: str) -> Sequence[str]:
        return [line.split('"')[1] for line in text.splitlines() if line.startswith("addresses")]

    def test_what_a_session_does_not_contradict_stays(self) -> None:
        declaring = self.hosts()
        text, note = self.mended(declaring, self.stand_in(f'addresses = ["{E1}"]', 1))
        self.assertEqual((text, note), (declaring.copy().text(), ""))
        self.assertEqual(self.addresses(text), [E1, SERVER])

    def test_addresses_of_two_hosts_are_exchanged_and_it_is_said(self) -> None:
        text, note = self.mended(self.hosts(), self.stand_in(f'addresses = ["{SERVER}"]', 1))
        self.assertEqual(self.addresses(text), [SERVER, E1])
        self.assertIn("the addresses of a and b are exchanged", note)
        self.assertIn(f"# EXCHANGED: {note}.", text)
        self.assertIn("But a session contradicts itself", text)

    def test_a_contradiction_that_no_exchange_mends_is_said(self) -> None:
        text, note = self.mended(self.hosts(), self.stand_in("nothing", 1))
        self.assertEqual(self.addresses(text), [E1, SERVER])
        self.assertIn("tools/explain tells by what", note)

    def test_a_program_that_fails_changes_nothing(self) -> None:
        for program in ("/bin/false", f"{self.room}/nosuch"):
            self.assertEqual(self.mended(self.hosts(), program)[1], "")

    def test_hosts_that_pass_packets_on_are_left_alone(self) -> None:
        declaring = self.declaring(*net.behind())
        self.assertEqual(list(exchanges(declaring)), [Exchange("a", "f")])

    def test_sides_of_two_labels_are_exchanged(self) -> None:
        places = [Place("a", E1, SERVER, 0, "a", "b", 3), Place("m", E1, SERVER, 0, "a", "b", 5), Place("b", E1, SERVER, 0, "a", "b", 8)]
        net.converse(places)
        words = net.files(self.room, *places)
        path = words[1].split("=")[1]
        declaring = Declaring(Gathering(self.room, lambda _: None).inputs([words[0], words[2], f"to_a@m={path}", f"to_b@m={path}"]))
        exchange = Exchange("to_a", "to_b", True)
        self.assertIn(exchange, list(exchanges(declaring)))
        values = [exchange.of(declaring).placing.values(it).get("beyond") for it in ("to_a", "to_b")]
        self.assertEqual(values, [declaring.placing.values(it).get("beyond") for it in ("to_b", "to_a")])

    @unittest.skipUnless(PROGRAM, "no program is built")
    def test_a_session_over_exchanged_addresses_is_mended(self) -> None:
        declaring = self.hosts()
        wrong = Exchange("a", "b").of(declaring)
        wrong.exchanged = []
        text, note = self.mended(wrong, PROGRAM or "")
        self.assertEqual((self.addresses(text), bool(note)), ([E1, SERVER], True))
        self.assertEqual(self.mended(declaring, PROGRAM or "")[1], "")


if __name__ == "__main__":
    unittest.main()
