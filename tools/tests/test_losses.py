"""What captures lost is found by the counts of their files, and by what TCP acknowledges."""

import os
import subprocess
import sys
import tempfile
import unittest

import losses
import making_captures as making
from captures import Capture, Packet
from common import TOOLS
from contradiction import Contradiction
from explaining import Explainer
from inputs import Input
from test_captures import FRAME, read
from test_explaining import CYCLE
from test_recorded import STAND_IN
from tracesync.certificates import read_cycle

A, B, C = "10.0.0.1", "10.0.0.2", "10.0.0.3"
FIN, SYN, RST, ACK = 1, 2, 4, 16
NUMBERS = 1 << 32
START = 7000


def ours(number: int, size: int = 0, flags: int = ACK, acknowledged: int = START, ends: tuple[str, str] = (A, B)) -> bytes:
    """Returns a segment from a to b."""
    return making.tcp(*ends, (5000, 80), number % NUMBERS, flags, bytes(size), acknowledged=acknowledged % NUMBERS)


def theirs(acknowledged: int, number: int = START, size: int = 0, flags: int = ACK, ends: tuple[str, str] = (B, A)) -> bytes:
    """Returns a segment from b to a."""
    return making.tcp(*ends, (80, 5000), number % NUMBERS, flags, bytes(size), acknowledged=acknowledged % NUMBERS)


def capture(*datagrams: bytes, label: str = "a", host: str = "a", link: int = 101) -> Input:
    return Input(label, host, "a.pcap", "capture", Capture([Packet(at, link, making.framed(link, it)) for at, it in enumerate(datagrams)]))


def gaps(*datagrams: bytes, own: str = A) -> int:
    return losses.gap_counts([capture(*datagrams)], {"a": {making.address(own)} if own else set()})["a"]


class Statistics(unittest.TestCase):
    def test_both_orders_of_bytes(self) -> None:
        for order in "<>":
            data = making.pcapng([(1, FRAME)], order=order) + making.statistics({4: 100, 5: 3, 6: 90, 7: 4}, order=order)
            found = read(data)
            self.assertEqual((found.dropped, found.odd, len(found.packets)), (7, [], 1), order)

    def test_none_and_nothing_dropped(self) -> None:
        for data in (b"", making.statistics({}), making.statistics({4: 100, 6: 100}), making.statistics({5: 0, 7: 0}), making.statistics({5: NUMBERS**2 - 1})):
            self.assertEqual(read(making.pcapng([(1, FRAME)]) + data).dropped, 0)
        self.assertEqual(read(making.classic([(1, FRAME)])).dropped, 0)

    def test_counts_go_on_within_a_section_and_begin_anew_in_the_next(self) -> None:
        one = making.pcapng([(1, FRAME)]) + making.statistics({5: 3}) + making.statistics({5: 5})
        other = making.pcapng([(2, FRAME)], order=">") + making.statistics({7: 2}, order=">")
        self.assertEqual(read(one + other).dropped, 7)

    def test_what_is_told_last_stands(self) -> None:
        told = making.pcapng([(1, FRAME)]) + making.statistics({5: 5, 7: 4})
        cases = (({5: 3}, 7), ({5: 0, 7: 0}, 0), ({4: 1}, 9), ({5: NUMBERS**2 - 1, 7: 6}, 11))
        for later, wanted in cases:
            self.assertEqual(read(told + making.statistics(later)).dropped, wanted, later)

    def test_what_is_cut_or_broken_is_passed_over(self) -> None:
        whole, told = making.pcapng([(1, FRAME)]), making.statistics({5: 3})
        cases = (making.block(5, told[8:20] + making.option(5, bytes(8))[:4]), making.block(5, told[8:20] + making.option(5, bytes(3) + b"\1")),
                 making.block(5, bytes(4)), making.block(5, b""), making.statistics({5: 3}, interface=1))  # fmt: skip
        for data in cases:
            found = read(whole + data + making.pcapng([(2, FRAME)]))
            self.assertEqual((found.dropped, found.odd, len(found.packets)), (0, [], 2), data.hex())
        for length in range(1, len(told)):
            self.assertEqual(read(whole + told[:length]).dropped, 0, length)


class Gaps(unittest.TestCase):
    def test_nothing_is_lost(self) -> None:
        opened = (ours(99, flags=SYN), theirs(100, START - 1, flags=SYN | ACK), ours(100))
        closed = (ours(200, flags=FIN | ACK), theirs(201, START, flags=FIN | ACK), ours(201, acknowledged=START + 1))
        cases = {
            "whole": (*opened, ours(100, 60), theirs(160), ours(160, 40), theirs(200), *closed),
            "sent again": (*opened, ours(100, 60), ours(100, 60), ours(160, 40), ours(100, 100), theirs(200), ours(160, 40), theirs(200), *closed),
            "out of order": (*opened, ours(180, 20), ours(140, 40), theirs(100), ours(120, 20), ours(100, 20), theirs(200)),
            "opened twice": (opened[0], *opened, opened[1], ours(100, 60), theirs(160), opened[0], ours(160, 40), theirs(200)),
            "from the middle": (theirs(150), ours(160), ours(160, 40), ours(100, 60), theirs(200)),
            "asked whether it is there": (ours(159), theirs(160), ours(160, 40), theirs(200)),
            "not acknowledged": (ours(100, 20), ours(180, 20), theirs(120)),
            "ended, and the ports again": (ours(100, 20), ours(0, flags=RST), ours(5000, 20), theirs(5020), ours(90_000, flags=SYN), ours(90_001, 5), theirs(90_006)),
            "a new one, and the old one's numbers": (*opened, theirs(100, START, 9), ours(50_000, flags=SYN), ours(50_001, 5, acknowledged=START + 900)),
        }  # fmt: skip
        for name, datagrams in cases.items():
            self.assertEqual(gaps(*datagrams), 0, name)

    def test_what_is_acknowledged_and_not_there(self) -> None:
        cases = {
            "in the middle": (1, (ours(100, 20), ours(140, 20), theirs(160))),
            "at the end": (1, (ours(100, 20), theirs(160))),
            "the first byte": (1, (ours(99, flags=SYN), ours(160, 40), theirs(200))),
            "the FIN": (1, (ours(100, 20), theirs(121))),
            "the part before an acknowledgement": (1, (ours(100, 20), ours(180, 20), theirs(140))),
            "one gap, acknowledged in parts": (1, (ours(100, 20), theirs(140), theirs(160), ours(180, 20), theirs(170), theirs(200))),
            "two": (2, (ours(100, 20), ours(140, 20), ours(180, 20), theirs(200))),
            "two, one after the other": (2, (ours(100, 20), theirs(140), ours(140, 20), theirs(200))),
            "what is sent again later": (1, (ours(100, 20), ours(140, 20), theirs(160), ours(120, 20), theirs(160))),
            "before it ended": (1, (ours(100, 20), theirs(160), ours(160, flags=RST))),
            "of the other end": (1, (theirs(0, START, 9), theirs(0, START + 20, 9), ours(100, acknowledged=START + 29))),
        }
        for name, (wanted, datagrams) in cases.items():
            self.assertEqual(gaps(*datagrams), wanted, name)

    def test_numbers_that_begin_again(self) -> None:
        for start in range(NUMBERS - 45, NUMBERS + 5, 5):
            sent = (ours(start - 1, flags=SYN), ours(start, 20), ours(start + 20, 20), ours(start + 40, flags=FIN | ACK), theirs(start + 41))
            self.assertEqual([gaps(*sent[:at], *sent[at + 1 :]) for at in range(5)], [0, 1, 1, 1, 0], start)

    def test_many_stretches_beyond_a_hole(self) -> None:
        many = [ours(100 + 40 * it, 20) for it in range(500)]
        self.assertEqual((gaps(*many, theirs(100 + 40 * 500)), gaps(*many[:1], *reversed(many[1:]), theirs(100 + 40 * 499 + 20))), (500, 499))
        self.assertLess(gaps(*(ours(100 + 40 * it, 20) for it in range(3000)), theirs(100 + 40 * 3000)), 3000)

    def test_lengths_are_those_of_the_headers_in_all_frames(self) -> None:
        for ends in ((A, B), ("2001:db8::1", "2001:db8::2")):
            sent = [(60, ours(100, 60, ends=ends)), (40, ours(160, 40, ends=ends)), (9, ours(200, 9, ends=ends)), (0, theirs(209, ends=ends[::-1]))]
            for link in (1, 101, 113, 276):
                for kept, wanted in ((sent, 0), (sent[:1] + sent[2:], 1)):
                    for is_cut in (False, True):
                        frames = [(size, making.framed(link, it, tags=(0x8100, 0x88A8) if link == 1 else ())) for size, it in kept]
                        found = losses.Streams({making.address(ends[0])})
                        found.take(Packet(0, link, it[: len(it) - size] if is_cut else it) for size, it in frames)
                        self.assertEqual(found.count(()), wanted, (ends, link, is_cut))

    def test_snapshots_that_end_within_a_header_show_nothing(self) -> None:
        sent = [ours(100, 60), ours(160, 40), theirs(200)]
        for size in (40, 39, 20):
            found = losses.Streams({making.address(A)})
            found.take(Packet(0, 101, it[:size]) for it in sent[::2])
            self.assertEqual(found.count(()), size == 40, size)

    def test_segments_that_cannot_be_told_may_have_what_is_lacking(self) -> None:
        large = bytearray(ours(120, 20))
        large[2:4] = bytes(2)
        fragment = making.ip("2001:db8::1", "2001:db8::2", 44, bytes(40))
        ends = ("2001:db8::1", "2001:db8::2")
        self.assertEqual(gaps(ours(100, 20), bytes(large), theirs(140)), 0)
        self.assertEqual(gaps(ours(100, 20, ends=ends), fragment, theirs(140, ends=ends[::-1]), own=""), 0)

    def test_others_connections_do_not_count(self) -> None:
        lost = (ours(100, 20), theirs(140))
        self.assertEqual([gaps(*lost, own=own) for own in (A, B, C, "")], [1, 1, 0, 1])

    def test_files_of_a_label_and_labels_of_a_host(self) -> None:
        own = {"a": {making.address(A)}}
        parts = [capture(ours(100, 20)), capture(ours(120, 20), theirs(160))]
        self.assertEqual(losses.gap_counts(parts, own), {"a": 1})
        shared = [capture(ours(100, 20), theirs(160), label="a"), capture(ours(120, 40), theirs(160), label="b")]
        self.assertEqual(losses.gap_counts(shared, own), {"a": 0, "b": 0})
        apart = [shared[0], capture(ours(100, 20), theirs(160), label="b", host="b")]
        self.assertEqual(losses.gap_counts(apart, {"b": {making.address(B)}}), {"a": 1, "b": 1})


class Told(unittest.TestCase):
    def files(self, room: str) -> list[str]:
        """Writes two captures, of which the first one lost packets, and returns their words."""
        sent = [(at, making.framed(1, it)) for at, it in enumerate((ours(100, 20), theirs(140), ours(140, 9, ends=(A, C))))]
        for name, data in (("a", making.pcapng(sent) + making.statistics({5: 12})), ("b", making.pcapng([sent[0], sent[1], (5, making.framed(1, ours(5, ends=(C, B))))]))):
            with open(f"{room}/{name}.pcapng", "wb") as it:
                it.write(data)
        return ["a=a.pcapng", "b=b.pcapng"]

    def test_declare_and_timeline(self) -> None:
        with tempfile.TemporaryDirectory() as room:
            words = self.files(room)
            for name, text in (("program", STAND_IN.format(python=sys.executable, tools=TOOLS)), ("program.json", "{}")):
                with open(f"{room}/{name}", "w", encoding="utf-8") as it:
                    it.write(text)
            os.chmod(f"{room}/program", 0o755)
            ran = [subprocess.run([sys.executable, f"{TOOLS}/{tool}", *words, *more], cwd=room, capture_output=True, text=True) for tool, more in (
                ("declare", []), ("timeline", ["--program", "./program", "--folder", "kept"]), ("timeline", ["--program", "./program", "--declaration", "kept/hosts.toml", "--json", "-"]))]  # fmt: skip
        wanted = f"a: the capture counts 12 packets as dropped, and TCP acknowledges what it has no packet of, in 1 place (lost, unless a filter left it out or it was sent before the capture began). {losses.CURE}\n"
        other = f"b: TCP acknowledges what it has no packet of, in 1 place (lost, unless a filter left it out or it was sent before the capture began). {losses.CURE}\n"
        for it, text in zip(ran, (f"declare: {wanted}declare: {other}", wanted + other, wanted + other)):
            self.assertEqual((it.returncode, text in it.stdout + it.stderr), (0, True), it.stdout + it.stderr)

    def test_files_without_losses_have_no_line(self) -> None:
        self.assertEqual(losses.loss_lines([capture(ours(100, 20), theirs(120)), Input("b", "b", "b.csv", "log")], {}), [])

    def test_an_addition(self) -> None:
        with tempfile.TemporaryDirectory() as room:
            self.files(room)
            told = [Explainer().reply(f"add x {room}/{name}.pcapng", ["added events 3 messages 0 withdrawn 0 pending 0 consistent"]).words for name in "ab"]
        self.assertEqual([it[1:] for it in told], [[f"x: the capture counts 12 packets as dropped. {losses.CURE}"], []])

    def test_causes_of_a_contradiction(self) -> None:
        last = [Contradiction(read_cycle(CYCLE.split("\n")), inputs=inputs).cures(5)[-1] for inputs in ({}, {k: Input(it, it, it, "log") for k, it in enumerate("ab")})]
        self.assertIn("a clock that was set, packets that a capture lost, one key for two messages.", last[0])
        self.assertIn("a clock that was set, one key for two messages.", last[1])
        alone = [it for it in CYCLE.split("\n") if "delay" not in it]
        self.assertTrue(Contradiction(read_cycle(alone)).cures(5)[-1].endswith("a clock that was set."))

    def test_the_word_that_tells_segments_apart(self) -> None:
        six = ("2001:db8::1", "2001:db8::2")
        cases = ((ours(100, ends=six), "", ["a#1 to b#1", "b#2 to a#2"]), (ours(100), "", []), (making.udp(*six), "", []), (ours(100, ends=six), "tcp_options = true\n", []))
        for datagram, top, wanted in cases:
            with tempfile.TemporaryDirectory() as room:
                with open(f"{room}/hosts.toml", "w", encoding="utf-8") as it:
                    it.write(f"{top}[hosts.a]\n[hosts.b]\n")
                explainer = Explainer(f"{room}/hosts.toml", program=None)
                inputs = dict(enumerate(capture(datagram, datagram, label=it, host=it) for it in "ab"))
                told = [it for it in explainer.told_cycle(CYCLE.split("\n"), None, inputs) if "tcp_options" in it]
            self.assertEqual([all(it in line for it in wanted) and line.endswith(f"write tcp_options = true at the top of {room}/hosts.toml.") for line in told], [True] if wanted else [], told)


if __name__ == "__main__":
    unittest.main()
