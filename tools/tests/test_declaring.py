"""Addresses are found where captures show them, and declarations are written as they should be."""

import gzip
import os
import subprocess
import sys
import tempfile
import tomllib
import unittest
from collections.abc import Iterable
from decimal import Decimal
from typing import Any

import chrony
import declaring
import ends
import making_captures as making
from captures import Capture, Packet, read_capture
from common import EXAMPLES, TOOLS
from headers import address_text
from inputs import Input
from tracesync.declaration import told_declaration

A, B, C, D = "10.0.0.1", "10.0.0.2", "10.0.0.3", "10.0.0.4"


def seen(host: str, *packets: tuple[int, str, str, int], link: int = 101, marks: list[bool] | None = None, named: Iterable[str] = ()) -> ends.Seen:
    """Returns what a host's capture shows of packets, each a stamp, a source and a target, and an identification."""
    found = ends.Seen(host)
    made = [Packet(stamp, link, making.framed(link, making.udp(one, other, ident=ident), marks and marks[at])) for at, (stamp, one, other, ident) in enumerate(packets)]
    found.add(Capture(made, addresses={making.address(it) for it in named}))
    return found


def own(*hosts: ends.Seen) -> dict[str, list[str]]:
    return {host: sorted(address_text(it) for it in found) for host, found in ends.find_ends(list(hosts)).own.items()}


class Ends(unittest.TestCase):
    def test_an_address_in_all_packets_of_several_peers(self) -> None:
        self.assertEqual(own(seen("a", (1, A, B, 1), (2, C, A, 2))), {"a": [A]})

    def test_two_addresses_of_one_host(self) -> None:
        self.assertEqual(own(seen("a", (1, A, B, 1), (2, C, A, 2), (3, D, "10.0.0.9", 3), (4, D, "10.0.0.8", 4))), {"a": [A, D]})

    def test_the_peer_of_another_hosts_address(self) -> None:
        self.assertEqual(own(seen("a", (1, A, B, 1)), seen("b", (1, A, B, 1), (2, C, B, 2))), {"a": [A], "b": [B]})

    def test_packets_that_are_marked(self) -> None:
        self.assertEqual(own(seen("a", (1, A, B, 1), (2, B, A, 2), link=276, marks=[True, False])), {"a": [A]})

    def test_an_interface_that_names_its_address(self) -> None:
        self.assertEqual(own(seen("a", (1, A, B, 1), named=[A])), {"a": [A]})

    def test_who_asks_waits_longer_whatever_the_offset(self) -> None:
        asks, answers = ((0, A, B, 1), (100_003, B, A, 2)), ((7 * 10**9 + 1, A, B, 1), (7 * 10**9 + 60_008, B, A, 2))
        self.assertEqual(own(seen("x", *asks), seen("y", *answers)), {"x": [A], "y": [B]})
        self.assertEqual(own(seen("x", *answers), seen("y", *asks)), {"x": [B], "y": [A]})

    def test_nothing_is_taken_where_nothing_shows_it(self) -> None:
        self.assertEqual(own(seen("x", (0, A, B, 1)), seen("y", (5, A, B, 1))), {"x": [], "y": []})

    def test_nothing_is_taken_where_the_difference_is_within_the_stamps_error(self) -> None:
        self.assertEqual(own(seen("x", (0, A, B, 1), (100_003, B, A, 2)), seen("y", (0, A, B, 1), (100_001, B, A, 2))), {"x": [], "y": []})

    def test_a_router_has_no_address(self) -> None:
        self.assertEqual(own(seen("r", (0, A, B, 1), (1, C, D, 2), (2, A, C, 3), (3, B, D, 4))), {"r": []})

    def test_an_address_of_two_hosts_is_none_of_them(self) -> None:
        found = ends.find_ends([seen("a", (1, A, B, 1), named=[D]), seen("b", (1, C, B, 1), named=[D])])
        self.assertEqual((len(found.odd), any(making.address(D) in it for it in found.own.values())), (1, False))

    def test_multicast_broadcast_and_loop_back_are_nobodys(self) -> None:
        self.assertEqual(own(seen("a", (1, A, "224.0.0.1", 1), (2, "127.0.0.1", "127.0.0.1", 2), (3, A, "255.255.255.255", 3))), {"a": []})

    def test_exchanged_addresses_are_told(self) -> None:
        captures = [Input(host, host, "", "capture", Capture([Packet(*it) for it in packets])) for host, packets in (
            ("x", [(3, 101, making.udp(A, B)), (100_000, 101, making.udp(B, A, ident=2))]),
            ("y", [(7, 101, making.udp(A, B)), (60_000, 101, making.udp(B, A, ident=2))]))]  # fmt: skip
        self.assertEqual(len(ends.exchanged(captures, {"hosts": {"x": {"addresses": [B]}, "y": {"addresses": [A]}}})), 2)


class Numbers(unittest.TestCase):
    def test_rates_are_those_of_the_guide(self) -> None:
        cases = ((1, (1_000, 1_001)), (20, (20_000, 20_001)), (50, (50_000, 50_003)), (100, (100_000, 100_011)), (601, (601_000, 601_362)), (84_000, (84_000_000, 91_703_057)))
        for ppm, wanted in cases:
            self.assertEqual(declaring.rates(Decimal(ppm)), wanted, ppm)

    def test_late_is_that_of_the_guide(self) -> None:
        cases = ((1, 100_011, 2), (1_000, 100_011, 1_001), (1_000, 91_703_057, 1_092), (10**6, 50_003, 1_000_051), (10**6, 601_362, 1_000_602), (10**9, 50_003, 1_000_050_003))
        for resolution, long, wanted in cases:
            self.assertEqual(declaring.late_of(resolution, long), wanted)


TRACKING = "C0A80001,ntp.example,2,1795842008.123,-0.000012,0.000001,0.000020,-12.345,0.010,0.350,0.001000,0.002000,64.2,Normal\n"


class Chrony(unittest.TestCase):
    def read(self, *texts: str) -> chrony.Chrony:
        found = None
        for text in texts:
            with tempfile.NamedTemporaryFile("w", delete=False) as it:
                it.write(text)
            found = chrony.read_chrony(it.name, found)
            os.remove(it.name)
        assert found
        return found

    def test_maxslewrate(self) -> None:
        cases = (("server a\nmaxslewrate 500\n", Decimal(500)), ("server a\n", chrony.SLEW_DEFAULT), ("# maxslewrate 1\nserver a\n", chrony.SLEW_DEFAULT))
        for text, wanted in cases:
            self.assertEqual(self.read(text).slew, wanted, text)

    def test_skew_and_dispersion(self) -> None:
        found = self.read(TRACKING)
        self.assertEqual((found.skew, found.residual, found.error()), (Decimal("0.350"), Decimal("0.010"), Decimal("0.002512")))

    def test_both(self) -> None:
        found = self.read(TRACKING, "makestep 1.0 3\nmaxslewrate 500\n")
        self.assertEqual((found.skew, found.slew, found.steps), (Decimal("0.350"), Decimal(500), "makestep 1.0 3"))

    def test_numbers_that_bound_nothing_are_refused_by_name(self) -> None:
        fields = {"skew": "0.350", "system": "-0.000012", "residual": "0.010", "delay": "0.001000", "dispersion": "0.002000"}
        never = ("NaN", "sNaN", "-NaN", "nan123", "Infinity", "-inf", "1e9999999", "-1e9999999", "1e99999999999999999999", "1_0", "0x1", "", "fast", "1" * 5000)
        for name, value in fields.items():
            for text in (*never, *(("-1", "-0.000001") if name not in ("system", "residual") else ())):
                with self.assertRaisesRegex(ValueError, f"{name} .*(is no number|is out of range)"):
                    self.read(TRACKING.replace(f",{value},", f",{text},"))
        for text in (*never[:-4], "-1", "100001", "1e6"):
            with self.assertRaisesRegex(ValueError, "maxslewrate .*(is no number|is out of range)"):
                self.read(f"server a\nmaxslewrate {text}\n")

    def test_negative_offsets_and_residuals_count_as_much_as_positive_ones(self) -> None:
        found = self.read(TRACKING.replace("-0.000012", "0.000012").replace("0.010", "-0.010"))
        self.assertEqual((found.error(), found.residual), (Decimal("0.002512"), Decimal("-0.010")))

    def test_no_digit_that_is_left_out_makes_a_bound_narrower(self) -> None:
        found = self.read(TRACKING.replace("0.350", "1e-9999").replace("0.010", "-1e-9999"))
        self.assertEqual((found.skew, found.residual), (Decimal("1e-12"), Decimal("-1e-12")))

    def test_what_is_neither_is_refused(self) -> None:
        for text in ("Reference ID    : C0A80001\n", "1,2,3,4,5\n", TRACKING.replace("Normal", "Not synchronised"), "maxslewrate fast\n", ""):
            with self.assertRaises(ValueError, msg=text):
                self.read(text)


class Text(unittest.TestCase):
    def declare(self, *words: str, status: int = 0) -> tuple[dict[str, Any], str, str]:
        ran = subprocess.run([sys.executable, f"{TOOLS}/declare", *words], cwd=EXAMPLES, capture_output=True, text=True)
        self.assertEqual(ran.returncode, status, ran.stderr)
        return tomllib.loads(ran.stdout) if ran.stdout else {}, ran.stderr, ran.stdout

    def test_the_captures_of_the_examples(self) -> None:
        found, _, _ = self.declare("left=captures/left.pcap", "right=pcapng/right.pcapng")
        wanted = {
            "payload_bytes": 8,
            "tcp_options": True,
            "hosts": {"left": {"short": 100_000, "long": 100_011, "early": 0, "late": 2, "addresses": ["10.9.0.1"]},
                      "right": {"short": 100_000, "long": 100_011, "early": 0, "late": 1_001, "addresses": ["10.9.0.2"]}},
            "labels": {it: {"host": it, "kind": "capture"} for it in ("left", "right")},
            "links": [{"from": "left", "to": "right", "least": 1}, {"from": "right", "to": "left", "least": 1}],
        }  # fmt: skip
        self.assertEqual(found, wanted)

    def test_fragments_are_declared_where_there_are_some(self) -> None:
        whole = making.udp(A, B)
        with tempfile.TemporaryDirectory() as room:
            for field, wanted in ((b"\x40\0", False), (b"\x20\0", True)):
                packets = ((1, making.framed(1, whole)), (2, making.framed(1, whole[:6] + field + whole[8:])))
                with open(f"{room}/a.pcap", "wb") as it:
                    it.write(making.classic(packets))
                found, _, _ = self.declare(f"a={room}/a.pcap", f"b={room}/a.pcap", status=1)
                self.assertEqual(found.get("fragments", False), wanted)

    def test_every_number_has_a_comment_before_it(self) -> None:
        _, _, text = self.declare("left=captures/left.pcap", "right=pcapng/right.pcapng")
        lines = text.splitlines()
        for at, line in enumerate(lines):
            if line.split(" ")[0] in ("short", "early", "addresses", "payload_bytes", "tcp_options", "fragments"):
                self.assertTrue(lines[at - 1].startswith("#"), line)

    def test_logs_and_a_second_label_of_a_host(self) -> None:
        found, _, _ = self.declare("web=session/web.csv", "db=session/db.csv", "db.again@db=session/db-again.csv")
        self.assertEqual((sorted(found["hosts"]), found["labels"]["db.again"], "payload_bytes" in found), (["db", "web"], {"host": "db", "kind": "log"}, False))

    def test_a_log_beside_a_capture_has_bounds_of_its_own(self) -> None:
        rows = ["1780000000051000000,local,,a", "1780000000052000000,local,,b", "1780000000052000000,local,,c"]
        with tempfile.TemporaryDirectory() as room:
            for count, wanted in ((3, {"early": 0, "late": 1_000_101}), (1, {"early": 0, "late": 1_000_101})):
                with open(f"{room}/rows.csv", "w") as it:
                    it.writelines(f"{row}\n" for row in rows[:count])
                found, _, text = self.declare("b=vantage/b.pcap", "w=vantage/w.pcap", f"rows@w={it.name}")
                self.assertEqual(found["labels"]["rows"], {"host": "w", "kind": "log", **wanted})
                self.assertEqual((found["hosts"]["w"]["late"], found["labels"]["w"]), (1_001, {"host": "w", "kind": "capture"}))
                self.assertIn(f"# {'All' if count > 2 else 'The few'} stamps of {it.name} are whole 1 ms", text)

    def test_the_bounds_of_a_host_are_for_its_finest_log(self) -> None:
        with tempfile.TemporaryDirectory() as room:
            for name, unit in (("fine", 1_000), ("coarse", 10**6)):
                with open(f"{room}/{name}.csv", "w") as it:
                    it.writelines(f"{number * unit},local,,\n" for number in (11, 23, 37))
            found, _, _ = self.declare(f"coarse@a={room}/coarse.csv", f"fine@a={room}/fine.csv")
        self.assertEqual((found["hosts"]["a"]["late"], found["labels"]["coarse"]["late"], "late" in found["labels"]["fine"]), (1_001, 1_000_101, False))

    def test_one_capture_alone_says_what_it_cannot_find_out(self) -> None:
        found, said, text = self.declare("left=captures/left.pcap", status=1)
        self.assertEqual(("addresses" in found["hosts"]["left"], "10.9.0.1 or 10.9.0.2" in said, "NOT FOUND OUT" in text), (False, True, True))

    def test_what_chrony_cannot_mean_is_told_in_one_line(self) -> None:
        for text in ("NaN", "sNaN", "Infinity", "1e9999999", "1e9", "-50000"):
            with tempfile.TemporaryDirectory() as room:
                for name, line in (("tracking", TRACKING.replace("0.350", text)), ("conf", f"maxslewrate {text}\n")):
                    with open(f"{room}/{name}", "w") as it:
                        it.write(line)
                    found, said, _ = self.declare("left=captures/left.pcap", "right=captures/right.pcap", "--chrony", f"left={room}/{name}", status=1)
                    self.assertEqual((found, len(said.splitlines())), ({}, 1), said)
                    self.assertIn("skew" if name == "tracking" else "maxslewrate", said)

    def test_rates_that_no_declaration_may_have_are_refused(self) -> None:
        self.assertEqual(declaring.rates(Decimal(500_000)), (500_000_000, 1_000_000_000))
        with tempfile.NamedTemporaryFile("w", suffix=".csv") as it:
            it.write(TRACKING.replace("0.350", "99999").replace("0.010", "-99999"))
            it.flush()
            both = (word for name in ("left", "right") for word in ("--chrony", f"{name}={it.name}"))
            found, said, _ = self.declare("left=captures/left.pcap", "right=captures/right.pcap", *both, "--reference", "left", status=1)
        self.assertEqual((found, len(said.splitlines())), ({}, 1), said)
        self.assertIn("ppm cannot be declared", said)

    def test_the_source_and_a_daemon(self) -> None:
        with tempfile.NamedTemporaryFile("w", delete=False) as it:
            it.write("maxslewrate 500\n")
        found, _, _ = self.declare("left=captures/left.pcap", "right=captures/right.pcap", "--source", "left", "--chrony", f"right={it.name}")
        os.remove(it.name)
        rates = {name: (host["short"], host["long"]) for name, host in found["hosts"].items()}
        self.assertEqual((found["source"], rates), ("left", {"left": (0, 0), "right": (601_000, 601_362)}))

    def test_a_reference_counts_for_the_rates_of_all_others(self) -> None:
        found, _, _ = self.declare("left=captures/left.pcap", "right=captures/right.pcap", "--reference", "left")
        rates = {name: (host["short"], host["long"]) for name, host in found["hosts"].items()}
        self.assertEqual((found["source"], rates), ("left", {"left": (0, 0), "right": (200_000, 200_041)}))

    def test_what_cannot_be_declared(self) -> None:
        cases = ((["left"], 2), (["left=nosuch"], 1), (["le ft=captures/left.pcap"], 1), (["left=captures"], 1), ([], 2), (["--what"], 2),
                 (["a=captures/left.pcap", "--source", "b"], 1), (["a=captures/hosts.toml"], 1))  # fmt: skip
        for words, status in cases:
            self.declare(*words, status=status if words != ["left"] else 1)

    def test_a_path_cannot_break_a_comment(self) -> None:
        with tempfile.TemporaryDirectory() as room:
            path = f'{room}/x\n[hosts."evil"]'
            with open(path, "w") as it:
                it.write("1,local,,\n2,local,,\n5,local,,\n")
            self.assertEqual(list(self.declare(f"a={path}")[0]["hosts"]), ["a"])

    def test_compressed_files_and_rings_are_read_as_timeline_reads_them(self) -> None:
        packets = [(10**9 + k * 1000, making.framed(making.ETHERNET, making.udp(A, (B, C)[k % 2], ident=k + 1))) for k in range(9)]
        with tempfile.TemporaryDirectory() as room:
            for at in range(3):
                with open(f"{room}/ring-{2 - at}.pcap.gz", "wb") as it:
                    it.write(gzip.compress(making.classic(packets[3 * at : 3 * at + 3])))
            before = sorted(os.listdir(room))
            found, said, text = self.declare(f"a={room}/ring-*.gz")
            self.assertEqual((found["hosts"]["a"]["addresses"], said, sorted(os.listdir(room))), ([A], "", before))
            self.assertIn(f"# All stamps of {room}/ring-2.pcap.gz, {room}/ring-1.pcap.gz, {room}/ring-0.pcap.gz are whole 1 us", text)
            kept, said, _ = self.declare(f"a={room}/ring-*.gz", "--folder", f"{room}/kept")
            self.assertEqual((kept, len(read_capture(f"{room}/kept/joined-a.pcap").packets)), (found, 9))
            self.assertIn(f"declare: Joined 3 files of a as {room}/kept/joined-a.pcap.", said)

    def test_a_file_that_cannot_be_unpacked_is_told(self) -> None:
        with tempfile.TemporaryDirectory() as room:
            with open(f"{room}/a.gz", "wb") as it:
                it.write(gzip.compress(bytes(range(256)) * 50)[:-20])
            self.assertIn("cannot be unpacked to its end", self.declare(f"a={room}/a.gz", status=1)[1])

    def test_what_declare_writes_has_no_slip(self) -> None:
        found, _, _ = self.declare("left=captures/left.pcap", "right=pcapng/right.pcapng")
        told = "\n".join(told_declaration(found))
        self.assertFalse("meant" in told or "No link" in told or any(word.isupper() and len(word) > 4 for word in told.split()), told)


if __name__ == "__main__":
    unittest.main()
