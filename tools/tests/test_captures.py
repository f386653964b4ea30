"""Captures, headers and logs are read as the program reads them."""

import os
import tempfile
import unittest
from collections.abc import Callable
from typing import Any

import captures
import headers
import logs
import making_captures as making
from common import EXAMPLES

M1 = making.udp("10.0.0.1", "10.0.0.2")
FRAME = making.framed(making.ETHERNET, M1)


def read(data: bytes, of: Callable[[str], Any] = captures.read_capture) -> Any:
    with tempfile.NamedTemporaryFile(delete=False) as it:
        it.write(data)
    try:
        return of(it.name)
    finally:
        os.remove(it.name)


class Classic(unittest.TestCase):
    def test_stamps_of_all_orders_and_units(self) -> None:
        for magic, unit in ((0xA1B2C3D4, 1000), (0xA1B23C4D, 1)):
            for order in "<>":
                found = read(making.classic([(1_000_005_000, FRAME), (2_000_006_000, FRAME)], magic=magic, order=order, unit=unit))
                self.assertEqual([it.stamp for it in found.packets], [1_000_005_000, 2_000_006_000], (magic, order))

    def test_a_packet_that_is_cut_off_is_none(self) -> None:
        data = making.classic([(1, FRAME), (2, FRAME)])
        self.assertEqual(len(read(data[:-1]).packets), 1)

    def test_what_cannot_be_a_packet_is_told(self) -> None:
        self.assertEqual(read(making.classic([(1, FRAME)]) + b"\xff" * 16).odd, [f"at byte {24 + 16 + len(FRAME)} stands no packet"])

    def test_resolution_is_that_of_all_stamps(self) -> None:
        cases = (([1_000, 2_000], 1_000), ([1_000, 2_001], 1), ([10**9, 2 * 10**9], 10**9), ([], 1))
        for stamps, wanted in cases:
            self.assertEqual(read(making.classic([(it, FRAME) for it in stamps])).resolution(), wanted, stamps)

    def test_a_log_is_no_capture(self) -> None:
        with self.assertRaises(ValueError):
            read(b"1,send,a,\n")


class Pcapng(unittest.TestCase):
    def test_stamps_of_all_resolutions(self) -> None:
        for resolution, wanted in ((6, 1_000_005_000), (9, 1_000_005_678), (3, 1_000_000_000), (128 + 10, 1_000_000_000)):
            found = read(making.pcapng([(1_000_005_678, FRAME)], resolution=resolution))
            self.assertEqual(found.packets[0].stamp, wanted, resolution)

    def test_orders_of_bytes(self) -> None:
        for order in "<>":
            self.assertEqual(read(making.pcapng([(7, FRAME)], order=order)).packets[0].data, FRAME, order)

    def test_directions(self) -> None:
        found = read(making.pcapng([(1, FRAME), (2, FRAME), (3, FRAME)], flags=[1, 2, 0]))
        self.assertEqual([it.is_sent for it in found.packets], [False, True, None])

    def test_addresses_of_the_interface(self) -> None:
        found = read(making.pcapng([], options=making.option(4, bytes([10, 0, 0, 1, 255, 0, 0, 0]))))
        self.assertEqual(found.addresses, {bytes([10, 0, 0, 1])})

    def test_a_second_section(self) -> None:
        data = making.pcapng([(1, FRAME)])
        self.assertEqual(len(read(data + making.pcapng([(2, FRAME)], order=">")).packets), 2)

    def test_the_example_has_the_packets_of_the_classic_one(self) -> None:
        one, other = captures.read_capture(f"{EXAMPLES}/captures/left.pcap"), captures.read_capture(f"{EXAMPLES}/pcapng/left.pcapng")
        self.assertEqual([(it.stamp, it.data) for it in one.packets], [(it.stamp, it.data) for it in other.packets])


class Headers(unittest.TestCase):
    def test_all_links_and_versions_give_one_key(self) -> None:
        for source, target in (("10.0.0.1", "10.0.0.2"), ("2001:db8::1", "2001:db8::2")):
            datagram = making.udp(source, target, payload=b"12")
            keys = {headers.decode(link, making.framed(link, datagram))[0].key for link in (1, 101, 113, 276)}
            self.assertEqual(keys, {headers.decode(101, datagram)[0].key}, source)

    def test_cooked_frames_tell_the_direction(self) -> None:
        found = [headers.decode(link, making.framed(link, M1, is_sent))[1] for link in (113, 276) for is_sent in (True, False)]
        self.assertEqual(found, [True, False, True, False])

    def test_tags_are_passed_over(self) -> None:
        self.assertIsNotNone(headers.decode(1, making.framed(1, M1, tags=(0x88A8, 0x8100)))[0].key)

    def test_options_of_a_segment_that_tell_it_from_one_that_is_sent_again(self) -> None:
        stamps, block = bytes.fromhex("080a0d6d4d09c9040011"), bytes.fromhex("050a5a0102035a01078b")
        cases = {
            b"": b"",
            b"\1\1" + stamps: stamps,
            b"\1\1" + block + b"\1\1" + stamps: block + stamps,
            bytes.fromhex("020405b40402") + stamps + bytes.fromhex("01030307"): stamps,
            b"\0" + stamps: b"",
        }
        for options, told in cases.items():
            self.assertEqual(headers.telling(options), told, options.hex())
        for options in (b"\1\x08", b"\x08\0", b"\x08\1", b"\2\4\5"):
            self.assertIsNone(headers.telling(options), options.hex())

    def test_fragments_and_extension_headers(self) -> None:
        whole, six = making.udp("10.0.0.1", "10.0.0.2"), ("2001:db8::1", "2001:db8::2")
        cases = {
            whole: False,
            whole[:6] + b"\x40\0" + whole[8:]: False,
            whole[:6] + b"\x20\0" + whole[8:]: True,
            whole[:6] + b"\0\1" + whole[8:]: True,
            making.udp(*six): False,
            **{making.ip(*six, it, b"\x11" + bytes(7) + making.udp(*six)[40:]): True for it in (0, 43, 44, 60)},
        }
        for datagram, wanted in cases.items():
            self.assertIs(headers.decode(101, datagram)[0].is_apart, wanted, datagram.hex())

    def test_no_frame_makes_it_fail(self) -> None:
        for link in (0, 1, 101, 113, 276):
            for length in range(len(FRAME)):
                headers.described(captures.Packet(0, link, making.framed(link, M1)[:length]))

    def test_words(self) -> None:
        cases = (
            (M1, "UDP 10.0.0.1:5000 > 10.0.0.2:6000 0 bytes"),
            (making.tcp("10.0.0.1", "10.0.0.2", flags=2), "TCP 10.0.0.1:5000 > 10.0.0.2:80 SYN"),
            (making.tcp("2001:db8::1", "2001:db8::2", flags=0x18, payload=b"abc"), "TCP [2001:db8::1]:5000 > [2001:db8::2]:80 ACK,PSH 3 bytes"),
            (making.ip("10.0.0.1", "10.0.0.2", 1, b"12345678"), "ICMP 10.0.0.1 > 10.0.0.2"),
        )
        for datagram, wanted in cases:
            self.assertEqual(headers.described(captures.Packet(0, 101, datagram))[0], wanted)

    def test_addresses_as_a_declaration_spells_them(self) -> None:
        cases = (("10.0.0.1", "10.0.0.1"), ("2001:db8::a1", "2001:db8:0:0:0:0:0:a1"))
        for text, wanted in cases:
            self.assertEqual(headers.address_text(making.address(text)), wanted)


class Logs(unittest.TestCase):
    def test_rows(self) -> None:
        self.assertEqual(read(b'000005,send,m1,\n7,receive,m1,"a reply, at last"\n\n9,local,,shut down\n', logs.read_log).rows,
                         [(5, "send", "m1", ""), (7, "receive", "m1", "a reply, at last"), (9, "local", "", "shut down")])  # fmt: skip

    def test_resolution(self) -> None:
        cases = ((b"1000,local,,\n2000,local,,\n3000,local,,\n", 1000), (b"1000,local,,\n2000,local,,\n", 1), (b"1,local,,\n20,local,,\n30,local,,\n", 1))
        for data, wanted in cases:
            self.assertEqual(read(data, logs.read_log).resolution(), wanted)

    def test_what_is_no_row_is_told(self) -> None:
        self.assertEqual(len(read(b"1,local,,\ntime,kind,key,text\n", logs.read_log).odd), 1)


if __name__ == "__main__":
    unittest.main()
