"""Events are named by connection, key and frame as they stand in their files; frames are those that tshark tells."""

import os
import shutil
import struct
import subprocess
import tempfile
import unittest

import making_captures as making
import records
from captures import Packet, read_capture
from inputs import Input
from logs import Log

A, B = "10.0.0.1", "10.0.0.2"
FRAME = making.framed(making.ETHERNET, making.udp(A, B))
PADDED = FRAME + bytes(-len(FRAME) % 4)
# Blocks of pcapng, and whether Wireshark counts them as frames; of the last ones not each version does the same.
SIMPLE = making.block(3, struct.pack("<I", len(FRAME)) + PADDED)
OBSOLETE = making.block(2, struct.pack("<HHIIII", 0, 0, 0, 5, len(FRAME), len(FRAME)) + PADDED)
JOURNAL = making.block(9, b"__REALTIME_TIMESTAMP=1\nMESSAGE=hi\n\n\0")
STATISTICS = making.block(5, struct.pack("<III", 0, 0, 1))
CUSTOM = making.block(0x0BAD, struct.pack("<I", 32473))
PACKET = making.block(6, struct.pack("<IIIII", 0, 0, 5, len(FRAME), len(FRAME)) + PADDED)


def connection(datagram: bytes, link: int = making.RAW) -> str:
    return records.connection_of(Packet(0, link, making.framed(link, datagram)))


class Frames(unittest.TestCase):
    def frames(self, data: bytes) -> list[int | None]:
        with tempfile.TemporaryDirectory() as room:
            path = os.path.join(room, "a")
            with open(path, "wb") as it:
                it.write(data)
            found = [it.frame for it in read_capture(path).packets]
            if shutil.which("tshark") and None not in found:
                words = ["tshark", "-r", path, "-T", "fields", "-e", "frame.number"]
                shown = subprocess.run(words, capture_output=True, text=True).stdout.split()
                # (the last packet is the last frame)
                self.assertEqual(shown[-1:], [str(found[-1])])
            return found

    def test_the_nth_packet_is_frame_n_of_a_classic_capture(self) -> None:
        self.assertEqual(self.frames(making.classic([(9, FRAME), (10, FRAME), (11, FRAME)])), [1, 2, 3])

    def test_other_frames_of_pcapng_count_too(self) -> None:
        first = making.pcapng([(9, FRAME)])
        cases = ((b"", 2), (SIMPLE, 3), (OBSOLETE, 3), (JOURNAL, 3), (STATISTICS, 2), (SIMPLE + STATISTICS + OBSOLETE, 4))
        for blocks, wanted in (*cases, (making.pcapng([]), 2)):
            self.assertEqual(self.frames(first + blocks + PACKET), [1, wanted])

    def test_behind_a_block_that_not_each_version_counts_no_frame_is_told(self) -> None:
        self.assertEqual(self.frames(making.pcapng([(9, FRAME)]) + CUSTOM + PACKET), [1, None])


class Records(unittest.TestCase):
    def test_a_connection_is_the_same_both_ways(self) -> None:
        self.assertEqual(connection(making.tcp(A, B, (5000, 80))), "TCP 10.0.0.1:5000 and 10.0.0.2:80")
        self.assertEqual(connection(making.tcp(B, A, (80, 5000))), "TCP 10.0.0.1:5000 and 10.0.0.2:80")

    def test_other_packets(self) -> None:
        wide = making.udp("2001:db8::1", "2001:db8::2")
        self.assertEqual(connection(wide), "UDP [2001:db8::1]:5000 and [2001:db8::2]:6000")
        self.assertEqual(connection(making.ip(A, B, 1, b"12345678")), "ICMP 10.0.0.1 and 10.0.0.2")
        arp = Packet(0, making.ETHERNET, making.MACS + b"\x08\x06" + bytes(28))
        self.assertEqual(records.connection_of(arp), "")

    def test_a_row_has_its_key_and_text(self) -> None:
        log = Input("a", "a", "a.csv", "log", Log([(5, "send", "m1", "hello")]))
        self.assertEqual(list(records.records_of(log)), [records.Record("hello", "hello", key="m1", path="a.csv")])


if __name__ == "__main__":
    unittest.main()
