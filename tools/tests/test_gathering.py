"""Compressed files are unpacked by what they are, and rings of captures are joined, into the folder alone."""

import bz2
import gzip
import lzma
import os
import shutil
import subprocess
import tempfile
import unittest
from unittest import mock

import gathering
import making_captures as making
from captures import read_capture
from inputs import Input


def packets(first: int, count: int) -> list[tuple[int, bytes]]:
    return [(10**9 + k, making.framed(making.ETHERNET, making.udp("10.0.0.1", "10.0.0.2", ident=k + 1))) for k in range(first, first + count)]


class Room(unittest.TestCase):
    def setUp(self) -> None:
        room = tempfile.TemporaryDirectory()
        self.addCleanup(room.cleanup)
        self.room, self.said = room.name, []
        self.folder = f"{self.room}/kept"

    def write(self, name: str, data: bytes) -> str:
        with open(f"{self.room}/{name}", "wb") as it:
            it.write(data)
        return f"{self.room}/{name}"

    def gather(self, *words: str) -> list[Input]:
        return gathering.Gathering(self.folder, self.said.append).inputs(words)

    def stamps(self, *words: str) -> list[list[int]]:
        return [[packet.stamp - 10**9 for packet in it.content.packets] for it in self.gather(*words)]


class Compressed(Room):
    def test_each_kind_is_told_by_its_first_bytes(self) -> None:
        whole = making.classic(packets(0, 5))
        kinds = {"gz": gzip.compress(whole), "xz": lzma.compress(whole), "bz2": bz2.compress(whole)}
        for command in ("zstd", "lz4"):
            if shutil.which(command):
                kinds[command] = subprocess.run([command, "-c"], input=whole, capture_output=True, check=True).stdout
        for name, data in kinds.items():
            # (the name says nothing)
            found = self.gather(f"a={self.write(f'a-{name}.pcap', data)}")
            self.assertEqual((len(found[0].content.packets), os.path.dirname(found[0].path)), (5, self.folder), name)
            with open(found[0].path, "rb") as it:
                self.assertEqual(it.read(), whole, name)

    def test_a_log_is_unpacked_too(self) -> None:
        self.assertEqual(self.gather(f"a={self.write('a.csv.gz', gzip.compress(b'1,local,,'))}")[0].content.rows, [(1, "local", "", "")])

    def test_a_file_that_is_cut_is_refused_and_leaves_nothing(self) -> None:
        whole = making.classic(packets(0, 500))
        for name, data in (("gz", gzip.compress(whole)), ("xz", lzma.compress(whole))):
            with self.assertRaisesRegex(ValueError, "cannot be unpacked to its end"):
                self.gather(f"a={self.write(name, data[:-20])}")
            self.assertEqual(os.listdir(self.folder), [])

    def test_a_command_that_is_not_there_is_named(self) -> None:
        path = self.write("a.zst", b"\x28\xb5\x2f\xfd" + bytes(20))
        with mock.patch("shutil.which", return_value=None), self.assertRaisesRegex(ValueError, "apt-get install zstd"):
            self.gather(f"a={path}")

    @unittest.skipUnless(shutil.which("zstd"), "no zstd is there")
    def test_a_command_that_fails_is_told(self) -> None:
        with self.assertRaisesRegex(ValueError, "cannot be unpacked to its end: "):
            self.gather(f"a={self.write('a.zst', bytes.fromhex('28b52ffd') + bytes(20))}")

    def test_what_unpacks_to_more_than_a_session_takes_is_refused(self) -> None:
        path = self.write("a.gz", gzip.compress(bytes(5000)))
        with mock.patch("gathering.BYTES_MOST", 4999), self.assertRaisesRegex(ValueError, "more than 2\\^28 bytes"):
            self.gather(f"a={path}")

    def test_no_link_is_followed(self) -> None:
        os.mkdir(self.folder)
        os.symlink(self.write("victim", b"precious"), f"{self.folder}/unpacked-1")
        with self.assertRaisesRegex(ValueError, "is a symbolic link"):
            self.gather(f"a={self.write('a.gz', gzip.compress(b'1,local,,'))}")
        with open(f"{self.room}/victim", "rb") as it:
            self.assertEqual(it.read(), b"precious")


class Rings(Room):
    def ring(self, *more: bytes) -> list[str]:
        parts = [making.classic(packets(first, 3)) for first in (6, 0, 3)]
        return [self.write(f"ring-{at}.pcap", data) for at, data in enumerate([*parts, *more])]

    def test_files_are_joined_in_the_order_of_their_first_packets(self) -> None:
        paths = self.ring()
        for word in (",".join(paths), f"{self.room}/ring-*.pcap", f"{paths[1]},{self.room}/ring-[02].pcap"):
            self.assertEqual(self.stamps(f"a={word}"), [list(range(9))], word)
        self.assertEqual(self.stamps(*(f"a={it}" for it in paths)), [list(range(9))])
        self.assertEqual(read_capture(f"{self.folder}/joined-a.pcap").odd, [])

    def test_rings_of_two_labels_are_apart(self) -> None:
        paths = self.ring()
        self.assertEqual(self.stamps(f"a={paths[0]},{paths[1]}", f"b={paths[2]}"), [[0, 1, 2, 6, 7, 8], [3, 4, 5]])

    def test_a_packet_that_is_cut_is_left_out_and_told(self) -> None:
        paths = [self.write(name, data) for name, data in (("a", making.classic(packets(0, 3))[:-1]), ("b", making.classic(packets(3, 3))))]
        self.assertEqual(self.stamps(f"a={','.join(paths)}"), [[0, 1, 3, 4, 5]])
        self.assertTrue(self.said[0].startswith("The last ") and self.said[0].endswith(" are no whole packet, and are left out."), self.said)

    def test_files_are_called_as_they_were_named(self) -> None:
        whole = [making.classic(packets(first, 3)) for first in (0, 3, 6, 9)]
        whole[1] = whole[1][:-1]
        paths = [self.write(f"r{at}.gz", gzip.compress(data)) for at, data in enumerate(whole)]
        self.assertEqual(self.gather(f"a={','.join(paths)}")[0].shown, f"{', '.join(paths[:3])} and 1 more")
        self.assertEqual([it.split(" of ")[1].split(" are ")[0] for it in self.said if it.startswith("The last")], [paths[1]])
        self.assertEqual(self.gather(f"b={paths[0]}")[0].shown, paths[0])

    def test_headers_that_differ_are_refused(self) -> None:
        one = self.ring()[1]
        last = packets(9, 1)
        others = {"resolution": making.classic(last, magic=0xA1B2C3D4, unit=1000), "byte order": making.classic(last, order=">"), "link type": making.classic(last, making.RAW)}
        for what, data in others.items():
            with self.assertRaisesRegex(ValueError, f"another .*{what}.* than"):
                self.gather(f"a={one},{self.write('other.pcap', data)}")

    def test_compressed_files_of_a_ring(self) -> None:
        for at in range(3):
            self.write(f"r{at}.gz", gzip.compress(making.classic(packets(3 * at, 3))))
        self.assertEqual(self.stamps(f"a={self.room}/r*.gz"), [list(range(9))])

    def test_files_of_pcapng_are_pieces_in_the_order_of_their_first_packets(self) -> None:
        for at, first in enumerate((3, 0)):
            self.write(f"r{at}.pcapng", making.pcapng(packets(first, 3)))
        self.assertEqual(self.stamps(f"a={self.room}/r*.pcapng"), [[0, 1, 2], [3, 4, 5]])

    def test_a_comma_in_a_name_parts_nothing(self) -> None:
        self.assertEqual(self.stamps(f"a={self.write('x,y.pcap', making.classic(packets(0, 2)))}"), [[0, 1]])

    def test_a_pattern_that_no_file_has(self) -> None:
        with self.assertRaisesRegex(ValueError, "no file is like .*nothing"):
            self.gather(f"a={self.room}/nothing*")


if __name__ == "__main__":
    unittest.main()
