"""The map of crates: what is direct, what is above, and that a stale page is told."""

import shutil
import subprocess
import tempfile
import unittest
from pathlib import Path
from xml.etree import ElementTree

from common import TOP
from crate_map import CrateMap
from crate_picture import CratePicture

TEXT = """# name: what it stands on

# numbers
low: thiserror
other:

# lists
mid: low thiserror
top: low, mid, other
far: low
"""


class Crates(unittest.TestCase):
    def setUp(self):
        self.crates = CrateMap(TEXT)

    def test_layers(self):
        self.assertEqual(self.crates.layers, {"numbers": ["low", "other"], "lists": ["mid", "top", "far"]})
        self.assertEqual(self.crates.crates["mid"].libraries, ("thiserror",))

    def test_what_others_imply_is_left_out(self):
        self.assertEqual(self.crates.direct("top"), ["mid", "other"])
        self.assertEqual(self.crates.below("top"), {"low", "mid", "other"})
        self.assertEqual(self.crates.above("low"), ["mid", "top", "far"])
        self.assertEqual(self.crates.longest_chain(), ["low", "mid", "top"])

    def test_order(self):
        with self.assertRaisesRegex(ValueError, "has top in front of low"):
            CrateMap("# all\ntop: low\nlow:\n")

    def test_picture(self):
        drawn = ElementTree.fromstring(CratePicture(self.crates).svg())
        names = [it.text for it in drawn.iter("{http://www.w3.org/2000/svg}text")]
        self.assertEqual(names, ["numbers", "lists", "low", "other", "mid", "top", "far"])
        arrows = [it for it in drawn.iter("{http://www.w3.org/2000/svg}path") if "marker-end" in it.attrib]
        self.assertEqual(len(arrows), 4)


class Script(unittest.TestCase):
    def run_in(self, folder, *words):
        ran = subprocess.run([f"{folder}/tools/crate-graph", *words], capture_output=True, text=True)
        return ran.returncode, ran.stdout, ran.stderr

    def test_stale_pages_are_told(self):
        with tempfile.TemporaryDirectory() as room:
            shutil.copytree(f"{TOP}/tools", f"{room}/tools")
            (Path(room) / "docs").mkdir()
            for name in ("crates.txt", "docs/ARCHITECTURE.md", "docs/crates.svg"):
                shutil.copyfile(f"{TOP}/{name}", f"{room}/{name}")
            self.assertEqual(self.run_in(room, "--check"), (0, "", ""))
            with open(f"{room}/crates.txt", "a", encoding="utf-8") as it:
                it.write("newest: atto\n")
            status, _, said = self.run_in(room, "--check")
            self.assertEqual(status, 1)
            self.assertIn("docs/ARCHITECTURE.md lacks: | `newest` | ? |", said)
            self.assertIn("docs/crates.svg is of other crates", said)
            self.assertEqual(self.run_in(room, "--write"), (0, "", ""))
            status, _, said = self.run_in(room, "--check")
            self.assertEqual((status, said.splitlines()[0]), (1, "crate-graph: no phrase: | `newest` | ? |"))

    def test_text(self):
        status, printed, _ = self.run_in(TOP, "--tree", "problem")
        self.assertEqual((status, printed), (0, "problem\n  interner\n  problem_model\n    atto\n    line_format\n"))
        self.assertEqual(self.run_in(TOP, "--above", "commands"), (0, "tracesync\nprogram_tests\n", ""))


if __name__ == "__main__":
    unittest.main()
