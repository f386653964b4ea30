"""Tests of what tools/contracts reads of definitions and calls, and of the two pages that stand in docs."""

import subprocess
import sys
import unittest

from common import TOOLS, TOP

from calls import calls_of, handed_out  # noqa: E402
from definitions import definitions_of  # noqa: E402
from wrapping import wrapped, wrapped_code  # noqa: E402

SPECS = """-- The subject of the file.
use Rattle.std.specs.Prelude.{ℕ}

-- ---- a part
-- what it says,
-- in two lines
pub record Format : Type 0 where
  -- its head
  pub head : ℕ
  pub neck : ℕ

  pub tail : ℕ

module _ (n : ℕ) where
  -- inside a module
  abbrev pub inside : ℕ
  inside = n

abbrev private : ℕ
private = 0

abbrev pub bare : ℕ
bare = 0
"""

SOURCE = """/// What a type is.
pub struct Count {
    n: u64,
}

impl Count {
    /// One more.
    ///
    /// - an item
    pub fn next(
        &mut self,
        by: u64,
    ) -> Result<u64, Failed>
        requires { by.now < 3 }
        // What comes.
        ensures more { result ≡ record { n = 1;
            m = 2 } }
    {
        self.n += by;
        fn_like();
    }

    fn hidden(&self) {}
}

impl Sink for Count {
    fn write(&self) {}
}

pub fn aside() {}
"""


class Definitions(unittest.TestCase):
    def test_names_comments_and_fields(self):
        found = definitions_of(SPECS)
        self.assertEqual([it.names for it in found], [["Format"], ["inside"], ["bare"]])
        self.assertEqual([it.comment for it in found], ["what it says, in two lines", "inside a module", ""])
        self.assertEqual([(it.names, it.comment) for it in found[0].fields], [(["head", "neck"], "its head")])


class Calls(unittest.TestCase):
    def test_calls_of_a_type_that_is_handed_out(self):
        calls = list(calls_of(SOURCE, "count", handed_out("mod count;\npub use count::{\n    Count,\n};\n")))
        self.assertEqual([it.name for it in calls], ["Count::next"])
        self.assertEqual(calls[0].signature, "fn next(&mut self, by: u64) -> Result<u64, Failed>")
        self.assertEqual(calls[0].told, ["One more.", "", "- an item"])
        self.assertEqual([it.line() for it in calls[0].clauses], ["requires { by.now < 3 }", "ensures more { result ≡ record { n = 1; m = 2 } }"])
        self.assertEqual(calls[0].clauses[1].above, ["// What comes."])

    def test_modules_and_what_is_kept(self):
        whole = calls_of(SOURCE, "count", handed_out("pub mod count;\n"))
        self.assertEqual([it.name for it in whole], ["Count::next", "count::aside"])
        self.assertEqual(list(calls_of(SOURCE, "count", handed_out("mod count;\npub use other::Count2;\n"))), [])


class Wrapping(unittest.TestCase):
    def test_text(self):
        words = "abc " + " ".join(["word"] * 23) + " - after [a link of words](page.md)"
        self.assertEqual(wrapped(words, "- ", "  ")[1], "  word - after [a link of words](page.md)")

    def test_code_is_cut_and_stays(self):
        line = "ensures it { " + " → ".join(f"Says (a b{k}) c" for k in range(20)) + " }"
        cut = wrapped_code(line)
        self.assertLessEqual(max(map(len, cut)), 120)
        self.assertTrue(all(it.startswith("    → ") for it in cut[1:]))
        self.assertEqual(" ".join(it.strip() for it in cut), line)


class Pages(unittest.TestCase):
    def test_pages_are_those_of_the_sources(self):
        done = subprocess.run([sys.executable, f"{TOOLS}/contracts", "--check"], cwd=TOP, capture_output=True, text=True, check=False)
        self.assertEqual((done.returncode, done.stderr), (0, ""))


if __name__ == "__main__":
    unittest.main()
