"""The examples of docstrings and of the guide; and the package as it is installed."""

import ast
import doctest
import importlib
import os
import pkgutil
import re
import sys
import unittest
from typing import Iterator, List

import tracesync

HOME = os.path.dirname(os.path.realpath(tracesync.__file__))
TOP = os.path.dirname(os.path.dirname(HOME))
# The program, if the examples that ask a session are to run.
PROGRAM = os.environ.get("PROGRAM")
MODULES = ["tracesync", *(f"tracesync.{it.name}" for it in pkgutil.iter_modules(tracesync.__path__))]
ASKING = re.compile(r"\bSession\(")


def examples() -> List[doctest.DocTest]:
    """Returns the examples of all docstrings."""
    finder = doctest.DocTestFinder(exclude_empty=True)
    return [test for name in MODULES for test in finder.find(importlib.import_module(name)) if test.examples]


def guide() -> doctest.DocTest:
    """Returns the examples of the guide, whose section for notebooks alone has any."""
    with open(f"{TOP}/docs/GUIDE.md", encoding="utf-8") as it:
        return doctest.DocTestParser().get_doctest(it.read(), {}, "GUIDE.md", f"{TOP}/docs/GUIDE.md", 0)


class Examples(unittest.TestCase):
    """Each example prints what is written there."""

    def run_all(self, tests: List[doctest.DocTest]) -> int:
        """Runs examples in the top folder, and returns how many there were."""
        before = os.getcwd()
        os.chdir(TOP)
        self.addCleanup(os.chdir, before)
        said: List[str] = []
        runner = doctest.DocTestRunner(verbose=False, optionflags=doctest.ELLIPSIS)
        for it in tests:
            runner.run(it, out=said.append)
        if said:
            self.fail("".join(said))
        return runner.tries

    def asking(self) -> Iterator[doctest.DocTest]:
        return (it for it in examples() if ASKING.search(it.docstring or ""))

    def test_those_that_ask_nobody(self) -> None:
        asking = {it.name for it in self.asking()}
        self.assertGreater(self.run_all([it for it in examples() if it.name not in asking]), 10)

    @unittest.skipUnless(PROGRAM, "no program is there")
    def test_those_that_ask_a_session(self) -> None:
        os.environ["TRACESYNC"] = str(PROGRAM)
        self.addCleanup(os.environ.pop, "TRACESYNC")
        self.assertGreater(self.run_all([*self.asking()]), 20)

    @unittest.skipUnless(PROGRAM, "no program is there")
    def test_the_guide(self) -> None:
        os.environ["TRACESYNC"] = str(PROGRAM)
        self.addCleanup(os.environ.pop, "TRACESYNC")
        self.assertGreater(self.run_all([guide()]), 2)

    def test_each_question_has_an_example(self) -> None:
        named = {it.name.rpartition(".")[2] for it in self.asking() if it.name.startswith("tracesync.session.Session.")}
        methods = {it for it in vars(tracesync.Session) if not it.startswith("_")}
        self.assertEqual(named, methods - {"close"})


class Package(unittest.TestCase):
    """The package stands on the standard library of Python 3.9 alone, and has types and texts for all that it gives."""

    def files(self) -> List[str]:
        return sorted(it for it in os.listdir(HOME) if it.endswith(".py"))

    def test_it_imports_the_standard_library_alone(self) -> None:
        known = getattr(sys, "stdlib_module_names", None)
        if known is None:
            self.skipTest("this Python does not name its own modules")
        found = set()
        for name in self.files():
            with open(f"{HOME}/{name}", encoding="utf-8") as it:
                for node in ast.walk(ast.parse(it.read(), feature_version=(3, 9))):
                    if isinstance(node, ast.Import):
                        found |= {alias.name for alias in node.names}
                    elif isinstance(node, ast.ImportFrom) and not node.level:
                        found.add(str(node.module))
        # (the reader of TOML is there from 3.11 on, and pandas where somebody asks for a table)
        self.assertEqual({it for it in found if it.split(".")[0] not in known} - {"tomllib"}, {"pandas"})

    def test_all_that_it_gives_has_a_text(self) -> None:
        for name in tracesync.__all__:
            found = getattr(tracesync, name)
            self.assertTrue(found.__doc__ and not found.__doc__.startswith(f"{name}("), name)
        self.assertTrue(os.path.exists(f"{HOME}/py.typed"))

    def test_its_version_is_that_of_the_newest_entry(self) -> None:
        with open(f"{TOP}/CHANGELOG.md", encoding="utf-8") as it:
            entry = re.search(r"^## (?:\d+ (?:to|and) )?(\d+)\. ", it.read(), re.M)
        with open(f"{TOP}/python/pyproject.toml", encoding="utf-8") as it:
            version = re.search(r'^version = "(.*)"$', it.read(), re.M)
        assert entry and version
        self.assertEqual(version[1], entry[1])


if __name__ == "__main__":
    unittest.main()
