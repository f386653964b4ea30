"""The package of tools/package: made in a clone of its own, with a program of this machine that prints its words in place of the real one."""

import hashlib
import io
import os
import re
import shutil
import subprocess
import sys
import tarfile
import tempfile
import unittest
from pathlib import Path

from commit import ENTRY, Commit
from common import PROGRAM, TOP
from elf import needs_of, packages_of, version_of
from front import HELP_FILE, front_of, help_of
from manual import macros
from manual_pages import PAGES, main_pages
from tool_help import TOOLS, entries_of

ECHO = shutil.which("echo") or ""
IS_THERE = all(map(shutil.which, ("git", "dpkg-deb", "bash"))) and ECHO
PARTS = ("tracesync", "CHANGELOG.md", "crates.txt", "docs", "examples/session", "packaging", "python", "tools")
SECONDS = 1_700_000_000
# A page that a package has not, since it is for whoever has a clone.
FOR_OTHERS = ("docs/CLAIMS.md",)
GIT = {f"GIT_{who}_{what}": text for who in ("AUTHOR", "COMMITTER") for what, text in (("NAME", "a"), ("EMAIL", "a@a"), ("DATE", f"{SECONDS} +0000"))}
ENVIRONMENT = {**{name: text for name, text in os.environ.items() if name != "PROGRAM"}, **GIT, "GIT_CONFIG_GLOBAL": os.devnull, "GIT_CONFIG_SYSTEM": os.devnull}


def made_clone(room: str) -> Path:
    """Makes a clone with what a package has, and two sources, and returns its folder."""
    top = Path(room) / "clone"
    for part in (*PARTS, HELP_FILE):
        (top / part).parent.mkdir(parents=True, exist_ok=True)
        if Path(TOP, part).is_dir():
            shutil.copytree(f"{TOP}/{part}", top / part, ignore=shutil.ignore_patterns("tests", "__pycache__"))
        else:
            shutil.copy2(f"{TOP}/{part}", top / part)
    for name in ("crates/a/src/lib.rt", "crates/a/must-fail/b.rt", "crates/a_tests/specs/A.antt"):
        (top / name).parent.mkdir(parents=True, exist_ok=True)
        (top / name).write_text(f"{name}\n")
    (top / ".gitignore").write_text("/out/\ncrates/*/out/\n")
    for words in (["init", "-q"], ["add", "-A"], ["commit", "-q", "-m", "all"]):
        subprocess.run(["git", "-C", top, *words], env=ENVIRONMENT, check=True)
    return top


def package(top: Path, *words: str, **more: str) -> subprocess.CompletedProcess[str]:
    return subprocess.run([sys.executable, top / "tools/package", *words], env={**ENVIRONMENT, **more}, capture_output=True, text=True)


@unittest.skipUnless(IS_THERE, "git, dpkg-deb, bash or echo is not there")
class Package(unittest.TestCase):
    """One package, made once and unpacked, and what it has."""

    @classmethod
    def setUpClass(cls) -> None:
        room = tempfile.TemporaryDirectory()
        cls.addClassCleanup(room.cleanup)
        cls.room = Path(room.name)
        cls.top = made_clone(room.name)
        (cls.room / "gate.log").write_text("first\n\x1b[1m7 passed, 0 failed\n\n")
        cls.ran = package(cls.top, "--program", PROGRAM or ECHO, "--gate-log", f"{cls.room}/gate.log")
        if cls.ran.returncode:
            raise AssertionError(cls.ran.stderr)
        cls.deb, cls.tar = (Path(it) for it in cls.ran.stdout.splitlines())
        with tarfile.open(cls.tar) as archive:
            cls.entries = archive.getmembers()
            archive.extractall(cls.room / "unpacked", filter="tar")
        cls.own = next((cls.room / "unpacked").iterdir())

    def call(self, name: str, *words: str, text: str = "", **more: str) -> subprocess.CompletedProcess[str]:
        return subprocess.run([self.own / "bin" / name, *words], input=text, cwd=self.room, env={**ENVIRONMENT, **more}, capture_output=True, text=True)

    def pages(self) -> list[Path]:
        """Returns the manual pages, unpacked."""
        found = sorted(self.own.glob("share/man/*/*.gz"))
        subprocess.run(["gzip", "-dkf", *found], check=True)
        return [it.with_suffix("") for it in found]

    def test_the_names_have_the_version(self) -> None:
        self.assertEqual(self.deb.parent, self.top / "out")
        number = ENTRY.search((self.top / "CHANGELOG.md").read_text())
        assert number
        self.assertRegex(self.deb.name, rf"^tracesync_{number[1]}\+202311142213\.[0-9a-f]{{12}}_amd64\.deb$")
        self.assertEqual(self.tar.name, self.deb.name.replace("_amd64.deb", ".tar.gz").replace("_", "-"))

    def test_the_same_inputs_give_the_same_bytes(self) -> None:
        for path in self.top.rglob("*"):
            os.utime(path, (1, 1))
        words = ["--folder", f"{self.room}/again", "--program", PROGRAM or ECHO, "--gate-log", f"{self.room}/gate.log"]
        before = os.umask(0o077)
        try:
            ran = package(self.top, *words, TZ="Asia/Tokyo", COLUMNS="40", LC_ALL="C")
        finally:
            os.umask(before)
        self.assertEqual(ran.returncode, 0, ran.stderr)
        for path, first in zip(ran.stdout.splitlines(), (self.deb, self.tar)):
            self.assertEqual(Path(path).read_bytes(), first.read_bytes())

    def test_both_have_the_same_files_of_root(self) -> None:
        data = subprocess.run(["dpkg-deb", "--fsys-tarfile", self.deb], capture_output=True, check=True).stdout
        with tarfile.open(fileobj=io.BytesIO(data)) as archive:
            packed = {it.name.removeprefix("./usr/"): (it, archive.extractfile(it)) for it in archive.getmembers()}
        with tarfile.open(self.tar) as archive:
            for it in self.entries[1:]:
                other, _ = packed[it.name.partition("/")[2]]
                self.assertEqual((it.mode, it.mtime, it.uid, it.gid, it.uname, it.gname), (other.mode, SECONDS, 0, 0, "root", "root"))
                self.assertEqual((other.mtime, other.uid, other.gid, it.size), (SECONDS, 0, 0, other.size))
                self.assertEqual(it.mode, 0o755 if it.isdir() or it.mode & 0o100 else 0o644)
        self.assertEqual([it.name for it in self.entries], sorted(it.name for it in self.entries))
        self.assertEqual(len(self.entries) - 1, len(packed) - 2)

    def test_the_control_file_names_what_the_program_needs(self) -> None:
        told = subprocess.run(["dpkg-deb", "--field", self.deb], capture_output=True, text=True, check=True).stdout
        wanted = ", ".join(packages_of(needs_of(Path(PROGRAM or ECHO).read_bytes())))
        self.assertEqual(re.findall("^Depends: (.*)$", told, re.M), [wanted] if wanted else [])
        self.assertNotIn("License", told)
        self.assertFalse((self.own / "share/doc/tracesync/copyright").exists())

    def test_help_and_version_are_answered(self) -> None:
        ran = self.call("tracesync", "--version")
        commit = subprocess.run(["git", "-C", self.top, "rev-parse", "HEAD"], env=ENVIRONMENT, capture_output=True, text=True).stdout.strip()
        self.assertEqual((ran.returncode, ran.stdout.splitlines()[0].split(", commit ")[1]), (0, commit))
        with open(f"{self.top}/{HELP_FILE}", encoding="utf-8") as it:
            told, program = help_of(it.read()), self.call("tracesync", "--help").stdout
        # (what stands in for the program has a help of its own)
        self.assertTrue(program == told if PROGRAM else program)

    def test_the_front_builds_nothing(self) -> None:
        text = (self.own / "bin/tracesync").read_text()
        for it in ("is_old", "crates", "tools/build", "git "):
            self.assertNotIn(it, text)
        self.assertEqual(subprocess.run(["bash", "-n", self.own / "bin/tracesync"], capture_output=True).returncode, 0)

    @unittest.skipIf(PROGRAM, "the real program stands in the package")
    def test_the_front_becomes_the_program(self) -> None:
        os.symlink(self.own / "bin/tracesync", self.room / "link")
        for path in (self.own / "bin/tracesync", self.room / "link"):
            ran = subprocess.run([path, "solve", "no such", "*"], cwd=self.room, capture_output=True, text=True)
            self.assertEqual((ran.returncode, ran.stdout, ran.stderr), (0, "solve no such *\n", ""))
        self.assertEqual(self.call("tracesync", "solve", "nosuch").stderr, "tracesync: there is no file nosuch\n")

    @unittest.skipUnless(PROGRAM, "no program is there")
    def test_a_session_answers_as_the_program_does(self) -> None:
        folder = self.own / "share/doc/tracesync"
        script = (folder / "examples/session/script.txt").read_text()
        words = ["session", "examples/session/hosts.toml"]
        one, other = (subprocess.run([it, *words], cwd=folder, input=script, capture_output=True, text=True) for it in (self.own / "bin/tracesync", PROGRAM))
        self.assertEqual((one.returncode, one.stdout), (0, other.stdout))
        self.assertTrue(one.stdout.startswith("added events 3 "))

    def test_each_tool_tells_its_name_there(self) -> None:
        for tool in TOOLS:
            ran = self.call(f"tracesync-{tool}", "--help")
            self.assertEqual((ran.returncode, ran.stderr), (0, ""))
            self.assertIn(f"tracesync-{tool} ", ran.stdout)
            for name in ("tools/", "./tracesync", "--look"):
                self.assertNotIn(name, ran.stdout)
            self.assertEqual(self.call(f"tracesync-{tool}", "--what").returncode, 2)
        self.assertIn("it is for a clone".replace("it ", ""), self.call("tracesync-timeline", "--look", "a=b").stderr)

    def test_what_the_pages_name_stands_there(self) -> None:
        folder = self.own / "share/doc/tracesync"
        for page in (folder / "docs").glob("*.md"):
            text = page.read_text()
            links = [page.parent / it for it in re.findall(r"\]\(([^):]+)\)", text)]
            pages = [folder / it for it in re.findall(r"`(docs/[A-Z]+\.md)`", text) if it not in FOR_OTHERS]
            self.assertEqual([str(it.relative_to(folder)) for it in (*links, *pages) if not it.exists()], [], page.name)

    def test_tools_run_the_program_that_is_named(self) -> None:
        program = self.room / "program"
        program.write_text("#!/bin/sh\necho \"$*\" >> ran\nexit 3\n")
        program.chmod(0o755)
        (self.room / "a.csv").write_text("1,local,,\n")
        self.call("tracesync-timeline", "a=a.csv", "--declaration", f"{TOP}/examples/session/hosts.toml", PROGRAM=f"{program}")
        self.assertTrue((self.room / "ran").read_text().startswith("session "))
        self.assertEqual(self.call("tracesync-rows", "--json", text='{"stamp": "1"}\n').stdout, "1000000000,local,,\n")

    def test_python_finds_its_package_and_that_the_program(self) -> None:
        script = "import site, sys; site.addsitedir(sys.argv[1]); import tracesync; print(tracesync.find_program())"
        more = {"PATH": f"{self.room}", "TRACESYNC": ""}
        words = [sys.executable, "-I", "-B", "-c", script, f"{self.own}/lib/python3/dist-packages"]
        ran = subprocess.run(words, cwd=self.room, env={**ENVIRONMENT, **more}, capture_output=True, text=True)
        self.assertEqual((ran.stdout, ran.stderr), (f"{self.own}/lib/tracesync/tracesync\n", ""))
        self.assertTrue((self.own / "lib/tracesync/python/tracesync/py.typed").exists())
        for it in (self.own / "lib/tracesync/python").rglob("*.py"):
            self.assertNotIn("tools/", it.read_text())

    def test_nothing_is_written_but_both_files(self) -> None:
        self.assertEqual(sorted(it.name for it in self.deb.parent.iterdir()), sorted([self.deb.name, self.tar.name]))
        left = subprocess.run(["git", "-C", self.top, "status", "--porcelain"], env=ENVIRONMENT, capture_output=True, text=True).stdout
        self.assertEqual(left, "")
        (self.room / "empty").mkdir()
        package(self.top, "--folder", f"{self.room}/folder", "--program", ECHO, TMPDIR=f"{self.room}/empty", HOME=f"{self.room}/empty")
        self.assertEqual((list((self.room / "empty").iterdir()), len(list((self.room / "folder").iterdir()))), ([], 2))

    def test_the_proof_has_the_sums(self) -> None:
        text = (self.own / "share/doc/tracesync/PROOF.txt").read_text()
        self.assertRegex(text, r"(?m)^gate +\?\[1m7 passed, 0 failed \(the last line of the log [0-9a-f]{64} that was named\)$")
        self.assertRegex(text, r"(?m)^program +one that was named")
        sums = dict(reversed(it.split("  ")) for it in re.findall(r"(?m)^[0-9a-f]{64}  .*$", text))
        self.assertEqual(sorted(sums), ["crates.txt", "crates/a/src/lib.rt", "crates/a_tests/specs/A.antt", HELP_FILE, "lib/tracesync/tracesync"])
        for path, found in sums.items():
            data = (self.own if path.startswith("lib/") else self.top).joinpath(path).read_bytes()
            self.assertEqual(hashlib.sha256(data).hexdigest(), found)
        for pattern, folder in re.findall(r"grep '([^']*)' (?:share/doc/tracesync/)?PROOF.txt( \| sha256sum -c --quiet)?", text):
            lines = "".join(f"{it}\n" for it in text.splitlines() if re.search(pattern, it))
            ran = subprocess.run(["sha256sum", "-c", "--strict"], cwd=self.top if folder else self.own, input=lines, capture_output=True, text=True)
            self.assertEqual((ran.returncode, ran.stderr), (0, ""))

    def test_manual_pages_are_without_warnings(self) -> None:
        names = {it.name for it in self.pages()}
        self.assertEqual(names, {f"{it.name}.{it.section}" for it in PAGES} | {f"tracesync-{it}.1" for it in TOOLS})
        for words in (["mandoc", "-Tlint", "-Wwarning"], ["groff", "-man", "-ww", "-z", "-Tutf8"]):
            if shutil.which(words[0]):
                ran = subprocess.run([*words, *self.pages()], capture_output=True, text=True)
                self.assertEqual(ran.stdout + ran.stderr, "")

    def test_bash_completes_commands_files_and_events(self) -> None:
        (self.room / "problem.txt").write_text("problem 1\nclock c 0 0 0 0\nevent c#1 c 5\nevent d#1 c 6\nend\n")
        path = self.own / "share/bash-completion/completions/tracesync"
        for words, wanted in (("me", "mergecap"), ("ends prob", "problem.txt"), ("ends problem.txt d", "d#1"), ("trial x", ""), ("thin prob", "problem.txt"), ("thin problem.txt c", "c#1"), ("thin problem.txt c#1 c#1 d", "d#1"), ("wid", "widen"), ("widen problem.txt p", ""), ("--v", "--version"), ("what x", ""), ("session x '<' prob", "problem.txt")):
            script = f'. "$0"; COMP_WORDS=(tracesync {words}); COMP_CWORD={len(words.split())}; _tracesync; echo "${{COMPREPLY[*]}}"'
            ran = subprocess.run(["bash", "-c", script, path], cwd=self.room, capture_output=True, text=True)
            self.assertEqual((ran.stdout, ran.stderr), (f"{wanted}\n", ""), words)
        for tool in TOOLS:
            script = f'. "$0"; COMP_WORDS=(x --he); COMP_CWORD=1; _tracesync_{tool}; echo "${{COMPREPLY[*]}}"'
            ran = subprocess.run(["bash", "-c", script, f"{path}-{tool}"], capture_output=True, text=True)
            self.assertEqual((ran.stdout, ran.stderr), ("--help\n", ""))

    @unittest.skipUnless(shutil.which("zsh"), "zsh is not there")
    def test_the_completions_are_a_script_of_zsh(self) -> None:
        path = self.own / "share/zsh/vendor-completions/_tracesync"
        ran = subprocess.run(["zsh", "-n", path], capture_output=True, text=True)
        self.assertEqual((ran.returncode, ran.stderr), (0, ""))
        self.assertNotIn("@", path.read_text())


@unittest.skipUnless(IS_THERE, "git, dpkg-deb, bash or echo is not there")
class Refusals(unittest.TestCase):
    """What cannot be packed is told in one line, with status 1, and nothing is written."""

    @classmethod
    def setUpClass(cls) -> None:
        room = tempfile.TemporaryDirectory()
        cls.addClassCleanup(room.cleanup)
        cls.room = Path(room.name)
        cls.top = made_clone(room.name)

    def refused(self, wanted: str, *words: str) -> None:
        ran = package(self.top, *words)
        self.assertEqual((ran.returncode, ran.stdout, len(ran.stderr.splitlines())), (1, "", 1), ran.stderr)
        self.assertIn(wanted, ran.stderr)
        self.assertFalse((self.top / "out").exists())

    def patched(self, old: bytes, new: bytes) -> str:
        """Makes a program with other bytes, and returns its path."""
        path = self.room / "patched"
        path.write_bytes(Path(ECHO).read_bytes().replace(old, new))
        return str(path)

    def test_the_words_of_the_tool(self) -> None:
        ran = package(self.top, "--help")
        self.assertEqual((ran.returncode, ran.stderr, "tools/package" in ran.stdout), (0, "", True))
        for words in (["--what"], ["a"], ["--folder"]):
            ran = package(self.top, *words)
            self.assertEqual((ran.returncode, ran.stdout, len(ran.stderr.splitlines())), (2, "", 1), ran.stderr)

    def test_a_program_that_is_none(self) -> None:
        self.refused("no program is built")
        self.refused("nosuch: No such file", "--program", f"{self.room}/nosuch")
        self.refused("it is no executable of Linux on x86-64", "--program", f"{self.top}/tracesync")
        self.refused("it is no executable of Linux on x86-64", "--program", os.devnull)

    def test_a_program_that_needs_more_than_the_c_library(self) -> None:
        loader, other = b"/lib64/ld-linux-x86-64.so.2", b"/opt64/ld-linux-x86-64.so.2"
        if loader not in Path(ECHO).read_bytes():
            self.skipTest("echo is of another form")
        self.refused("its loader is /opt64/", "--program", self.patched(loader, other))
        self.refused("it needs libX.so.6, which is no part of the C library", "--program", self.patched(b"libc.so.6", b"libX.so.6"))

    def test_a_program_that_is_older_than_a_source(self) -> None:
        built = self.top / "crates/tracesync/out/tracesync"
        built.parent.mkdir(parents=True)
        self.addCleanup(shutil.rmtree, built.parent.parent)
        shutil.copyfile(ECHO, built)
        os.utime(built, (1, 1))
        self.refused("is newer than the program: tools/build builds it anew")
        # (a crate of tests is no part of the program)
        os.utime(built)
        later = os.stat(built).st_mtime + 10
        os.utime(self.top / "crates/a_tests/specs/A.antt", (later, later))
        ran = package(self.top, "--folder", f"{self.room}/made")
        self.assertEqual((ran.returncode, ran.stderr), (0, ""))
        os.utime(self.top / "crates/a/src/lib.rt", (later, later))
        self.refused("crates/a/src/lib.rt is newer than the program")

    def test_a_log_that_is_none(self) -> None:
        self.refused("has no line: it is no log of a gate", "--program", ECHO, "--gate-log", os.devnull)
        self.refused("nosuch: No such file", "--program", ECHO, "--gate-log", f"{self.room}/nosuch")

    def test_a_file_that_was_changed(self) -> None:
        path = self.top / "CHANGELOG.md"
        text = path.read_text()
        self.addCleanup(path.write_text, text)
        path.write_text(f"{text}\n")
        self.refused("CHANGELOG.md has changes that are in no commit", "--program", ECHO)

    def test_what_is_no_clone(self) -> None:
        shutil.move(self.top / ".git", self.room / "moved")
        self.addCleanup(shutil.move, self.room / "moved", self.top / ".git")
        self.refused("a package is made in a clone", "--program", ECHO)

    def test_a_link_in_the_place_of_what_is_made(self) -> None:
        folder = self.room / "linked"
        made = package(self.top, "--folder", str(folder), "--program", ECHO).stdout.splitlines()
        os.remove(made[0])
        os.symlink("elsewhere", made[0])
        self.refused("is a symbolic link, which is not followed", "--folder", str(folder), "--program", ECHO)
        self.assertEqual(sorted(it.name for it in folder.iterdir()), sorted(os.path.basename(it) for it in made))


class Parts(unittest.TestCase):
    """The parts that a package is made by, each for itself."""

    def test_the_newest_entry_has_the_number(self) -> None:
        for text, wanted in (("# C\n\n## 20. A\n\n## 19. B\n", "20"), ("## 16 to 19. M\n", "19"), ("## 8 and 9. E\n", "9"), ("## Later\n## 3. C\n", "3")):
            found = ENTRY.search(text)
            self.assertEqual(found and found[1], wanted)
        self.assertIsNone(ENTRY.search("## Later\n"))

    def test_versions_are_numbers(self) -> None:
        self.assertEqual(version_of(["GLIBC_2.9", "GLIBC_2.34", "GLIBC_2.2.5", "GLIBC_PRIVATE"]), (2, 34))
        self.assertEqual(version_of([]), ())

    @unittest.skipUnless(shutil.which("dpkg"), "dpkg is not there")
    def test_later_commits_have_greater_versions(self) -> None:
        versions = [Commit(name * 40, seconds, number).version for name, seconds, number in (("f", SECONDS, "9"), ("a", SECONDS + 60, "9"), ("0", SECONDS, "10"))]
        for early, late in zip(versions, versions[1:]):
            self.assertEqual(subprocess.run(["dpkg", "--compare-versions", early, "lt", late]).returncode, 0, versions)

    def test_a_front_is_the_script_without_what_builds(self) -> None:
        script = (
            "set -u\ntop=x\n\n# Help.\nprint_help() {\n  cat\n}\n\n# Old.\nis_old() {\n  a\n}\n\n# New.\nlook() {\n  if b; then\n    c\n  fi\n}\n\n"
            "case $1 in\nesac\nif e && is_old; then print_help && exit; fi\nif is_old; then build; fi\nexec d\n"
        )
        self.assertEqual(front_of(script, "@FUNCTIONS@@REST@/@VERSION@", "7"), "# New.\nlook() {\n  if b; then\n    c\n  fi\n}\ncase $1 in\nesac\nexec d/7")
        for line in ("if is_old; then build", "if e && is_old; then print_help"):
            with self.assertRaisesRegex(ValueError, "no two lines"):
                front_of(script.replace(line, line.replace("is_old", "is_new")), "@FUNCTIONS@@REST@", "7")

    def test_texts_become_macros(self) -> None:
        cases = (
            (["A *b* **c `d-e`** f", "g."], [".PP", "A \\fIb\\fR \\fBc \\fBd\\-e\\fB\\fR f g."]),
            (["## What `a` is", "", ".x"], ['.SH "What a is"', "\\&.x"]),
            (["### B", "", "'x' \\ ^ ~"], ['.SS "B"', "\\&'x' \\(rs \\(ha \\(ti"]),
            (["- a", "  b", "- c", "", "1. d"], [".IP \\(bu 2", "a b", ".IP \\(bu 2", "c", ".IP 1. 4", "d"]),
            (["    .a  -b", "", "    'c", "", "d"], [".PP", ".RS 4", ".EX", "\\&.a  \\-b", "\\&", "\\(aqc", ".EE", ".RE", ".PP", "d"]),
            (["```text", "a", "", "# b", "```"], [".PP", ".RS 4", ".EX", "a", "\\&", "# b", ".EE", ".RE"]),
            (["see [a b](c.md)"], [".PP", "see a b"]),
        )
        for lines, wanted in cases:
            self.assertEqual(macros(lines), wanted)

    def test_a_table_becomes_tagged_paragraphs(self) -> None:
        rows = ["| A | B |", "|---|---:|", "| `.x` | 1 |", "| y | |"]
        self.assertEqual(macros(rows), [".TP", "\\fIA\\fR", "\\fIB\\fR", ".TP", "\\fB.x\\fR", "1", ".TP", "y", "\\&"])
        rows = ["| | B | C |", "|---|---|---|", "| x | 1 | 2 \\| 3 |", "| | 4 | |"]
        wanted = [".TP", "\\&", "\\fIB; C\\fR", ".TP", "x", "1", ".br", "\\fIC\\fR: 2 | 3", ".IP", "4"]
        self.assertEqual(macros(rows), wanted)

    def test_each_section_of_the_formats_stands_on_a_page(self) -> None:
        formats, source = Path(TOP, "docs/FORMATS.md").read_text(), Path(TOP, HELP_FILE).read_text()
        pages = main_pages(formats, source, "1", "2026-01-01", list(TOOLS))
        self.assertEqual(len(pages), len(PAGES))
        for text in (formats + "\n## One more\n", formats.replace("## Event log", "## Log")):
            with self.assertRaisesRegex(ValueError, "differ in the section"):
                main_pages(text, source, "1", "2026-01-01", list(TOOLS))

    def test_no_word_of_the_formats_is_lost(self) -> None:
        formats, source = Path(TOP, "docs/FORMATS.md").read_text(), Path(TOP, HELP_FILE).read_text()
        shown = "\n".join(main_pages(formats, source, "1", "2026-01-01", list(TOOLS)).values())
        for sign, text in (("\\-", "-"), ("\\(rs", "\\"), ("\\(aq", "'"), ("\\(ga", "`"), ("\\(ha", "^"), ("\\(ti", "~"), ("\\&", ""), ("\\(dq", '"')):
            shown = shown.replace(sign, text)
        shown = re.sub(r"\\f(?:\(BI|.)", "", shown)
        words = set(re.findall(r"[A-Za-z0-9_.,:#^+/-]+", shown))
        wanted = re.sub(r"(?m)^\|[-:|]+$|^#+ |^ *- |^```.*|[`*]", "", formats.split("\n## ", 1)[1])
        self.assertEqual([it for it in re.findall(r"[A-Za-z0-9_.,:#^+/-]+", wanted) if it not in words], [])

    def test_options_go_on_in_further_lines(self) -> None:
        found = entries_of("  -h, --help     show\n                 more\n  LOG            a log\n  --a-long-option NAME\n                 told")
        self.assertEqual([(it.name, it.flag, it.told) for it in found], [("-h, --help", "--help", "show more"), ("LOG", "", "a log"), ("--a-long-option NAME", "--a-long-option", "told")])


if __name__ == "__main__":
    unittest.main()
