"""The package in a root with little more than the C library: it is installed there, answers, writes nothing, and is removed without a trace."""

import re
import shutil
import subprocess
import tempfile
import unittest
from pathlib import Path

from common import PROGRAM, TOP
from test_package import ECHO, IS_THERE, made_clone, package

# What a system has that has nothing else: a shell, and what the fronts of the program and of the tools call.
BARE = ("bash", "sh", "env", "cat", "dirname", "readlink")
# Becomes a command in a folder as root, with no network, and nothing of this system but a device and its processes.
MOUNTS = 'mount --bind /dev/null "$0/dev/null" && mount --rbind /proc "$0/proc"'
ENTER = ["unshare", "--map-root-user", "--mount", "--net", "sh", "-c", f'{MOUNTS} && exec chroot "$0" "$@"']
# What a system that has the C library says of it.
STATUS = "Package: {}\nStatus: install ok installed\nArchitecture: amd64\nVersion: {}\nMaintainer: a <a@a>\nDescription: a\n\n"


def libraries(path: str) -> list[str]:
    """Returns the shared libraries that a program loads, and its loader."""
    told = subprocess.run(["ldd", path], capture_output=True, text=True).stdout
    return re.findall(r"(/\S+) \(0x", told)


def copy_into(root: Path, path: str, place: str) -> None:
    """Copies a file to a place below a root."""
    target = root / place.lstrip("/")
    target.parent.mkdir(parents=True, exist_ok=True)
    shutil.copy(path, target)


def bare_root(root: Path, programs: list[str]) -> None:
    """Makes a root with a shell, what it needs, and what these programs load; and what dpkg has to know of it."""
    (root / "usr/bin").mkdir(parents=True)
    (root / "bin").symlink_to("usr/bin")
    own = {name: shutil.which(name) or "" for name in BARE}
    for name, path in own.items():
        copy_into(root, path, f"/usr/bin/{name}")
    for path in {it for program in [*own.values(), *programs] for it in libraries(program)}:
        copy_into(root, path, path)
    for name in ("dev", "proc", "var/lib/dpkg/info", "var/lib/dpkg/updates", "var/lib/dpkg/triggers"):
        (root / name).mkdir(parents=True, exist_ok=True)
    (root / "dev/null").touch()
    (root / "var/lib/dpkg/status").write_text("".join(STATUS.format(name, "99") for name in ("libc6", "libgcc-s1")))


def entered(root: Path, *words: str, text: str = "", folder: str = "/") -> subprocess.CompletedProcess[str]:
    """Runs a command within the root, in one of its folders."""
    words = (*ENTER, str(root), "env", "-i", "PATH=/usr/bin:/bin", "sh", "-c", 'cd "$0" && exec "$@"', folder, *words)
    return subprocess.run(words, input=text, capture_output=True, text=True)


def files_of(root: Path) -> dict[str, int]:
    """Returns the files of a root but those of dpkg, each with its size; folders have none."""
    return {str(it.relative_to(root)): it.stat().st_size if it.is_file() else 0 for it in root.rglob("*") if "var/lib/dpkg" not in str(it)}


def can_enter() -> bool:
    """Returns whether a namespace may be made here."""
    with tempfile.TemporaryDirectory() as room:
        bare_root(Path(room), [])
        return entered(Path(room), "cat").returncode == 0


IS_ENTERED = IS_THERE and all(map(shutil.which, ("dpkg", "ldd", "unshare", *BARE))) and can_enter()


@unittest.skipUnless(IS_ENTERED, "git, dpkg, ldd or unshare is not there, or no namespace may be made")
class Installed(unittest.TestCase):
    """One package in a bare root."""

    @classmethod
    def setUpClass(cls) -> None:
        room = tempfile.TemporaryDirectory()
        cls.addClassCleanup(room.cleanup)
        ran = package(made_clone(room.name), "--program", PROGRAM or ECHO)
        if ran.returncode:
            raise AssertionError(ran.stderr)
        cls.deb, cls.root = ran.stdout.splitlines()[0], Path(room.name) / "root"
        bare_root(cls.root, [PROGRAM or ECHO])
        cls.before = files_of(cls.root)
        cls.dpkg("--install", cls.deb)
        cls.addClassCleanup(cls.remove)

    @classmethod
    def dpkg(cls, *words: str) -> None:
        ran = subprocess.run(["unshare", "--map-root-user", "dpkg", f"--root={cls.root}", "--log=/dev/null", *words], capture_output=True, text=True)
        if ran.returncode:
            raise AssertionError(ran.stderr)

    @classmethod
    def remove(cls) -> None:
        """Removes the package, of which nothing may be left."""
        cls.dpkg("--purge", "tracesync")
        if files_of(cls.root) != cls.before:
            raise AssertionError(sorted(files_of(cls.root).keys() ^ cls.before.keys()))

    def test_its_version_is_told(self) -> None:
        ran = entered(self.root, "tracesync", "--version")
        self.assertEqual((ran.returncode, ran.stderr), (0, ""))
        self.assertRegex(ran.stdout, r"^tracesync \d+\+\d+\.[0-9a-f]{12}, commit [0-9a-f]{40}\n")

    @unittest.skipUnless(PROGRAM, "no program is there")
    def test_the_program_answers_what_is_no_command(self) -> None:
        for words in ((), ("what",), ("solve", "a", "b")):
            ran = entered(self.root, "tracesync", *words)
            self.assertEqual((ran.returncode, ran.stdout.startswith("usage: "), "--help" in ran.stdout, ran.stderr), (2, True, True, ""), words)
        self.assertEqual(entered(self.root, "tracesync", "--help").stdout, subprocess.run([PROGRAM, "--help"], capture_output=True, text=True).stdout)

    @unittest.skipUnless(PROGRAM, "no program is there")
    def test_a_session_answers_there_as_here(self) -> None:
        script, words = Path(TOP, "examples/session/script.txt").read_text(), ["session", "examples/session/hosts.toml"]
        before = files_of(self.root)
        ran = entered(self.root, "tracesync", *words, text=script, folder="/usr/share/doc/tracesync")
        here = subprocess.run([PROGRAM, *words], cwd=TOP, input=script, capture_output=True, text=True)
        self.assertEqual((ran.returncode, ran.stdout, ran.stderr), (0, here.stdout, ""))
        self.assertTrue(here.stdout.startswith("added events 3 "))
        self.assertEqual(files_of(self.root), before)

    def test_a_tool_says_that_it_needs_python(self) -> None:
        ran = entered(self.root, "tracesync-rows", "--json")
        self.assertEqual((ran.returncode, ran.stdout, "there is no python3" in ran.stderr), (1, "", True), ran.stderr)
        self.assertIn("tracesync-rows", entered(self.root, "tracesync-rows", "--help").stdout)


if __name__ == "__main__":
    unittest.main()
