"""The commit that a clone stands at, and the version that a package of it has."""

import os
import re
import subprocess
from dataclasses import dataclass
from datetime import datetime, timezone

# The head of an entry of CHANGELOG.md; of one for several versions the last number counts.
ENTRY = re.compile(r"^## (?:\d+ (?:to|and) )?(\d+)\. ", re.M)
# How many digits of a commit a version has.
DIGITS = 12


@dataclass(frozen=True)
class Commit:
    """A commit by its name, when it was made in seconds since 1970, and the number of the newest entry of the changelog."""

    name: str
    seconds: int
    number: str

    @property
    def time(self) -> datetime:
        return datetime.fromtimestamp(self.seconds, timezone.utc)

    @property
    def day(self) -> str:
        return f"{self.time:%Y-%m-%d}"

    @property
    def version(self) -> str:
        """The version of a package: the entry's number, the minute of the commit, so that later ones are greater, and its name."""
        return f"{self.number}+{self.time:%Y%m%d%H%M}.{self.name[:DIGITS]}"


def asked(top: str, *words: str) -> str:
    """Returns what git prints. Raises ValueError where there is no git, or where it says no."""
    try:
        ran = subprocess.run(["git", "-C", top, *words], stdin=subprocess.DEVNULL, capture_output=True, check=True)
    except OSError as why:
        raise ValueError(f"git does not start ({why.strerror}): it tells the commit") from None
    except subprocess.CalledProcessError:
        raise ValueError(f"git {words[0]} fails in {top}: a package is made in a clone") from None
    return os.fsdecode(ran.stdout)


def files_of(top: str) -> list[str]:
    """Returns the paths of the files that are in the clone's commits, sorted; a file that is in none is not among them."""
    return sorted(it for it in asked(top, "ls-files", "-z").split("\0") if it)


def commit_of(top: str) -> Commit:
    """Returns the commit of a clone. Raises ValueError where a file was changed behind it, or the changelog has no entry."""
    if os.path.realpath(asked(top, "rev-parse", "--show-toplevel").rstrip("\n")) != os.path.realpath(top):
        raise ValueError(f"{top} is no clone of its own: a package is made in a clone")
    changed = [it for it in asked(top, "status", "--porcelain", "-z", "--untracked-files=no").split("\0") if it]
    if changed:
        raise ValueError(f"{changed[0][3:]} has changes that are in no commit: a package is made of a commit")
    name, seconds = asked(top, "log", "-1", "--format=%H %ct").split()
    with open(f"{top}/CHANGELOG.md", encoding="utf-8") as it:
        entry = ENTRY.search(it.read())
    if not entry:
        raise ValueError("CHANGELOG.md has no entry: its number is that of the version")
    return Commit(name, int(seconds), entry[1])
