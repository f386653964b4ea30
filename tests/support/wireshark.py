"""What the tools of Wireshark say of a capture, where they are installed."""

import csv
import shutil
import subprocess
from collections.abc import Iterator, Sequence


def tool(*words: str) -> str:
    """What a tool prints. Raises CalledProcessError where it fails."""
    return subprocess.run(words, capture_output=True, text=True, check=True).stdout


def is_there(*names: str) -> bool:
    """Whether all of these tools are installed."""
    return all(map(shutil.which, names))


def packets_of(path: str) -> int:
    """How many packets capinfos counts in a capture."""
    return int(tool("capinfos", "-c", "-M", "-T", "-r", path).split()[-1])


def summary_of(path: str) -> dict[str, str]:
    """What capinfos says of a capture, by the titles of its columns; times are seconds since 1970."""
    options = "-T -m -Q -S -t -E -c -d -a -e -o".split()
    titles, cells = csv.reader(tool("capinfos", *options, path).splitlines())
    return dict(zip(titles, cells))


def interfaces_of(path: str) -> list[dict[str, str]]:
    """What capinfos says of each interface of a capture, by what stands before a ` = `."""
    found: list[dict[str, str]] = []
    for line in tool("capinfos", "-I", path).splitlines():
        if line.startswith("Interface #"):
            found.append({})
        elif found and " = " in line:
            title, _, said = line.strip().partition(" = ")
            found[-1][title] = said
    return found


def fields_of(path: str, fields: Sequence[str], only: str = "") -> Iterator[list[str]]:
    """These fields of each packet of a capture, as tshark reads it, or of those that a display filter takes."""
    words = ["tshark", "-n", "-r", path, "-Y", only, "-T", "fields", *(word for it in fields for word in ("-e", it))]
    return (line.split("\t") for line in tool(*words).split("\n")[:-1])
