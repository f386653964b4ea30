"""What the tools of a package say of themselves: what --help prints, with the names that they have where they are installed."""

import re
import subprocess
import sys
from dataclasses import dataclass

# The tools that serve outside of a clone; those of them that run the program; and the Python that they need.
TOOLS = ("declare", "diagram", "explain", "rows", "spans", "timeline")
RUNNING = ("declare", "explain", "spans", "timeline")
PYTHON = "3.11"
# What is called otherwise where it is installed, in this order.
NAMES = (
    (re.compile(r"\./tracesync of this repository if it is not said(?:, which builds it once)?"),
     "that of PROGRAM if it is not said, or else the one of this package"),
    (re.compile(rf"\btools/({'|'.join(TOOLS)})\b"), r"tracesync-\1"),
    (re.compile(r"\./tracesync\b"), "tracesync"),
)  # fmt: skip
# An option that compiles the program, with the lines that it goes on in.
LOOK = re.compile(r"^  --look .*\n(?: {4,}.*\n)*", re.M)
# A group of options: its head, and their lines.
GROUP = re.compile(r"([a-z][^\n]*):\n(  .*)", re.S)
ENTRY = re.compile(r"  (\S+(?: \S+)*)(?: {2,}(.*))?")


@dataclass
class Entry:
    """An option or a file of a tool, as `--events N`, and what it is for."""

    name: str
    told: str

    @property
    def flag(self) -> str:
        """The option alone, or the empty text of a file."""
        return next((it for it in self.name.replace(",", " ").split() if it.startswith("--")), "")


@dataclass(frozen=True)
class Help:
    """The parts of what a tool prints for --help."""

    usage: str
    about: str
    groups: dict[str, list[Entry]]
    paragraphs: list[str]

    @property
    def flags(self) -> list[str]:
        return sorted(it.flag for own in self.groups.values() for it in own if it.flag)


def renamed(text: str) -> str:
    """Returns a text of the tools with the names that things have where the tools are installed."""
    for pattern, name in NAMES:
        text = pattern.sub(name, text)
    return text


def told_by(top: str, tool: str) -> str:
    """Returns what a tool of a clone prints for --help, as it is where it is installed. Raises ValueError where it fails."""
    ran = subprocess.run([sys.executable, f"{top}/tools/{tool}", "--help"], stdin=subprocess.DEVNULL, capture_output=True, text=True)
    if ran.returncode:
        raise ValueError(f"tools/{tool} --help fails, which a package takes its help from")
    return renamed(LOOK.sub("", ran.stdout))


def entries_of(lines: str) -> list[Entry]:
    """Returns the options and files that the lines of a group tell, each with the lines that it goes on in."""
    found: list[Entry] = []
    for line in lines.split("\n"):
        own = ENTRY.fullmatch(line)
        if own:
            found.append(Entry(own[1], own[2] or ""))
        elif found:
            found[-1].told = f"{found[-1].told} {line.strip()}".strip()
    return found


def help_of(text: str) -> Help:
    """Returns the parts of such a text."""
    usage, about, *rest = text.strip("\n").split("\n\n")
    groups = {it[1]: entries_of(it[2]) for it in map(GROUP.fullmatch, rest) if it}
    return Help(usage.removeprefix("usage: "), about, groups, [it for it in rest if not GROUP.fullmatch(it)])
