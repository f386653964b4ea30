"""What the program says of its commands, and the script that stands for ./tracesync in a package, by the same text."""

import re
from dataclasses import dataclass

# A command of the help, with its words, of which the last one may stand there several times, the script that it reads, and what it does.
COMMAND = re.compile(r"^  ([a-z]+)((?: [A-Z]+)*(?:\.\.)?)( < SCRIPT)? {2,}(\S.*)$", re.M)
# A function of a shell script, with the lines of a comment above it.
FUNCTION = re.compile(r"(?:^#.*\n)*^(\w+)\(\) \{\n(?:.*\n)*?^\}\n", re.M)
# What only a clone has: functions, and the lines that build the program or do without.
OF_A_CLONE = ("print_help", "print_version", "is_old", "build")
BUILDING = re.compile(r"^if .*\bis_old; then .*\bbuild; fi\n|^if .*\bis_old; then print_help .*; fi\n", re.M)
# Where the program has its help, and what stands there.
HELP_FILE = "crates/commands/src/help.rt"
HELP = re.compile(r'^const HELP: &\[u8\] = br"(.*?)^";$', re.M | re.S)
HOLE = re.compile(r"@([A-Z]+)@")


@dataclass(frozen=True)
class Command:
    """A command of the program."""

    name: str
    words: list[str]
    is_scripted: bool
    told: str


def filled(template: str, **parts: str) -> str:
    """Returns a template with each @NAME@ filled. Raises KeyError at one that is not among the parts."""
    return HOLE.sub(lambda it: parts[it[1]], template)


def functions_of(script: str) -> dict[str, str]:
    """Returns the functions of a shell script by their names, each with its comment."""
    return {it[1]: it[0] for it in FUNCTION.finditer(script)}


def help_of(source: str) -> str:
    """Returns what the program prints for --help, by the text of HELP_FILE. Raises ValueError where that has no help."""
    found = HELP.search(source)
    if not found:
        raise ValueError(f"{HELP_FILE} has no const HELP that is a raw text")
    return found[1]


def commands_of(source: str) -> list[Command]:
    """Returns the commands that the help lists, in its order. Raises ValueError where it lists none."""
    found = [Command(it[1], it[2].split(), bool(it[3]), it[4]) for it in COMMAND.finditer(help_of(source))]
    if not found:
        raise ValueError(f"the help of {HELP_FILE} lists no command")
    return found


def front_of(script: str, template: str, version: str) -> str:
    """Returns the script that a package has in place of ./tracesync: the template, with all of it that does not build.

    Raises ValueError where it does not build by the lines that are left out.
    """
    functions = functions_of(script)
    shared = [text for name, text in functions.items() if name not in OF_A_CLONE]
    rest = FUNCTION.sub("", script)
    rest = rest[rest.index("\ncase ") + 1 :] if "\ncase " in rest else ""
    rest, count = BUILDING.subn("", rest)
    if count != 2 or "is_old" in rest:
        raise ValueError("the script tracesync has no two lines behind its functions that ask is_old, which a package leaves out")
    return filled(template, FUNCTIONS="\n".join(shared), VERSION=version, REST=rest.rstrip("\n"))
