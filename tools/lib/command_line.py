"""The words of a tool's command line, and its end. This module and texts.py are written for each Python from 3.8 on, as are the tools
that do not call `needs`."""

from __future__ import annotations

import argparse
import os
import sys
from collections.abc import Callable, Sequence
from functools import partial
from typing import Any, NoReturn

from texts import plain


def needs(major: int, minor: int) -> None:
    """Ends a tool that stands on parts of a later Python than the one that runs it."""
    if sys.version_info < (major, minor):
        sys.exit(f"this tool needs Python {major}.{minor} or a later one")


class Once(argparse.Action):
    """An option with a value, which may be there once."""

    is_seen = False

    def __call__(self, parser: argparse.ArgumentParser, said: argparse.Namespace, value: Any, option: str | None = None) -> None:
        if self.is_seen:
            raise argparse.ArgumentError(self, "it is there twice")
        self.is_seen = True
        setattr(said, self.dest, value)


class Parser(argparse.ArgumentParser):
    """Reads the words of a tool. What is wrong with them is said in one line, with status 2; --help prints what the tool's first text says.

    Options and files may stand in any order, and an option takes the word behind it as its value, whatever that begins with.
    """

    def __init__(self, name: str, about: str, usage: str | None = None) -> None:
        first, _, rest = about.strip().partition("\n\n")
        wide = partial(argparse.RawDescriptionHelpFormatter, max_help_position=26, width=120)
        super().__init__(f"tools/{name}", usage, first, rest, formatter_class=wide, allow_abbrev=False)
        self.name = name
        self.valued: set[str] = set()

    def option(self, flag: str, metavar: str, told: str, group: argparse._ArgumentGroup | None = None, **more: Any) -> None:
        """Adds an option with a value, which may be there once if `more` has no other action."""
        self.valued.add(flag)
        more.setdefault("action", Once)
        (group or self).add_argument(flag, metavar=metavar, help=told, **more)

    def read(self, words: Sequence[str]) -> argparse.Namespace:
        """Returns what the words say."""
        joined, rest = [], iter(words)
        for word in rest:
            value = next(rest, None) if word in self.valued else None
            joined.append(word if value is None else f"{word}={value}")
        said, others = self.parse_known_intermixed_args(joined)
        if others:
            self.error(f"{others[0]} is {'no option' if others[0].startswith('-') else 'one file too many'}")
        return said

    def error(self, message: str) -> NoReturn:
        self.exit(2, f"{self.name}: {plain(message)}; --help tells more\n")


def natural(least: int) -> Callable[[str], int]:
    """Returns what reads a number from `least` on."""

    def read(text: str) -> int:
        if not (text.isascii() and text.isdigit() and int(text) >= least):
            raise argparse.ArgumentTypeError(f"{text} is no number from {least} on")
        return int(text)

    return read


def fails(name: str, why: Exception) -> int:
    """Says in one line why a tool cannot go on, and returns its status."""
    if isinstance(why, BrokenPipeError):
        raise why
    text = f"{why.filename}: {why.strerror}" if isinstance(why, OSError) and why.filename else str(why)
    print(f"{name}: {plain(text)}", file=sys.stderr)
    return 1


def run(main: Callable[[list[str]], int]) -> NoReturn:
    """Runs a tool with the words of the command line, and ends with its status; quietly where nobody reads on, or at a key."""
    try:
        status = main(sys.argv[1:])
        sys.stdout.flush()
    except BrokenPipeError:
        # (so that nothing is written at the end)
        os.dup2(os.open(os.devnull, os.O_WRONLY), sys.stdout.fileno())
        status = 1
    except KeyboardInterrupt:
        status = 130
    sys.exit(status)
