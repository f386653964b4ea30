"""The files that a tool was given: which trace of which host each one is, and what is in it."""

import os
from collections.abc import Iterable
from dataclasses import dataclass, replace
from typing import Any

from captures import read_capture
from logs import read_log
from tracesync.declaration import NAME
from tracesync.starts import is_capture, packed, start_of


@dataclass
class Input:
    """A trace: its label, its host, the path of its file, `capture` or `log`, a Capture or a Log, and what was named on the command line,
    of which the file was made."""

    label: str
    host: str
    path: str
    kind: str = ""
    content: Any = None
    origin: str = ""

    @property
    def shown(self) -> str:
        """Returns what to call the file for whoever named it."""
        return self.origin or self.path


def parse_input(word: str) -> Input:
    """Returns the input that a word LABEL=FILE or LABEL@HOST=FILE names."""
    names, equals, path = word.partition("=")
    label, at, host = names.partition("@")
    host = host if at else label
    if not equals or not path:
        raise ValueError(f"{word} is not of the form LABEL=FILE")
    for name in (label, host):
        if not NAME.fullmatch(name):
            raise ValueError(f"{name or 'an empty word'} is no name: 1 to 32 letters, digits, points, lines below and hyphens")
    return Input(label, host, path)


def open_input(it: Input) -> Input:
    """Reads the file of an input. Raises ValueError where it is neither a capture nor a log."""
    if os.path.isdir(it.path):
        raise ValueError(f"{it.path} is a folder")
    start = start_of(it.path)
    told = packed(start)
    if told:
        raise ValueError(f"{it.path} is {told[0]}: {told[1]} it first")
    if is_capture(start):
        it.kind, it.content = "capture", read_capture(it.path)
        return it
    log = read_log(it.path)
    if not log.rows and log.odd:
        raise ValueError(f"{it.path} is no capture, and no log either: {log.odd[0]}")
    it.kind, it.content = "log", log
    return it


def checked(found: list[Input]) -> list[Input]:
    """Returns the inputs, whose files of one label are of one host and one kind. Raises ValueError where they are not."""
    for one in found:
        for other in found:
            if one.label == other.label and (one.host, one.kind) != (other.host, other.kind):
                raise ValueError(f"the files of {one.label} are of two hosts, or some are captures and some logs")
    return found


def with_hosts(found: Iterable[Input], declared: dict[str, Any]) -> list[Input]:
    """Returns the inputs with the hosts that a declaration gives to their labels."""
    labels = declared.get("labels", {})
    return [replace(it, host=labels.get(it.label, {}).get("host", it.host)) for it in found]
