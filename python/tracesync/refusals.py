"""Refusals of a session in words, each with its likely cause, by a look at the line and at the file that it names."""

from __future__ import annotations

import os
import re
from collections.abc import Callable
from typing import Any, Optional

from .starts import MAGICS, SECTION, is_capture, packed, start_of

COMMANDS = {
    "add": 2, "interval": 2, "order": 2, "time": 1, "times": 1, "merge": 0, "prove": 2, "keep": 1, "problem": 0, "report": 0,
    "blame": 0, "thin": 1,
}  # fmt: skip
# What each refusal says of the line, or of what it asks for, without a look at a file.
CAUSES = {
    20: "the line has more than 4,096 bytes, or is none of the commands",
    21: "the label is not declared",
    22: "there is no such file, or it cannot be read",
    23: "the file has more than 2^28 bytes, or the label would have more than 2^30",
    24: "no capture begins so, or one of another version",
    25: "at this place of the capture stands no record of a packet",
    26: "this record of the file is no row",
    27: "there would be more than 16,777,216 events",
    28: "there is no such event",
    29: "no source is declared, or its clock has no event so far",
    30: "eight events are kept, and this is none of them",
    31: "at this place of the capture stands a malformed block",
}
ROW_CAUSES = {
    "1": "it has not four fields STAMP,KIND,KEY,TEXT",
    "2": "its stamp is not 1 to 19 digits of a number below 2^62",
    "3": "its kind is none of send, receive and local, or it lacks a key, or has one though it is local",
    "4": "its key or its text is too long, or has a byte that is not plain ASCII",
}


class Refusals:
    """Tells refusals. `declared` is the declaration's tables; `counts` is how many events each label has so far, and
    `added` which files were added to it, where that is known."""

    def __init__(self, declared: Optional[dict[str, Any]] = None) -> None:
        self.declared = declared or {}
        self.counts: dict[str, int] = {}
        self.added: dict[str, list[str]] = {}

    def told(self, line: str, words: list[str]) -> str:
        """Returns why a line was refused with these words behind `refused`."""
        number, rest = words[0], words[1:]
        asked = line.split(" ")
        path = asked[2] if len(asked) > 2 and asked[0] == "add" else None
        if number in ("24", "25", "26", "31") and path and not os.path.isfile(path):
            path = None
        tellers: dict[str, Callable[[], str]] = {
            "20": lambda: self.no_command(line), "21": lambda: self.no_label(asked[1]),
            "22": lambda: self.no_file(path), "24": lambda: self.no_capture(path, rest),
            "25": lambda: self.no_packet(path, rest, asked[1]), "26": lambda: self.no_row(path, rest),
            "28": lambda: self.no_event(asked[1:]), "29": self.no_source, "31": lambda: self.no_block(path, rest),
        }  # fmt: skip
        return tellers[number]() if number in tellers else self.limit(number)

    def limit(self, number: str) -> str:
        """Returns which limit a line would pass, and what helps."""
        if not number.isdigit() or int(number) not in CAUSES:
            return f"refusal {number}"
        cures = {
            "23": ": `split -b 200M`, and add the parts in order",
            "27": ": filter the captures of all hosts alike",
            "30": ": ask about it without keeping it",
        }
        return f"{CAUSES[int(number)]}{cures.get(number, '')}"

    def take(self, label: str, path: str, events: int) -> None:
        """Remembers a file that was added, and how many events it brought."""
        self.counts[label] = self.counts.get(label, 0) + events
        self.added.setdefault(label, []).append(path)

    def no_command(self, line: str) -> str:
        """Returns what is wrong with a line that is no command."""
        if not line:
            return "the line is empty"
        if line.startswith("#"):
            return "scripts have no comments"
        if line.endswith("\r"):
            return "the line ends with a carriage return: tr -d '\\r' takes them out"
        if line != line.strip(" ") or "  " in line or "\t" in line:
            return "there is a blank too many, or a tab: one blank stands between two words, and none at the ends"
        if len(os.fsencode(line)) > 4096:
            return "the line has more than 4,096 bytes"
        words = line.split(" ")
        if words[0] not in COMMANDS:
            small = words[0].lower()
            return f"`{words[0]}` is no command{f': {small} is' if small in COMMANDS else ''}"
        count = len(words) - 1
        if words[0] == "add" and count > 2:
            return "a path has no blanks, and no quotes help: give the file another name by a link, ln -s"
        # (`times` stands alone, too, and `thin` with any number of words)
        if words[0] != "thin" and count != COMMANDS[words[0]] and (words[0], count) != ("times", 0):
            wanted = "one word behind it, or none" if words[0] == "times" else f"{COMMANDS[words[0]]} words behind it"
            return f"`{words[0]}` has {wanted}, and here are {count}"
        return "it has a byte that is not plain ASCII"

    def no_label(self, label: str) -> str:
        labels = sorted(self.declared.get("labels", {}))
        told = f"; there are {', '.join(labels)}" if labels else ""
        if label in self.declared.get("hosts", {}):
            return f"{label} is a host, and no label: [labels.{label}] is missing{told}"
        return f"no label {label} is declared{told}"

    def no_file(self, path: Optional[str]) -> str:
        """Returns why a file cannot be read."""
        if path is None:
            return "there is no such file, or it cannot be read"
        if path[0] in "'\"" or path.startswith("~"):
            return f"{path} is taken as it stands: a script has no quotes and no `~`"
        if os.path.isdir(path):
            return f"{path} is a folder"
        if not os.path.exists(path):
            here = "" if os.path.isabs(path) else f" in {os.getcwd()}, from where it counts"
            return f"there is no file {path}{here}"
        return f"{path} cannot be read" if os.path.isfile(path) else f"{path} is a pipe or a device, which is read once"

    def no_capture(self, path: Optional[str], rest: list[str]) -> str:
        """Returns why a file is no capture, by its first bytes."""
        if rest == ["2"]:
            told = "the capture is of another version than 2.4 of pcap or 1 of pcapng"
            return f"{told}: editcap makes it one that is read"
        start = start_of(path) if path else b""
        told = packed(start)
        if told:
            return f"{path} is {told[0]}: {told[1]} it first"
        if is_capture(start):
            return "what was added begins as no capture; this file does, so one before it does not"
        if start and all(it in b"\r\n\t" or 32 <= it < 127 for it in start):
            return f"{path} is text: a log is declared with kind = \"log\""
        return f"{path or 'the file'} is neither classic pcap nor pcapng: `file {path or 'X'}` may tell what it is"

    def no_packet(self, path: Optional[str], rest: list[str], label: str) -> str:
        """Returns what stands where no packet does: a file's own header, as the reply says of most, or what nobody
        knows."""
        place = f"at byte {rest[0] if rest else '?'} of {label}"
        alone = "which only the first file of a label may have: mergecap -a -F nsecpcap -w ALL.pcap joins files"
        if path and start_of(path)[:4] in MAGICS and self.added.get(label):
            if path in self.added[label]:
                return f"{path} was added before"
            return f"{path} begins with a header of its own, {alone}"
        if rest[1:] == ["header"]:
            return f"{place} begins the header of another capture, {alone}"
        return f"{place} stands no record of a packet: is the file damaged, or are its parts in another order?"

    def no_block(self, path: Optional[str], rest: list[str]) -> str:
        told = packed(start_of(path)) if path else None
        if told:
            return f"{path} is {told[0]}: {told[1]} it first"
        more = ""
        if path and start_of(path)[:4] == SECTION:
            more = "; the file before it may have ended inside a block: editcap CUT WHOLE takes the rest off"
        return f"at byte {rest[0] if rest else '?'} of the label stands a malformed block of pcapng{more}"

    def no_row(self, path: Optional[str], rest: list[str]) -> str:
        """Returns what is wrong with a row, and shows it."""
        row, cause = [*rest, "?", "?"][:2]
        if path and is_capture(start_of(path)):
            return f"{path} is a capture: it is declared with kind = \"capture\""
        shown = self.row(path, row) if path and row.isdigit() else ""
        told = f"record {row}: {ROW_CAUSES.get(cause, f'cause {cause}')}"
        return f"{told}{f'. It is: {shown}' if shown else ''}. tools/rows makes rows of other logs"

    def row(self, path: str, number: str) -> str:
        """Returns a record of a log as it stands, where its records are lines."""
        with open(path, encoding="utf-8", errors="replace") as it:
            lines = [line for line in it.read().splitlines() if line]
        return lines[int(number) - 1][:120] if 0 < int(number) <= len(lines) else ""

    def no_event(self, names: list[str]) -> str:
        """Returns which of the names is no event."""
        for name in names:
            found = re.fullmatch(r"(.+)#([1-9]\d*)", name)
            if not found:
                return f"{name} is not of the form LABEL#n, with n from 1 on"
            label, number = found[1], int(found[2])
            if "labels" in self.declared and label not in self.declared["labels"]:
                return f"no label {label} is declared; there are {', '.join(sorted(self.declared['labels']))}"
            if label in self.counts and number > self.counts[label]:
                return f"{label} has {self.counts[label]} events so far"
            if self.counts and label not in self.counts:
                return f"nothing was added to {label} so far"
        return "there is no such event"

    def no_source(self) -> str:
        source = self.declared.get("source")
        if source:
            return f"{source}, the source, has no event so far"
        told = "a host's name or that of a clock of its own, with short = 0 and long = 0"
        return f'no source is declared: source = "CLOCK" on top, {told}'
