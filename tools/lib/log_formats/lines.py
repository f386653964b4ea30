"""Lines that a regular expression finds, JSON lines, and the JSON of journalctl."""

from __future__ import annotations

import re

from .fields import Fields, Moment, json_of, need, stamped, text_of
from .stamps import Stamps

FIELDS = ("stamp", "kind", "key", "text")


def patterned(fields: Fields, text: str, patterns: list[re.Pattern[str]]) -> Fields | None:
    """Returns fields with the groups of the first pattern that finds something in a text, or None if none does."""
    for pattern in patterns:
        found = pattern.search(text)
        if found:
            return fields.with_fields(found.groupdict())
    return None


class PatternLines:
    """Reads lines that patterns find. Fields: the groups of the pattern."""

    def __init__(self, stamps: Stamps, stamp: str, patterns: list[re.Pattern[str]]) -> None:
        self.stamps, self.stamp, self.patterns = stamps, stamp, patterns

    def moments(self, line: str) -> list[Moment]:
        """Returns what a line tells, nothing where no pattern finds it."""
        found = patterned(Fields(), line, self.patterns)
        return stamped(found, self.stamp, self.stamps) if found else []


class JsonLines:
    """Reads JSON objects. Fields: those of the object; `http.id` is the field id of the object http."""

    def __init__(self, stamps: Stamps, stamp: str) -> None:
        self.stamps, self.stamp = stamps, stamp

    def moments(self, line: str) -> list[Moment]:
        """Returns what a line tells, nothing where it is no JSON object with such a stamp."""
        try:
            value = json_of(line)
        except ValueError:
            return []
        return stamped(Fields(value=value), self.stamp, self.stamps) if isinstance(value, dict) else []


def journal_text(value: object) -> str | None:
    """Returns a field of the journal: a text, the bytes that are none, or the first of several; None of one that was too long."""
    if isinstance(value, list) and value and all(isinstance(it, str) and it.isdigit() and int(it) < 256 for it in value):
        return bytes(int(it) for it in value).decode("utf-8", "replace")
    return journal_text(value[0]) if isinstance(value, list) and value else text_of(value)


class Journal:
    """Reads what `journalctl -o json` prints. Fields: those of the entry; message is MESSAGE, host is _HOSTNAME, app is SYSLOG_IDENTIFIER, pid is _PID."""

    NAMES = {"message": "MESSAGE", "text": "MESSAGE", "host": "_HOSTNAME", "app": "SYSLOG_IDENTIFIER", "pid": "_PID"}

    def __init__(self, stamps: Stamps, stamp: str | None = None) -> None:
        self.stamps, self.stamp = stamps, stamp or "__REALTIME_TIMESTAMP"
        stamps.unit = "us"

    def moments(self, line: str) -> list[Moment]:
        """Returns what an entry tells, nothing of one without the stamp of another name. Raises Unreadable where it is no entry."""
        if not line.strip():
            return []
        try:
            value = json_of(line)
        except ValueError:
            value = None
        need(isinstance(value, dict) and "__REALTIME_TIMESTAMP" in value, "an entry of `journalctl -o json`, an object with __REALTIME_TIMESTAMP on one line")
        entry = {name: journal_text(it) for name, it in value.items()}
        return stamped(Fields({**entry, **{name: entry.get(it) for name, it in self.NAMES.items()}}), self.stamp, self.stamps)
