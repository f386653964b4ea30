"""Makes rows of what lines tell, as the options say, and counts what had to be left out or changed."""

from __future__ import annotations

import argparse
from typing import Any, Callable

from .access import Common, Nginx
from .fields import KEY_MOST, Fields, Moment, escaped_key, lawful_key, lawful_text
from .lines import JsonLines, Journal, PatternLines, patterned
from .stamps import Stamps, Unreadable, whole_ns
from .strace import Strace
from .syslog import Syslog
from .zeek import Zeek

KINDS = ("send", "receive", "local")


def reader_of(said: argparse.Namespace) -> Any:
    """Returns what reads the lines of the log that the options name. Raises ValueError where a log_format cannot be read."""
    stamps = Stamps(said.unit, said.zone, said.year)
    makers: dict[str | None, Callable[[], Any]] = {
        None: lambda: JsonLines(stamps, said.stamp or "stamp") if said.is_json else PatternLines(stamps, said.stamp or "stamp", said.patterns),
        "syslog": lambda: Syslog(stamps),
        "common": lambda: Common(stamps, said.stamp),
        "journald": lambda: Journal(stamps, said.stamp),
        "nginx": lambda: Nginx(stamps, said.log_format),
        "strace": lambda: Strace(),
        "zeek": lambda: Zeek(stamps, said.address),
    }
    return makers[said.format]()


class Rows:
    """Makes rows of lines, and counts what had to be left out or changed."""

    def __init__(self, said: argparse.Namespace, reader: Any = None) -> None:
        self.said, self.reader = said, reader
        self.made = self.left_out = self.without_key = self.hashed = self.without_second = self.decimals = 0

    def rows(self, line: str) -> list[list[Any]]:
        """Returns the rows of a line. Raises Unreadable where it is none of the format, or a stamp is none."""
        try:
            moments = self.reader.moments(line)
        except Unreadable:
            if not self.said.leave_out:
                raise
            moments = []
        found = []
        for moment in moments:
            fields = self.fields(moment.fields)
            if fields:
                found.append(self.row(moment, fields, self.said.key or moment.key or "key"))
                # (once for a line, however many moments the format tells of)
                found += self.second(fields) if moment is moments[0] else []
        self.left_out += not found
        return found

    def fields(self, fields: Fields) -> Fields | None:
        """Returns the fields of a moment with what the patterns find in its message, or None if none does. Without a format the patterns have read the line."""
        if not self.said.format or not self.said.patterns:
            return fields
        return patterned(fields, fields.get("message") or "", self.said.patterns)

    def row(self, moment: Moment, fields: Fields, key: str) -> list[Any]:
        """Returns the row of a moment with these fields and this template of a key."""
        kind = moment.kind or self.kind_of(fields)
        try:
            ns = whole_ns(moment.ns)
        except Unreadable as why:
            raise Unreadable(f"the stamp cannot be taken: {why}")
        self.decimals, self.made = max(self.decimals, moment.decimals), self.made + 1
        text = fields.filled(self.said.text) if self.said.text else fields.get("text")
        return [ns, *self.keyed(kind, fields.filled(key)), lawful_text(text or "")]

    def second(self, fields: Fields) -> list[list[Any]]:
        """Returns the second row of a line, which --also names; none where a field of its stamp is not there."""
        if not self.said.also:
            return []
        kind, named, key = self.said.also
        stamps = getattr(self.reader, "stamps", Stamps(self.said.unit, self.said.zone, self.said.year))
        try:
            found = fields.stamp(named, stamps)
        except Unreadable as why:
            raise Unreadable(f"the stamp `{named}` of --also cannot be taken: {why}")
        if not found:
            self.without_second += 1
            return []
        return [self.row(Moment(*found, kind=kind), fields, key)]

    def kind_of(self, fields: Fields) -> str:
        """Returns the kind of a row whose format does not say it."""
        word = (fields.filled(self.said.kind) or "").strip().casefold()
        return "send" if word in self.said.sends else "receive" if word in self.said.receives else str(self.said.all_kind)

    def keyed(self, kind: str, key: str | None) -> tuple[str, str]:
        """Returns a kind and a key as a row has them: what has no key is local."""
        if kind != "local" and not key:
            self.without_key += 1
        if kind == "local" or not key:
            return "local", ""
        own = self.said.prefixes[kind == "receive"] + key
        self.hashed += len(escaped_key(own)) > KEY_MOST
        return kind, lawful_key(own)

    def told(self) -> list[str]:
        """Returns what there is to say of all rows."""
        lines = [f"{self.made} rows made, {self.left_out} lines left out"]
        if self.without_key:
            lines.append(f"{self.without_key} rows send or receive and have no key: they are local")
        if self.hashed:
            lines.append(f"{self.hashed} keys have more than {KEY_MOST} bytes: they were cut, and their sums put behind")
        if self.without_second:
            lines.append(f"{self.without_second} lines have no second row: a field of its stamp is not there")
        if self.made and self.decimals < 9:
            lines.append(f"no stamp is finer than {10 ** (9 - self.decimals)} ns: where a log cuts off the rest, add that much, and the drift over it, to the `late` of its label")
        if self.decimals > 9:
            lines.append("some stamps are finer than 1 ns: what is below was cut off, so add 1 to the `late` of its label")
        return lines
