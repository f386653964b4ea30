"""What Zeek writes into conn.log, as lines with tabs and as JSON: the first and the last packet of each connection."""

from __future__ import annotations

import re

from .fields import Fields, Moment, json_of, moved, need, stamped, text_of
from .stamps import Stamps, span_of

KEY = "{proto}-{id.orig_h}:{id.orig_p}-{id.resp_h}:{id.resp_p}"


def end_text(fields: Fields, end: str) -> str:
    """Returns an end of a connection as a text: its address and its port."""
    return ":".join(it for it in (fields.get(f"id.{end}_h"), fields.get(f"id.{end}_p")) if it) or "an unknown end"


class Zeek:
    """Reads a conn.log. Its first packet is one that the originator sent: a send where that is one of the host's own addresses, a receive where
    the responder is. Fields: those of the log, and message, which is the whole line."""

    def __init__(self, stamps: Stamps, addresses: list[str]) -> None:
        self.stamps, self.addresses = stamps, addresses
        self.separator, self.unset = "\t", "-"
        self.names: list[str] = []

    def moments(self, line: str) -> list[Moment]:
        """Returns the first and the last packet of a connection, nothing of a line of the head. Raises Unreadable where it is none of conn.log."""
        if not line.strip():
            return []
        if line.startswith("#"):
            self.read_head(line)
            return []
        fields = self.of_json(line) if line.startswith("{") else self.of_columns(line)
        return self.packets(Fields({**fields, "message": line}))

    def read_head(self, line: str) -> None:
        """Takes what a line of the head says of those that follow."""
        if line.startswith("#separator "):
            self.separator = re.sub(r"\\x([0-9a-fA-F]{2})", lambda it: chr(int(it[1], 16)), line[len("#separator ") :])
            need(bool(self.separator), "a separator, as `#separator \\x09`")
            return
        name, *values = line.split(self.separator)
        if name == "#unset_field":
            self.unset = values[0] if values else "-"
        elif name == "#path":
            need(values == ["conn"], f"the log conn (`#path conn`), and this is {' '.join(values) or 'none'}")
        elif name == "#fields":
            need("ts" in values, "fields of conn.log, of which `ts` is one")
            self.names = values

    def of_columns(self, line: str) -> dict[str, str | None]:
        """Returns the fields of a line with tabs."""
        need(bool(self.names), "the line `#fields ..` of conn.log before the first connection, or JSON")
        values = line.split(self.separator)
        need(len(values) == len(self.names), f"{len(self.names)} fields, as `#fields` says, and there are {len(values)}")
        return {name: None if value == self.unset else value for name, value in zip(self.names, values)}

    def of_json(self, line: str) -> dict[str, str | None]:
        """Returns the fields of a line of JSON."""
        try:
            value = json_of(line)
        except ValueError:
            value = None
        need(isinstance(value, dict) and "ts" in value and "id.orig_h" in value, "a connection of conn.log, a JSON object with `ts` and `id.orig_h` on one line")
        return {name: text_of(it) for name, it in value.items()}

    def packets(self, fields: Fields) -> list[Moment]:
        """Returns the first packet of a connection and, where it lasted, the last one."""
        text = f"{fields.get('proto') or 'unknown'} {end_text(fields, 'orig')} to {end_text(fields, 'resp')}"
        need(fields.get("ts"), "a stamp `ts`")
        first = stamped(fields.with_fields({"text": text}), "ts", self.stamps)[0]
        first.kind, first.key, ns, decimals = self.kind(fields), KEY, first.ns, first.decimals
        found = [first]
        if fields.get("duration"):
            took, more = span_of(fields.get("duration") or "", "s")
            found.append(Moment(moved(ns, took), max(decimals, more), "local", fields.with_fields({"text": f"{text}: its last packet"})))
        return found

    def kind(self, fields: Fields) -> str:
        """Returns the kind of the first packet; local where it is none of this host's, or where the history says that the begin was not seen."""
        own = [fields.get(name) in self.addresses for name in ("id.orig_h", "id.resp_h")]
        history = fields.get("history")
        # (a TCP connection whose first packet was seen begins with the originator's SYN)
        begins = "S" if fields.get("proto") == "tcp" else "SD"
        if own[0] == own[1] or history and history[0] not in begins:
            return "local"
        return "send" if own[0] else "receive"
