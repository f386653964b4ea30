"""Lines of syslog, as daemons send them and as rsyslogd or syslog-ng write them into files: RFC 3164 and RFC 5424."""

from __future__ import annotations

import re

from .fields import Fields, Moment, need, stamped
from .stamps import Stamps

WANTED = "a line of syslog, as `Nov 30 02:24:55.103755 HOST TAG[PID]: TEXT` or `<34>1 2026-11-30T02:24:55Z HOST APP PID MSGID - TEXT`"
LATER = re.compile(r"<(?P<pri>\d{1,3})>\d{1,2} (?P<stamp>\S+) (?P<host>\S+) (?P<app>\S+) (?P<pid>\S+) (?P<msgid>\S+) (?P<rest>[-\[].*)", re.S | re.A)
# (files of rsyslogd have an ISO stamp in the place of the older one)
EARLIER = re.compile(
    r"(?:<(?P<pri>\d{1,3})>)?(?P<stamp>[A-Z][a-z]{2} [ \d]?\d (?:\d{4} )?\d\d:\d\d:\d\d(?:[.,]\d+)?|\d{4}-\d\d-\d\d[T ]\S+) (?P<host>\S+) (?P<rest>.*)", re.S | re.A
)
TAG = re.compile(r"(?P<app>[^\s:\[\]]+)(?:\[(?P<pid>[^\]\s]*)\])?: ?(?P<message>.*)", re.S)
ELEMENT = re.compile(r'\[(?P<id>[^ =\]"]+)(?P<parameters>(?: [^ =\]"]+="(?:[^"\\\]]|\\.)*")*)\]', re.S)
PARAMETER = re.compile(r' ([^ =\]"]+)="((?:[^"\\\]]|\\.)*)"', re.S)


def structured(rest: str) -> tuple[dict[str, str | None], str]:
    """Returns the structured data that stand before a message, each as ID.NAME, and the message. Raises Unreadable where there are none."""
    found: dict[str, str | None] = {}
    at = 1 if rest.startswith("-") else 0
    while element := ELEMENT.match(rest, at) if at or not rest.startswith("-") else None:
        for name, value in PARAMETER.findall(element["parameters"]):
            # (only these three are escaped; a backslash before another one is a backslash)
            found[f"{element['id']}.{name}"] = re.sub(r'\\(["\\\]])', r"\1", value)
        at = element.end()
    need(at > 0 and rest[at : at + 1] in ("", " "), "structured data, as `-` or `[ID NAME=\"VALUE\"]`, and a blank before the text")
    message = rest[at + 1 :]
    return found, message[1:] if message.startswith("\ufeff") else message


def priority(text: str | None) -> dict[str, str | None]:
    """Returns facility and severity of a priority, of which there may be none."""
    if text is None:
        return {}
    need(int(text) <= 191, "a priority from <0> to <191>")
    return {"facility": str(int(text) // 8), "severity": str(int(text) % 8)}


def known(fields: dict[str, str | None]) -> dict[str, str | None]:
    """Returns fields without those that are a hyphen, which says that nothing is known."""
    return {name: None if value == "-" else value for name, value in fields.items()}


class Syslog:
    """Reads lines of syslog. Fields: host, app, pid, msgid, facility, severity, message, and ID.NAME of structured data."""

    def __init__(self, stamps: Stamps) -> None:
        self.stamps = stamps

    def moments(self, line: str) -> list[Moment]:
        """Returns what a line tells, nothing where it is empty or has no stamp. Raises Unreadable where it is no line of syslog."""
        if not line.strip():
            return []
        later = LATER.fullmatch(line)
        found = need(later or EARLIER.fullmatch(line), WANTED)
        fields = known({**found.groupdict(), **priority(found["pri"])})
        if later:
            data, message = structured(found["rest"])
            fields.update(data)
        else:
            tag = TAG.fullmatch(found["rest"])
            message = tag["message"] if tag else found["rest"]
            fields.update(tag.groupdict() if tag else {})
        fields.update(message=message, text=message.strip())
        return stamped(Fields(fields), "stamp", self.stamps)
