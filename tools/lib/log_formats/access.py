"""Access logs: the common log format, and what a log_format of nginx says."""

from __future__ import annotations

import re

from .fields import Fields, Moment, moved, need, stamped
from .stamps import Stamps, span_of

QUOTED = r'(?:[^"\\]|\\.)*'
COMMON = re.compile(
    rf'(?P<host>\S+) (?P<ident>\S+) (?P<user>\S+|"{QUOTED}") \[(?P<stamp>[^\]]*)\] "(?P<request>{QUOTED})" (?P<status>\d{{3}}|-) (?P<bytes>\d+|-)'
    rf'(?: "(?P<referer>{QUOTED})" "(?P<agent>{QUOTED})")?(?: (?P<rest>.*))?', re.A
)  # fmt: skip
REQUEST = re.compile(r"(?P<method>\S+) (?P<path>\S+)(?: (?P<protocol>\S+))?")
VARIABLE = re.compile(r"\$(?:\{(\w+)\}|(\w+))", re.A)
NGINX = '$msec $request_time $request_id "$request" $status'
KEY = "{request_id}-{role}"


def known(fields: dict[str, str | None]) -> dict[str, str | None]:
    """Returns fields without those that are a hyphen or empty, which say that nothing is known; with the parts of the request."""
    found = {name: None if value in ("-", "") else value for name, value in fields.items()}
    request = REQUEST.fullmatch(found.get("request") or "")
    return {**found, **(request.groupdict() if request else {})}


def told(fields: dict[str, str | None]) -> str:
    """Returns a request and its status as a text."""
    return " ".join(it for it in (fields.get("request"), fields.get("status")) if it)


class Common:
    """Reads lines of the common log format, and of the combined one. Fields: host, ident, user, request, method, path, status, bytes, referer, agent,
    rest, and message, which is the whole line."""

    def __init__(self, stamps: Stamps, stamp: str | None = None) -> None:
        self.stamps, self.stamp = stamps, stamp or "stamp"

    def moments(self, line: str) -> list[Moment]:
        """Returns what a line tells. Raises Unreadable where it is no line of this format."""
        if not line.strip():
            return []
        found = need(COMMON.fullmatch(line), 'a line `HOST IDENT USER [30/Nov/2026:02:24:55 +0000] "REQUEST" STATUS BYTES`')
        fields = known(found.groupdict())
        fields.update(message=line, text=told(fields))
        return stamped(Fields(fields), self.stamp, self.stamps)


def pattern_of(log_format: str) -> re.Pattern[str]:
    """Returns what finds the variables of a log_format in a line, each as a group `_N`. Raises ValueError where two have nothing between them."""
    found, at = "", 0
    for number, it in enumerate(VARIABLE.finditer(log_format)):
        if number and it.start() == at:
            raise ValueError(f"the log_format has nothing between ${it[1] or it[2]} and what stands before: no line can be cut there")
        behind = log_format[it.end() : it.end() + 1]
        # (a list of times has a blank behind a comma or on both sides of a colon; nothing else that is not in quotes has one)
        value = ".*" if not behind else r"(?:[^ ]|(?<=,) |(?<= :) | (?=: ))*" if behind == " " else f"[^{re.escape(behind)}]*"
        found += f"{re.escape(log_format[at : it.start()])}(?P<_{number}>{value})"
        at = it.end()
    return re.compile(found + re.escape(log_format[at:]), re.S)


class Nginx:
    """Reads lines of a log_format. A request is received at $msec - $request_time, and answered at $msec. Fields: the variables; role, which is
    `request` or `reply`; and message, which is the whole line."""

    def __init__(self, stamps: Stamps, log_format: str | None = None) -> None:
        self.stamps, self.log_format = stamps, log_format or NGINX
        self.names = [it[1] or it[2] for it in VARIABLE.finditer(self.log_format)]
        for name in ("msec", "request_time"):
            if name not in self.names:
                raise ValueError(f"the log_format has no ${name}: a request is received at $msec - $request_time, and answered at $msec")
        self.pattern = pattern_of(self.log_format)

    def moments(self, line: str) -> list[Moment]:
        """Returns when a request came and when its reply went. Raises Unreadable where a line is not of the log_format."""
        if not line.strip():
            return []
        found = need(self.pattern.fullmatch(line), f"a line of the log_format `{self.log_format}`")
        fields = {name: found[f"_{number}"] for number, name in enumerate(self.names)}
        (end, decimals), (took, more) = span_of(fields["msec"], "s"), span_of(fields["request_time"], "s")
        fields = known(fields)
        fields.update(message=line, text=told(fields))
        made = Fields(fields)
        return [
            Moment(moved(end, -took), max(decimals, more), "receive", made.with_fields({"role": "request"}), KEY),
            Moment(end, decimals, "send", made.with_fields({"role": "reply"}), KEY),
        ]
