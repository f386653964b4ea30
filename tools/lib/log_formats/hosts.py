"""The hosts of spans: their names as labels and as files, and their rows as text."""

from __future__ import annotations

import csv
import hashlib
import io
import re
from typing import Any, Iterable, Iterator

from .spans import Span, SpanRow, rows_by_host

LABEL_MOST = 32


def label_of(host: str) -> str:
    """Returns a host's name as a label and a file may have it; one that is changed has its sum at its end, so that names that differ stay different."""
    if re.fullmatch(r"[A-Za-z0-9_][A-Za-z0-9._-]{0,31}", host, re.A):
        return host
    plain = re.sub(r"[^A-Za-z0-9_]", "_", host)
    return f"{plain[: LABEL_MOST - 9]}_{hashlib.sha256(host.encode('utf-8', 'surrogatepass')).hexdigest()[:8]}"


def rows_text(rows: Iterable[list[Any]]) -> str:
    """Returns rows as the text of an event log."""
    found = io.StringIO()
    csv.writer(found, lineterminator="\n").writerows(rows)
    return found.getvalue()


def written_hosts(spans: list[Span]) -> Iterator[tuple[str, str, list[SpanRow]]]:
    """Yields each host of spans by its name, with its label and its rows."""
    for host, rows in rows_by_host(spans).items():
        yield host, label_of(host), rows
