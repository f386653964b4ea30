"""Spans of OpenTelemetry (OTLP as JSON) and of Jaeger's JSON, and the rows that they are: a client's span and its server's are two messages."""

from __future__ import annotations

import json
import re
from dataclasses import dataclass, field
from decimal import Decimal
from typing import Any, Callable, Iterator

from .fields import Fields, Moment, need
from .stamps import Unreadable

KEY = "{trace}-{span}-{role}"
KINDS = ("internal", "internal", "server", "client", "producer", "consumer")
HOSTS = ("host.name", "hostname", "service.name")


@dataclass
class Span:
    """A span: its ids, those of its parent ('' if it has none) and of the spans that it is linked to, what it is, and its stamps in ns. `raw` is the object
    that it was read from, and `decimals` how many of a second its stamps have."""

    host: str
    service: str
    trace: str
    id: str
    parent: str
    name: str
    kind: str
    start: int
    end: int
    events: list[tuple[int, str]] = field(default_factory=list)
    links: list[tuple[str, str]] = field(default_factory=list)
    raw: Any = None
    decimals: int = 9


@dataclass
class SpanRow:
    """A row of a span: the moment that it tells, and which: `start`, `end`, or the number of an event."""

    span: Span
    place: str | int
    moment: Moment


def documents(text: str) -> Iterator[tuple[int, Any]]:
    """Yields the JSON values of a file, each with the number of its first line: the file is one, or each of its lines. Raises Unreadable where it is neither."""
    try:
        yield 1, json.loads(text)
        return
    except RecursionError:
        raise Unreadable("line 1: it is nested too deep")
    except json.JSONDecodeError as why:
        if not why.msg.startswith("Extra data"):
            raise Unreadable(f"line {why.lineno}: expected JSON: {why.msg}")
    except ValueError as why:
        raise Unreadable(f"line 1: expected JSON: {why}")
    for number, line in enumerate(text.split("\n"), 1):
        try:
            if line.strip():
                yield number, json.loads(line)
        except (ValueError, RecursionError) as why:
            raise Unreadable(f"line {number}: expected one JSON object on each line: {why}")


def objects(value: Any, *names: str) -> list[dict[str, Any]]:
    """Returns the objects in the array of an object that has one of these names; none where there is none. Raises Unreadable where it is no such array."""
    found: Any = next((value[name] for name in names if value.get(name) is not None), [])
    need(isinstance(found, list) and all(isinstance(it, dict) for it in found), f"an array of objects as `{names[0]}`")
    return list(found)


def text_in(value: dict[str, Any], name: str, pattern: str = r".*") -> str:
    """Returns a text of an object, '' where it is not there. Raises Unreadable where it is no text of this pattern."""
    found = "" if value.get(name) is None else value[name]
    return need(found if isinstance(found, str) and re.fullmatch(pattern, found, re.S | re.A) else None, f"a text as `{name}`, of the form {pattern}")


def ns_in(value: dict[str, Any], name: str, unit: int = 1) -> int:
    """Returns the ns of a whole number, or of a text with its digits. Raises Unreadable where it is none."""
    found = value.get(name)
    text = str(found) if isinstance(found, (int, str)) and not isinstance(found, bool) else ""
    need(re.fullmatch(r"\d{1,20}", text, re.A) and int(text) * unit < 2**62, f"a whole number as `{name}`, whose ns are below 2^62")
    return int(text) * unit


def attribute_texts(found: list[dict[str, Any]]) -> dict[str, str]:
    """Returns the attributes of OTLP that are texts, whole numbers or truth values, by their keys."""
    texts = {}
    for it in found:
        value = it.get("value")
        plain = next((value[name] for name in ("stringValue", "intValue", "boolValue") if name in value), None) if isinstance(value, dict) else None
        if plain is not None:
            texts[str(it.get("key"))] = str(plain)
    return texts


def host_of(attributes: dict[str, str], named: str | None) -> str:
    """Returns the host whose clock stamped spans with these attributes."""
    names = (named,) if named else HOSTS
    return need(next((attributes[it] for it in names if attributes.get(it)), None), f"an attribute {' or '.join(names)} of the resource, which names the host")


def otlp_kind(value: Any) -> str:
    """Returns the kind of a span, a number or the name of one."""
    if isinstance(value, str) and value.startswith("SPAN_KIND_"):
        name = value[len("SPAN_KIND_") :].lower()
        return need(name if name in KINDS else "internal" if name == "unspecified" else None, "a kind of span")
    return need(KINDS[value] if isinstance(value, int) and not isinstance(value, bool) and 0 <= value < len(KINDS) else None, "a kind of span from 0 to 5")


def otlp_span(raw: dict[str, Any], host: str, service: str) -> Span:
    """Returns a span of OTLP."""
    links = [(text_in(it, "traceId"), text_in(it, "spanId")) for it in objects(raw, "links")]
    events = [(ns_in(it, "timeUnixNano"), text_in(it, "name")) for it in objects(raw, "events")]
    trace, own = (text_in(raw, name, r"[!-~]{1,64}") for name in ("traceId", "spanId"))
    start, end = ns_in(raw, "startTimeUnixNano"), ns_in(raw, "endTimeUnixNano")
    return Span(host, service, trace, own, text_in(raw, "parentSpanId"), text_in(raw, "name"), otlp_kind(raw.get("kind", 0)), start, end, events, links, raw)


def otlp_spans(document: Any, named: str | None) -> Iterator[Span]:
    """Yields the spans of a document of OTLP."""
    need(isinstance(document, dict) and "resourceSpans" in document, "OTLP as JSON, an object with `resourceSpans`")
    for at, resource in enumerate(objects(document, "resourceSpans")):
        about = resource.get("resource") or {}
        attributes = attribute_texts(objects(need(about if isinstance(about, dict) else None, "an object as `resource`"), "attributes"))
        for inner, scope in enumerate(objects(resource, "scopeSpans", "instrumentationLibrarySpans")):
            for number, raw in enumerate(objects(scope, "spans")):
                try:
                    yield otlp_span(raw, host_of(attributes, named), attributes.get("service.name", ""))
                except Unreadable as why:
                    raise Unreadable(f"resourceSpans[{at}].scopeSpans[{inner}].spans[{number}]: {why}")


def tags(found: list[dict[str, Any]]) -> dict[str, str]:
    """Returns Jaeger's tags by their keys."""
    return {str(it.get("key")): str(it.get("value")) for it in found}


def jaeger_span(raw: dict[str, Any], processes: dict[str, Any], named: str | None) -> Span:
    """Returns a span of Jaeger's JSON, whose stamps are whole us."""
    process = processes.get(text_in(raw, "processID"))
    process = need(process if isinstance(process, dict) else None, "a process that `processes` has, as `processID`")
    service, about = text_in(process, "serviceName"), tags(objects(process, "tags"))
    references = [(text_in(it, "refType"), text_in(it, "traceID"), text_in(it, "spanID")) for it in objects(raw, "references")]
    parents = [span for kind, trace, span in references if kind == "CHILD_OF" and trace == raw.get("traceID")]
    parent = parents[0] if parents else text_in(raw, "parentSpanID")
    kind = tags(objects(raw, "tags")).get("span.kind", "internal").lower()
    start = ns_in(raw, "startTime", 1000)
    events = [(ns_in(it, "timestamp", 1000), "; ".join(tags(objects(it, "fields")).values())) for it in objects(raw, "logs")]
    trace, own = (text_in(raw, name, r"[!-~]{1,64}") for name in ("traceID", "spanID"))
    links = [(trace, span) for kind, trace, span in references if kind == "FOLLOWS_FROM"]
    host = host_of({"service.name": service, **about}, named)
    return Span(host, service, trace, own, parent, text_in(raw, "operationName"), kind if kind in KINDS else "internal", start,
                start + ns_in(raw, "duration", 1000), events, links, raw, 6)  # fmt: skip


def jaeger_spans(document: Any, named: str | None) -> Iterator[Span]:
    """Yields the spans of a document of Jaeger."""
    need(isinstance(document, dict) and "data" in document, "Jaeger's JSON, an object with `data`")
    for at, trace in enumerate(objects(document, "data")):
        processes: dict[str, Any] = need(trace.get("processes") if isinstance(trace.get("processes"), dict) else None, "an object as `processes`")
        for number, raw in enumerate(objects(trace, "spans")):
            try:
                yield jaeger_span(raw, processes, named)
            except Unreadable as why:
                raise Unreadable(f"data[{at}].spans[{number}]: {why}")


READERS: dict[str, Callable[[Any, str | None], Iterator[Span]]] = {"otlp": otlp_spans, "jaeger": jaeger_spans}


def read_spans(text: str, form: str, named: str | None = None) -> list[tuple[Any, list[Span]]]:
    """Returns the documents of a file, each with its spans. Raises Unreadable, with the number of a line, where it is none of this form."""
    found = []
    for number, document in documents(text):
        try:
            found.append((document, list(READERS[form](document, named))))
        except Unreadable as why:
            raise Unreadable(f"line {number}: {why}")
    return found


def ends_of(span: Span) -> Iterator[tuple[str, int, str, str, tuple[str, str]]]:
    """Yields start and end of a span: which, its stamp, its kind, its role, and the ids that the client's side of its message has."""
    own, callers = (span.trace, span.id), [(span.trace, span.parent)] if span.parent else span.links
    if span.kind == "client":
        yield "start", span.start, "send", "request", own
        yield "end", span.end, "receive", "reply", own
    elif span.kind == "server" and span.parent:
        yield "start", span.start, "receive", "request", callers[0]
        yield "end", span.end, "send", "reply", callers[0]
    elif span.kind == "consumer" and callers:
        for caller in callers:
            yield "start", span.start, "receive", "request", caller
        yield "end", span.end, "local", "", own
    else:
        yield "start", span.start, "send" if span.kind == "producer" else "local", "request", own
        yield "end", span.end, "local", "", own


def rows_of(span: Span) -> Iterator[SpanRow]:
    """Yields the rows of a span. Fields: trace, span (the client's), role, host, service, name."""
    about: dict[str, str | None] = {"host": span.host, "service": span.service, "name": span.name}
    for place, ns, kind, role, (trace, own) in ends_of(span):
        fields = Fields({**about, "trace": trace, "span": own, "role": role, "text": f"{span.name} {place}"})
        yield SpanRow(span, place, Moment(Decimal(ns), span.decimals, kind, fields, KEY))
    for number, (ns, name) in enumerate(span.events):
        yield SpanRow(span, number, Moment(Decimal(ns), span.decimals, "local", Fields({**about, "text": f"{span.name}: {name}"})))


def rows_by_host(spans: list[Span]) -> dict[str, list[SpanRow]]:
    """Returns the rows of spans by their hosts, each in the order of their stamps."""
    found: dict[str, list[SpanRow]] = {}
    for span in spans:
        found.setdefault(span.host, []).extend(rows_of(span))
    for rows in found.values():
        rows.sort(key=lambda it: it.moment.ns)
    return dict(sorted(found.items()))
