"""Readers of the formats of neighbours, written from what their pages say: each returns what is wrong, as a list of words."""

import json
import re
from typing import Any

# Trace Event Format, "JSON Object Format": which phases have which keys beside `ph`, `pid` and `tid`.
NEEDED = {"M": {"name", "args"}, "X": {"name", "ts", "dur"}, "b": {"name", "cat", "id", "ts"}, "e": {"name", "cat", "id", "ts"},
          "s": {"name", "cat", "id", "ts"}, "f": {"name", "cat", "id", "ts"}}  # fmt: skip


def data_of(text: str) -> dict[str, Any]:
    """Returns what the script of a page reads."""
    quoted = re.search(r"const DATA = JSON.parse\('(.*)'\);\n", text)[1]
    return json.loads(re.sub(r"\\(.)", r"\1", quoted))


def faults_of_trace_events(text: str) -> list[str]:
    """Returns what is wrong with trace events: keys, numbers, pairs of async events, and flows that leave and come in within slices."""
    value = json.loads(text)
    events, wrong = value["traceEvents"], []
    for it in events:
        lacks = (NEEDED.get(it["ph"], {"a phase that is known"}) | {"pid", "tid"}) - set(it)
        if lacks:
            wrong.append(f"{it} lacks {lacks}")
        if "ts" in it and not (isinstance(it["ts"], (int, float)) and it["ts"] >= 0):
            wrong.append(f"{it} has no lawful time")
        if it["ph"] == "M" and it["name"] not in ("process_name", "thread_name", "thread_sort_index"):
            wrong.append(f"{it} is no metadata")
    slices = [(it["tid"], it["ts"], it["ts"] + it.get("dur", 0)) for it in events if it["ph"] == "X" and "ts" in it]
    for first, last in (("b", "e"), ("s", "f")):
        begun = {(it["cat"], it["id"]): it for it in events if it["ph"] == first}
        ended = {(it["cat"], it["id"]): it for it in events if it["ph"] == last}
        if set(begun) != set(ended) or len(begun) != sum(it["ph"] == first for it in events):
            wrong.append(f"events {first} and {last} are no pairs")
        wrong += [f"{it} ends before it begins" for it in begun if it in ended and ended[it]["ts"] < begun[it]["ts"]]
    for it in events:
        if it["ph"] in "sf" and not any(tid == it["tid"] and low <= it["ts"] <= high for tid, low, high in slices):
            wrong.append(f"{it} is in no slice")
    return wrong


def read_shiviz(text: str) -> tuple[str, list[tuple[str, dict[str, int], str]]]:
    """Returns the events of a log for ShiViz, by its own expression: each its host, its vector clock and its text."""
    expression, delimiter, body = text.split("\n", 2)
    # (a named group of JavaScript is one of Python with a P)
    found = [it.groupdict() for it in re.finditer(re.sub(r"\(\?<(\w+)>", r"(?P<\1>", expression), body)]
    return delimiter, [(it["host"], json.loads(it["clock"]), it["event"]) for it in found]


def faults_of_shiviz(text: str) -> list[str]:
    """Returns what is wrong with a log for ShiViz: each host counts its own events from 1, and knows no event that did not happen before."""
    delimiter, events = read_shiviz(text)
    wrong = ["the second line is a delimiter"] if delimiter else []
    last: dict[str, dict[str, int]] = {}
    if 2 * len(events) != len(text.splitlines()) - 2:
        wrong.append("some lines are no events")
    seen: dict[tuple[str, int], dict[str, int]] = {}
    for host, clock, event in events:
        if clock.get(host) != last.get(host, {}).get(host, 0) + 1:
            wrong.append(f"{event}: {host} does not count its events one by one")
        if any(clock.get(it, 0) < count for it, count in last.get(host, {}).items()):
            wrong.append(f"{event}: the clock went back")
        for other, count in clock.items():
            if other != host and seen.get((other, count)) is None:
                wrong.append(f"{event}: it knows event {count} of {other}, which is not above it")
            elif other != host and any(clock.get(it, 0) < known for it, known in seen[other, count].items()):
                wrong.append(f"{event}: it knows less than event {count} of {other}, which it has heard of")
        last[host] = clock
        seen[host, clock.get(host, 0)] = clock
    return wrong
