"""The timeline in formats of other tools: trace events for Perfetto and chrome://tracing, and a log for ShiViz."""

import json
from typing import Any

from timeline import Timeline
from tracesync.numbers import UNITS, ns_text

# Trace events count in microseconds; their digits behind the point are ns.
PER_US = 1000 * UNITS
PID = 1
# How long an event lasts in a trace, in us: flows join slices, and one without any length is closed when they come.
EVENT_US = 0.001
# The expression that ShiViz takes if none is given.
SHIVIZ_EXPRESSION = r"(?<event>.*)\n(?<host>\S*) (?<clock>{.*})"


def micros(units: int) -> float:
    """Returns units in us with three digits, rounded down: what lies below 1 ns is not shown there."""
    return round(units // UNITS / 1000, 3)


def chrome(found: Timeline) -> str:
    """Returns the timeline as trace events (JSON object format): a thread for each host, an instant for each event, a flow for each message.

    Times are those of the earliest execution since its first event. The bar of an event is a slice on a second thread of its host, from
    the least to the greatest time since the chosen event, at that event's place; one without a limit is left out. Exact numbers stand in `args`.
    """
    name, ends = next(iter(found.ends.items()))
    start, zero = min(it.time for it in found.events), found.find(name).time
    lowest = min([0, *(zero - start + it[0] for it in ends.values() if it[0] is not None)])
    threads = {host: 2 * at + 1 for at, host in enumerate(found.hosts)}
    out: list[dict[str, Any]] = [{"ph": "M", "pid": PID, "tid": 0, "name": "process_name", "args": {"name": "earliest execution; bars since " + name}}]
    for host, thread in threads.items():
        for tid, text in ((thread, host), (thread + 1, f"{host}: least to greatest")):
            out.append({"ph": "M", "pid": PID, "tid": tid, "name": "thread_name", "args": {"name": text}})
            out.append({"ph": "M", "pid": PID, "tid": tid, "name": "thread_sort_index", "args": {"sort_index": tid}})
    at = {}
    for it in found.events:
        least, greatest = ends[it.name]
        at[it.name] = (threads[it.host], micros(it.time - start - lowest))
        args = {"stamp": str(it.stamp), "least": "-inf" if least is None else ns_text(least), "greatest": "+inf" if greatest is None else ns_text(greatest)}
        args |= {"since": name, **({"text": it.text} if it.text else {})}
        out.append({"ph": "X", "pid": PID, "tid": threads[it.host], "ts": at[it.name][1], "dur": EVENT_US, "name": it.name, "cat": "event", "args": args})
        if least is not None and greatest is not None:
            low, high = micros(zero - start + least - lowest), micros(zero - start + greatest - lowest)
            out.append({"ph": "b", "pid": PID, "tid": threads[it.host] + 1, "id": it.name, "ts": low, "name": it.name, "cat": f"{it.host}: least to greatest", "args": args})
            out.append({"ph": "e", "pid": PID, "tid": threads[it.host] + 1, "id": it.name, "ts": high, "name": it.name, "cat": f"{it.host}: least to greatest"})
    for number, message in enumerate(found.messages, 1):
        for phase, end in (("s", message.send), ("f", message.receive)):
            thread, time = at[end]
            more = {"bp": "e"} if phase == "f" else {}
            out.append({"ph": phase, "pid": PID, "tid": thread, "ts": time, "id": number, "name": f"{message.send} to {message.receive}", "cat": "message", **more})
    return json.dumps({"traceEvents": out, "displayTimeUnit": "ns"}, separators=(",", ":")) + "\n"


def shiviz(found: Timeline) -> str:
    """Returns the timeline as a log for ShiViz: its expression, a blank line, and then for each event its text, and its host with its vector clock.

    The clocks are those of the happened-before order: of the events of a host, in the order of the earliest execution, and of messages.
    """
    # (no name of a host has a blank)
    clocks: dict[str, dict[str, int]] = {host: {} for host in found.hosts}
    sent: dict[str, dict[str, int]] = {}
    lines: list[str] = []
    from_send, sends = {it.receive: it.send for it in found.messages}, {it.send for it in found.messages}
    name, ends = next(iter(found.ends.items()))
    # (at one time what is sent stands first, so that no receive stands before its send)
    for it in sorted(found.events, key=lambda it: (it.time, it.name in from_send)):
        clock = clocks[it.host]
        if it.name in from_send:
            for host, count in sent[from_send[it.name]].items():
                clock[host] = max(clock.get(host, 0), count)
        clock[it.host] = clock.get(it.host, 0) + 1
        if it.name in sends:
            sent[it.name] = dict(clock)
        least, greatest = ends[it.name]
        span = f"[{'-inf' if least is None else ns_text(least)}, {'+inf' if greatest is None else ns_text(greatest)}] ns since {name}"
        lines += [" ".join(f"{it.name} {it.text} {span}".split()), f"{it.host} {json.dumps(clock)}"]
    return "\n".join([SHIVIZ_EXPRESSION, "", *lines]) + "\n"
