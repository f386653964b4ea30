"""The timeline as JSON and as CSV, with each number as the program printed it. In CSV no text of others is a formula."""

import csv
import io
import json
from typing import Any

from chains import Chain
from records import Record
from texts import cell
from timeline import Timeline, order_of
from tracesync.numbers import Interval, ns_text


def text_of(units: int | None, infinite: str) -> str:
    return infinite if units is None else ns_text(units)


def ends_text(ends: Interval) -> list[str]:
    return [text_of(ends[0], "-inf"), text_of(ends[1], "+inf")]


def record_values(it: Record) -> dict[str, Any]:
    """Returns what is known of the packet or row behind an event."""
    values = {"connection": it.connection, "key": it.key, "file": it.path, "frame": it.frame}
    return {name: value for name, value in values.items() if value}


def chain_values(chain: Chain, infinite: str) -> dict[str, Any]:
    """Returns an end of an interval with the legs whose sum it is, or the clocks from which nothing leads on."""
    legs = [{"from": it.start, "to": it.end, "ns": ns_text(it.units), "why": it.why} for it in chain.legs]
    return {"ns": text_of(chain.end, infinite), "legs": legs, **({"inside": chain.inside} if chain.inside else {})}


def as_json(found: Timeline) -> str:
    """Returns the timeline as one JSON object; numbers of ns are texts with nine digits behind the point."""
    value: dict[str, Any] = {
        "report": found.report,
        "hosts": found.hosts,
        "events": [
            {"event": it.name, "host": it.host, "stamp": str(it.stamp), "earliest": ns_text(it.time), "text": it.text,
             "since": {name: ends_text(ends[it.name]) for name, ends in found.ends.items()},
             **({"time": ends_text(it.source_time)} if it.source_time else {}), **record_values(it.record)}
            for it in found.events
        ],
        "messages": [
            {"send": it.send, "receive": it.receive, **({"delay": ends_text(it.delay)} if it.delay else {})}
            for it in found.messages
        ],
        "orders": [{"first": one, "second": other, "order": order} for (one, other), order in found.orders.items()],
        "proofs": [
            {"first": one, "second": other, "least": chain_values(it.least, "-inf"), "greatest": chain_values(it.greatest, "+inf")}
            for (one, other), it in found.proofs.items()
        ],
        "notes": found.notes,
    }  # fmt: skip
    return json.dumps(value, indent=1) + "\n"


def as_csv(found: Timeline) -> str:
    """Returns a row for each event, in the order of the earliest execution; the ends are since the first event that was chosen.

    Names and texts are those of others, and stand as `cell` has them; what is in the other columns was made here or by the program.
    """
    out = io.StringIO()
    write = csv.writer(out, lineterminator="\n")
    name, ends = next(iter(found.ends.items()))
    peers = {one: other for it in found.messages for one, other in ((it.send, it.receive), (it.receive, it.send))}
    write.writerow(["event", "host", "stamp", "earliest", f"least since {name}", f"greatest since {name}", f"order of {name} and it", "other end", "text"])
    for it in found.events:
        least, greatest = ends[it.name]
        order = order_of((least, greatest))
        numbers = [str(it.stamp), ns_text(it.time), text_of(least, "-inf"), text_of(greatest, "+inf")]
        write.writerow([cell(it.name), cell(it.host), *numbers, order, cell(peers.get(it.name, "")), cell(it.text)])
    return out.getvalue()
