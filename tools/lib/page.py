"""The timeline as one page of HTML, which needs nothing from a network."""

import json
import os
import re
from collections.abc import Collection, Iterable
from dataclasses import replace
from html import escape
from typing import Any

from chains import Chain
from charts import delay_chart, embedded, offset_chart
from picture import chosen_part
from timeline import Event, Timeline
from tracesync.numbers import short_ns
from words import Words

# What the program said, which of it is shown, how it is drawn with arrows and proofs, and what one does: in this order.
SCRIPTS = ("page_said.js", "page_shown.js", "page_drawn.js", "page_bundled.js", "page_proved.js", "page_done.js")
# How many events a page has at most if it is not said: these are 5 to 20 MB, which a browser opens and draws within seconds.
EVENTS_MOST = 50_000
PART_TOLD = "and clocks and delays of all; --from EVENT makes one around another event, --page N one of N"
HERE = os.path.dirname(os.path.realpath(__file__))


def part(name: str) -> str:
    with open(f"{HERE}/{name}", encoding="utf-8") as it:
        return it.read()


def ends_text(units: int | None) -> str | None:
    return None if units is None else short_ns(units)


def places_of(texts: Iterable[str]) -> dict[str, int]:
    """Returns where each text stands among those that differ; an empty one stands nowhere."""
    return {text: at for at, text in enumerate(dict.fromkeys(text for text in texts if text))}


def record_data(found: Timeline) -> dict[str, Any]:
    """Returns the connections and files of all events, and of each event where its own stand there, its frame, and its key."""
    own = [it.record for it in found.events]
    connections, files = places_of(it.connection for it in own), places_of(it.path for it in own)
    places = [[connections.get(it.connection, -1), files.get(it.path, -1), it.frame or 0] for it in own]
    records = [[*place, *([it.key] if it.key else [])] for place, it in zip(places, own)]
    return {"connections": list(connections), "files": list(files), "records": records}


def proof_data(found: Timeline, places: dict[str, int]) -> list[dict[str, Any]]:
    """Returns the proofs, with events by their places."""
    return [
        {"first": places[one], "second": places[other],
         "least": chain_data(it.least, places), "greatest": chain_data(it.greatest, places)}
        for (one, other), it in found.proofs.items()
    ]  # fmt: skip


def chain_data(chain: Chain, places: dict[str, int]) -> dict[str, Any]:
    """Returns an end with the legs of its chain, or the clocks from which nothing leads on."""
    legs = [[places[it.start], places[it.end], short_ns(it.units), it.why] for it in chain.legs]
    return {"end": ends_text(chain.end), "legs": legs, "inside": chain.inside}


def proved_events(found: Timeline) -> set[str]:
    """Returns the events of all proofs, and those on the way from one to another."""
    legs = [leg for it in found.proofs.values() for chain in (it.least, it.greatest) for leg in chain.legs]
    return {name for pair in (*found.proofs, *((it.start, it.end) for it in legs)) for name in pair}


def held_events(found: Timeline, most: int, around: Collection[str]) -> tuple[list[Event], str | None]:
    """Returns at most so many events around the first of these names, or the first message; and what there is to say of the part that they are."""
    part, told = chosen_part(found, most, around or {it.send for it in found.messages})
    return part, told and f"the page has {told}, {PART_TOLD}"


def part_of(found: Timeline, part: list[Event]) -> Timeline:
    """Returns a timeline with these events, the other ends of their messages, and the events of which bars or proofs speak."""
    names = {it.name for it in part}
    messages = [it for it in found.messages if it.send in names or it.receive in names]
    names |= {name for it in messages for name in (it.send, it.receive)} | proved_events(found) | set(found.ends)
    events = [it for it in found.events if it.name in names]
    orders = {pair: order for pair, order in found.orders.items() if names.issuperset(pair)}
    return replace(found, events=events, messages=messages, orders=orders)


def page_data(words: Words, most: int, around: Collection[str]) -> dict[str, Any]:
    """Returns what the page draws, as values of JSON: numbers of ns are texts, so that no digit is lost."""
    whole = words.found
    part, told = held_events(whole, most, around)
    found = part_of(whole, part) if told else whole
    hosts = {host: at for at, host in enumerate(found.hosts)}
    places = {it.name: at for at, it in enumerate(found.events)}
    return {
        "all": [len(whole.events), len(whole.messages)],
        # (what a part was made around, it begins with)
        "first": next((places[name] for name in around if name in places), None) if told else None,
        "hosts": found.hosts,
        "events": [[it.name, hosts[it.host], str(it.stamp), short_ns(it.time), it.text, *([it.brief] if it.brief != it.text else [])] for it in found.events],
        "messages": [[places[it.send], places[it.receive], *([ends_text(end) for end in it.delay] if it.delay else [])] for it in found.messages],
        "bases": [
            {"event": places[name], "least": [ends_text(ends[it.name][0]) for it in found.events], "greatest": [ends_text(ends[it.name][1]) for it in found.events]}
            for name, ends in found.ends.items()
        ],
        "orders": {f"{places[one]},{places[other]}": order[0] for (one, other), order in found.orders.items()},
        "proofs": proof_data(found, places),
        **record_data(found),
        "words": [*words.files(), *words.matched(), *words.offsets, *words.notes(), *([f"Note: {told}."] if told else [])],
        "delays": words.delay_rows,
    }


def page(found: Timeline, title: str, most: int = EVENTS_MOST, around: Collection[str] = (), pictures: Iterable[str] | None = None, words: Words | None = None) -> str:
    """Returns the page of at most so many events, around the first of these names; with the pictures of clocks and of delays, and what the
    timeline says in words, which are made for it where none are given."""
    # (no text can end the script, nor the text in it, which a browser reads sooner than the same as a part of the script)
    text = json.dumps(page_data(words or Words(found), most, around), separators=(",", ":"))
    data = text.replace("<", "\\u003c").replace("\\", "\\\\").replace("'", "\\'")
    charts = "".join(embedded(it) for it in pictures or (offset_chart(found), delay_chart(found)))
    parts = {"TITLE": escape(title), "DATA": data, "CHARTS": charts or "<p>Nothing is known of clocks or delays.</p>", "SCRIPT": "".join(part(it) for it in SCRIPTS)}
    return re.sub("@@([A-Z]+)@@", lambda it: parts[it[1]], part("page.html"))
