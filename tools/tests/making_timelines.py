"""Makes timelines of any size for tests of pages: what a session might have said of the logs that making_logs makes."""

from making_logs import logs
from records import Record
from tracesync.numbers import UNITS, Interval
from timeline import Event, Message, Timeline

# How far each bar goes on both sides of its event, in ns.
WIDTH = 3000


def timeline(count: int, hosts: int, text: str = "") -> Timeline:
    """Returns a timeline of at least so many events, each a packet of one of some connections, and some with a text."""
    found = Timeline([f"h{number}" for number in range(hosts)])
    ends: dict[str, dict[str, str]] = {}
    for host, rows in zip(found.hosts, logs(count, hosts)):
        offset = int(rows[0].split(",")[0])
        for number, row in enumerate(rows, 1):
            stamp, kind, key, note = row.split(",")
            name, told = f"{host}#{number}", note or (text if number == 1 else "")
            record = Record(connection=f"TCP 10.0.0.1:{number % 7} and 10.0.0.2:80", path=f"{host}.pcap", frame=number)
            found.events.append(Event(name, host, int(stamp), (int(stamp) - offset) * UNITS, told, told, record=record))
            ends.setdefault(key, {})[kind] = name
    found.events.sort(key=lambda it: it.time)
    declared = Interval(UNITS, None)
    found.messages = [Message(it["send"], it["receive"], declared=declared) for it in ends.values() if "send" in it and "receive" in it]
    base = found.events[0]
    since = {it.name: it.time - base.time for it in found.events}
    found.ends = {base.name: {name: (max(it - WIDTH * UNITS, 0), it + WIDTH * UNITS) for name, it in since.items()}}
    found.ends[base.name][base.name] = (0, 0)
    found.report = {"messages": len(found.messages), "events": len(found.events), "nokey": {}, "unmatched": 0, "ambiguous": []}
    return found
