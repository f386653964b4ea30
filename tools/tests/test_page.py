"""What the page says of orders is what was replied, or follows from it. Left out where no node is there to run its script."""

import json
import re
import shutil
import subprocess
import unittest
from dataclasses import replace
from html.parser import HTMLParser
from typing import Any

import making_timelines
import page
import timeline
from records import Record
from test_timeline import made
from tracesync.numbers import UNITS

# A page that holds nothing: whatever is asked of it is a function, a number and an object of the same kind.
STUB = """
const any = () => new Proxy(function () {}, { get: (_, key) => key === Symbol.toPrimitive ? () => 100 : any(), set: () => true, apply: () => any(), construct: () => any() });
const document = any(), window = any(), requestAnimationFrame = (it) => it(), Option = any(), location = { hash: "HASH" };
"""
MARKS = """
console.log(JSON.stringify({ orders: events.map((one) => events.map((other) => one === other ? null : order(one, other))), ends: DATA.bases[0].least.map((it) => it === null ? null : exact(units(it))),
  chosen: chosen && chosen.name, relations, spans: base.least.map((it, at) => between(it, base.greatest[at])),
  marks: [inShort(3600500000000), inShort(3600500001000, 1000), inShort(3600500001010, 10), inShort(1000, Infinity)] }));
"""


# The tags that the words beside the picture have.
TAGS = {"a", "b", "br", "button", "code", "h2", "h3", "li", "ol", "p", "span", "table", "td", "tr"}
NAMES = {"class", "data-copy", "data-end", "data-event", "data-second"}


class Tags(HTMLParser):
    """Reads which tags and which names of attributes a piece of a page has, and its texts."""

    def __init__(self) -> None:
        super().__init__()
        self.tags: set[str] = set()
        self.names: set[str] = set()
        self.texts: list[str] = []

    def handle_starttag(self, tag: str, attrs: list[tuple[str, str | None]]) -> None:
        self.tags.add(tag)
        self.names |= {name for name, _ in attrs}

    def handle_data(self, data: str) -> None:
        self.texts.append(data)


def run_page(found: timeline.Timeline, hash_text: str = "", told: str = MARKS, **part: Any) -> Any:
    """Returns what a text, which is run behind the page's script, prints as JSON; `part` says which events the page has."""
    script = re.search(r"<script>(.*)</script>", page.page(found, "A page", **part), re.S)[1]
    ran = subprocess.run(["node", "-"], input=script.replace('"use strict";', STUB.replace("HASH", hash_text)) + told, capture_output=True, text=True)
    if ran.returncode:
        raise AssertionError(ran.stderr)
    return json.loads(ran.stdout)


@unittest.skipUnless(shutil.which("node"), "no node is there")
class Page(unittest.TestCase):
    def test_orders(self) -> None:
        found, _ = made()
        names, ends = [it.name for it in found.events], found.ends["a#1"]
        turned = {"before": "after", "after": "before", "same": "same", "open": "open"}
        for one, row in zip(names, run_page(found)["orders"]):
            for other, told in zip(names, row):
                if one == other:
                    wanted = None
                elif one == "a#1":
                    wanted = timeline.order_of(ends[other])
                elif other == "a#1":
                    wanted = turned[timeline.order_of(ends[one])]
                elif (one, other) in found.orders:
                    wanted = found.orders[one, other]
                elif (other, one) in found.orders:
                    wanted = turned[found.orders[other, one]]
                else:
                    wanted = "before" if timeline.is_apart(ends[one], ends[other]) else "after" if timeline.is_apart(ends[other], ends[one]) else None
                self.assertEqual(told and told[0], wanted, (one, other))

    def test_what_was_not_asked_is_not_said(self) -> None:
        found, _ = made()
        found.orders = {}
        orders = run_page(found)["orders"]
        self.assertEqual((orders[2][3], orders[3][4]), (None, None))

    def test_numbers_are_exact(self) -> None:
        found, _ = made()
        found.ends["a#1"]["b#1"] = (1234567890123456789000000001, None)
        self.assertEqual(run_page(found)["ends"][1], "1 234 567 890 123 456 789.000000001 ns".replace(" ", "\u202f").replace("\u202fns", "\u00a0ns"))

    def test_great_ends_are_told_by_what_is_less_and_more(self) -> None:
        cases = ((3600500000000000000000 - 952 * UNITS, 3600500000000000000000 + 1003 * UNITS), (-7200 * 10**18 - 700 * UNITS, -7200 * 10**18 + 1300 * UNITS), (10 * UNITS, 20 * UNITS))
        found, _ = made()
        for name, ends in zip(("b#1", "b#2", "b#3"), cases):
            found.ends["a#1"][name] = ends
        plain = [it.replace("\u202f", "").replace("\u00a0", " ") for it in run_page(found)["spans"][1:4]]
        self.assertEqual(plain, ["3600500000000 ns, less 952 ns, plus 1003 ns", "-7200000000000 ns, less 700 ns, plus 1300 ns", "between 10 ns and 20 ns"])

    def test_marks_that_are_near_to_each_other_differ(self) -> None:
        self.assertEqual(run_page(made()[0])["marks"], ["3600.5 s", "3600.500001 s", "3600.50000101 s", "1 us"])

    def test_an_event_is_chosen_by_the_address(self) -> None:
        told = run_page(made()[0], "#event=b%232")
        self.assertEqual((told["chosen"], told["relations"]), ("b#2", ["after", "after", None, "open", "before"]))

    def told(self, found: timeline.Timeline, words: str) -> Any:
        """Returns what statements in the page's script return."""
        return run_page(found, told=f"console.log(JSON.stringify((() => {{ {words} }})()));")

    def test_a_text_or_a_connection_shows_events_with_the_other_ends_of_their_messages(self) -> None:
        found, _ = made()
        connection, all_four = "TCP 10.0.0.1:5 and 10.0.0.2:6", "a#1 b#1 b#2 a#2"
        for it, text, key in zip(found.events, ("Hello", "", "", "bye", ""), ("", "", "k-17", "", "")):
            it.text, it.record = text, Record(connection=connection if it.host == "a" else "", key=key)
        cases = (
            ("", "", "hello", "a#1 b#1", 1), ("", "", "k-17", "b#2 a#2", 1), ("", "", "bye", "b#3", 0),
            ("", "", "10.0.0.1:5", all_four, 2), ("", "", "none", "", 0), ("connection", "0", "", all_four, 2),
            ("connection", "0", "HELLO", "a#1 b#1", 1), ("hosts", "0,1", "", all_four, 2),
        )  # fmt: skip
        told = "return [shown.map((it) => it.name).join(' '), shownMessages.length, byStart.length, knots.length > 0];"
        for kind, which, text, names, messages in cases:
            shown = self.told(found, f"show('{kind}', '{which}', '{text}'); {told}")
            self.assertEqual(shown, [names, messages, messages, True], (kind, which, text))

    def test_all_that_can_be_chosen_of_a_filter(self) -> None:
        found, _ = made()
        found.events[0].record = found.events[4].record = Record(connection="UDP <b>")
        groups = [{"title": "events of", "options": [["connection 0", "UDP <b> (2)"]]}]
        self.assertEqual(self.told(found, "return filterGroups();"), groups)

    def test_it_begins_at_the_first_message(self) -> None:
        found, _ = made()
        self.assertTrue(self.told(found, "return view[0] === low && view[1] === high;"))
        # (now the first one is sent by b#2)
        found.messages = found.messages[1:]
        earlier, first, left, right = self.told(found, "return [place(times[1]), place(times[2]), view[0], view[1]];")
        self.assertTrue(earlier < left < first < left + 0.05 * (right - left), (earlier, left, first, right))

    def test_a_great_timeline_begins_with_a_part(self) -> None:
        first = "Math.min(...messages.map((it) => spotOf[it.send.index]))"
        count = "spotOf.filter((it) => it >= view[0] && it <= view[1]).length"
        told = self.told(making_timelines.timeline(400, 3), f"return [{first}, {count}, view[0], view[1]];")
        self.assertTrue(told[2] < told[0] < told[3] and 80 <= told[1] < 100, told)

    def test_several_arrows_that_are_near_are_one(self) -> None:
        places = [(0, 100), (3, 104), (5, 101), (40, 140), (45, 143), (100, 150), (101, 250), (102, 151), (104, 251)]
        places += [(105, 153), (106, 252)]
        back = "{ message: { send: way.receive, receive: way.send }, x1: 1, x2: 100, y1: 9, y2: 0 }"
        words = f"""const way = messages[0];
            const found = {json.dumps(places)}.map(([x1, x2]) => ({{ message: way, x1, x2, y1: 0, y2: 9 }}));
            found.splice(1, 0, {back});
            return bundled(found).map((it) => [it.messages.length, it.from, it.to]);"""
        single = [[1, [x1, x1], [x2, x2]] for x1, x2 in ((1, 100), (40, 140), (45, 143))]
        wanted = [[3, [0, 5], [100, 104]], *single, [3, [100, 105], [150, 153]], [3, [101, 106], [250, 252]]]
        self.assertEqual(self.told(made()[0], words), wanted)

    def test_a_proof_in_words(self) -> None:
        words = self.told(made()[0], 'choose(byName.get("a#2")); return proofWords();')
        shown = re.sub("<[^>]*>", "", words).replace("\u00a0", " ")
        for wanted in ("a#2 was at most 80 ns after a#1, on the picture", "Together 80 ns.",
                       "a#2 was at least 80 ns after a#1, show on the picture",
                       "a#2 at most 80 ns after a#1: a's clock showed 80 ns, which lasted at most 80 ns"):  # fmt: skip
            self.assertIn(wanted, shown)

    def test_an_end_without_limit_in_words(self) -> None:
        words = self.told(made()[0], 'choose(byName.get("b#3")); return proofWords();')
        shown = re.sub("<[^>]*>", "", words)
        self.assertIn("b#3 has no greatest time since a#1: no bound leads from the clock a to another one.", shown)

    def test_how_much_later_and_how_much_earlier(self) -> None:
        cases = (("5n", "true", "at most 5 ns after"), ("5n", "false", "at least 5 ns after"), ("0n", "true", "at most 0 ns after"),
                 ("-5n", "true", "at least 5 ns before"), ("-5n", "false", "at most 5 ns before"))  # fmt: skip
        asked = ", ".join(f"laterText({later} * UNITS, {is_most})" for later, is_most, _ in cases)
        told = [it.replace("\u00a0", " ") for it in self.told(made()[0], f"return [{asked}];")]
        self.assertEqual(told, [wanted for _, _, wanted in cases])

    def test_what_was_not_proved_says_how_to_ask(self) -> None:
        words = 'choose(byName.get("a#2")); compareWith(byName.get("b#1")); return proofWords();'
        told = self.told(made()[0], words)
        self.assertIn("<code>tools/timeline --prove b#1,a#2</code>", told)
        self.assertIn("how long was not asked, since b#1", told)

    def test_ends_are_those_that_were_asked_either_way(self) -> None:
        pairs = [("a#1", "b#1"), ("b#1", "a#1"), ("a#2", "b#2"), ("b#3", "a#1"), ("b#1", "b#2")]
        words = f"""const ends = ([one, other]) => knownEnds(byName.get(one), byName.get(other));
            const text = (it) => it === null ? null : exact(it);
            return {json.dumps(pairs)}.map(ends).map((it) => it && it.map(text));"""
        wanted = [["10 ns", "20 ns"], ["-20 ns", "-10 ns"], ["-20 ns", "-10 ns"], [None, "-61 ns"], None]
        told = self.told(made()[0], words)
        self.assertEqual([it and [end and end.replace("\u00a0", " ") for end in it] for it in told], wanted)

    def test_names_and_texts_of_others_are_no_part_of_the_page(self) -> None:
        evil = """</script><script>alert(1)</script><img src=x onerror="alert(2)">'"""
        found = with_name(made()[0], "b#1", evil)
        found.hosts = [evil if it == "b" else it for it in found.hosts]
        for it in found.events:
            it.host = evil if it.host == "b" else it.host
            it.text = it.brief = evil
            it.record = Record(evil, evil, evil, evil, evil, 7)
        text = page.page(found, evil)
        self.assertEqual([text.count(it) for it in ("<script>", "</script>", "<img", 'onerror="')], [1, 1, 0, 0])
        words = "choose(events[1]); hovered = events[2]; tell();"
        told = self.told(found, f"{words} return [details(events[1]), proofWords(), eventTip(), bundleTip({{ messages }})];")
        for it in told:
            read = Tags()
            read.feed(it)
            self.assertEqual((read.tags - TAGS, read.names - NAMES), (set(), set()), it)
            self.assertIn(evil, "".join(read.texts))


def with_name(found: timeline.Timeline, old: str, new: str) -> timeline.Timeline:
    """Returns a timeline one of whose events has another name."""
    named = {it.name: new if it.name == old else it.name for it in found.events}
    events = [replace(it, name=named[it.name]) for it in found.events]
    messages = [replace(it, send=named[it.send], receive=named[it.receive]) for it in found.messages]
    ends = {named[base]: {named[it]: its for it, its in own.items()} for base, own in found.ends.items()}
    proofs = {(named[one], named[other]): it for (one, other), it in found.proofs.items()}
    return replace(found, events=events, messages=messages, ends=ends, orders={}, proofs=proofs)


if __name__ == "__main__":
    unittest.main()
