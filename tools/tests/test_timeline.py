"""Timelines are what a session replied, and what is made of them says no more."""

import csv
import io
import json
import re
import unittest
from xml.etree import ElementTree

import neighbours
import page
import picture
import tables
import timeline
from inputs import Input
from logs import Log
from reading_formats import data_of, faults_of_shiviz, faults_of_trace_events, read_shiviz
from records import Record
from tracesync.numbers import UNITS, ns_text, read_ns
from words import Words, decimal_text, list_lines

PROBLEM = """problem 1
clock a 0 0 0 0
clock b 0 0 0 0
event a#1 a 100
event a#2 a 180
event b#1 b 250
event b#2 b 300
event b#3 b 301
message a#1 b#1 10 20
message b#2 a#2 10 20
end"""
MERGE = """merge 5
0.000000000 a#1
10.000000000 b#1
60.000000000 b#2 <b>&
61.000000000 b#3
80.000000000 a#2"""
REPORT = '{"ambiguous":[],"consistent":true,"events":5,"messages":2,"nokey":{"fragment":0,"local":1},"unmatched":0}'
FROM_FIRST = {"a#1": "0.000000000 0.000000000", "b#1": "10.000000000 20.000000000", "b#2": "60.000000000 70.000000000", "b#3": "61.000000000 +inf", "a#2": "80.000000000 80.000000000"}
# What `times` says of some events by the clock of the source.
SOURCE_TIMES = {"a#1": "100.000000000 100.000000000", "b#1": "250.000000000 +inf"}


# The steps of one proof, from its last event to its first: the greatest and the least time from a#1 to a#2.
STEPS = (["late a#2 0.000000000", "span-most a 100 180 80.000000000", "early a#1 0.000000000"],
         ["early a#2 0.000000000", "span-least a 100 180 -80.000000000", "late a#1 0.000000000"])  # fmt: skip


def proof(one: str, other: str) -> list[str]:
    """Returns a reply to `prove`, which has steps of one pair alone, and of the others the ends."""
    least, greatest = FROM_FIRST[other].split(" ") if one == "a#1" else ("-inf", "+inf")
    steps = STEPS if (one, other) == ("a#1", "a#2") else ([], [])
    heads = [[f"{part} {end}", *(["inside a"] if end.endswith("inf") else [])] for part, end in (("upper", greatest), ("lower", least))]
    parts = [[*head, *(f"step {it}" for it in own)] for head, own in zip(heads, steps)]
    return ["certificate 1", f"ends {one} {other}", *parts[0], "event a#1 0.000000000", *parts[1], "event a#1 0.000000000", "end"]


class Replies:
    """A session that knows its replies."""

    def __init__(self, **more: list[str]) -> None:
        self.asked: list[str] = []
        self.more = more

    def ask_all(self, lines: list[str]) -> list[list[str]]:
        return [self.ask(line) for line in lines]

    def ask(self, line: str) -> list[str]:
        self.asked.append(line)
        words = line.split(" ")
        if line in self.more:
            return self.more[line]
        if words[0] == "interval":
            ends = {("a#1", "b#1"): "10.000000000 20.000000000", ("b#2", "a#2"): "10.000000000 20.000000000"}
            return [f"interval {FROM_FIRST[words[2]] if words[1] == 'a#1' else ends.get((words[1], words[2]), '-inf +inf')}"]
        if words[0] == "times":
            ends = {it: (FROM_FIRST[it] if words[1] == "a#1" else "-inf +inf") if words[1:] else SOURCE_TIMES.get(it, "300.500000000 310.000000000") for it in sorted(FROM_FIRST)}
            return ["times 5", *(f"{name} {both}" for name, both in ends.items())]
        if words[0] == "prove":
            return proof(*words[1:])
        texts = {"merge": MERGE, "problem": PROBLEM, "report": REPORT, "keep": "kept 1", "order": "order open", "add": "added events 3 messages 0 withdrawn 0 pending 0 consistent"}
        return texts[words[0]].split("\n")


def made(**more: list[str]) -> tuple[timeline.Timeline, list[str]]:
    session = Replies(**more)
    return timeline.Asking(session, [Input("a", "a", "a.csv", "log", Log()), Input("b", "b", "b.csv", "log", Log())]).timeline(), session.asked


class Numbers(unittest.TestCase):
    def test_ns_are_read_and_written_exactly(self) -> None:
        for text in ("0.000000000", "-0.000000005", "-12.340000000", "12345678901234567890.000000001"):
            self.assertEqual(ns_text(read_ns(text)), text)

    def test_infinite_ends_are_none(self) -> None:
        self.assertEqual((read_ns("-inf"), read_ns("+inf")), (None, None))

    def test_least_is_rounded_down_and_greatest_up(self) -> None:
        cases = ((1_234_567, -1, "1.234"), (1_234_567, 1, "1.235"), (-1_234_567, -1, "-1.235"), (-1_234_567, 1, "-1.234"), (1_234_500, 0, "1.235"), (0, 1, "0"), (-1, 1, "0"))
        for value, way, wanted in cases:
            self.assertEqual(decimal_text(value, 10**6, way), wanted, (value, way))


class Orders(unittest.TestCase):
    def test_an_order_by_the_ends_of_an_interval(self) -> None:
        cases = (((1, 5), "before"), ((1, None), "before"), ((0, 5), "open"), ((-5, 0), "open"), ((-5, -1), "after"), ((None, -1), "after"), ((0, 0), "same"), ((None, None), "open"))
        for ends, wanted in cases:
            self.assertEqual(timeline.order_of(ends), wanted, ends)

    def test_bars_are_apart_only_where_one_ends_before_the_other_begins(self) -> None:
        cases = (((0, 1), (2, 3), True), ((0, 2), (2, 3), False), ((0, None), (2, 3), False), ((0, 1), (None, 3), False))
        for one, other, wanted in cases:
            self.assertEqual(timeline.is_apart(one, other), wanted)

    def test_near_pairs_are_all_that_are_not_apart(self) -> None:
        cases = ([(0, 0), (1, 9), (2, 3), (4, 20), (5, 6), (7, 8), (30, None), (31, 40), (None, 50)], [(0, 0), (1, 1), (2, 2)], [(0, None)] * 4)
        for ends in cases:
            names = [f"e#{at}" for at in range(len(ends))]
            found = list(timeline.near_pairs(names, dict(zip(names, ends))))
            wanted = {(names[i], names[j]) for i in range(len(ends)) for j in range(i + 1, len(ends)) if not timeline.is_apart(ends[i], ends[j])}
            self.assertEqual((set(found), len(found)), (wanted, len(wanted)))


class Asking(unittest.TestCase):
    def test_ends_delays_and_orders_are_replies(self) -> None:
        found, _ = made()
        self.assertEqual(found.ends["a#1"]["b#1"], (10 * UNITS, 20 * UNITS))
        self.assertEqual([it.delay for it in found.messages], [(10 * UNITS, 20 * UNITS)] * 2)
        self.assertEqual(found.orders, {("b#2", "b#3"): "open", ("b#3", "a#2"): "open"})

    def test_a_chosen_event_is_kept_and_all_are_asked_about_by_one_line(self) -> None:
        session = Replies()
        found = timeline.Asking(session, [], ["a#1", "b#2"]).timeline()
        asked = [it for it in session.asked if it.startswith(("keep", "times"))]
        self.assertEqual(asked, ["keep a#1", "times a#1", "keep b#2", "times b#2"])
        self.assertEqual((found.ends["a#1"]["b#3"], found.ends["b#2"]["a#1"]), ((61 * UNITS, None), (None, None)))

    def test_a_chosen_event_that_is_none(self) -> None:
        with self.assertRaisesRegex(ValueError, "there is no event b#9"):
            timeline.Asking(Replies(), [], ["b#9"]).timeline()

    def test_bars_hold_the_times_that_are_drawn(self) -> None:
        found, _ = made()
        for it in found.events:
            least, greatest = found.ends["a#1"][it.name]
            self.assertTrue(least <= it.time and (greatest is None or it.time <= greatest), it.name)

    def test_proofs_are_asked_of_named_pairs_and_from_the_first_event(self) -> None:
        session = Replies()
        found = timeline.Asking(session, [], ["a#1", "b#2"], proved=[("b#3", "a#2"), ("a#2", "b#3")]).timeline()
        asked = [it for it in session.asked if it.startswith("prove")]
        self.assertEqual(asked, ["prove b#3 a#2", "prove a#1 b#2", "prove a#1 b#1", "prove a#1 b#3", "prove a#1 a#2"])
        legs = found.proofs["a#1", "a#2"].greatest.legs
        self.assertEqual([(it.start, it.end, it.units) for it in legs], [("a#1", "a#2", 80 * UNITS)])

    def test_a_pair_of_which_one_is_no_event(self) -> None:
        with self.assertRaisesRegex(ValueError, "there is no event b#9"):
            timeline.Asking(Replies(), [], proved=[("a#1", "b#9")]).timeline()

    def test_without_a_source_no_times_are_asked(self) -> None:
        self.assertNotIn("times", made()[1])

    def test_when_events_of_other_clocks_were_by_the_source_is_one_question(self) -> None:
        session = Replies()
        found = timeline.Asking(session, [], source="a").timeline()
        wanted = {"a#1": None, "a#2": None, "b#1": (250 * UNITS, None)} | dict.fromkeys(("b#2", "b#3"), (300_500_000_000, 310 * UNITS))
        self.assertEqual(({it.name: it.source_time for it in found.events}, session.asked.count("times")), (wanted, 1))
        self.assertFalse(any("by the source" in it for it in found.notes))

    def test_a_source_without_an_event(self) -> None:
        found = timeline.Asking(Replies(times=["refused 29"]), [], source="c").timeline()
        self.assertEqual({it.source_time for it in found.events}, {None})

    def test_a_program_that_does_not_know_the_line(self) -> None:
        with self.assertRaisesRegex(ValueError, "the session replied refused 20 to a question about all events"):
            timeline.Asking(Replies(times=["refused 20"]), [], source="a").timeline()

    def test_how_far_stamps_are_ahead_is_the_stamp_less_its_time(self) -> None:
        found = timeline.Asking(Replies(), [], source="a").timeline()
        self.assertEqual(Words(found).offsets, ["How far stamps are ahead of the clock of the source, where that is known best:", "b: -10 ns to -0.5 ns, at b#2", ""])

    def test_a_contradiction_has_no_events(self) -> None:
        found, _ = made(merge=["certificate 1", "cycle", "step early a#1 0.000000000", "end"])
        self.assertEqual((found.events, found.cycle[1]), ([], "cycle"))

    def test_what_was_left_out_is_told(self) -> None:
        session = Replies()
        found = timeline.Asking(session, [], delays=0, pairs=0).timeline()
        self.assertEqual((len(found.notes), found.orders, [it.delay for it in found.messages]), (2, {}, [None, None]))


class Outputs(unittest.TestCase):
    def test_json_has_the_numbers_as_they_were_printed(self) -> None:
        value = json.loads(tables.as_json(made()[0]))
        self.assertEqual(value["events"][3]["since"], {"a#1": ["61.000000000", "+inf"]})

    def test_json_has_proofs_and_where_events_are_recorded(self) -> None:
        found, _ = made()
        found.events[0].record = Record(connection="TCP a", path="a.pcap", frame=3)
        value = json.loads(tables.as_json(found))
        self.assertEqual({name: value["events"][0].get(name) for name in ("connection", "file", "frame", "key")}, {"connection": "TCP a", "file": "a.pcap", "frame": 3, "key": None})
        last = next(it for it in value["proofs"] if it["second"] == "a#2")
        self.assertEqual((last["least"]["ns"], [(it["from"], it["to"], it["ns"]) for it in last["least"]["legs"]]), ("80.000000000", [("a#1", "a#2", "80.000000000")]))
        self.assertEqual(next(it for it in value["proofs"] if it["second"] == "b#3")["greatest"], {"ns": "+inf", "legs": [], "inside": ["a"]})

    def test_csv_has_a_row_for_each_event(self) -> None:
        rows = list(csv.reader(io.StringIO(tables.as_csv(made()[0]))))
        self.assertEqual(rows[1][:8], ["a#1", "a", "100", "0.000000000", "0.000000000", "0.000000000", "same", "b#1"])
        self.assertEqual(len(rows), 6)

    def test_trace_events_are_lawful(self) -> None:
        self.assertEqual(faults_of_trace_events(neighbours.chrome(made()[0])), [])

    def test_trace_events_have_no_bar_where_there_is_no_limit(self) -> None:
        value = json.loads(neighbours.chrome(made()[0]))
        self.assertEqual([it["id"] for it in value["traceEvents"] if it["ph"] == "b"], ["a#1", "b#1", "b#2", "a#2"])

    def test_the_log_for_shiviz_is_lawful(self) -> None:
        self.assertEqual(faults_of_shiviz(neighbours.shiviz(made()[0])), [])

    def test_the_log_for_shiviz_has_the_messages(self) -> None:
        events = {text.split(" ")[0]: clock for _, clock, text in read_shiviz(neighbours.shiviz(made()[0]))[1]}
        self.assertEqual((events["b#1"], events["a#2"]), ({"a": 1, "b": 1}, {"a": 2, "b": 2}))

    def test_the_readers_find_faults(self) -> None:
        trace, log = neighbours.chrome(made()[0]), neighbours.shiviz(made()[0])
        for spoiled in (trace.replace('"ph":"f"', '"ph":"s"', 1), trace.replace('"ts":0.0', '"ts":-1', 1), trace.replace('"dur":0.001', '"dura":1', 1)):
            self.assertNotEqual(faults_of_trace_events(spoiled), [])
        for spoiled in (log.replace('"a": 1, "b": 1', '"a": 2, "b": 1', 1), log.replace('{"a": 1}', '{"a": 2}', 1), log.replace("\n\n", "\n---\n", 1)):
            self.assertNotEqual(faults_of_shiviz(spoiled), [])

    def test_a_picture_has_each_event_bar_and_message(self) -> None:
        tree = ElementTree.fromstring(picture.svg(made()[0], 400, []))
        tags = [it.tag.rpartition("}")[2] for it in tree.iter()]
        titles = [it.text for it in tree.iter() if it.tag.endswith("title")]
        self.assertEqual((tags.count("circle"), sum("since a#1" in it for it in titles), sum(" to b#1, 10 to 20 ns" in it for it in titles)), (5, 5, 1))

    def test_one_event_alone_is_drawn(self) -> None:
        found, _ = made()
        found.events, found.messages, found.orders, found.proofs = found.events[:1], [], {}, {}
        self.assertEqual((picture.svg(found, 400, []).count("<circle"), page.page(found, "One").count("<html")), (1, 1))

    def test_what_is_not_proved_says_so(self) -> None:
        found, _ = made()
        found.is_proved = False
        self.assertIn("NOTHING OF IT IS PROVED", picture.svg(found, 400, []))

    def test_a_picture_of_a_part_says_so(self) -> None:
        text = picture.svg(made()[0], 2, ["b#3"])
        self.assertIn("events 3 to 4 of 5", text)
        self.assertEqual(text.count("<circle"), 2)

    def test_no_name_lies_on_an_arrow_or_another_name(self) -> None:
        tree = ElementTree.fromstring(picture.svg(made()[0], 400, []))
        texts = [it for it in tree.iter() if it.tag.endswith("}text") and it.get("fill") in picture.INKS and not it.get("font-weight")]
        boxes = [(float(it.get("x")), float(it.get("y")) - 9, float(it.get("x")) + picture.LETTER * len(it.text), float(it.get("y")) + 3) for it in texts]
        arrows = [tuple(float(it.get(key)) for key in ("x1", "y1", "x2", "y2")) for it in tree.iter() if it.tag.endswith("}line") and it.get("marker-end")]
        self.assertEqual((len(arrows), [it for it in boxes if any(picture.crosses(arrow, it) for arrow in arrows)]), (2, []))
        for at, one in enumerate(boxes):
            for other in boxes[at + 1 :]:
                self.assertFalse(one[0] < other[2] and other[0] < one[2] and one[1] < other[3] and other[1] < one[3])

    def test_the_page_holds_the_data_and_nothing_of_a_network(self) -> None:
        text = page.page(made()[0], "Of <a>")
        data = data_of(text)
        self.assertEqual((data["bases"][0]["greatest"][3], data["orders"], data["events"][2][4]), (None, {"2,3": "o", "3,4": "o"}, "<b>&"))
        self.assertEqual(re.findall(r"https?:|src=|@@|<b>&", text), [])
        self.assertIn("<title>Of &lt;a&gt;</title>", text)

    def test_words(self) -> None:
        lines = Words(made()[0]).lines()
        self.assertIn("2 messages among 5 events.", lines)
        self.assertTrue(any(it.split() == ["a", "to", "b", "1", "10", "ns", "10", "ns", "20", "ns", "20", "ns"] for it in lines), lines)

    def test_a_list_in_words(self) -> None:
        self.assertEqual(list_lines(made()[0])[4].split(), ["61", "ns", "61", "ns", "no", "limit", "b#3"])


if __name__ == "__main__":
    unittest.main()
