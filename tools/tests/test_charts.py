"""Pictures of clocks and delays show what was replied, are lawful, and stay small and safe whatever the events are called."""

import re
import unittest
from xml.etree import ElementTree

import charts
import delays
import page
import picture
import timeline
from common import EXAMPLES, PROGRAM
from inputs import Input, open_input
from own_program import RecordedSession
from test_timeline import Replies, made
from tracesync.numbers import UNITS, Interval

EVIL = "<script>alert('1')</script>\"&"


def many(count: int) -> timeline.Timeline:
    """Returns a timeline of two hosts with so many messages, each of which took 10 to 20 us, and a clock that is an hour ahead."""
    found = timeline.Timeline(hosts=["a", EVIL])
    for k in range(count):
        for host, late in (("a", 0), (EVIL, 15_000)):
            time = (k * 10**6 + late) * UNITS
            own = timeline.Event(f"{host}#{k + 1}", host, k * 10**6 + late + (3600 * 10**9 if late else 0), time, EVIL)
            own.source_time = (time - 900 * UNITS, time + 950 * UNITS) if late else None
            found.events.append(own)
        found.messages.append(timeline.Message(f"a#{k + 1}", f"{EVIL}#{k + 1}", (10_000 * UNITS, None if k == 1 else 20_000 * UNITS)))
    found.ends["a#1"] = {it.name: (it.time, it.time) for it in found.events}
    found.report = {"messages": count, "events": 2 * count, "nokey": {}, "unmatched": 0, "ambiguous": []}
    return found


def texts(svg: str) -> list[str]:
    return ["".join(it.itertext()) for it in ElementTree.fromstring(svg).iter() if it.tag.endswith("}text")]


class Offsets(unittest.TestCase):
    def test_ends_are_the_stamp_less_its_time(self) -> None:
        panels = charts.offset_panels(timeline.Asking(Replies(), [], source="a").timeline())
        points = [(10 * UNITS, None, 0), (60 * UNITS, -10 * UNITS, -UNITS // 2), (61 * UNITS, -9 * UNITS, UNITS // 2)]
        self.assertEqual([(it.title, it.points) for it in panels], [("b", points)])

    def test_without_a_source_they_are_since_the_first_chosen_event(self) -> None:
        panels = charts.offset_panels(made()[0])
        points = [(10 * UNITS, 130 * UNITS, 140 * UNITS), (60 * UNITS, 130 * UNITS, 140 * UNITS), (61 * UNITS, None, 140 * UNITS)]
        self.assertEqual([(it.title, it.points) for it in panels], [("a", [(0, 0, 0), (80 * UNITS, 0, 0)]), ("b", points)])

    def test_a_great_offset_keeps_its_digits(self) -> None:
        shown = texts(charts.offset_chart(many(5)))
        self.assertIn(f"{EVIL}; at the best known moment 3600 s, less 950 ns, plus 900 ns", shown)
        self.assertIn("us from 3600 s", shown)
        self.assertIn("time in the earliest execution, ms", shown)

    def test_nothing_known_is_nothing_drawn(self) -> None:
        found = many(2)
        for it in found.events:
            it.source_time = None
        found.ends["a#1"] = {it.name: (None, None) for it in found.events}
        self.assertEqual(charts.offset_chart(found), "")


class Delays(unittest.TestCase):
    def test_a_panel_for_each_link_has_both_ends(self) -> None:
        panels = charts.delay_panels(made()[0])
        wanted = [("a to b: 1 message", [(0, 10 * UNITS, 20 * UNITS)]), ("b to a: 1 message", [(60 * UNITS, 10 * UNITS, 20 * UNITS)])]
        self.assertEqual([(it.title, it.points) for it in panels], wanted)

    def test_what_was_not_asked_and_what_has_no_greatest_is_told(self) -> None:
        found = many(5)
        found.messages[4].delay = None
        panel = charts.delay_panels(found)[0]
        told = "4 were asked for (black), of the others it is what the times of their events leave"
        self.assertEqual(panel.title, f"a to {EVIL}: 5 messages, 1 of them without a greatest; {told}")
        self.assertEqual((len(panel.points), panel.exact), (5, panel.points[:4]))

    def test_of_a_message_that_was_not_asked_for_the_times_of_its_events_and_what_is_declared_leave_something(self) -> None:
        # (of the send's times, the receive's, and what is declared, both ends of each)
        cases = (((0, 10), (100, 130), (0, None), (90, 130)), ((0, 10), (100, 130), (95, 120), (95, 120)), ((0, None), (100, 130), (7, None), (7, 130)),
                 ((None, 10), (100, None), (0, None), (90, None)), ((None, None), (None, None), (3, 5), (3, 5)), ((0, 0), (9, 9), (None, None), (9, 9)))  # fmt: skip
        for early, late, declared, wanted in cases:
            found = timeline.Timeline(ends={"a#1": {"a#1": Interval(*early), "b#1": Interval(*late)}})
            message = timeline.Message("a#1", "b#1", declared=Interval(*declared))
            self.assertEqual(delays.Delays(found).around(message), wanted)

    @unittest.skipUnless(PROGRAM, "no program is there")
    def test_what_is_left_of_a_message_holds_what_the_program_replies(self) -> None:
        inputs = [open_input(Input(it, it, f"{EXAMPLES}/captures/{it}.pcap")) for it in ("left", "right")]
        session = RecordedSession(f"{EXAMPLES}/captures/by-left.toml", PROGRAM or "")
        found = timeline.make_timeline(session, inputs, pairs=0, source="left")
        left = delays.Delays(found)
        self.assertEqual(len(found.messages), 56)
        for it in found.messages:
            (least, most), (early, late) = left.around(it), it.delay
            self.assertTrue(0 < least <= early <= late <= most, it)

    def test_times_by_the_source_leave_less(self) -> None:
        found = many(1)
        found.ends["a#1"] = {it.name: Interval(0, 10**15) for it in found.events}
        for it in found.events:
            it.source_time = Interval(it.time - 5, it.time + 7)
        self.assertEqual(delays.Delays(found).around(found.messages[0]), (15_000 * UNITS - 12, 15_000 * UNITS + 12))

    def test_messages_of_one_moment_have_ends_of_any_kind(self) -> None:
        found = many(3)
        for it, most in zip(found.messages, (None, 5, None)):
            it.delay = Interval(0, most)
        for it in found.events:
            it.time = 7
        self.assertEqual([point[2] for point in charts.delay_panels(found)[0].points], [None, 5, None])

    def test_a_histogram_counts_each_message_once_for_each_end(self) -> None:
        drawing = charts.Drawing(charts.delay_panels(many(5))[0], 0, 4 * 10**6 * UNITS)
        self.assertIn('text-anchor="end" fill="#666">5</text>', "".join(drawing.histogram()))

    def test_a_bar_of_a_histogram_has_what_lies_between_its_borders(self) -> None:
        drawing = charts.Drawing(charts.Panel("x", "#000", [(0, 0, 100), (10, 50, None)], True), 0, 10)
        for low, high in ((0, charts.BARS), (-7, 1000), (3, 3 + 5 * charts.BARS), (0, 20)):
            drawing.low, drawing.high = low, high
            ends = [*range(low, high + 1), low, low, high]
            wanted = [0] * charts.BARS
            for end in ends:
                wanted[min((high - end) * charts.BARS // (high - low), charts.BARS - 1)] += 1
            self.assertEqual(drawing.counts(ends), wanted)

    def test_a_bar_goes_from_end_to_end(self) -> None:
        panel = charts.Panel("x", "#000", [(0, 0, 100), (10, 50, None)])
        drawing = charts.Drawing(panel, 0, 10)
        drawing.low, drawing.high = 0, 200
        self.assertIn("M92.0 174.0V99.0M90.0 174.0h4M90.0 99.0h4M980.0 136.5V24.0M978.0 136.5h4", drawing.bars(panel.points, "#000", 1)[0])


class Pictures(unittest.TestCase):
    def test_they_are_lawful_and_safe(self) -> None:
        for count in (1, 2, 3000):
            for made_chart in (charts.offset_chart, charts.delay_chart):
                tree = ElementTree.fromstring(made_chart(many(count)))
                self.assertEqual({it.tag.rpartition("}")[2] for it in tree.iter()} - {"svg", "g", "rect", "text", "tspan", "line", "path"}, set())

    def test_many_points_are_an_envelope_as_wide_as_the_picture(self) -> None:
        few, more = (len(charts.offset_chart(many(count))) for count in (3000, 9000))
        self.assertLess(more, few * 1.1)
        panel = charts.offset_panels(many(9000))[0]
        panel.points[5] = (panel.points[5][0], panel.points[5][1] - 10**6 * UNITS, panel.points[5][2])
        lows = [foot for _, (_, _, _, foot) in charts.Drawing(panel, 0, panel.points[-1][0]).columns()]
        # (one far end among thousands is not lost)
        self.assertGreater(max(lows) - sorted(lows)[-2], charts.HIGH / 2)

    def test_the_page_has_both_and_none_of_a_network(self) -> None:
        text = page.page(many(30), EVIL)
        self.assertEqual((text.count("<svg"), text.count("</svg>"), text.count("<script>"), text.count("alert('1')")), (2, 2, 1, text.count("\\u003cscript>alert('1')")))
        self.assertEqual(re.findall(r"https?:|src=|@@", text), [])

    def test_what_is_not_proved_says_so(self) -> None:
        found = many(3)
        found.is_proved = False
        self.assertIn("NOTHING OF IT IS PROVED", charts.delay_chart(found))

    def test_marks_are_round_and_lie_within(self) -> None:
        for first, last, zero in ((0, 10**15, 0), (-7 * 10**9, 10**9, 0), (3600 * 10**18 - 5 * 10**11, 3600 * 10**18 + 10**12, 3600 * 10**18), (0, 1, 0)):
            found = charts.marks(first, last, 5, zero)
            self.assertTrue(0 < len(found) <= 6 and all(first <= at <= last for at, _ in found), found)
            self.assertEqual(len({text for _, text in found}), len(found))

    def test_an_axis_far_from_its_first_event_counts_from_a_time_near_it(self) -> None:
        found = many(40)
        for at, it in enumerate(found.events):
            it.time = 86_400 * 10**18 + at * UNITS
        drawn = charts.offset_chart(found)
        self.assertIn("time in the earliest execution, ns from 86400.00000004 s", texts(drawn))
        boxes = [(float(x), float(y), len(text)) for x, y, text in re.findall(r'<text x="([\d.]+)" y="(190)" text-anchor="middle" fill="#666">([^<]*)<', drawn)]
        self.assertGreater(len(boxes), 4)
        for (left, _, one), (right, _, other) in zip(boxes, boxes[1:]):
            self.assertLess(left + one * charts.LETTER / 2, right - other * charts.LETTER / 2)

    def test_marks_of_a_timeline_far_from_its_first_event_differ(self) -> None:
        found = many(40)
        for at, it in enumerate(found.events):
            it.time = 3600 * 10**18 + at * UNITS if at else 0
            found.ends["a#1"][it.name] = (it.time, it.time)
        shown = [text for text in texts(picture.svg(found, 400, [])) if text.startswith("3600")]
        self.assertGreater(len(shown), 5)
        self.assertEqual(len(set(shown)), len(shown))


if __name__ == "__main__":
    unittest.main()
