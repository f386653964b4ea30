"""Pages of more events than they hold: what they leave out they say, their pictures show all, and they stay small."""

import re
import shutil
import unittest
from functools import cache

import charts
import making_timelines
import page
import timeline
from chains import Chain, Leg, Proof
from reading_formats import data_of
from test_page import run_page
from tracesync.numbers import UNITS, Interval
from tracesync.problems import Problem

COUNT, HELD, HOSTS = 20_000, 2000, 4
# The paths of an envelope by their shade: between both ends, where the greatest lie, and where the least do.
SHADES = {"all": 'stroke-opacity="0.15"', "greatest": 'stroke-opacity="0.85"', "least": 'stroke-opacity="0.7"'}
PANEL = re.compile(r'<g transform="translate\(0 \d+\)">.*?</g>', re.S)


@cache
def great(count: int = COUNT) -> timeline.Timeline:
    """Returns a timeline of so many events, one of which has ends that are far off."""
    found = making_timelines.timeline(count, HOSTS)
    least, greatest = found.ends[found.events[0].name][found.events[count // 2].name]
    found.ends[found.events[0].name][found.events[count // 2].name] = Interval(least - 10**6 * UNITS, greatest + 2 * 10**6 * UNITS)
    return found


def columns_of(panel: str, shade: str) -> dict[int, tuple[float, float]]:
    """Returns the highest and the lowest place of each pixel across of a path."""
    path = next(it for it in re.findall(r"<path [^>]*>", panel) if shade in it)
    return {int(x): (float(top), float(foot)) for x, top, foot in re.findall(r"M(\d+) ([\d.-]+)V([\d.-]+)", path)}


class Great(unittest.TestCase):
    def test_an_envelope_keeps_the_least_and_the_greatest_of_each_pixel(self) -> None:
        found = great()
        panels = charts.offset_panels(found)
        first, last = (end(time for it in panels for time, _, _ in it.points) for end in (min, max))
        drawn = PANEL.findall(charts.offset_chart(found))
        self.assertEqual((len(drawn), sum(len(it.points) for it in panels)), (HOSTS, len(found.events)))
        for panel, text in zip(panels, drawn):
            drawing, points = charts.Drawing(panel, first, last), {}
            for time, least, greatest in panel.points:
                points.setdefault(round(drawing.x(time)), []).append((drawing.y(greatest, 0), drawing.y(least, 0)))
            wanted = {"all": lambda own: (min(high for high, _ in own), max(low for _, low in own)),
                      "greatest": lambda own: (min(high for high, _ in own), max(high for high, _ in own)),
                      "least": lambda own: (min(low for _, low in own), max(low for _, low in own))}  # fmt: skip
            for name, shade in SHADES.items():
                columns = columns_of(text, shade)
                self.assertEqual(columns.keys(), points.keys())
                for at, (top, foot) in columns.items():
                    high, low = wanted[name](points[at])
                    self.assertTrue(abs(top + 0.5 - high) < 0.1 and abs(foot - 0.5 - low) < 0.1, (panel.title, name, at))

    def test_an_envelope_of_delays_has_all_messages(self) -> None:
        panels = charts.delay_panels(great())
        self.assertEqual((sum(len(it.points) for it in panels), len(panels)), (len(great().messages), HOSTS * (HOSTS - 1)))
        self.assertEqual({it.exact == [] for it in panels}, {True})

    def test_a_page_holds_a_part_and_says_so(self) -> None:
        found = great()
        data = data_of(page.page(found, "Great", HELD))
        self.assertEqual((data["all"], data["first"]), ([len(found.events), len(found.messages)], None))
        self.assertTrue(HELD <= len(data["events"]) < HELD + 20, len(data["events"]))
        self.assertIn(f"Note: the page has events 1 to {HELD} of {len(found.events)}, {page.PART_TOLD}.", data["words"])
        sizes = {len(data["records"]), *(len(it[end]) for it in data["bases"] for end in ("least", "greatest"))}
        self.assertEqual(sizes, {len(data["events"])})

    def test_a_page_holds_what_is_around_an_event_and_what_bars_and_proofs_name(self) -> None:
        found, far = great(), great().events[-1].name
        middle, leg = found.events[COUNT // 2], found.events[100]
        chain = Chain(UNITS, [Leg(found.events[1].name, leg.name, UNITS, "a leg")])
        found.proofs[found.events[0].name, far] = Proof(chain, chain)
        self.addCleanup(found.proofs.clear)
        data = data_of(page.page(found, "Great", HELD, [middle.name]))
        names = [it[0] for it in data["events"]]
        order = {it.name: at for at, it in enumerate(found.events)}
        self.assertLessEqual({middle.name, far, leg.name, *found.ends}, set(names))
        self.assertEqual(names, sorted(names, key=order.__getitem__))
        self.assertEqual([names[at] for at in (data["bases"][0]["event"], data["first"])], [found.events[0].name, middle.name])
        self.assertEqual([names[at] for at in (data["proofs"][0]["second"], data["proofs"][0]["least"]["legs"][0][1])], [far, leg.name])

    @unittest.skipUnless(shutil.which("node"), "no node is there")
    def test_a_part_begins_with_the_event_that_it_was_made_around(self) -> None:
        found = making_timelines.timeline(1000, 3)
        told = "console.log(JSON.stringify([chosen.name, spotOf[chosen.index] > view[0] && spotOf[chosen.index] < view[1], shown.length]));"
        name, is_in_sight, count = run_page(found, told=told, most=100, around=[found.events[500].name])
        self.assertEqual((name, is_in_sight, 100 <= count < 110), (found.events[500].name, True, True))

    def test_both_ends_of_each_message_are_there(self) -> None:
        found, ends = great(), {it.send: it.receive for it in great().messages}
        data = data_of(page.page(found, "Great", HELD, [found.events[COUNT // 2].name]))
        names = [it[0] for it in data["events"]]
        held = {names[send]: names[receive] for send, receive, *_ in data["messages"]}
        self.assertLessEqual(held.items(), ends.items())
        part = set(names[1:-1])
        self.assertEqual({send for send, receive in ends.items() if send in part and receive in part} - held.keys(), set())

    def test_few_questions_are_asked_of_many_events(self) -> None:
        asked = [self.questions_of(count) for count in (COUNT, 50 * COUNT)]
        links = HOSTS * (HOSTS - 1)
        self.assertEqual(asked, [(links * (timeline.DELAYS_WORK // COUNT // links), 0), (links * timeline.DELAYS_LEAST, 0)])

    def questions_of(self, count: int) -> tuple[int, int]:
        """Returns how many delays and how many proofs are asked for, of which nobody named one, where the events are so many."""
        found = great()
        asking = timeline.Asking(None, [])
        asking.found = timeline.Timeline(events=found.events[:1] * count, messages=found.messages)
        hosts = {it.name: (it.host, it.stamp) for it in found.events}
        delays = len(list(asking.delays_of(Problem(events=hosts))))
        return delays, len(asking.first_events())

    def test_its_size_does_not_grow_with_the_events(self) -> None:
        few, many = (len(page.page(great(count), "Great", HELD)) for count in (COUNT // 2, COUNT))
        self.assertTrue(many < few * 1.2 and many < 1_000_000, (few, many))


if __name__ == "__main__":
    unittest.main()
