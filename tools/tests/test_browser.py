"""The page in Chromium, where one is there: it is drawn at 20 and at 5,000 events, and does what is clicked."""

import os
import tempfile
import unittest
from typing import Any

import making_timelines
import page
import timeline
from browser import CHROMIUM, Browser
from test_timeline import made

EVIL = "<script>alert(1)</script><img src=x onerror=\"alert(2)\">'</script>\\"
# What the tests ask of the page: where an event is, and the middle of what a selector finds, in pixels of the window;
# how many pixels of the picture are drawn on; which bars of those in sight are not drawn on somewhere in the first lane;
# what colour a place between two events has.
HELP = """
window.placeOf = (name) => {
  const [x, y] = spots.find((it) => it[2].name === name), box = canvas.getBoundingClientRect();
  return [box.left + x, box.top + y];
};
window.middleOf = (selector) => {
  const it = document.querySelector(selector);
  it.scrollIntoView();
  // (what goes over two lines has two boxes)
  const box = it.getClientRects()[0];
  return [box.left + box.width / 2, box.top + box.height / 2];
};
window.inked = () => {
  const { data } = pen.getImageData(0, 0, canvas.width, canvas.height);
  let count = 0;
  for (let k = 3; k < data.length; k += 4) count += data[k] > 0;
  return count;
};
window.uncovered = () => {
  pen.clearRect(0, 0, wide, tall);
  drawBars(spotOf.map(near), true);
  const { data } = pen.getImageData(0, 0, canvas.width, canvas.height);
  const isInked = (x, y) => [-1, 0, 1].some((by) => data[4 * (Math.floor(y) * canvas.width + Math.floor(x) + by) + 3]);
  const places = (it) => [leastOf, spotOf, greatestOf].map((all) => near(all[it.index])).filter((x) => x > LEFT && x < wide);
  return shown.filter((it) => !places(it).every((x) => isInked(x, laneY(it.host, 0)))).map((it) => it.name);
};
window.colour = (one, other) => {
  const [x1, y] = spots.find((it) => it[2].name === one), [x2] = spots.find((it) => it[2].name === other);
  return [...pen.getImageData(Math.round(x1 + (x2 - x1) * 0.3), y - 3, 1, 1).data].join();
};
window.put = (id, value, kind) => {
  el(id).value = value;
  el(id).dispatchEvent(new Event(kind));
};
"""


@unittest.skipUnless(CHROMIUM, "no Chromium is there")
class Opened(unittest.TestCase):
    @classmethod
    def setUpClass(cls) -> None:
        cls.browser = Browser()
        cls.addClassCleanup(cls.browser.__exit__)

    def open(self, found: timeline.Timeline, more: str = "") -> None:
        with tempfile.TemporaryDirectory() as room:
            path = os.path.join(room, "page.html")
            with open(path, "w", encoding="utf-8") as it:
                it.write(page.page(found, f"Of {EVIL}"))
            self.browser.open(path, more)
        self.value(HELP)

    def value(self, script: str) -> Any:
        return self.browser.value(script)

    def click(self, name: str, is_shifted: bool = False) -> None:
        """Clicks on an event."""
        self.browser.click(*self.value(f"placeOf('{name}')"), is_shifted)

    def click_on(self, selector: str) -> None:
        """Clicks in the middle of what a selector finds first."""
        self.browser.click(*self.value(f"middleOf('{selector}')"))

    def aside(self) -> str:
        return self.value("el('aside').textContent").replace("\u00a0", " ")

    def test_twenty_events(self) -> None:
        self.open(making_timelines.timeline(20, 3))
        self.assertGreater(self.value("inked()"), 5000)
        self.assertEqual(self.value("[events.length, shown.length, spots.length]"), [21, 21, 21])
        self.assertEqual(self.value("el('said').textContent"), "21 events, 10 messages")

    def test_five_thousand_events(self) -> None:
        self.open(making_timelines.timeline(5000, 4))
        self.assertEqual(self.value("[events.length, spots.length < 200]"), [5000, True])
        self.assertGreater(self.value("inked()"), 5000)
        self.assertIn("it begins at the first message", self.value("el('said').textContent"))
        self.click_on("#fit")
        self.assertEqual(self.value("[spots.length, counts.length > 0]"), [5000, True])
        self.assertEqual(self.value("el('said').textContent"), "5000 events, 2371 messages")

    def test_an_overview_has_few_arrows_for_all_messages(self) -> None:
        self.open(making_timelines.timeline(5000, 4), "#all=true")
        arrows = "bundledFew(messagesInSight(spotOf.map(near)))"
        sizes = self.value(f"{arrows}.map((it) => it.messages.length)")
        self.assertEqual((sum(sizes), len(sizes) < 250), (self.value("messages.length"), True))
        self.assertEqual(self.value(f"new Set({arrows}.flatMap((it) => it.messages)).size"), sum(sizes))

    def test_bars_that_are_drawn_together_cover_what_each_does(self) -> None:
        self.open(making_timelines.timeline(1700, 8), "#all=true")
        self.assertEqual(self.value("[spots.length > CROWDED, uncovered()]"), [True, []])

    def test_fifty_thousand_events_are_drawn_within_two_seconds(self) -> None:
        self.open(making_timelines.timeline(50_000, 8))
        before = self.browser.seconds()
        self.click_on("#fit")
        self.assertEqual(self.value("spots.length"), 50_001)
        self.assertLess(self.browser.seconds() - before, 2)

    def test_a_click_on_the_count_of_a_bundle_goes_nearer(self) -> None:
        self.open(making_timelines.timeline(2000, 2), "#all=true")
        count = self.value("counts[0].bundle.messages.length")
        x, y = self.value("counts[0].box.slice(0, 2)")
        left, top = self.value("[canvas.getBoundingClientRect().left, canvas.getBoundingClientRect().top]")
        self.browser.click(left + x + 3, top + y + 3)
        self.assertTrue(3 <= count <= self.value("byStart.length"))
        self.assertLess(self.value("(view[1] - view[0]) / (high - low)"), 0.2)

    def test_an_event_that_is_clicked_is_chosen_and_one_with_shift_compared(self) -> None:
        self.open(made()[0])
        self.click("a#2")
        self.assertEqual(self.value("[chosen.name, document.querySelector('h2').textContent]"), ["a#2", "a#2"])
        self.assertIn("a#2 was at most 80 ns after a#1", self.aside())
        lines = "[...document.querySelectorAll('ol.chain li')].map((it) => it.textContent)"
        self.assertEqual([it.split(":")[0].replace("\u00a0", " ") for it in self.value(lines)], [f"a#2 at {it} 80 ns after a#1" for it in ("most", "least")])
        self.click("b#1")
        self.assertRegex(self.aside(), "since a#1between 10 ns and 20 ns.*came froma#1, delay 10 ns to 20 ns")
        self.click("a#2")
        self.click("b#3", True)
        self.assertEqual(self.value("[chosen.name, second.name]"), ["a#2", "b#3"])
        self.assertEqual(self.value("document.querySelector('h3').textContent"), "a#2 and b#3")
        self.assertIn("tools/timeline --prove b#3,a#2", self.aside())

    def test_a_chain_is_drawn_and_another_one_when_it_is_clicked(self) -> None:
        self.open(made()[0])
        before = self.value("colour('a#1', 'a#2')")
        self.click("a#2")
        self.assertNotEqual(self.value("colour('a#1', 'a#2')"), before)
        self.assertEqual(self.value("drawnEnd"), "greatest")
        self.value("view = [place(times[4]) - 1, place(times[4]) + 1]")
        self.click_on("a[data-end=least]")
        self.assertEqual(self.value("[drawnEnd, view[0] < spotOf[0], view[1] > spotOf[4]]"), ["least", True, True])

    def test_a_connection_and_a_text_leave_out_all_else(self) -> None:
        self.open(making_timelines.timeline(60, 3, "needle"))
        first = self.value("[...el('connection').options].find((it) => it.value.startsWith('connection')).value")
        self.value(f"put('connection', '{first}', 'change')")
        count = self.value("shown.length")
        self.assertTrue(0 < count < 60)
        self.value("put('connection', '', 'change')")
        self.click_on("#text")
        self.browser.write("needle")
        self.assertTrue(0 < self.value("shown.length") < count)
        self.assertTrue(self.value("shown.some((it) => it.text === 'needle')"))
        self.assertTrue(self.value("spots.every((it) => it[2].isShown)"))
        self.assertRegex(self.value("el('said').textContent"), r"^\d+ of 6\d events, \d+ of \d+ messages")

    def test_the_filter_of_a_packet_is_copied(self) -> None:
        self.open(making_timelines.timeline(20, 3))
        self.click("h1#2")
        self.assertIn("2 of h1.pcap", self.aside())
        self.value("navigator.clipboard.writeText = async (text) => { window.copied = text; }")
        self.click_on("button[data-copy]")
        self.assertEqual(self.value("copied"), "frame.number == 2")
        self.assertEqual(self.value("document.querySelector('button[data-copy]').textContent"), "copied")

    def test_texts_of_others_run_nothing(self) -> None:
        found = making_timelines.timeline(20, 3, EVIL)
        names = {it: f'{it}"{EVIL}' for it in found.hosts}
        found.hosts = list(names.values())
        for it in found.events:
            it.host = names[it.host]
        self.open(found)
        self.click(found.events[0].name)
        self.assertIn(EVIL, self.value("el('tip').textContent"))
        self.click(found.events[3].name, True)
        self.click_on("#turn")
        self.assertEqual([EVIL in self.value(f"el('{it}').textContent") for it in ("aside", "charts")], [True, True])
        self.assertEqual(self.value("[document.title, document.images.length, document.scripts.length]"), [f"Of {EVIL}", 0, 1])

    def test_clocks_and_delays_stand_in_the_place_of_the_events(self) -> None:
        self.open(making_timelines.timeline(60, 3))
        pictures = "[...document.querySelectorAll('#charts svg')].map((it) => it.getBoundingClientRect().height > 100)"
        self.click_on("#turn")
        self.assertEqual(self.value(f"[canvas.clientHeight, {pictures}]"), [0, [True, True]])
        self.assertEqual(self.value("[...document.querySelectorAll('#charts g')].length"), 3 + 6)
        self.click_on("#turn")
        self.assertEqual(self.value(f"[canvas.clientHeight > 100, {pictures}]"), [True, [False, False]])


if __name__ == "__main__":
    unittest.main()
