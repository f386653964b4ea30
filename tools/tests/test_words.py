"""Great offsets lose no digits, in words and in pictures."""

import unittest
from fractions import Fraction

import timeline
from explaining import Explainer
from test_timeline import Replies, made
from tracesync.numbers import UNITS
from words import Words, anchor, ends_texts, list_lines, span_text

S = 10**9 * UNITS
# (ends in units, and what lies between them)
CASES = (
    (3600 * S + S // 2 - 952 * UNITS, 3600 * S + S // 2 + 1003 * UNITS, "3600.5 s, less 952 ns, plus 1.003 us"),
    (-7200 * S - 700 * UNITS, -7200 * S + 1300 * UNITS, "-7200 s, less 700 ns, plus 1.3 us"),
    (3600 * S + 123_456_789 * UNITS, 3600 * S + 123_456_789 * UNITS, "3600.123456789 s"),
    (10**7 * UNITS - 1, 10**7 * UNITS + 1, "10 ms, less 0.001 ns, plus 0.001 ns"),
    (-1379 * UNITS, 1803 * UNITS, "-1.379 us to 1.803 us"),
    (5 * S, 7 * S, "5 s to 7 s"),
    (None, 3600 * S, "-inf to 3600 s"),
    (3600 * S, None, "3600 s to no limit"),
)


class Spans(unittest.TestCase):
    def test_a_great_number_with_what_is_less_and_more(self) -> None:
        for least, greatest, wanted in CASES:
            self.assertEqual(span_text(least, greatest), wanted)

    def test_the_number_lies_between_its_ends(self) -> None:
        for at in range(-2000, 2000, 7):
            for wide in (0, 1, 3, 999, 10**6 + 7):
                least = at * 10**15 + at**3
                self.assertTrue(least <= anchor(least, least + wide) <= least + wide, (least, wide))

    def test_ends_one_by_one_are_rounded_outward_and_little(self) -> None:
        for least, greatest, _ in (it for it in CASES if None not in it):
            one, other = (text.split(" ") for text in ends_texts(least, greatest))
            if one[1] == "s" == other[1]:
                lost = least - Fraction(one[0]) * S + Fraction(other[0]) * S - greatest
                self.assertTrue(0 <= lost <= max((greatest - least) // 400, 0), (one, other))

    def test_an_offset_of_an_hour(self) -> None:
        reply = [f"{name} -3600000000000.000000000 -3599999998045.000000000" for name in ("a#1", "a#2", "b#1", "b#2", "b#3")]
        found = timeline.Asking(Replies(times=["times 5", *reply]), [], source="a").timeline()
        self.assertEqual(Words(found).offsets[1], "b: 3600 s, less 1.705 us, plus 250 ns, at b#1")

    def test_a_list_in_words(self) -> None:
        found, _ = made()
        found.ends["a#1"]["b#1"] = CASES[0][:2]
        self.assertIn("3600.499999048 s  3600.500001003 s  b#1", list_lines(found)[2])

    def test_frames_that_are_no_events_and_a_tail_that_is_cut(self) -> None:
        found, _ = made(**{"add a a.csv": ["added events 2 messages 0 withdrawn 0 pending 7 passed 3 consistent"]})
        told = "a: 2 rows of a.csv; its last 7 bytes are no whole packet; 3 packets under a are no events"
        self.assertEqual(Words(found).files()[0], told)

    def test_an_interval_that_is_explained(self) -> None:
        replies = ("3600499999048.000000000 3600500001003.000000000", "-3600500001003.000000000 -3600499999048.000000000")
        told = [Explainer().reply("interval a#1 b#1", [f"interval {ends}"]).words[0] for ends in replies]
        self.assertEqual(told, [f"b#1 came 3600.5 s, less 952 ns, plus 1.003 us {way} a#1" for way in ("after", "before")])


if __name__ == "__main__":
    unittest.main()
