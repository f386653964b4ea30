"""Chains of a proof are those of the certificate, with the same sums, each leg in words."""

import unittest

import chains
from common import EXAMPLES
from tracesync.numbers import UNITS, read_ns


def certificate() -> list[str]:
    with open(f"{EXAMPLES}/first-hour/ends.cert", encoding="utf-8") as it:
        return it.read().splitlines()


def legs(*steps: str, is_most: bool = True, first: str = "p") -> list[tuple[str, str, int, str]]:
    """Returns the legs of steps, in ns, with a plain blank for each one."""
    read = [chains.Step(it[0], it[1:-1], int(it[-1]) * UNITS) for it in map(str.split, steps)]
    found = chains.legs_of(read, first, is_most)
    return [(it.start, it.end, it.units // UNITS, plain(it.why)) for it in found]


def plain(text: str) -> str:
    return text.replace(chains.BLANK, " ").replace(chains.GROUP, ",")


class Chains(unittest.TestCase):
    def test_both_ends_of_a_certificate(self) -> None:
        found = chains.read_proof(certificate())
        ways = {name: [(it.start, it.end) for it in getattr(found, name).legs] for name in ("least", "greatest")}
        self.assertEqual(ways, {"greatest": [("db#2", "db#3"), ("db#3", "web#3"), ("web#3", "web#2")],
                                "least": [("db#2", "db#1"), ("db#1", "web#1"), ("web#1", "web#2")]})  # fmt: skip
        self.assertEqual(found.least.end, read_ns("17992.599930000"))
        self.assertEqual(found.greatest.end, read_ns("162005.400110000"))

    def test_the_sum_of_the_legs_is_the_end(self) -> None:
        found = chains.read_proof(certificate())
        for chain in (found.least, found.greatest):
            self.assertEqual(sum(it.units for it in chain.legs), chain.end)

    def test_a_leg_of_a_clock_has_its_spans_and_both_stamps(self) -> None:
        steps = ("late q 3", "span-most c 20 1000 981", "span-most c 10 20 11", "early p 4")
        told = "c's clock showed 990 ns, which lasted at most 992 ns; the two stamps may be off by 7 ns in all"
        self.assertEqual(legs(*steps), [("p", "q", 999, told)])

    def test_a_message_goes_from_the_event_at_which_the_leg_begins(self) -> None:
        self.assertEqual(legs("delay-most p q 2000"), [("p", "q", 2000, "the message took at most 2,000 ns")])
        self.assertEqual(legs("delay-least q p -5"), [("p", "q", -5, "the message took at least 5 ns")])
        self.assertEqual(legs("delay-least p q -5", is_most=False), [("p", "q", 5, "the message took at least 5 ns")])

    def test_messages_behind_each_other_are_legs_of_their_own(self) -> None:
        found = legs("delay-most q r 7", "delay-most p q 9")
        self.assertEqual([it[:3] for it in found], [("p", "q", 9), ("q", "r", 7)])

    def test_two_events_of_one_stamp(self) -> None:
        self.assertEqual(legs("late q 0", "early p 0"), [("p", "q", 0, "both have one stamp")])

    def test_clocks_that_follow_each_other(self) -> None:
        told = "late's clock showed 5 after early's clock showed 90, at least 30 ns later; the two stamps may be off by 3 ns"
        steps = ("late q 1", "follow early 90 late 5 -30", "early p 2")
        self.assertEqual(legs(*steps, is_most=False), [("p", "q", 27, f"{told} in all")])

    def test_no_limit_has_the_clocks_from_which_nothing_leads_on(self) -> None:
        nodes = ["event p 0.000000000", "event q 0.000000000"]
        upper, lower = ["upper +inf", "inside c", "inside d", *nodes], ["lower 0.000000000", *nodes]
        found = chains.read_proof(["certificate 1", "ends p q", *upper, *lower, "end"])
        self.assertEqual((found.greatest, found.least), (chains.Chain(None, [], ["c", "d"]), chains.Chain(0)))

    def test_another_reply_is_none(self) -> None:
        for lines in (["refused 28"], ["certificate 1", "cycle", "end"], ["certificate 1"], []):
            with self.assertRaises(ValueError):
                chains.read_proof(lines)

    def test_numbers_have_all_their_digits(self) -> None:
        for units, wanted in ((1234567 * UNITS + 5, "1,234,567.000000005 ns"), (-999 * UNITS, "-999 ns"), (0, "0 ns")):
            self.assertEqual(plain(chains.spaced_ns(units)), wanted)


if __name__ == "__main__":
    unittest.main()
