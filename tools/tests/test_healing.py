"""What heals a contradiction is told by what it takes, the likeliest first, with the chains that decide it."""

import os
import tempfile
import unittest
from xml.etree import ElementTree

from chain_picture import chain_svg
from healing import Healing, cut_text, healing_of, in_order, told_blames, told_cycle
from test_explaining import CYCLE, FOLLOWED
from tracesync.certificates import read_cycle
from tracesync.problems import read_blames, read_problem


class Blames(unittest.TestCase):
    """What mends all that is contradicted, and which of it is likely."""

    FIRST = "With any one of these alone nothing contradicts any more, and with 1 less something does (by `blame`); the likeliest first:"
    ALL = ["delays 500 ns", "least none", "stamps 24 ns"]

    def told(self, *lines: str) -> list[str]:
        return Healing(read_blames([f"blame {it}" for it in lines] + ["end"])).lines()

    def test_the_likeliest_first(self) -> None:
        told = self.told(*self.ALL, "rates 90000 ppb", "stamps web 30 ns", "rates web 100000 ppb", "stamps db none", "rates db 100001 ppb")
        self.assertEqual(told, [
            self.FIRST,
            "  `short` and `long` of each clock greater by 90000 ppb", "  `short` and `long` of web's clock greater by 100000 ppb",
            "  `early` and `late` of each clock greater by 24 ns", "  `early` and `late` of web's clock greater by 30 ns",
            "  each `most` greater by 500 ns", "  `short` and `long` of db's clock greater by 100001 ppb",
            "2 others would not do alone, however wide.",
        ])  # fmt: skip
        self.assertEqual(self.told("delays 5 ns", "least 7 ns")[1:], ["  each `least` less by 7 ns", "  each `most` greater by 5 ns"])

    def test_links_and_gaps_stand_beside_their_kinds(self) -> None:
        told = self.told("delays 500 ns", "least none", "gaps 9 ns", "stamps web none", "delays web db 900 ns", "least web db 8 ns", "delays db web 500 ns")
        self.assertEqual(told[1:], [
            "  each `least` from web to db less by 8 ns", "  each `gap` less by 9 ns",
            "  each `most` from db to web greater by 500 ns", "  each `most` from web to db greater by 900 ns",
            "2 others would not do alone, however wide.",
        ])  # fmt: skip
        # (all of them are told where each link alone needs more)
        self.assertIn("  each `most` greater by 400 ns", self.told("delays 400 ns", "delays web db 900 ns"))

    def test_what_is_less_likely_is_left_out(self) -> None:
        told = self.told(*self.ALL, "rates 20000000 ppb", "stamps web 48 ns", "rates web 20000001 ppb", "stamps db 48 ns", "rates db 30000000 ppb")
        was_set = ", as of a clock that was set (so write `clocks` at its host)"
        self.assertEqual(told[1:4], [f"  `short` and `long` of web's clock greater by 20000001 ppb{was_set}", f"  `short` and `long` of db's clock greater by 30000000 ppb{was_set}", "  `early` and `late` of each clock greater by 24 ns"])
        self.assertTrue(self.told("rates 30000000 ppb")[1].endswith("of each clock greater by 30000000 ppb, as of a clock that was set"))
        self.assertEqual((len(told), told[-1]), (8, "1 less likely one is left out; 1 other would not do alone, however wide."))
        many = self.told(*self.ALL, "rates none", *(f"stamps c{it} {it + 48} ns" for it in range(65536)))
        self.assertEqual((len(many), many[-1]), (8, "65532 less likely ones are left out; 2 others would not do alone, however wide."))

    def test_all_clocks_where_one_needs_no_more(self) -> None:
        told = self.told("delays none", "stamps 24 ns", "rates 9 ppb", "stamps web 24 ns", "rates web 10 ppb", "stamps db 48 ns", "rates db 9 ppb")
        self.assertEqual([it.partition(" of ")[2] for it in told[1:-1]], ["db's clock greater by 9 ppb", "web's clock greater by 10 ppb", "web's clock greater by 24 ns", "db's clock greater by 48 ns"])

    def test_what_none_mends(self) -> None:
        self.assertEqual(self.told("delays none", "stamps none"), ["No bounds of one kind, however wide, mend all that is contradicted (by `blame`)."])
        self.assertEqual(Healing(read_blames(["blame none"])).lines(), [])

    def test_the_program_is_asked(self) -> None:
        chain = told_cycle(CYCLE.split("\n"))
        cases = (
            ('test "$(cat "$2")" = "$PROBLEM" && printf "blame stamps 24 ns\\nend\\n"', [self.FIRST, "  `early` and `late` of each clock greater by 24 ns"]),
            ("echo usage: tracesync widen PROBLEM; exit 2", []), ("exit 9", []),
        )  # fmt: skip
        with tempfile.TemporaryDirectory() as room:
            for text, wanted in cases:
                with open(f"{room}/program", "w", encoding="utf-8") as it:
                    it.write(f"#!/bin/sh\nPROBLEM='{FOLLOWED}'\n{text}\n")
                os.chmod(it.name, 0o755)
                found = told_cycle(CYCLE.split("\n"), FOLLOWED.split("\n"), program=it.name)
                self.assertEqual(found[-len(wanted) or len(found) :], wanted)
                self.assertEqual(len(found) - len(wanted), len(chain))
            self.assertEqual(len(told_cycle(CYCLE.split("\n"), FOLLOWED.split("\n"), program=f"{room}/nosuch")), len(chain))
        self.assertEqual(len(told_cycle(CYCLE.split("\n"), FOLLOWED.split("\n"), program=None)), len(chain))


# Two hosts, of which b's clock shows 200 ns where a's shows 100; and what a program says of that.
PROBLEM = """problem 1
clock a 0 20000 0 3
clock b 20000 0 3 2
event a#1 a 50
event a#2 a 150
event b#1 b 100
event b#2 b 300
message a#1 b#1 1 none
message b#2 a#2 1 20
end"""
BLAME = """blame stamps 19 ns
blame rates 29000000 ppb
blame stamps a 40 ns
blame rates a none
blame stamps b 41 ns
blame rates b 30000000 ppb
end"""
# (of a clock that b#2 is on, too, it finds an execution where it is another one, and of any other place the same chain)
SAID = """#!/bin/sh
case "$1 $3$4" in
blame*) cat blame ;;
"solve "*) if grep -q "event b#2 b-2" "$2"; then printf 'certificate 1\\nrun\\nend\\n'; else cat cycle; fi ;;
"widen stampsa") printf 'widening 1\\nleast 40 stamps a\\n'; sed 1d other ;;
widen*) printf 'widening 1\\nleast 19 stamps\\n'; sed 1d cycle ;;
esac
"""


class Deciding(unittest.TestCase):
    """Which chains decide what heals, and which clocks may have been set, as a program says that stands in."""

    def setUp(self) -> None:
        room = tempfile.TemporaryDirectory()
        self.addCleanup(room.cleanup)
        self.addCleanup(os.chdir, os.getcwd())
        os.chdir(room.name)
        self.program = f"{room.name}/program"
        # (another chain, which goes by the least delay of the reply)
        other = CYCLE.replace("delay-most b#2 a#2 20.", "delay-least b#2 a#2 20.")
        for name, text in (("program", SAID), ("blame", BLAME), ("cycle", CYCLE), ("other", other)):
            with open(name, "w", encoding="utf-8") as it:
                it.write(f"{text}\n")
        os.chmod("program", 0o755)
        self.problem = read_problem(PROBLEM.split("\n"))
        self.healing = healing_of(self.problem, self.program, read_cycle(CYCLE.split("\n")))

    def test_a_clock_that_was_set_stands_first(self) -> None:
        self.assertEqual(self.healing.cuts, {"b": ("b#1", "b#2")})
        first, second, *rest = self.healing.lines()
        self.assertIn("With a clock that was set, for which `clocks` stand at its host, nothing contradicts any more either", first)
        self.assertEqual(second, "  b's clock, between b#1 and b#2")
        # (so its rate is none of it, and that of all clocks comes last)
        self.assertFalse([it for it in rest if "of b's clock" in it and "`long`" in it])
        self.assertEqual(rest[-2:], ["  `short` and `long` of each clock greater by 29000000 ppb", "1 other would not do alone, however wide."])

    def test_a_chain_is_told_once(self) -> None:
        lines = self.healing.lines()
        self.assertIn("  `early` and `late` of each clock greater by 19 ns: with 1 less the chain above is still too narrow, by 72.994 ns", lines)
        self.assertIn("  `early` and `late` of a's clock greater by 40 ns: with 1 less this chain, chain 1, is still too narrow", lines)
        self.assertEqual(sum("b's clock from 100 to 300 showed 200 ns: at least so long" in it for it in lines), 1)
        told = "\n".join(told_blames(BLAME.split("\n"), PROBLEM.split("\n"), self.program))
        # (where no chain is told above, that of the first is)
        for wanted in ("each clock greater by 19 ns: with 1 less this chain, chain 1,", "a's clock greater by 40 ns: with 1 less this chain, chain 2,",
                       "b's clock greater by 41 ns: with 1 less chain 1 is still too narrow"):  # fmt: skip
            self.assertIn(wanted, told)

    def test_a_chain_that_is_told_is_drawn(self) -> None:
        [(title, steps)] = self.healing.pictured()
        self.assertEqual(title, "With `early` and `late` of a's clock greater by 39 ns no real times obey all of this: it is still too narrow by 72.994 ns")
        texts = [it.text for it in ElementTree.fromstring(chain_svg(steps, self.problem, title)).iter() if it.tag.endswith("}text")]
        self.assertIn(title, texts)

    def test_another_problem_than_that_of_a_reply_is_not_told(self) -> None:
        lines = ["blame stamps 18 ns", "end"]
        self.assertEqual(told_blames(lines, PROBLEM.split("\n"), self.program), Healing(read_blames(lines)).lines())

    def test_clocks_behind_a_cut_are_those_of_a_later_clock(self) -> None:
        problem = read_problem(FOLLOWED.split("\n"))
        clock = next(iter(problem.follows))[0]
        own = in_order(problem, clock)
        found = read_problem(cut_text(problem, clock, {own[-1]}).split("\n")[:-1])
        self.assertEqual((found.lines[0], len(found.clocks)), ("problem 2", len(problem.clocks) + 1))
        self.assertEqual(found.events[own[-1]], (f"{clock}-2", problem.events[own[-1]].stamp))
        self.assertEqual({it: found.follows[it] for it in found.follows}, {(clock, f"{clock}-2"): 0, **{(f"{clock}-2", later): gap for (_, later), gap in problem.follows.items()}})

    def test_bounds_of_events_stay_and_are_told(self) -> None:
        lines = ["problem 3", "clock a 0 20000 0 3", "event a#1 a 50 1 2", "event a#2 a 150 0 9", "end"]
        problem = read_problem(lines)
        text = cut_text(problem, "a", {"a#2"})
        self.assertEqual(text.split("\n")[:6], [*lines[:2], "clock a-2 0 20000 0 3", "follow a a-2 0", lines[2], "event a#2 a-2 150 0 9"])
        told = Healing(read_blames(["blame stamps 4 ns", "blame stamps a 5 ns", "end"]), has_own=True).lines()
        self.assertEqual(told[1:], ["  `early` and `late` of each clock and label greater by 4 ns", "  `early` and `late` of a's clock and its labels greater by 5 ns"])

    def test_events_of_several_traces_go_by_their_stamps(self) -> None:
        problem = read_problem(["problem 1", "event b#1 c 9", "event b#2 c 4", "event a#1 c 5", "event d#1 d 8", "event d#2 d 3"])
        self.assertEqual((in_order(problem, "c"), in_order(problem, "d")), (["b#2", "a#1", "b#1"], ["d#1", "d#2"]))


if __name__ == "__main__":
    unittest.main()
