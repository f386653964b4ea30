"""What a session replies comes back as values, exactly, and what goes wrong as exceptions."""

import os
import pathlib
import pickle
import sys
import types
import unittest
from fractions import Fraction
from typing import Any, List
from unittest import mock

import tracesync
from standing_in import CYCLE, HOSTS, PROBLEM, PROOF, WIDENING, StandingIn
from tracesync import (
    Blame,
    Contradiction,
    DeclarationRefused,
    Ended,
    Interval,
    NoProgram,
    Order,
    Problem,
    Refused,
    Session,
)


class Answers(StandingIn):
    """Each question that has an answer."""

    def test_additions(self) -> None:
        session = self.session()
        self.assertEqual(session.add("a", "a.csv"), tracesync.Added(2, 0, 0, 0, True))
        self.assertEqual(session.add("b", pathlib.Path("b.csv")), tracesync.Added(1, 1, 0, 7, False))
        self.assertEqual(session.events(), ["a#1", "a#2", "b#1"])

    def test_an_addition_tells_what_was_passed_over(self) -> None:
        session = self.session()
        self.assertEqual(session.add("b", "c.pcapng"), tracesync.Added(1, 0, 1, 0, True, passed=5))
        self.assertNotIn("passed", session.report())

    def test_both_ends_are_exact_and_none_is_no_limit(self) -> None:
        session = self.session()
        self.assertEqual(session.interval("a#1", "b#1"), Interval(-1, None))
        self.assertEqual(session.interval("a#1", "a#2"), Interval(None, 2**120))
        self.assertEqual(session.interval("a#1", "b#1").least_ns, Fraction(-1, 10**9))
        self.assertIsNone(session.interval("a#1", "b#1").width)
        self.assertEqual(Interval(5, 1_000_000_005).width_ns, 1)

    def test_orders_are_words_too(self) -> None:
        session = self.session()
        self.assertIs(session.order("a#1", "b#1"), Order.BEFORE)
        self.assertEqual((session.order("b#1", "a#1"), f"{Order.SAME}", str(Order.AFTER)), ("open", "same", "after"))

    def test_times_of_all_events_by_label_and_number(self) -> None:
        by_source = {"a#1": (100 * 10**9, None), "a#2": (None, 200_500_000_000), "b#1": (10**9, 10**9)}
        since = {"a#1": (0, 0), "a#2": (None, 2**120), "b#1": (-1, None)}
        # (an older program is asked event by event)
        for stands in ("", "older"):
            with mock.patch.dict(os.environ, STAND_IN=stands):
                session = self.session()
                session.add("b", "b.csv")
                session.add("a", "a.csv")
                for found, wanted in ((session.times(), by_source), (session.times("a#1"), since)):
                    self.assertEqual(([*found], dict(found)), ([*wanted], wanted), stands)
        self.assertEqual(session.time("a#2").greatest_ns, Fraction(401, 2))

    def test_times_since_an_event_that_is_none_or_in_a_contradiction(self) -> None:
        with self.assertRaises(Refused) as caught:
            self.session().times("a#9")
        self.assertEqual((caught.exception.number, caught.exception.line), (28, "times a#9"))
        with self.assertRaises(Contradiction):
            self.session().times("b#1")

    def test_a_merge_keeps_its_order_and_its_texts(self) -> None:
        found, late = self.session().merge(), 66_000_000_001
        self.assertEqual([tuple(it) for it in found], [("a#1", 0, ""), ("b#1", late, "a note"), ("a#2", late, "")])
        self.assertEqual(found[1].time_ns, Fraction(66_000_000_001, 10**9))

    def test_a_proof_has_both_ends_and_its_text(self) -> None:
        found = self.session().prove("a#1", "b#1")
        self.assertEqual((found.text, found.events), (f"{PROOF}\n", ("a#1", "b#1")))
        self.assertEqual(found.interval, Interval(25_500_000_000, None))
        self.assertEqual((found.upper, [it.weight_ns for it in found.lower]), ([], [Fraction(-51, 2)]))

    def test_a_problem_has_its_parts_and_its_text(self) -> None:
        found = self.session().problem()
        self.assertEqual((found.text, found.clocks["a1"].late, found.follows), (f"{PROBLEM}\n", 4, {("a1", "a2"): 5}))
        self.assertEqual((found.events["b#1"].stamp, found.messages["b#1", "a#1"].most), (200, None))

    def test_a_smaller_problem_is_a_text(self) -> None:
        session = self.session()
        self.assertEqual((session.thin(), session.thin("a#1", "b#1")), ("problem 1\nend\n", f"{PROBLEM}\n"))
        with self.assertRaisesRegex(Refused, "refused 28"):
            session.thin("a#1", "a#9")

    def test_what_is_to_blame(self) -> None:
        session = self.session()
        found = session.blame()
        self.assertEqual(found[:2], [Blame("delays", None, None, "ns"), Blame("least", None, None, "ns")])
        self.assertEqual(found[2:4], [Blame("stamps", None, 24, "ns"), Blame("rates", None, 10**9, "ppb")])
        self.assertEqual(found[4], Blame("gaps", None, 5, "ns"))
        self.assertEqual(found[5:7], [Blame("stamps", "a1", 2**62 - 1, "ns"), Blame("rates", "a1", None, "ppb")])
        # (a clock may have this name, too)
        self.assertEqual(found[7:9], [Blame("stamps", "none", None, "ns"), Blame("rates", "none", 1, "ppb")])
        link = "a1", "none"
        self.assertEqual(found[9:11], [Blame("delays", None, None, "ns", link), Blame("least", None, 3, "ns", link)])
        link = "a2", "a1"
        self.assertEqual(found[11:], [Blame("delays", None, 7, "ns", link), Blame("least", None, None, "ns", link)])
        self.assertEqual([it.words for it in found[4:6]], [("gaps",), ("stamps", "a1")])
        self.assertEqual(found[11].words, ("delays", "a2", "a1"))

    def test_problems_are_blamed_as_sessions_are(self) -> None:
        session = self.session()
        found = session.blame()
        self.assertEqual(session.problem().blame(self.program), found)
        with mock.patch.dict(os.environ, TRACESYNC=self.program):
            self.assertEqual(session.problem().blame(), found)
        with mock.patch.dict(os.environ, STAND_IN="healed"), Session("hosts.toml", self.program) as healed:
            self.assertEqual((healed.blame(), session.problem().blame(self.program)), ([], []))

    def test_a_session_that_knows_no_blame_is_asked_for_its_problem(self) -> None:
        with mock.patch.dict(os.environ, STAND_IN="older"):
            session = self.session()
        self.assertEqual(len(session.blame()), 13)
        self.assertEqual(session.keep("a#1"), 3)

    def test_blame_is_of_the_program_of_the_session(self) -> None:
        with mock.patch.dict(os.environ, STAND_IN="older"):
            session = Session("hosts.toml", "./program")
        with session, mock.patch.dict(os.environ, TRACESYNC="nosuch"):
            os.chdir("/")
            self.assertEqual(len(session.blame()), 13)

    def test_a_widening_has_its_number_and_its_text(self) -> None:
        problem = self.session().problem()
        found = problem.widen("gaps", program=self.program)
        self.assertEqual((found.least, found.what, found.unit), (5, ("gaps",), "ns"))
        self.assertEqual(found.text, f"{WIDENING.format('5 gaps')}\n")
        found = problem.widen(program=self.program)
        self.assertEqual((found.least, found.what, found.lines[1]), (5, ("delays",), "least 5"))
        found = problem.widen("least", "a2", "a1", program=self.program)
        self.assertEqual((found.least, found.what), (None, ("least", "a2", "a1")))
        self.assertEqual(problem.widen("rates", "a1", program=self.program).unit, "ppb")

    def test_a_widening_is_judged(self) -> None:
        problem = self.session().problem()
        with mock.patch.dict(os.environ, TMPDIR=self.room), mock.patch("tempfile.tempdir", self.room):
            before = sorted(os.listdir(self.room))
            self.assertIs(problem.judge(problem.widen("gaps", program=self.program).text, self.program), True)
            self.assertIs(problem.judge(problem.widen(program=self.program).text, self.program), False)
            with self.assertRaisesRegex(Ended, "status 6: certificate 1 1"):
                problem.judge("5", self.program)
            self.assertEqual(sorted(os.listdir(self.room)), before)

    def test_keeping_and_reports(self) -> None:
        session = self.session()
        self.assertEqual((session.keep("a#1"), session.report()["unmatched"]), (3, 0))


class Refusals(StandingIn):
    """Whatever has no answer."""

    def test_a_refusal_has_its_number_and_words(self) -> None:
        session = self.session()
        with self.assertRaises(Refused) as caught:
            session.interval("a#1", "a#9")
        why = caught.exception
        self.assertEqual((why.number, why.places, why.line), (28, (), "interval a#1 a#9"))
        self.assertEqual(str(why), f"refused 28: {why.words}")
        session.add("a", "a.csv")
        with self.assertRaisesRegex(Refused, "refused 28: a has 2 events so far"):
            session.interval("a#1", "a#9")

    @unittest.skipIf(sys.version_info < (3, 11), "this Python does not read TOML")
    def test_words_know_the_declaration(self) -> None:
        with self.assertRaisesRegex(Refused, "refused 21: no label c is declared; there are a, b"):
            self.session().add("c", "c.csv")

    def test_a_word_with_a_blank_is_no_other_question(self) -> None:
        session = self.session()
        cases: Any = ((session.interval, "a#1 b#1", ""), (session.add, "a", "my a.csv"), (session.keep, ""))
        for ask, *words in cases:
            with self.assertRaises(Refused) as caught:
                ask(*words)
            self.assertEqual(caught.exception.number, 20)

    def test_a_line_feed_is_asked_of_nobody(self) -> None:
        session = self.session()
        with self.assertRaisesRegex(ValueError, "no line feed"):
            session.interval("a#1 b#1\norder a#1", "b#1")
        with self.assertRaises(ValueError):
            session.add("a", "\ud800.csv")
        self.assertEqual(session.order("a#1", "b#1"), "before")

    def test_a_contradiction_carries_its_certificate(self) -> None:
        session = self.session()
        for ask in (session.interval, session.order):
            with self.assertRaises(Contradiction) as caught:
                ask("b#1", "b#1")
            found = caught.exception.certificate
            self.assertEqual((found.text, found.sum_ns, found.steps[0].names), (f"{CYCLE}\n", -100, ["a#1", "b#1"]))
            self.assertIn("lack 100 ns", str(caught.exception))
        self.assertEqual(session.keep("a#1"), 3)

    def test_an_end_has_its_status_and_words(self) -> None:
        cases = (("cut", 8, "a write failed"), ("memory", 9, "memory ran out"), ("long", 10, "2^30 bytes"))
        for name, status, wanted in cases:
            session = self.session()
            with self.assertRaises(Ended) as caught:
                session.keep(f"{name}#1")
            self.assertEqual(caught.exception.status, status)
            self.assertIn(wanted, caught.exception.words)
            with self.assertRaisesRegex(ValueError, "the session has ended"):
                session.report()

    def test_a_session_goes_on_where_nothing_can_be_blamed(self) -> None:
        old = "/program is too old: it has no command `blame`"
        cases: Any = (("old", NoProgram, old), ("forgetful", Ended, "status 9"))
        for stands, kind, told in cases:
            with mock.patch.dict(os.environ, STAND_IN=stands):
                session = self.session()
                with self.assertRaisesRegex(kind, told):
                    session.blame()
            self.assertEqual(session.keep("a#1"), 3)
        with self.assertRaisesRegex(Ended, "the program ended with status 4: problem 1 1"):
            Problem().blame(self.program)

    def test_what_cannot_be_widened(self) -> None:
        problem = self.session().problem()
        cases = ["nonsense"], ["gaps", "a1"], ["stamps", "a1", "a2"], ["least", "a1"], ["delays", "a1", "a2", "a1"]
        for words in cases:
            with self.assertRaisesRegex(ValueError, f"nothing is called `{' '.join(words)}`"):
                problem.widen(*words, program=self.program)
        with self.assertRaisesRegex(ValueError, "no clock a9"):
            problem.widen("delays", "a1", "a9", program=self.program)
        with mock.patch.dict(os.environ, STAND_IN="old"):
            with self.assertRaisesRegex(NoProgram, "no command `widen`, or not with these words"):
                problem.widen("gaps", program=self.program)
        with mock.patch.dict(os.environ, STAND_IN="forgetful"), self.assertRaisesRegex(Ended, "status 9"):
            problem.widen("gaps", program=self.program)

    def test_all_exceptions_are_of_one_kind_and_go_from_process_to_process(self) -> None:
        cases = (
            Refused("keep a", 25, ["9", "header"], "told"), Contradiction("merge", tracesync.Cycle(CYCLE.split("\n"))),
            DeclarationRefused(2, "hosts", 1, "told"), Ended(["read fault"], 7), tracesync.NoProgram("told"),
        )  # fmt: skip
        for it in cases:
            self.assertIsInstance(it, tracesync.TracesyncError)
            other = pickle.loads(pickle.dumps(it))
            self.assertEqual((type(other), str(other), vars(other)), (type(it), str(it), vars(it)))


class Declarations(StandingIn):
    """A declaration is a path or a text."""

    def test_a_text_is_written_for_a_while(self) -> None:
        with mock.patch.dict(os.environ, TMPDIR=self.room), mock.patch("tempfile.tempdir", self.room):
            before = sorted(os.listdir(self.room))
            with Session(HOSTS, self.program) as session:
                self.assertEqual(session.order("a#1", "b#1"), "before")
                self.assertEqual(sorted(os.listdir(self.room)), before)
                self.assertEqual(repr(session), "<Session over the declaration: 0 events>")

    def test_a_refusal_says_where_and_why(self) -> None:
        text = f"{HOSTS}[hosts.0]\ndrift = 3\n"
        for declaration, name in ((text, "the declaration"), (pathlib.Path(self.write("bad.toml", text)), "bad.toml")):
            with self.assertRaises(DeclarationRefused) as caught:
                Session(declaration, self.program)
            why = caught.exception
            self.assertEqual((why.number, why.section, why.index), (2, "hosts", 1))
            line = "line 9: host 0: no such key: drift" if sys.version_info >= (3, 11) else "another key"
            self.assertRegex(why.words, f"^{name}.*{line}")

    def test_a_file_that_is_not_there(self) -> None:
        with self.assertRaises(FileNotFoundError):
            Session("nosuch.toml", self.program)
        with self.assertRaises(IsADirectoryError):
            Session(self.room, self.program)

    def test_paths_count_from_where_the_caller_stands(self) -> None:
        session = self.session()
        os.mkdir("below")
        os.chdir("below")
        with self.assertRaises(Refused) as caught:
            session.add("a", "a.csv")
        self.assertEqual(caught.exception.line, f"add a {self.room}/below/a.csv")


class Table:
    """A table that stands in for one of pandas."""

    def __init__(self, rows: List[Any], columns: List[str], dtype: type) -> None:
        self.rows, self.columns, self.dtype = rows, columns, dtype


def has_pandas() -> bool:
    try:
        import pandas  # noqa: F401
    except ImportError:
        return False
    return True


class Tables(StandingIn):
    """Tables of pandas keep each digit."""

    def test_columns_and_rows(self) -> None:
        session = self.session()
        session.add("a", "a.csv")
        with mock.patch.dict(sys.modules, pandas=types.SimpleNamespace(DataFrame=Table)):
            merged, timed = session.merge().to_pandas(), session.times().to_pandas()
        self.assertEqual((merged.columns, merged.dtype), (["event", "label", "number", "time", "text"], object))
        self.assertEqual(merged.rows[1], ("b#1", "b", 1, 66_000_000_001, "a note"))
        self.assertEqual(timed.columns, ["event", "label", "number", "least", "greatest"])
        from_a = [("a#1", "a", 1, 100 * 10**9, None), ("a#2", "a", 2, None, 200_500_000_000)]
        self.assertEqual(timed.rows, [*from_a, ("b#1", "b", 1, 10**9, 10**9)])

    @unittest.skipUnless(has_pandas(), "pandas is not there")
    def test_pandas_keeps_whole_numbers(self) -> None:
        found = tracesync.Merge([tracesync.MergedEvent("a#1", 2**120 + 1, "")]).to_pandas()
        self.assertEqual((found["time"][0], type(found["time"][0])), (2**120 + 1, int))
        self.assertEqual([*tracesync.Times().to_pandas().columns], ["event", "label", "number", "least", "greatest"])

    @unittest.skipIf(has_pandas(), "pandas is there")
    def test_without_pandas_it_is_said(self) -> None:
        with self.assertRaisesRegex(ImportError, "pandas"):
            self.session().merge().to_pandas()


if __name__ == "__main__":
    unittest.main()
