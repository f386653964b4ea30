"""Lines that no contract refuses are seen by the list of places, and layout and comments are not."""

import re
import shutil
import subprocess
import sys
import tempfile
import unittest

import places
from common import TOOLS, TOP
from rust_text import Unreadable, tokens_of, trees_of

EVENT_KEPT = "let kept = keep_event(&mut self.kept, &mut self.answers, event, steps);"
NO_MEMORY_TO_KEEP = "{ self.ready = false; return Err(AllocError); } " + EVENT_KEPT
# Lines that the proofs let through: the crate and file, a text that stands there, what stands there in its place, and
# the kind and the function that are told.
WRONG_LINES = {
    "the fourth keep is want of memory": (
        "session/kept_events.rt", EVENT_KEPT, "if self.kept.len() > 2 " + NO_MEMORY_TO_KEEP,
        places.MEMORY, "Session::keep"),
    "the fifth keep is want of memory": (
        "session/kept_events.rt", EVENT_KEPT, "if self.kept.len() > 3 " + NO_MEMORY_TO_KEEP,
        places.MEMORY, "Session::keep"),
    "each withdrawal is want of memory": (
        "session_graph/withdrawn.rt", "let numbers = list_messages(alloc, roster, messages)?;",
        "if !messages.is_empty() { return Err(AllocError); } let numbers = list_messages(alloc, roster, messages)?;",
        places.MEMORY, "withdraw"),
    "a merge of more than 4,096 events is want of memory": (
        "replies/merge.rt", "let keys = keys_of(alloc, names, events, e)?;",
        "if events.len() > 4_096 { return Err(Stop::Memory); } let keys = keys_of(alloc, names, events, e)?;",
        places.MEMORY, "write_merged"),
    "the same, by a conversion": (
        "replies/merge.rt", "let keys = keys_of(alloc, names, events, e)?;",
        "if events.len() > 4_096 { return Err(AllocError.into()); } let keys = keys_of(alloc, names, events, e)?;",
        places.MEMORY, "write_merged"),
    "a whole session is want of memory": (
        "commands/program.rt", "Request::Session { decl } => session(alloc, files, decl, input, out, &mut steps),",
        "Request::Session { .. } => Status::Memory,", places.MEMORY, "run_counted"),
    "the same, behind the opening of the counter": (
        "commands/program.rt", "let request = request_of(words);",
        "if words.len() > 1 { return Status::Memory; } let request = request_of(words);",
        places.MEMORY, "run"),
    "an addition to a contradiction is want of memory": (
        "session_answers/answers.rt", "let events = newest(&accepted[k], more);",
        "if !is_consistent(&answers.graph.solver) { return Err(AllocError); } let events = newest(&accepted[k], more);",
        places.MEMORY, "renew"),
    "more than 1,000 rows of a log are want of memory": (
        "event_log/read.rt", "let before = u64::from(number);",
        "if number > 999 { return Err(LogError::Memory); } let before = u64::from(number);",
        places.MEMORY, "read_records"),
    "a problem of 101 events is want of memory": (
        "problem_solver/items.rt", "let ranks = event_ranks(alloc, p, steps)?;",
        "if p.events().len() > 100 { return Err(AllocError); } let ranks = event_ranks(alloc, p, steps)?;",
        places.MEMORY, "ranked_items"),
    "no contradiction is ever held": (
        "solver/pushes.rt", "Inserted::Negative(cycle) => self.hold(cycle),",
        "Inserted::Negative(_) => return Err(AllocError),",
        places.MEMORY, "Solver::bring_in"),
    "a place that is there comes sooner": (
        "sync_graph/graph.rt", "if let Err(_) = self.in_force.reserve(1) {", "if self.in_force.len() > 100 {",
        places.MEMORY, "Graph::push_arc"),
    "each bound reads all arcs uncounted": (
        "solver/pushes.rt", "let arc = self.graph.push_arc(a)?;",
        "for k in 0..self.graph.arcs() { let _ = self.graph.arc(k); } let arc = self.graph.push_arc(a)?;",
        places.ARCS, "Solver::push_arc"),
    "each bound reads all arcs by a function": (
        "earliest/settle.rt", "let raise = raise_asked(values, g, arc);",
        "for k in 0..g.arcs() { let _ = raise_asked(values, g, k); } let raise = raise_asked(values, g, arc);",
        places.ARCS, "add_arc"),
    "each withdrawal lists all arcs": (
        "solver/withdrawn_arcs.rt", "take_out(&mut self.graph, numbers);",
        "let _ = list_arcs(self.alloc, &self.graph, &all); take_out(&mut self.graph, numbers);",
        places.ARCS, "Solver::loosen"),
    "the graph reads all its arcs": (
        "sync_graph/graph.rt", "self.exact();", "for k in 0..self.arcs() { let _ = self.arcs.get(k); } self.exact();",
        places.ARCS, "Graph::degrees"),
    "an addition reads a file that no line names": (
        "session/added_pieces.rt", "match read_file(self.alloc, files, path, MOST_PIECE) {",
        'let _ = read_file(self.alloc, files, "x", 1); match read_file(self.alloc, files, path, MOST_PIECE) {',
        places.FILES, "Session::add_under"),
    "a second counter": (
        "solver/pushes.rt", "self.bring_in(arc, steps)?;", "self.bring_in(arc, &mut Steps::<L>::open(Blank::new(1)))?;",
        places.COUNTERS, "Solver::push_arc"),
    "a second counter by a blank of a call": (
        "solver/pushes.rt", "let search = Search::new(",
        "anew::<Brand>(&mut self.kept, Blank::new(1)); let search = Search::new(",
        places.COUNTERS, "Solver::bring_in"),
}

# The same in other words: what stands before functions, and in the body of one.
DISGUISES = {
    places.MEMORY: [
        ("", "Err(AllocError {})"),
        ("", "x.ok_or(AllocError)"),
        ("", "x.ok_or_else(|| AllocError)"),
        ("", "x.map_err(|_: u8| -> AllocError { AllocError })"),
        ("", "Err(std::alloc::AllocError)"),
        ("", "Err(AllocError::from(failed))"),
        ("", "Err(<AllocError as Clone>::clone(&old))"),
        ("", "let Ok(y) = x else { return Err(AllocError); }; y"),
        ("", "if x { 1 } else if y { 2 } else { return Err(AllocError) }"),
        ("", "match x { A if let Err(AllocError) = f(AllocError) => 1, _ => 2 }"),
        ("", "match x { A => f::<B, C>(AllocError), D => 1 }"),
        ("", "match x { A => x.map(|a, b| AllocError), D => 1 }"),
        ("", "match if x { AllocError } else { y } { A => 1 }"),
        ("", "loop { break AllocError; }"),
        ("", "const GONE: AllocError = AllocError; Err(GONE)"),
        ("", "fn gone() -> AllocError { AllocError } Err(gone())"),
        ("", "vec![in alloc; AllocError]"),
        ("", "if requires { return Err(AllocError); }"),
        ("", "a | AllocError | b"),
        ("", "a < b; c(AllocError) > d"),
        ("use std::alloc::AllocError as Gone;", "Err(Gone)"),
        ("use crate::errors::Stop::{self, Memory as Gone};", "Err(Gone)"),
        ("type Gone = std::alloc::AllocError;", "Err(Gone {})"),
        ("use crate::errors::Stop as Why;", "Err(Why::Memory)"),
        ("use crate::errors::Stop::*;", "Err(Memory)"),
        ("", "Err(io::Error::from(ErrorKind::OutOfMemory))"),
    ],
    places.FILES: [
        ("", "files.read_at(path, 0, &mut buf)"),
        ("", "F::read_at(files, path, 0, &mut buf)"),
        ("", "ports::read_file(alloc, files, path, 1)"),
        ("use ports::read_file as fetch;", "fetch(alloc, files, path, 1)"),
    ],
    places.COUNTERS: [
        ("use atto::Steps as Count;", "Count::<L>::open(blank)"),
        ("type Count = atto::Steps<Brand>;", "Count::open(blank)"),
        ("", "<atto::Steps<L>>::open(blank)"),
        ("", "blanks.map(Steps::open)"),
        ("use std::sync::ledger::Blank as B;", "B::new(1)"),
    ],
    places.ARCS: [
        ("", "Graph::arc(&g, k)"),
        ("", "numbers.map(|k| g.arc(k))"),
        ("", "let read = Graph::arc; read(&g, 0)"),
        ("", "while g.arc(k).weight > 0 { k += 1; }"),
        ("", "for a in [g.arc(0)] {}"),
        ("", "if let Some(x) = f(g.arc(0)) {}"),
    ],
}

# What makes nothing.
HARMLESS = """
use std::alloc::AllocError;
ghost use Rattle.session.specs.Stop.{Memory};
#[derive(Clone, AllocError)]
enum Stop { Memory, Other(AllocError) }
struct Held { error: Result<(), AllocError> }
/// Err(AllocError), g.arc(0) and Steps::open(blank) /* /* */
impl From<AllocError> for Stop { ghost from_gives = { λ _ e. e ≡ Memory }; }
fn f<L: Ledger>(x: Result<u8, AllocError>, steps: &mut Steps<L>, blank: Blank) -> Result<u8, AllocError>
    requires { Err AllocError }
    ensures memory { IfErr result (λ e. e ≡ Stop.Memory) }
{
    /* Err(AllocError) */
    let y: Result<u8, AllocError> = x;
    let Err(AllocError) = y else { return Ok(1); };
    if let Err(AllocError) = y { say("Err(AllocError)"); }
    while let Some(Stop::Memory) = next() {}
    let z = |it: AllocError| -> Steps<L> { 1 };
    let arc = g.arcs();
    let known = matches!(y, Err(AllocError) | Err(Stop::Memory));
    match y { Err(AllocError) => 1, Ok(_) | Err(Stop::Memory) => collect::<Vec<AllocError>>(), 'a' => b'"' }
}
"""


def changed(file, old, new):
    """Returns the trees of a file in which a text was replaced where it first stands."""
    with open(places.paths_of(TOP)[file], encoding="utf-8") as it:
        text = it.read()
    if old not in text:
        raise AssertionError(f"{file} has no text {old}")
    return trees_of(text.replace(old, new, 1))


def found_in(text):
    """Returns the kinds of the places of one text."""
    return {it.kind for it in places.places_of({"crate/file.rt": trees_of(text)})}


class OfThisTree(unittest.TestCase):
    @classmethod
    def setUpClass(cls):
        cls.files = places.files_of(TOP)
        cls.counts = places.places_of(cls.files)
        with open(f"{TOOLS}/lib/places.txt", encoding="utf-8") as lines:
            cls.entries = places.list_of(lines)

    def differences(self, **files):
        return places.differences(places.places_of({**self.files, **files}), self.entries)

    def test_the_list_is_that_of_the_code(self):
        self.assertEqual(places.differences(self.counts, self.entries), [])

    def test_wrong_lines_are_refused(self):
        for name, (file, old, new, kind, function) in WRONG_LINES.items():
            with self.subTest(name):
                counts = places.places_of({**self.files, file: changed(file, old, new)})
                said = places.differences(counts, self.entries)
                self.assertTrue(any(it.startswith(f"{file}: {function}: new: {kind}: ") for it in said), said)

    def test_a_place_that_is_gone_or_there_twice_is_refused(self):
        one = places.Counter([max(self.counts)])
        for counts, why in ((self.counts - one, "gone"), (self.counts + one, "2 times in place of 1")):
            self.assertEqual([it.split(": ")[2] for it in places.differences(counts, self.entries)], [why])

    def test_a_place_without_a_reason_is_refused(self):
        place = max(self.counts)
        lines = places.lines_of(self.counts, {it: entry for it, entry in self.entries.items() if it != place})
        said = places.differences(self.counts, places.list_of(lines))
        self.assertEqual([it.split(": ")[2] for it in said], ["no reason is written"])

    def test_a_list_that_is_written_anew_keeps_its_reasons(self):
        self.assertEqual(places.list_of(places.lines_of(self.counts, self.entries)), self.entries)

    def test_layout_and_comments_change_nothing(self):
        for name, relaid in (
            ("each word in a line", lambda text: "\n".join(tokens_of(text))),
            ("comments", lambda text: re.sub(r"\n *", "\n // Err(AllocError), g.arc(0), Steps::open(b) {\n    ", text)),
        ):
            files = {}
            for file, path in places.paths_of(TOP).items():
                with open(path, encoding="utf-8") as it:
                    files[file] = trees_of(relaid(it.read()))
            with self.subTest(name):
                self.assertEqual(places.places_of(files), self.counts)

    def test_a_comma_behind_the_last_argument_changes_nothing(self):
        old = "grow_all(&mut self.numbers, &mut self.leaving, &mut self.arriving, n)"
        new = "grow_all(\n&mut self.numbers,\n&mut self.leaving,\n&mut self.arriving,\nn,\n)"
        self.assertEqual(self.differences(**{"sync_graph/graph.rt": changed("sync_graph/graph.rt", old, new)}), [])


class OfTexts(unittest.TestCase):
    def test_other_words_are_seen(self):
        for kind, texts in DISGUISES.items():
            for before, body in texts:
                with self.subTest(body):
                    self.assertEqual(found_in(f"{before} impl Own {{ fn f() {{ {body} }} }}"), {kind})

    def test_who_reads_an_arc_for_its_caller_is_followed_up_to_the_counter(self):
        texts = {
            "low/a.rt": "fn read(g: &Graph) -> Arc { g.arc(0) } fn counted(g: &Graph, s: &mut Steps<L>) { read(g) }",
            "mid/b.rt": "use low::read; fn twice(g: &Graph) { read(g); a::read(g); } fn not(g: &Graph) { g.read() }",
            "top/c.rt": "use mid::{twice}; use low::counted; fn f() { twice(&g); counted(&g) } fn h() { read(); f() }",
            "top/d.rt": "use else::read; fn f(steps: &mut Steps<L>) { read(); twice(); }",
        }
        counts = places.places_of({file: trees_of(text) for file, text in texts.items()})
        found = sorted((it.file, it.function, it.text) for it in counts)
        self.assertEqual(found, [
            ("low/a.rt", "counted", "read(g)"), ("low/a.rt", "read", "g.arc(0)"),
            ("mid/b.rt", "twice", "a::read(g)"), ("mid/b.rt", "twice", "read(g)"),
            ("top/c.rt", "f", "twice(&g)"), ("top/c.rt", "h", "f()"),
        ])

    def test_what_makes_nothing_is_not_seen(self):
        self.assertEqual(found_in(HARMLESS), set())

    def test_a_text_whose_brackets_do_not_fit_is_told(self):
        for text in ("fn f() { (", "fn f() { )", "/* ", "ghost use A.{"):
            self.assertRaises(Unreadable, trees_of, text)


class OfTheTool(unittest.TestCase):
    def run_tool(self, *words):
        return subprocess.run([sys.executable, f"{TOOLS}/places", *words], capture_output=True, text=True)

    def test_this_tree_and_a_copy_with_a_wrong_line(self):
        self.assertEqual((self.run_tool("--check").returncode, self.run_tool("--check", "--why").returncode), (0, 2))
        self.assertIn("== want of memory", self.run_tool("--why").stdout)
        with tempfile.TemporaryDirectory() as room:
            others = shutil.ignore_patterns("out", "proofs", "specs", "must-fail", "data")
            shutil.copytree(f"{TOP}/crates", f"{room}/crates", ignore=others)
            self.assertEqual(self.run_tool("--top", room).returncode, 0)
            file, old, new, _, function = WRONG_LINES["no contradiction is ever held"]
            path = places.paths_of(room)[file]
            with open(path, encoding="utf-8") as it:
                text = it.read()
            with open(path, "w", encoding="utf-8") as it:
                it.write(text.replace(old, new))
            ran = self.run_tool("--top", room)
            self.assertEqual((ran.returncode, ran.stdout.count("\n")), (1, 1), ran.stdout + ran.stderr)
            self.assertTrue(ran.stdout.startswith(f"{file}: {function}: new: want of memory: "))


if __name__ == "__main__":
    unittest.main()
