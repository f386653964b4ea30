"""Makes all that tools/timeline writes: the declaration, the session, the words and the outputs."""

import argparse
import os
import sys
from collections.abc import Callable, Iterable
from typing import Any

import neighbours
import picture
import tables
from chain_picture import chain_svg
from charts import delay_chart, offset_chart
from chrony import read_all_chrony
from declaring import Declaring
from ends import declared_own
from event_count import LOOK_MOST, LOOK_TIME, count_events
from explaining import Explainer
from files import read_own, write_own, write_parts
from gathering import Gathering
from healing import healing_of
from inputs import Input, with_hosts
from losses import loss_lines
from own_program import BUILT, PROGRAM, Look, RecordedSession
from page import held_events, page
from progress import Progress
from shortfall import Shortfall, unknown_lines
from texts import plain
from timeline import FROM_MOST, Timeline, make_timeline
from tracesync.certificates import read_cycle
from tracesync.declaration import read_declaration
from tracesync.errors import Ended
from tracesync.problems import read_problem
from words import Words, list_lines

FOLDER = "tracesync-timeline"
EVENTS_MOST = 400
OUTPUTS = {
    "html": "a page that zooms, filters and shows proofs, and needs nothing from a network",
    "svg": "a picture of at most --events events, those around the first event of --from, or else the first ones",
    "offsets": "a picture of how far each clock was ahead over time, both ends",
    "one_way": "a picture of one-way delays over time for each link, both ends, with how often each was",
    "json": "all that was asked, with each number as the program printed it",
    "csv": "a row for each event; a text that a spreadsheet would take for a formula stands behind a single quote",
    "chrome": "trace events, which Perfetto (ui.perfetto.dev) and chrome://tracing open",
    "shiviz": "a log for ShiViz",
    "list": "the events in words, in the order of the earliest execution; `-` is the standard output",
}


# The pictures that the page has, too.
CHARTS: dict[str, Callable[[Timeline], str]] = {"offsets": offset_chart, "one_way": delay_chart}
# What is written into the folder where no output is named.
KEPT = {"html": "timeline.html", "svg": "timeline.svg", "offsets": "offsets.svg", "one_way": "delays.svg"}


def pair_of(word: str) -> tuple[str, str]:
    """Returns the two events that a word of --prove names."""
    one, comma, other = word.partition(",")
    if not one or not other or "," in other or one == other:
        raise ValueError(f"--prove {word}: two events are wanted, with a comma between them, as left#6,right#7")
    return one, other


class Making:
    """What the command line says, and what is made of it."""

    def __init__(self, said: argparse.Namespace) -> None:
        self.folder, self.program = said.folder or FOLDER, None if said.look else said.program or PROGRAM
        self.declaration, self.chrony = said.declaration, said.chrony
        self.source, self.reference = said.source, said.reference
        if self.declaration and (self.source or self.reference or self.chrony):
            raise ValueError("--source, --reference and --chrony are for a declaration that is written, and --declaration names one")
        # (hosts whose addresses were not found out)
        self.asked: list[str] = []
        # (whether the declaration is what tools/declare writes)
        self.is_found = not said.declaration
        self.chosen = [name for word in said.chosen for name in word.split(",")]
        if len(self.chosen) > FROM_MOST:
            raise ValueError(f"--from has {len(self.chosen)} events, and {FROM_MOST} can be kept")
        self.proved = [pair_of(word) for word in said.proved]
        self.delays, self.events, self.held = said.delays, said.events, said.page
        self.charts: dict[str, str] = {}
        self.told: Words | None = None
        # (questions for orders come last, and would have the program compiled once more)
        self.pairs = said.pairs if said.pairs is not None or self.program else 0
        self.outputs = {name: getattr(said, name) for name in OUTPUTS if getattr(said, name)}
        self.words, self.progress = said.files, Progress(sys.stderr if self.is_quick() else None)

    def is_quick(self) -> bool:
        """Returns whether the program answers at once: one that is not there yet is built first, with lines of its own."""
        return self.program != PROGRAM or os.path.exists(BUILT)

    def make(self) -> int:
        """Makes all outputs, and returns the status."""
        try:
            return self.make_all()
        finally:
            self.progress.end()

    def make_all(self) -> int:
        self.progress.begin("reading the files")
        inputs = Gathering(self.folder, self.say).inputs(self.words)
        if not self.program:
            self.refuse_look(inputs)
        os.makedirs(self.folder, exist_ok=True)
        self.declare(inputs)
        session: RecordedSession | Look
        if self.program:
            session = RecordedSession(self.declaration, self.program, self.progress)
        else:
            session = Look(self.declaration, self.progress)
        try:
            source = self.declared_source()
            asked = (self.chosen, self.delays, self.pairs, source, self.progress, self.proved)
            found = make_timeline(session, inputs, *asked)
        except Ended as why:
            self.say(f"The session ended with status {why.status}{': ' if why.lines else ''}{' '.join(why.lines)}")
            self.say(*Explainer(declaration=self.declaration).told_end(why.lines))
            return 1
        if not self.program:
            found.is_proved = False
            found.notes.append("this was made by tools/first-look, and NOTHING OF IT IS PROVED")
        self.keep_lines("script.txt", [session.script])
        self.keep_lines("replies.txt", session.replies)
        return self.write(found)

    def refuse_look(self, inputs: list[Input]) -> None:
        """Raises ValueError where tools/first-look would be asked about too many events."""
        count = sum(count_events(it.path) for it in inputs)
        if count > LOOK_MOST:
            raise ValueError(f"--look draws {LOOK_MOST} events at most, and these are {count}: {LOOK_TIME}. Build the program (tools/build), or cut the files")

    def declared_source(self) -> str | None:
        """Returns the source that the declaration names, or None where there is none, or where the program will refuse the declaration."""
        return self.declared().get("source")

    def declared(self) -> dict[str, Any]:
        """Returns the tables of the declaration, none where the program will refuse it."""
        try:
            return read_declaration(self.declaration)
        except ValueError:
            return {}

    def declare(self, inputs: list[Input]) -> None:
        """Writes a declaration, if none was named; one that is there and was changed is left alone."""
        if self.declaration:
            return
        self.progress.begin("looking for what is to be declared")
        declaring = Declaring(inputs, read_all_chrony(self.chrony), self.source, self.reference)
        text, self.declaration = declaring.text(), f"{self.folder}/hosts.toml"
        last = f"{self.folder}/.hosts.toml"
        if read_own(self.declaration) not in (None, text, read_own(last)):
            raise ValueError(f"{self.declaration} was changed, or is not of this tool: name it with --declaration to use it, or remove it")
        for path in (last, self.declaration):
            write_own(path, text)
        self.say(f"Wrote {self.declaration}: every answer follows from it, so look at each line.")
        # (the name of a file stays as it is)
        files = tuple(plain(it.shown) for it in inputs)
        self.say(*(f"{it if it.startswith(files) else it[0].upper() + it[1:]}." for it in declaring.notes()))
        pairs = {host: declaring.placing.open(host) for host in declaring.ends.open}
        self.asked = [host for host, found in pairs.items() if found]
        self.say(*unknown_lines(pairs.items(), self.declaration))

    def write(self, found: Timeline) -> int:
        """Tells what was found, and writes the outputs. Returns the status."""
        explainer = Explainer(declaration=self.declaration, program=self.program)
        self.progress.begin("telling what was found")
        self.told = Words(found)
        self.say(*self.told.lines())
        refused = [(f"add {it.label} {it.path}", reply.split(" ")) for it, reply in found.added if reply.startswith("refused ")]
        for line, words in refused:
            self.say(f"{' '.join(words)}: {explainer.refusals.told(line, words[1:])}.")
        self.say(*loss_lines(with_hosts((it for it, _ in found.added), self.declared()), declared_own(self.declared())))
        if found.cycle:
            self.tell_contradiction(found, explainer)
            return 1
        if not found.events:
            self.say("There are no events, and nothing to draw.")
            return 1
        self.progress.begin("writing what was found")
        self.say(*Shortfall([it for it, _ in found.added], self.declared(), found.report, self.declaration, self.asked, self.is_found).lines())
        if not self.outputs or "html" in self.outputs:
            told = held_events(found, self.held, self.chosen[:1])[1]
            self.say(*([f"Note: {told}."] if told else []))
        for name, path in self.outputs.items():
            self.output_to(path, self.output(name, found))
        if not self.outputs:
            self.keep_all(found)
        return 1 if refused or not found.report["messages"] else 0

    def tell_contradiction(self, found: Timeline, explainer: Explainer) -> None:
        """Tells a contradiction and what mends it, and draws its chain, and those by which less does not mend it."""
        problem, steps = read_problem(found.problem), read_cycle(found.cycle or []) or []
        healing = healing_of(problem, self.program, steps)
        told = explainer.told_cycle(found.cycle or [], found.problem, self.inputs_text(found), healing)
        self.say("The declaration is contradicted, so there is no timeline.", *told)
        texts = {"contradiction.svg": chain_svg(steps, problem)}
        texts |= {f"chain-{number}.svg": chain_svg(its, problem, title) for number, (title, its) in enumerate(healing.pictured(), 1)}
        drawn = {name: text for name, text in texts.items() if text}
        for name, text in drawn.items():
            self.keep(name, text)
        self.say(*([f"Wrote {', '.join(f'{self.folder}/{name}' for name in drawn)}."] if drawn else []))

    def keep_all(self, found: Timeline) -> None:
        """Writes the page and the pictures into the folder, those in which something is drawn."""
        texts = {file: self.output(name, found) for name, file in KEPT.items()}
        for name, text in texts.items():
            if text:
                self.keep(name, text)
        self.say(f"Wrote {', '.join(f'{self.folder}/{name}' for name, text in texts.items() if text)}.")

    def output_to(self, path: str, text: str) -> None:
        """Writes an output to where the command line says, be it a link, a device or `-`."""
        if path == "-":
            with self.progress.wiped():
                sys.stdout.write(text)
            return
        if not text:
            self.say(f"Nothing is known that {path} would show: it was not written.")
            return
        with open(path, "w", encoding="utf-8") as it:
            it.write(text)
        self.say(f"Wrote {path}.")

    def inputs_text(self, found: Timeline) -> dict[int, Input]:
        return dict(enumerate(it for it, _ in found.added))

    def output(self, name: str, found: Timeline) -> str:
        """Returns the text of an output."""
        if name in CHARTS:
            return self.chart(name, found)
        if name == "html":
            charts = [self.chart(it, found) for it in CHARTS]
            return page(found, f"Timeline of {', '.join(found.hosts)}", self.held, self.chosen[:1], charts, self.told)
        if name == "svg":
            return picture.svg(found, self.events, self.chosen[:1])
        if name == "list":
            return "".join(f"{it}\n" for it in list_lines(found))
        makers: dict[str, Callable[[Timeline], str]] = {
            "json": tables.as_json, "csv": tables.as_csv, "chrome": neighbours.chrome, "shiviz": neighbours.shiviz,
        }  # fmt: skip
        return makers[name](found)

    def chart(self, name: str, found: Timeline) -> str:
        """Returns the picture of clocks or that of delays, which is drawn once for the page and its own file."""
        if name not in self.charts:
            self.charts[name] = CHARTS[name](found)
        return self.charts[name]

    def keep(self, name: str, text: str) -> None:
        """Writes a file into the folder."""
        write_own(f"{self.folder}/{name}", text)

    def keep_lines(self, name: str, texts: Iterable[list[str]]) -> None:
        """Writes a file of the lines of several texts into the folder."""
        write_parts(f"{self.folder}/{name}", ("\n".join([*text, ""]).encode() for text in texts))

    def say(self, *lines: str) -> None:
        """Says lines on the standard output, or on the standard error where an output goes there: without signs that cannot be seen."""
        out = sys.stderr if "-" in self.outputs.values() else sys.stdout
        try:
            with self.progress.wiped():
                print("\n".join(plain(it) for it in lines), end="\n" if lines else "", file=out, flush=True)
        except BrokenPipeError:
            # (nobody reads on: the outputs are written all the same)
            os.dup2(os.open(os.devnull, os.O_WRONLY), out.fileno())
