"""Tells what a session prints, reply by reply."""

import json
from dataclasses import dataclass
from typing import Any

from contradiction import stamp_text, told_keys
from ends import exchanged
from healing import Healing, told_blames, told_cycle
from inputs import Input, open_input, with_hosts
from losses import told_losses
from own_program import PROGRAM, RecordedSession
from placing import misplaced
from texts import plain
from tracesync.certificates import read_cycle
from tracesync.declaration import read_declaration, refused
from tracesync.errors import Ended
from tracesync.numbers import UNITS, read_interval
from tracesync.problems import read_problem
from tracesync.refusals import Refusals
from tracesync.replies import read_added
from words import REASONS, alone_text, count_text, least_text, span_text, time_text, told_again


@dataclass
class Told:
    """A reply with the line that was asked and the first one that came, and its words as lines, in which each sign can be seen."""

    line: str
    reply: str
    words: list[str]
    is_refusal: bool = False


class Explainer:
    """Tells replies; what is known of the declaration and of the files that were added makes it say more."""

    def __init__(self, declaration: str | None = None, program: str | None = PROGRAM) -> None:
        self.path, self.program = declaration, program
        self.inputs: dict[int, Input] = {}
        self.done: list[str] = []
        self.problem: list[str] | None = None
        try:
            self.declared = read_declaration(declaration) if declaration else {}
        except (OSError, ValueError):
            self.declared = {}
        self.refusals = Refusals(self.declared)

    def reply(self, line: str, reply: list[str]) -> Told:
        """Returns a reply told; the line that was asked may be empty where it is not known."""
        words, asked = reply[0].split(" "), line.split(" ")
        self.done.append(line)
        try:
            found = self.words(words, reply, asked, line)
            if words[0] == "added" and len(asked) == 3:
                found += self.take(asked, words)
        except (ValueError, LookupError, AttributeError, TypeError):
            # (a text of another program, or of an older one, may begin like a reply)
            found = ["no reply of a session"]
        return Told(line, reply[0], [plain(it) for it in found], words[0] == "refused")

    def take(self, asked: list[str], words: list[str]) -> list[str]:
        """Remembers what was added, and returns what is to be said of packets that its file counts as dropped."""
        label, path = asked[1:]
        self.problem = None
        self.refusals.take(label, path, int(words[2]))
        try:
            found = self.inputs[len(self.inputs)] = open_input(Input(label, label, path))
        except (OSError, ValueError):
            return []
        return told_losses(label, found.content.dropped) if found.kind == "capture" else []

    def words(self, words: list[str], reply: list[str], asked: list[str], line: str) -> list[str]:
        """Returns the words for a reply, as lines."""
        names = [*asked[1:], "P", "Q"][:2] if len(asked) > 1 else ["P", "Q"]
        tellers = {
            "refused": lambda: self.refusals.told(line, words[1:]),
            "added": lambda: self.added(words, asked),
            "interval": lambda: self.interval(*read_interval(*words[1:3]), *names),
            "order": lambda: self.order(words[1], *names),
            "time": lambda: self.time(*read_interval(*words[1:3]), names[0]),
            "times": lambda: f"the least and the greatest time of {count_text(int(words[1]), 'event')}, in ns: {'since ' + asked[1] if len(asked) > 1 else 'by the clock of the source'}",
            "kept": lambda: f"questions about {names[0]} are answered at once from now on (the {words[1]}. of eight that can be kept)",
            "merge": lambda: f"{count_text(int(words[1]), 'event')} in the order of one execution, the earliest: for two of them ask `order`",
            "problem": lambda: self.told_problem(reply, thinned=asked[0] == "thin"),
        }
        if words[0] in tellers:
            return [tellers[words[0]]()]
        if words[0] == "blame":
            return told_blames(reply, self.known_problem() if len(reply) > 1 else None, self.program)
        if reply[0].startswith("{"):
            report = json.loads(reply[0])
            return [self.report(report), *told_again(report, self.declared, self.path or "the declaration")]
        if read_cycle(reply) is not None:
            return self.told_cycle(reply, self.known_problem(), self.inputs)
        if reply[0] == "certificate 1":
            return ["evidence for both ends of the interval, which `verify` checks against the reply to `problem`"]
        return self.told_end(reply) or ["no reply of a session"]

    def told_problem(self, reply: list[str], thinned: bool = False) -> str:
        if not thinned:
            self.problem = reply
        problem = read_problem(reply)
        counts = [(len(problem.clocks), "clock"), (len(problem.follows), "follow"), (len(problem.events), "event"), (len(problem.messages), "message")]
        what = "what implies all the rest of it" if thinned else "all that is declared and known"
        return f"{what}: {', '.join(count_text(it, name) for it, name in counts if it or name != 'follow')}"

    def time(self, least: int | None, greatest: int | None, name: str) -> str:
        ends = [stamp_text(it // UNITS) if it is not None else "no limit" for it in (least, greatest)]
        wide = f", {time_text(greatest - least, 1)} apart" if least is not None and greatest is not None else ""
        return f"by the clock of the source {name} was between {ends[0]} and {ends[1]}{wide} (ns are cut off)"

    def added(self, words: list[str], asked: list[str]) -> str:
        it = read_added(" ".join(words))
        label = asked[1] if len(asked) == 3 else "the label"
        parts = [f"{label} has {it.events} events more", f"{it.messages} messages were found"]
        if it.withdrawn:
            parts.append(f"{it.withdrawn} messages are none any more, for their keys came again")
        if it.pending:
            parts.append(f"the last {it.pending} bytes are no whole packet and wait for their rest")
        if it.passed:
            parts.append(f"{it.passed} packets under {label} are no events")
        if it.consistent:
            return f"{', '.join(parts)}; what was declared can be true of all this"
        return f"{', '.join(parts)}; what was declared CANNOT be true of all this: a question will show why"

    def interval(self, least: int | None, greatest: int | None, one: str, other: str) -> str:
        if least is not None and least >= 0:
            told = f"{least_text(least)} or more" if greatest is None else span_text(least, greatest)
            return f"{other} came {told} after {one}"
        if greatest is not None and greatest <= 0:
            told = f"{least_text(-greatest)} or more" if least is None else span_text(-greatest, -least)
            return f"{other} came {told} before {one}"
        early = "any time" if least is None else f"{time_text(-least, 1)} at most"
        late = "any time" if greatest is None else f"{time_text(greatest, 1)} at most"
        return f"{other} came {early} before or {late} after {one}: which was first is open"

    def order(self, order: str, one: str, other: str) -> str:
        told = {"before": f"{one} came before {other}, whatever happened", "after": f"{one} came after {other}, whatever happened",
                "same": f"{one} and {other} were at one time", "open": f"which of {one} and {other} came first is open: what is declared allows both"}  # fmt: skip
        return told.get(order, order)

    def report(self, report: dict[str, Any]) -> str:
        parts = [f"{count_text(report['messages'], 'message')} among {count_text(report['events'], 'event')}"]
        parts += [f"{count} {REASONS.get(name, name)}" for name, count in report["nokey"].items() if count]
        parts += [f"{report['unmatched']} without another end"] if report["unmatched"] else []
        parts += [f"{count_text(len(report['ambiguous']), 'key')} with too many events"] if report["ambiguous"] else []
        parts += [alone_text(report["alone"])] if report.get("alone") else []
        return "; ".join(parts)

    def known_problem(self) -> list[str] | None:
        """Returns the problem that a contradiction is of: the last reply to `problem`, or what a session says of the same additions."""
        if self.problem is None and self.path and self.program and self.inputs:
            try:
                with RecordedSession(self.path, self.program) as session:
                    for line in self.done:
                        if line.startswith("add "):
                            session.ask(line)
                    self.problem = session.ask("problem")
            except (OSError, Ended):
                return None
        return self.problem

    def told_cycle(self, lines: list[str], problem: list[str] | None, inputs: dict[int, Input], healing: Healing | None = None) -> list[str]:
        """Returns a contradiction in words, as lines."""
        captures = list(with_hosts((it for it in inputs.values() if it.kind == "capture"), self.declared))
        keys = told_keys(lines, inputs, self.path) if self.path and self.declared and not self.declared.get("tcp_options") else []
        return told_cycle(lines, problem, inputs, self.program, healing) + keys + exchanged(captures, self.declared) + misplaced(captures, self.declared)

    def told_end(self, lines: list[str]) -> list[str]:
        """Returns what the last line of a run says that is no reply."""
        words = lines[-1].split(" ") if lines else []
        if words[:1] == ["declaration"] and len(words) == 4:
            if self.path is None:
                return [f"the declaration is refused: cause {words[1]} at {words[2]} {words[3]}; with --declaration DECL this says more"]
            return [refused(self.path, int(words[1]), words[2], int(words[3]))]
        if words == ["read", "fault"]:
            return ["the declaration is not there, or it or the script could not be read"]
        return ["the script has more than 2^30 bytes"] if words == ["script", "limit"] else []
