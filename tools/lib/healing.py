"""What mends all that is contradicted by itself: the likeliest first, each with the chain of bounds that decides it."""

from collections.abc import Iterator
from contextlib import suppress
from dataclasses import dataclass, field
from itertools import groupby

from contradiction import Contradiction, exact_ns
from inputs import Input
from own_program import PROGRAM
from tracesync.certificates import Step, read_cycle, read_steps
from tracesync.errors import TracesyncError
from tracesync.problems import Blame, Problem, read_blames, read_problem
from tracesync.program import run_over
from words import count_text

# A rate that is off by so many parts per billion more is the likeliest fault; by more than so many more no clock drifts.
LIKELY_MOST, DRIFT_MOST = 100_000, 20_000_000

# The ranks of such a widening: of one clock, which was set then, and of all clocks.
SET, LAST = -1, 5

# How many widenings are told, and of how many the chains.
BLAMED_MOST, CHAINS_MOST = 6, 3

# How many clocks are told that may have been set, and how many places are tried of each.
CLOCKS_MOST, TRIED_MOST = 4, 8

Cut = tuple[str, str]


def is_of_one(it: Blame) -> bool:
    """Returns whether it is of one clock, or of one link."""
    return it.clock is not None or it.link is not None


def is_drift(it: Blame) -> bool:
    """Returns whether it is no widening of rates, or one by which a clock may drift."""
    return it.what != "rates" or (it.least or 0) <= DRIFT_MOST


def rank(it: Blame) -> tuple[int, int]:
    """Returns where a widening stands, the likeliest first: rates as of a clock that was set, then a small one of rates, stamps, least delays and
    gaps, and greatest delays, then a greater one of rates."""
    least = it.least or 0
    if it.what == "rates":
        far = LAST if it.clock is None else SET
        return 0 if least <= LIKELY_MOST else 4 if is_drift(it) else far, least
    return {"stamps": 1, "least": 2, "gaps": 2, "delays": 3}[it.what], least


def widening_text(it: Blame, less: int = 0, has_own: bool = False) -> str:
    """Returns a widening in words, or one that is so much less; `has_own` is whether events have bounds of their own, by their labels."""
    number = (it.least or 0) - less
    if it.what == "gaps":
        return f"each `gap` less by {number} ns"
    if it.what in ("least", "delays"):
        which = f" from {it.link[0]} to {it.link[1]}" if it.link else ""
        return f"each `least`{which} less by {number} ns" if it.what == "least" else f"each `most`{which} greater by {number} ns"
    names = "`short` and `long`" if it.what == "rates" else "`early` and `late`"
    whose = "each clock" if it.clock is None else f"{it.clock}'s clock"
    whose += f" and {'its labels' if it.clock else 'label'}" if has_own and it.what == "stamps" else ""
    return f"{names} of {whose} greater by {number} {it.unit}"


def set_text(it: Blame) -> str:
    """Returns what is behind a widening of rates by which no clock drifts, and of one clock what to declare in its place."""
    cure = "" if it.clock is None else " (so write `clocks` at its host)"
    return "" if is_drift(it) else f", as of a clock that was set{cure}"


@dataclass
class Healing:
    """What mends all that is contradicted, each alone: what `blame` says of it, and the chains that decide the likeliest ones.

    The cuts are the clocks that may have been set, each with two events between which it was; None where it was not tried."""

    found: list[Blame]
    chain: list[Step] = field(default_factory=list)
    """The contradiction that is told above."""
    cuts: dict[str, Cut] | None = None
    has_own: bool = False
    chains: dict[Blame, list[Step]] = field(default_factory=dict)

    def likely(self) -> list[Blame]:
        """Returns the widenings that mend all, the likeliest first."""
        alone = {(it.what, it.least) for it in self.found if is_of_one(it)}
        # (where one clock, or one link, needs no more than all do, these are not told; a clock that was set is told by its cut)
        own = [it for it in self.found if it.least is not None and (is_of_one(it) or (it.what, it.least) not in alone)]
        if self.cuts is None:
            return sorted(own, key=rank)
        return sorted((it for it in own if is_drift(it) or it.clock not in self.cuts), key=lambda it: rank(it) if is_drift(it) else (LAST, it.least or 0))

    def lines(self) -> list[str]:
        """Returns all of this in words; nothing where nothing is contradicted."""
        likely, never = self.likely(), sum(it.least is None for it in self.found)
        lines = self.cut_lines()
        if not likely:
            return [*lines, "No bounds of one kind, however wide, mend all that is contradicted (by `blame`)."] if self.found else []
        lines.append("With any one of these alone nothing contradicts any more, and with 1 less something does (by `blame`); the likeliest first:")
        numbers: dict[frozenset[tuple[str, ...]], int] = {}
        for it in likely[:BLAMED_MOST]:
            lines += self.told(it, numbers)
        left = len(likely[BLAMED_MOST:])
        rest = [f"{count_text(left, 'less likely one is', 'less likely ones are')} left out"] if left else []
        rest += [f"{count_text(never, 'other')} would not do alone, however wide"] if never else []
        return [*lines, f"{'; '.join(rest)}."] if rest else lines

    def cut_lines(self) -> list[str]:
        """Returns in words which clocks may have been set."""
        if not self.cuts:
            return []
        told = [f"  {clock}'s clock, between {one} and {other}" for clock, (one, other) in self.cuts.items()]
        return ["With a clock that was set, for which `clocks` stand at its host, nothing contradicts any more either (by `solve`, of each clock one place):", *told]

    def told(self, it: Blame, numbers: dict[frozenset[tuple[str, ...]], int]) -> list[str]:
        """Returns a widening in words, with its chain where that was not told; the numbers are those of the chains told so far."""
        line = f"  {widening_text(it, has_own=self.has_own)}{set_text(it) if self.cuts is None else ''}"
        steps = self.chains.get(it)
        if not steps:
            return [line]
        own = bounds_of(steps)
        if own == bounds_of(self.chain):
            return [f"{line}: with 1 less the chain above is still too narrow, by {lack_text(steps)}"]
        if own in numbers:
            return [f"{line}: with 1 less chain {numbers[own]} is still too narrow, by {lack_text(steps)}"]
        numbers[own] = len(numbers) + 1
        return [f"{line}: with 1 less this chain, chain {numbers[own]}, is still too narrow", *(f"  {row}" for row in Contradiction(steps).sums())]

    def pictured(self) -> list[tuple[str, list[Step]]]:
        """Returns the chains that are told, but for that above, each with a title for its picture."""
        found, seen = [], {bounds_of(self.chain)}
        for it in self.likely():
            steps = self.chains.get(it)
            if steps and bounds_of(steps) not in seen:
                seen.add(bounds_of(steps))
                found.append((f"With {widening_text(it, 1, self.has_own)} no real times obey all of this: it is still too narrow by {lack_text(steps)}", steps))
        return found


def bounds_of(steps: list[Step]) -> frozenset[tuple[str, ...]]:
    """Returns which bounds a chain has, wherever it begins and however wide they are."""
    return frozenset((it.kind, *it.names) for it in steps)


def lack_text(steps: list[Step]) -> str:
    """Returns by how much a chain is too narrow."""
    return f"{exact_ns(-sum(it.weight for it in steps))} ns"


def healing_of(problem: Problem, program: str | None, chain: list[Step] | None = None) -> Healing:
    """Returns what heals a problem, as the program says; nothing where it does not. The chain is its contradiction, if one is told already."""
    healing = Healing([], chain or [], has_own=bool(problem.bounds))
    # (what it said before it ended is told)
    with suppress(OSError, ValueError, TracesyncError):
        healing.found = problem.blame(program) if program else []
        if healing.found:
            healing.cuts = cuts_of(problem, healing.found, chain or solved(problem.text, program), program)
            healing.chains = {it: read_steps(problem.widen(*it.words, program=program).lines) for it in healing.likely()[:CHAINS_MOST]}
    return healing


def solved(text: str, program: str | None) -> list[Step]:
    """Returns a contradiction of a problem's text, none where it has an execution. Raises ValueError where the program says neither."""
    lines = run_over("solve", text, program)
    if lines[:2] not in (["certificate 1", "cycle"], ["certificate 1", "run"]):
        raise ValueError(f"{program} replied {lines[:2]} to `solve`")
    return read_cycle(lines) or []


def cuts_of(problem: Problem, found: list[Blame], chain: list[Step], program: str | None) -> dict[str, Cut]:
    """Returns the clocks of a chain that may have been set, those that no rate mends which a quartz may have: with a place of each by which
    nothing contradicts any more."""
    rates = {it.clock: it.least for it in found if it.what == "rates"}
    clocks = dict.fromkeys(it.names[0] for it in chain if it.kind.startswith("span"))
    own = [it for it in clocks if (least := rates.get(it)) is None or least > LIKELY_MOST]
    cuts = ((it, cut_of(problem, it, chain, program)) for it in own[:CLOCKS_MOST])
    return {clock: cut for clock, cut in cuts if cut}


def cut_of(problem: Problem, clock: str, chain: list[Step], program: str | None) -> Cut | None:
    """Returns two events of a clock, one behind the other, between which it may have been set; None where no such place was found."""
    names = in_order(problem, clock)
    place = {name: at for at, name in enumerate(names)}
    left = set(range(1, len(names)))
    for _ in range(TRIED_MOST):
        # (a chain that stays on one side of a cut holds there, too)
        left &= {at for first, last in passages(chain, place) for at in range(first + 1, last + 1)}
        if not left:
            return None
        at = sorted(left)[len(left) // 2]
        chain = solved(cut_text(problem, clock, set(names[at:])), program)
        if not chain:
            return names[at - 1], names[at]
        left.discard(at)
    return None


def in_order(problem: Problem, clock: str) -> list[str]:
    """Returns the events of a clock as they stand in its trace, or by their stamps where it has several traces."""
    names = [name for name, it in problem.events.items() if it.clock == clock]
    labels = {name.partition("#")[0] for name in names}
    return names if len(labels) == 1 else sorted(names, key=lambda name: problem.events[name].stamp)


def passages(steps: list[Step], place: dict[str, int]) -> Iterator[tuple[int, int]]:
    """Yields the first and the last place of each passage of a chain, from one message to the next one, over events that have places."""
    start = next((at for at, it in enumerate(steps) if it.kind.startswith("delay")), 0)
    for _, group in groupby([*steps[start:], *steps[:start]], lambda it: it.kind.startswith("delay")):
        own = [place[it.names[0]] for it in group if it.kind in ("late", "early") and it.names[0] in place]
        if own:
            yield min(own), max(own)


def cut_text(problem: Problem, clock: str, later: set[str]) -> str:
    """Returns a problem's text where these events are those of a clock that comes after the one that they were of."""
    name = next(it for it in (f"{clock[:26]}-{number}" for number in range(2, len(problem.clocks) + 3)) if it not in problem.clocks)
    lines, follows = [], [f"follow {clock} {name} 0"]
    for line in problem.lines[1:]:
        words = line.split(" ")
        if words[0] == "follow":
            follows.append(" ".join(["follow", name if words[1] == clock else words[1], *words[2:]]))
        elif words[:2] == ["clock", clock]:
            lines += [line, " ".join(["clock", name, *words[2:]])]
        else:
            lines.append(" ".join(["event", words[1], name, *words[3:]]) if words[0] == "event" and words[1] in later else line)
    at, head = len(problem.clocks) + 1, "problem 3" if problem.bounds else "problem 2"
    return "".join(f"{line}\n" for line in [head, *lines[:at], *follows, *lines[at:]])


def told_blames(lines: list[str], problem_lines: list[str] | None = None, program: str | None = PROGRAM) -> list[str]:
    """Returns in words what a session's `blame` replies, with the chains where the problem is known."""
    healing = Healing(read_blames(lines))
    if problem_lines and healing.found:
        known = healing_of(read_problem(problem_lines), program)
        healing = known if known.found == healing.found else healing
    return healing.lines() or ["nothing contradicts what was declared, so nothing is to blame"]


def told_cycle(lines: list[str], problem_lines: list[str] | None = None, inputs: dict[int, Input] | None = None, program: str | None = PROGRAM,
               healing: Healing | None = None) -> list[str]:  # fmt: skip
    """Returns a contradiction in words, with what mends all that is contradicted where the problem is known, and that is asked unless it is here."""
    problem, steps = read_problem(problem_lines) if problem_lines else None, read_cycle(lines) or []
    if healing is None and problem:
        healing = healing_of(problem, program, steps)
    return Contradiction(steps, problem, inputs).lines() + (healing.lines() if healing else [])
