"""What `prove` replied, as two chains of bounds: each leg says how much later one event is than another, and why."""

from collections.abc import Iterable, Iterator
from dataclasses import dataclass, field
from itertools import groupby

from tracesync.certificates import Step
from tracesync.numbers import UNITS, read_ns, read_units, short_ns

# A blank that parts groups of three digits, and one at which no line is broken.
GROUP, BLANK = "\u202f", "\u00a0"
PARTS = {"upper": "greatest", "lower": "least"}


@dataclass(frozen=True)
class Leg:
    """From one event of a chain to the next one: how much later that is in units, at most or at least, below 0 where it is
    earlier, and the bounds that say so."""

    start: str
    end: str
    units: int
    why: str


@dataclass
class Chain:
    """An end of an interval in units, None where there is no limit: the legs whose sum it is, or the clocks from which
    nothing leads on."""

    end: int | None = None
    legs: list[Leg] = field(default_factory=list)
    inside: list[str] = field(default_factory=list)


@dataclass
class Proof:
    """Why an event is so much later than another one: at most, and at least."""

    least: Chain = field(default_factory=Chain)
    greatest: Chain = field(default_factory=Chain)


def read_proof(lines: list[str]) -> Proof:
    """Returns the proof that a reply to `prove` is. Raises ValueError where it is none."""
    words = [line.split(" ") for line in lines]
    if lines[:1] != ["certificate 1"] or len(words) < 2 or words[1][0] != "ends":
        raise ValueError(f"the session replied {' / '.join(lines[:2])} to a question for a proof")
    found, first = Proof(), words[1][1]
    for part, own in parts_of(words[2:]):
        chain: Chain = getattr(found, PARTS[part[0]])
        chain.end = read_ns(part[1])
        chain.inside = [it[1] for it in own if it[0] == "inside"]
        steps = [Step(it[1], it[2:-1], read_units(it[-1])) for it in own if it[0] == "step"]
        chain.legs = list(legs_of(steps, first, part[0] == "upper"))
    return found


def parts_of(rows: Iterable[list[str]]) -> Iterator[tuple[list[str], list[list[str]]]]:
    """Yields the words of the first line of each part of such a certificate, and those of its other lines."""
    head: list[str] = []
    own: list[list[str]] = []
    for row in rows:
        if row[0] in PARTS or row == ["end"]:
            if head:
                yield head, own
            head, own = row, []
        else:
            own.append(row)


def legs_of(steps: list[Step], first: str, is_most: bool) -> Iterator[Leg]:
    """Yields the legs of a chain from its first event on; a certificate begins with the step that leads to its last."""
    at = first
    for is_delay, group in groupby(reversed(steps), lambda it: it.kind.startswith("delay")):
        for own in [[it] for it in group] if is_delay else [list(group)]:
            names = own[-1].names
            # (what is of one clock begins and ends with how far an event is from its stamp)
            end = names[0] if not is_delay or names[1] == at else names[1]
            weight = sum(it.weight for it in own)
            yield Leg(at, end, weight if is_most else -weight, told_delay(own[0]) if is_delay else told_clocks(own))
            at = end


def told_delay(step: Step) -> str:
    return f"the message took {'at most' if step.kind == 'delay-most' else 'at least'} {spaced_ns(abs(step.weight))}"


def told_follow(step: Step) -> str:
    """Returns which reading of a later clock comes after which of an earlier one."""
    earlier, last, later, first = step.names
    return f"{later}'s clock showed {first} after {earlier}'s clock showed {last}"


def told_clocks(steps: list[Step]) -> str:
    """Returns in words what the steps between two events without a message between them say."""
    told = []
    for kind, most in (("span-most", "at most"), ("span-least", "at least")):
        for clock in dict.fromkeys(it.names[0] for it in steps if it.kind == kind):
            own = [it for it in steps if it.kind == kind and it.names[0] == clock]
            shown = sum(int(it.names[2]) - int(it.names[1]) for it in own)
            lasted = abs(sum(it.weight for it in own))
            told.append(f"{clock}'s clock showed {spaced_ns(shown * UNITS)}, which lasted {most} {spaced_ns(lasted)}")
    told += [f"{told_follow(it)}, at least {spaced_ns(-it.weight)} later" for it in steps if it.kind == "follow"]
    told = told or ["both have one stamp"]
    errors = sum(it.weight for it in steps if it.kind in ("late", "early"))
    if errors:
        told.append(f"the two stamps may be off by {spaced_ns(errors)} in all")
    return "; ".join(told)


def spaced_ns(units: int) -> str:
    """Returns units as ns with all their digits, in groups of three before the point."""
    whole, point, rest = short_ns(units).partition(".")
    return f"{int(whole):,}".replace(",", GROUP) + point + rest + BLANK + "ns"
