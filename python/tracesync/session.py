"""A session: captures and logs are added, and questions about their events are answered exactly."""

from __future__ import annotations

import contextlib
import json
import os
import tempfile
from collections.abc import Iterator
from functools import partial
from typing import Any, Optional, Union

from .certificates import Cycle, Proof, read_cycle
from .declaration import read_declaration, refused
from .errors import Contradiction, DeclarationRefused, Ended, Refused
from .numbers import Interval, read_interval
from .problems import Blame, Problem, read_blames, read_problem
from .program import LineSession
from .refusals import CAUSES, Refusals
from .replies import Added, Order, Report, read_added
from .timelines import Merge, Times, read_merge, read_times

# What a text of a declaration is called where it is told.
TEXT = "the declaration"
# With this number a line is refused that is no command.
NO_COMMAND = 20


@contextlib.contextmanager
def written(declaration: Union[str, os.PathLike[str]]) -> Iterator[tuple[str, str]]:
    """Gives the path of a declaration, and what it is called: of a text, of a file that is there for a while."""
    if not isinstance(declaration, str) or "\n" not in declaration:
        path = os.fsdecode(declaration)
        yield path, path
        return
    with tempfile.TemporaryDirectory(prefix="tracesync-") as room:
        path = os.path.join(room, "hosts.toml")
        with open(path, "w", encoding="utf-8", newline="\n") as it:
            it.write(declaration)
        yield path, TEXT


def tables_of(path: str) -> dict[str, Any]:
    """Returns the tables of a declaration, none where it cannot be read as TOML here. Raises OSError."""
    try:
        return read_declaration(path)
    except (ValueError, RecursionError):
        return {}


def told_refusal(path: str, name: str, lines: list[str]) -> DeclarationRefused:
    """Returns the refusal of a declaration that the program's last line tells."""
    _, number, section, index = lines[-1].split(" ")
    try:
        words = refused(path, int(number), section, int(index), name)
    except (ValueError, LookupError, AttributeError, TypeError):
        words = name
    return DeclarationRefused(int(number), section, int(index), words)


class Session:
    """A session over a declaration: a path, or the text, which is a `str` with a line feed in it.

    >>> with Session("examples/session/hosts.toml") as session:
    ...     added = session.add("web", "examples/session/web.csv")
    ...     added = session.add("db", "examples/session/db.csv")
    ...     session.interval("db#2", "web#2")
    Interval(least=17992599930000, greatest=162005400110000)
    >>> added
    Added(events=3, messages=2, withdrawn=0, pending=0, consistent=True, passed=0)

    The n-th row or packet of a label is its event `LABEL#n`. All times are whole attoseconds (1e-18 s, or 1e-9 ns), and
    the properties with `_ns` give them as fractions of ns. Nothing is rounded.

    Behind a session is a process of the program. It ends with the session: at the end of `with`, by `close`, where
    nothing refers to the session any more, and with Python. `program` is the path of that program; if it is not said,
    the environment variable TRACESYNC names it, or else it is `tracesync` on the PATH, or what is built in the clone
    that this package is in.

    Raises OSError where the declaration cannot be read, `DeclarationRefused` where it has a fault, and `NoProgram`.
    Each method raises `Refused` where the program refuses what is asked, `Ended` where it ends in place of a reply, and
    ValueError where the session has ended. A reply that is interrupted, as by a key, ends the session.
    """

    def __init__(self, declaration: Union[str, os.PathLike[str]], program: Optional[str] = None) -> None:
        self._folder = os.getcwd()
        with written(declaration) as (path, self._name):
            self._refusals = Refusals(tables_of(path))
            self._lines = LineSession(path, program, apart=True)
            try:
                # (its reply comes once the whole declaration was read)
                self.report()
            except Ended as why:
                if why.lines and why.lines[-1].startswith("declaration "):
                    raise told_refusal(path, self._name, why.lines) from None
                raise

    def add(self, label: str, path: Union[str, os.PathLike[str]]) -> Added:
        """Adds the file at a path to a label: a log, or the next bytes of a capture.

        What contradicts the declaration is taken all the same; `consistent` is False then. Raises `Refused` with 21 to
        27 or 31, and with 20 where the path has a blank or a letter that is not ASCII.

        >>> with Session("examples/session/hosts.toml") as session:
        ...     session.add("web", "examples/session/hosts.toml")
        Traceback (most recent call last):
        tracesync.errors.Refused: refused 26 1 1: record 1: it has not four fields STAMP,KIND,KEY,TEXT. ...
        """
        name = os.fsdecode(path)
        if os.getcwd() != self._folder:
            name = os.path.abspath(name)
        found = read_added(self._ask("add", label, name)[0])
        self._refusals.take(label, name, found.events)
        return found

    def interval(self, p: str, q: str) -> Interval:
        """Returns how much later event q was than event p, at least and at most, in attoseconds of real time.

        Raises `Contradiction`, and `Refused` with 28.

        >>> with Session("examples/captures/hosts.toml") as session:
        ...     added = [session.add(it, f"examples/captures/{it}.pcap") for it in ("left", "right")]
        ...     found = session.interval("left#3", "right#3")
        >>> found.least_ns, float(found.greatest_ns)
        (Fraction(1, 1), 3601.429946794)
        """
        _, least, greatest = self._answer("interval", p, q)[0].split(" ")
        return read_interval(least, greatest)

    def order(self, p: str, q: str) -> Order:
        """Returns whether event p was before or after event q, or at the same time, in each execution, or `Order.OPEN`.

        Raises `Contradiction`, and `Refused` with 28.

        >>> with Session("examples/session/hosts.toml") as session:
        ...     added = [session.add(it, f"examples/session/{it}.csv") for it in ("web", "db")]
        ...     session.order("db#2", "web#2")
        <Order.BEFORE: 'before'>
        """
        return Order(self._answer("order", p, q)[0].split(" ")[1])

    def time(self, p: str) -> Interval:
        """Returns when event p was by the clock of the source, at least and at most, in attoseconds.

        Raises `Contradiction`, and `Refused` with 28, or 29 where no source is declared or nothing is on its clock.

        >>> with Session("examples/timeline/hosts.toml") as session:
        ...     added = [session.add(it, f"examples/timeline/{it}.csv") for it in ("gate", "app", "db")]
        ...     session.time("db#1")
        Interval(least=1201886999800000, greatest=1344112000000000)
        """
        _, least, greatest = self._answer("time", p)[0].split(" ")
        return read_interval(least, greatest)

    def times(self, since: Optional[str] = None) -> Times:
        """Returns when each event was by the clock of the source, as `time` does, by label and number.

        With `since`, it is the real time from that event to each one, as `interval` has it. All is one question; a
        program whose sessions do not know `times` is asked event by event. Raises what `time` raises, or `interval`.

        >>> with Session("examples/timeline/hosts.toml") as session:
        ...     added = [session.add(it, f"examples/timeline/{it}.csv") for it in ("gate", "app", "db")]
        ...     found, behind = session.times(), session.times("gate#1")
        >>> len(found), found["db#1"]
        (13, Interval(least=1201886999800000, greatest=1344112000000000))
        >>> behind["gate#1"]
        Interval(least=0, greatest=0)
        """
        try:
            lines = self._answer("times", *([] if since is None else [since]))
        except Refused as why:
            if why.number != NO_COMMAND:
                raise
            asked = self.time if since is None else partial(self.interval, since)
            return Times((name, asked(name)) for name in self.events())
        return read_times(lines)

    def events(self) -> list[str]:
        """Returns the names of all events, by label and number.

        >>> with Session("examples/session/hosts.toml") as session:
        ...     added = session.add("web", "examples/session/web.csv")
        ...     session.events()
        ['web#1', 'web#2', 'web#3']
        """
        counts = self._refusals.counts
        return [f"{label}#{n}" for label in sorted(counts) for n in range(1, counts[label] + 1)]

    def merge(self) -> Merge:
        """Returns all events in the order of one execution, the earliest, with their times there in attoseconds.

        Of events of one time the label comes first whose name does in the order of bytes. Raises `Contradiction`.

        >>> with Session("examples/timeline/hosts.toml") as session:
        ...     added = [session.add(it, f"examples/timeline/{it}.csv") for it in ("gate", "app", "db")]
        ...     found = session.merge()
        >>> found[4].name, found[4].time_ns
        ('db#1', Fraction(1009934999, 5000))
        """
        return read_merge(self._answer("merge"))

    def prove(self, p: str, q: str) -> Proof:
        """Returns evidence for the interval from event p to event q, which `verify` checks against the problem's text.

        Raises `Contradiction`, and `Refused` with 28.

        >>> with Session("examples/session/hosts.toml") as session:
        ...     added = [session.add(it, f"examples/session/{it}.csv") for it in ("web", "db")]
        ...     found = session.prove("db#2", "web#2")
        >>> found.interval
        Interval(least=17992599930000, greatest=162005400110000)
        """
        return Proof(self._answer("prove", p, q))

    def keep(self, p: str) -> int:
        """Keeps event p: from now on questions about it are answered at once. Returns its slot, from 1 to 8.

        Each kept event makes later additions take more time and memory. Raises `Refused` with 28 or 30.

        >>> with Session("examples/session/hosts.toml") as session:
        ...     added = session.add("web", "examples/session/web.csv")
        ...     session.keep("web#2"), session.keep("web#1"), session.keep("web#2")
        (1, 2, 1)
        """
        return int(self._ask("keep", p)[0].split(" ")[1])

    def problem(self) -> Problem:
        """Returns all that is declared and known: clocks, events and messages, with the text that `verify` reads.

        >>> with Session("examples/session/hosts.toml") as session:
        ...     added = session.add("web", "examples/session/web.csv")
        ...     found = session.problem()
        >>> found.events["web#2"]
        Stamped(clock='web', stamp=5300000)
        """
        return read_problem(self._ask("problem"))

    def blame(self) -> list[Blame]:
        """Returns by how much each kind of bounds must be wider at least to heal by itself; [] if nothing contradicts.

        They are all greatest delays, all least delays, all stamps, all rates, and all gaps where there are some; then
        stamps and rates of each clock; then greatest and least delays of each link between two clocks, in the order of
        the clocks. Widenings are whole ns, and of rates parts per billion. Each is a search of its own over the whole
        problem. A program whose sessions do not know `blame` is given the problem, in another process.

        Raises `NoProgram` where the program is too old for that, too, and `Ended` where memory runs out.

        >>> with Session("examples/session/hosts.toml") as session:
        ...     added = session.add("web", "examples/session/web.csv")
        ...     added = session.add("db", "examples/session/db-slow.csv")
        ...     found = session.blame()
        >>> found[2]
        Blame(what='stamps', clock=None, least=2496, unit='ns', link=None)
        >>> print(found[0].least)
        None
        """
        try:
            return read_blames(self._ask("blame"))
        except Refused as why:
            if why.number != NO_COMMAND:
                raise
            return self.problem().blame(self._lines.program)

    def thin(self, *events: str) -> str:
        """Returns the text of a problem that says the same of these events as all that is declared and known does.

        It has few of the messages and events where others imply the rest, and has an execution exactly where the whole
        has one. Of each two events in it the program's `ends` says what it says of the whole. There may be no events, or
        one of them twice. Raises `Refused` with 28, and `Ended` where memory runs out.

        >>> with Session("examples/session/hosts.toml") as session:
        ...     added = [session.add(it, f"examples/session/{it}.csv") for it in ("web", "db")]
        ...     found = read_problem(session.thin("db#2").splitlines())
        >>> sorted(found.events)
        ['db#1', 'db#2', 'db#3', 'web#1', 'web#3']
        """
        return "".join(f"{line}\n" for line in self._ask("thin", *events))

    def report(self) -> Report:
        """Returns what was matched and what was not, as a dictionary.

        >>> with Session("examples/session/hosts.toml") as session:
        ...     added = [session.add(it, f"examples/session/{it}.csv") for it in ("web", "db")]
        ...     found = session.report()
        >>> found["messages"], found["unmatched"], found["nokey"]["local"]
        (2, 0, 2)
        """
        found: Report = json.loads(self._ask("report")[0])
        return found

    def close(self) -> None:
        """Ends the session and its process."""
        self._lines.close()

    def _ask(self, *words: str) -> list[str]:
        """Returns the reply to these words. Raises Refused."""
        line = " ".join(words)
        reply = self._lines.ask(line)
        told = reply[0].split(" ")
        if told[0] == "refused":
            raise Refused(line, int(told[1]), told[2:], self._cause(line, told[1:]))
        return reply

    def _cause(self, line: str, told: list[str]) -> str:
        """Returns why a line was refused, in words."""
        try:
            return self._refusals.told(line, told)
        except (OSError, ValueError, LookupError, AttributeError, TypeError):
            # (the file has changed since, or the declaration has tables of another kind)
            return CAUSES.get(int(told[0]), f"refusal {told[0]}")

    def _answer(self, *words: str) -> list[str]:
        """Returns the reply to a question that a contradiction leaves without an answer. Raises Contradiction."""
        reply = self._ask(*words)
        if read_cycle(reply) is not None:
            raise Contradiction(" ".join(words), Cycle(reply))
        return reply

    def __enter__(self) -> Session:
        return self

    def __exit__(self, *_: object) -> None:
        self.close()

    def __repr__(self) -> str:
        count = sum(self._refusals.counts.values())
        return f"<Session over {self._name}: {count} events{'' if self._lines.is_open else ', ended'}>"
