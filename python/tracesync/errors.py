"""What goes wrong, as exceptions; each is a `TracesyncError`."""

from __future__ import annotations

from collections.abc import Sequence

from .certificates import Cycle
from .numbers import short_ns

# What a status says with which the program ends, in place of a reply. Below 0 it is the number of a signal.
STATUSES = {
    2: "the words are no command of this program",
    3: "the declaration is refused",
    4: "the text of the problem is refused",
    6: "the text of the certificate, or of the widening, is refused",
    7: "a file is not there, or a read failed",
    8: "a write failed",
    9: "memory ran out, or so the program says",
    10: "the script has more than 2^30 bytes",
    126: "the program could not be built",
}


class TracesyncError(Exception):
    """Whatever the program, or the want of it, is the cause of."""


class NoProgram(TracesyncError):
    """There is no program to run: TRACESYNC names none, none is on the PATH, and none is built beside the package.

    Or there is one, and it is too old for what is asked.
    """


class Ended(TracesyncError):
    """The program ended before its last reply.

    >>> print(Ended(["read fault"], 7))
    the program ended with status 7: read fault
    """

    def __init__(self, lines: Sequence[str], status: int) -> None:
        super().__init__(lines, status)
        self.lines = list(lines)
        """The lines that it printed for the last question, and the one that says why it ended, if there is one."""
        self.status = status
        """Its status, or a signal's number below 0."""

    def __str__(self) -> str:
        return f"the program ended with status {self.status}{': ' if self.lines else ''}{' '.join(self.lines)}"

    @property
    def words(self) -> str:
        """What the status says."""
        return "a signal ended it" if self.status < 0 else STATUSES.get(self.status, "it has no meaning")


class DeclarationRefused(TracesyncError):
    """The declaration has a fault: the first one, as the program says where it is, and as it is mostly meant."""

    def __init__(self, number: int, section: str, index: int, words: str) -> None:
        super().__init__(number, section, index, words)
        self.number = number
        """The cause, from 1 to 8, as the declaration's table of causes counts them."""
        self.section = section
        """`top`, `hosts`, `labels` or `links`."""
        self.index = index
        """Which of the section, in the byte order of their names, or as links stand; from 1, and 0 of `top`."""
        self.words = words
        """The cause in words, by a look at the declaration."""

    def __str__(self) -> str:
        return f"declaration {self.number} {self.section} {self.index}: {self.words}"


class Refused(TracesyncError):
    """A question or an addition was refused, and all is as it was before it.

    >>> why = Refused("interval web#9 db#1", 28, (), "web has 3 events so far")
    >>> print(why)
    refused 28: web has 3 events so far
    >>> why.number, why.line
    (28, 'interval web#9 db#1')
    """

    def __init__(self, line: str, number: int, places: Sequence[str], words: str) -> None:
        super().__init__(line, number, places, words)
        self.line = line
        """The line that was refused."""
        self.number = number
        """The number, from 20 to 31, as the table of refusals has them."""
        self.places = tuple(places)
        """The words behind the number, such as the place of a fault in a capture."""
        self.words = words
        """The cause in words, with what is mostly behind it, by a look at the line and at the file that it names."""

    def __str__(self) -> str:
        return f"{' '.join(['refused', str(self.number), *self.places])}: {self.words}"


class Contradiction(TracesyncError):
    """What was added contradicts the declaration: there is no execution, and so no answer.

    `problem`, `blame`, `report`, `keep` and `add` go on; what is added later may take the contradiction away.

    >>> from tracesync import Session
    >>> with Session("examples/session/hosts.toml") as session:
    ...     added = session.add("web", "examples/session/web.csv"), session.add("db", "examples/session/db-slow.csv")
    ...     try:
    ...         session.order("db#2", "web#2")
    ...     except Contradiction as why:
    ...         print(float(why.certificate.sum_ns), len(why.certificate.steps))
    -9981.19954 10
    """

    def __init__(self, line: str, certificate: Cycle) -> None:
        super().__init__(line, certificate)
        self.line = line
        """The question that has no answer."""
        self.certificate = certificate
        """The bounds that cannot all hold."""

    def __str__(self) -> str:
        lack = short_ns(-self.certificate.sum)
        return f"{len(self.certificate.steps)} bounds that are declared cannot all hold: they lack {lack} ns"
