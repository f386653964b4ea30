"""Addresses that stand at the wrong one of two hosts, or of two labels: where a session contradicts itself they are tried the other way round."""

import os
from collections.abc import Iterator
from dataclasses import dataclass
from itertools import combinations, islice

from declaring import Declaring
from inputs import Input
from placing import SIDES
from tracesync.errors import TracesyncError
from tracesync.program import LineSession, built_program

# So many exchanges are tried.
TRIED_MOST = 12
WHY = "a session contradicts itself where they stand the other way round"


@dataclass(frozen=True)
class Exchange:
    """Two hosts whose addresses are exchanged, or two labels of one host whose sides are."""

    one: str
    other: str
    is_of_labels: bool = False

    def told(self) -> str:
        """Returns in words what was done."""
        what = "sides of the labels" if self.is_of_labels else "addresses of"
        return f"the {what} {self.one} and {self.other} are exchanged, against what the captures seem to show: {WHY}"

    def of(self, declaring: Declaring) -> Declaring:
        """Returns what is declared with this exchange."""
        if self.is_of_labels:
            found = declaring.placed_by(declaring.ends)
            given = [found.vantage.given[it] for it in (self.one, self.other)]
            for key in SIDES:
                for part in (given[0].values, given[1].values), (given[0].told, given[1].told):
                    exchange_key(*part, key)
        else:
            own = {host: dict(its) for host, its in declaring.ends.own.items()}
            for host, other in (self.one, self.other), (self.other, self.one):
                own[host] = {it: f"{why}. But {WHY}" for it, why in declaring.ends.own[other].items()}
            found = declaring.placed_by(declaring.ends.with_own(own))
        found.exchanged = [*declaring.exchanged, self.told()]
        return found


def exchange_key(one: dict, other: dict, key: str) -> None:
    """Exchanges the values of a key of two tables, of which either may lack it."""
    values = [it.pop(key, None) for it in (one, other)]
    for table, value in zip((other, one), values):
        if value is not None:
            table[key] = value


def exchanges(declaring: Declaring) -> Iterator[Exchange]:
    """Yields what may be exchanged: of two hosts, neither of which passes packets on, and of two labels of one host."""
    own, vantage = declaring.ends.own, declaring.vantage
    hosts = [host for host in declaring.hosts if own.get(host) and host not in vantage.boxes]
    yield from (Exchange(*pair) for pair in combinations(hosts, 2))
    placed = [it for it in vantage.views if set(declaring.placing.values(it.label)) & SIDES]
    yield from (Exchange(one.label, other.label, True) for one, other in combinations(placed, 2) if one.host == other.host)


class Trial:
    """Sessions over the same files by several declarations, which are written into a folder."""

    def __init__(self, inputs: list[Input], program: str, folder: str) -> None:
        self.inputs, self.program, self.path = inputs, program, f"{folder}/tried.toml"

    def messages(self, text: str) -> tuple[int, bool] | None:
        """Returns how many messages a session finds by a declaration, and whether nothing contradicts it; None where it refuses a line."""
        with open(self.path, "w", encoding="utf-8") as it:
            it.write(text)
        count, is_consistent = 0, True
        try:
            with LineSession(self.path, self.program) as session:
                for its in self.inputs:
                    words = session.ask(f"add {its.label} {its.path}")[0].split(" ")
                    if words[0] != "added":
                        return None
                    count, is_consistent = count + int(words[4]) - int(words[6]), words[-1] == "consistent"
        except (OSError, TracesyncError):
            return None
        finally:
            os.remove(self.path)
        return count, is_consistent

    def mended(self, declaring: Declaring) -> tuple[Declaring, str]:
        """Returns what is declared, and a note: with an exchange where a session contradicts itself without it, and with it has as many messages."""
        if not any(exchanges(declaring)):
            return declaring, ""
        found = self.messages(declaring.copy().text())
        if found is None or found[1]:
            return declaring, ""
        for it in islice(exchanges(declaring), TRIED_MOST):
            tried = it.of(declaring)
            known = self.messages(tried.copy().text())
            if known is not None and known[1] and known[0] >= found[0]:
                return tried, it.told()
        return declaring, "a session contradicts what is declared here, also with addresses exchanged: tools/explain tells by what"


def ready_program(named: str | None) -> str | None:
    """Returns the program that is to be asked, the named one or else that which is built; None where it would have to be built first."""
    return named or (built_program() if os.access(built_program(), os.X_OK) else None)
