"""`tracesync trial N` beside trial.cpp, and how the cost of an addition grows: see runner.py."""

import os
import subprocess
import tempfile
from collections.abc import Iterator, Sequence
from dataclasses import dataclass

from common import beside, compiled, fail, kib, output, peak_of, program, read, same_answer, want_status
from workload import HOSTS, by_host, declaration, exchanged

# A trial comes in so many batches of so many messages.
BATCHES, MESSAGES = 20, 100
SHOWN = (2, 5, 10, 15, 20)


@dataclass(frozen=True)
class Options:
    """How many runs each figure is the least of, and a second program that stands beside."""

    runs: int
    other: str | None

    def programs(self) -> dict[str, str]:
        return {"tracesync": program(), **({"other": self.other} if self.other else {})}


class Draws:
    """The generator of a trial: the linear congruential one of D. E. Knuth, MMIX, of which the upper 31 bits are
    taken."""

    def __init__(self, seed: int) -> None:
        self.state = seed

    def below(self, limit: int) -> int:
        self.state = (self.state * 6364136223846793005 + 1442695040888963407) % 2**64
        return (self.state >> 33) % limit


class Trial:
    """`trial N` beside trial.cpp, whose additions compute all rows anew or repair them. All print the same text."""

    def __init__(self, options: Options) -> None:
        self.options, self.reference = options, compiled("trial")
        columns = [*options.programs(), "C++, rows anew", "C++, rows repaired"]
        self.head = ["N", *(cell for it in columns for cell in (f"{it}, s", "KiB"))]

    def rows(self, number: int) -> Iterator[Sequence[object]]:
        ways = {name: [it, "trial", str(number)] for name, it in self.options.programs().items()}
        ways |= {way: [self.reference, way, str(number)] for way in ("anew", "kept")}
        found = beside(self.options.runs, ways)
        want_status(found, f"trial {number}")
        for name in ways:
            same_answer(found, "tracesync", name, f"trial {number}")
        cells = [cell for name in ways for cell in (f"{found[name].processor:.2f}", kib(peak_of(ways[name])))]
        yield [number, *cells]


class Additions:
    """The steps of an addition in both ways of trial.cpp, and how long one takes in a session: the time of a script as
    far as a batch, less that of one as far as the batch before, by the additions of the batch."""

    def __init__(self, options: Options) -> None:
        self.options, self.reference = options, compiled("trial")
        ways = [f"steps of an addition, rows {it}" for it in ("anew", "repaired")]
        self.head = ["events", *ways, *(f"an addition of {it}, ms" for it in options.programs())]

    def counts(self, way: str, number: int) -> list[dict[str, int]]:
        """What trial.cpp counts of each batch."""
        words = [self.reference, way, str(number)]
        said = subprocess.run(words, stdout=subprocess.DEVNULL, stderr=subprocess.PIPE, text=True, check=True).stderr
        words_of = [line.split() for line in said.splitlines()]
        return [dict(zip(it[::2], map(int, it[1::2]))) for it in words_of]

    def seconds(self, name: str, scripts: Sequence[Sequence[str]], folder: str) -> float:
        """The processor time of a session over the lines of some batches."""
        with open(f"{folder}/script", "w", encoding="ascii") as script:
            script.writelines(f"{line}\n" for lines in scripts for line in lines)
        words = [self.options.programs()[name], "session", f"{folder}/hosts.toml"]
        found = beside(self.options.runs, {name: words}, f"{folder}/script")
        printed = read(output(name))
        if b"refused" in printed or b"inconsistent" in printed:
            fail(f"a session went wrong: {printed[:300]!r}")
        return found[name].processor

    def rows(self, number: int) -> Iterator[Sequence[object]]:
        anew, kept = (self.counts(way, number) for way in ("anew", "kept"))
        with tempfile.TemporaryDirectory() as folder:
            scripts = write_workload(number, folder)
            for shown in SHOWN:
                one, other = anew[shown - 1], kept[shown - 1]
                cells: list[object] = [one["events"], *(it["steps"] // it["additions"] for it in (one, other))]
                for name in self.options.programs():
                    taken = [self.seconds(name, scripts[:it], folder) for it in (shown, shown - 1)]
                    cells.append(f"{1000 * (taken[0] - taken[1]) / other['additions']:.2f}")
                yield cells


def write_workload(number: int, folder: str) -> list[list[str]]:
    """Writes the files of a trial; the lines that add each batch."""
    with open(f"{folder}/hosts.toml", "w", encoding="ascii") as file:
        file.write(declaration())
    happened = exchanged(2 * BATCHES * MESSAGES, Draws(number).below, 1)
    scripts = []
    for turn in range(BATCHES):
        lines = []
        for host, rows in enumerate(by_host(happened[2 * MESSAGES * turn : 2 * MESSAGES * (turn + 1)])):
            if rows:
                path = os.path.join(folder, f"h{host}.{turn + 1}")
                with open(path, "w", encoding="ascii") as file:
                    file.writelines(f"{row}\n" for row in rows)
                lines.append(f"add h{host} {path}")
        scripts.append(lines)
    scripts[0] += [f"keep h{host}#1" for host in range(HOSTS)]
    return scripts
