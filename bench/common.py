"""What the scripts of this folder share: what they take from tests/support, C++ programs, problems, and the cells of
tables.

A script imports this module before others of tests/."""

import filecmp
import os
import subprocess
import sys
from collections.abc import Mapping, Sequence

sys.path.insert(1, os.path.join(os.path.dirname(os.path.dirname(os.path.abspath(__file__))), "tests"))

from support.program import TOP, program, read, write  # noqa: E402
from support.timing import Run, in_turn, least, peak_of, run  # noqa: E402

__all__ = [
    "BENCH", "MOST_EVENTS", "OUT", "TOP", "Run", "beside", "compiled", "fail", "generated", "in_turn", "kib", "least",
    "milliseconds", "output", "peak_of", "program", "quotient", "read", "run", "same_answer", "table_head", "table_row",
    "want_status", "write",
]  # fmt: skip

BENCH, OUT = f"{TOP}/bench", f"{TOP}/bench/out"
# The most events that a problem or a session may have.
MOST_EVENTS = 2**24


def fail(why: str) -> None:
    """Ends the script, since what was measured is not what should be."""
    sys.exit(f"bench: {why}")


def compiled(name: str) -> str:
    """Makes out/NAME of NAME.cpp; its path."""
    os.makedirs(OUT, exist_ok=True)
    target = f"{OUT}/{name}"
    compiler = os.environ.get("CXX", "g++")
    subprocess.run([compiler, "-std=c++17", "-O2", "-Wall", "-Wextra", "-o", target, f"{BENCH}/{name}.cpp"], check=True)
    return target


def generated(count: int, form: str = "", folder: str = OUT, alone: int = 10) -> str:
    """Writes a problem of generate.py in one of its forms; its path without `.problem`."""
    os.makedirs(folder, exist_ok=True)
    words = [*([f"--{form}"] if form else []), "--alone", str(alone), str(count), folder]
    subprocess.run([sys.executable, f"{BENCH}/generate.py", *words], check=True)
    return f"{folder}/{count}" + (f"-{form}" if form not in ("", "problem") else "")


def output(name: str) -> str:
    """The file with what a command of this name printed."""
    return f"{OUT}/{name}.stdout"


def beside(count: int, commands: Mapping[str, Sequence[str]], script: str = os.devnull) -> dict[str, Run]:
    """Runs commands by their names in turn, so many times each: what each takes at least.

    What each printed stands in its output."""
    os.makedirs(OUT, exist_ok=True)

    def once(name: str) -> Run:
        return run(commands[name], script, output(name), f"{OUT}/{name}.stderr")

    found = in_turn(count, *(lambda it=it: once(it) for it in commands))
    return dict(zip(commands, found))


def same_answer(runs: Mapping[str, Run], one: str, other: str, what: str) -> None:
    """Ends the script where two commands printed something else, or ended with other statuses."""
    if not filecmp.cmp(output(one), output(other), shallow=False):
        fail(f"the answers of {one} and {other} differ on {what}")
    if runs[one].status != runs[other].status:
        fail(f"the statuses of {one} and {other} differ on {what}")


def want_status(runs: Mapping[str, Run], what: str, status: int = 0) -> None:
    """Ends the script where a command ended with another status."""
    for name, it in runs.items():
        if it.status != status:
            fail(f"{name} ended with status {it.status} on {what}")


def milliseconds(seconds: float | None) -> str:
    """A time as a cell: ms with one digit behind the point; - where it is missing."""
    return "-" if seconds is None else f"{seconds * 1000:.1f}"


def quotient(one: float | None, other: float | None) -> str:
    """How many times the second the first is, as a cell; - where one is missing."""
    if one is None or not other:
        return "-"
    return f"{one / other:.3f}" if one < other else f"{one / other:.1f}"


def kib(peak: int | None) -> str:
    """A peak of memory as a cell; - where it could not be told."""
    return "-" if peak is None else str(peak)


def table_row(cells: Sequence[object]) -> None:
    print(f"| {' | '.join(map(str, cells))} |", flush=True)


def table_head(cells: Sequence[str]) -> None:
    """The head of a Markdown table of numbers."""
    table_row(cells)
    print("|" + "---:|" * len(cells), flush=True)
