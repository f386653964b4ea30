#!/usr/bin/env python3
"""Checks that a `cycle` certificate shows a contradiction of a problem.

    tests/check_cycle.py PROBLEM CERTIFICATE

Each step must be a declared bound with its weight, between any two readings of a clock or of clocks that come after
each other, each head must be the tail of the next step, the last one that of the first, and the sum must be negative.
All of it is worked out anew from the text of the problem. Prints the number of steps and the sum; where the
certificate shows nothing, it says why, with status 1.
"""

import argparse
import sys
from collections.abc import Sequence

from support.problems import Problem, units_of
from support.program import read


class NoCycle(Exception):
    """A certificate does not show a contradiction; the text says why."""


def check_cycle(problem: Problem, lines: Sequence[str]) -> tuple[int, int]:
    """The number of steps and the sum, in units, of a certificate with these lines.

    Raises NoCycle where it shows nothing."""
    if [*lines[:2]] != ["certificate 1", "cycle"] or lines[-1] != "end":
        raise NoCycle("no cycle certificate")
    steps = []
    for line in lines[2:-1]:
        step, *words, weight = line.split(" ")
        try:
            bound, told = problem.bound(*words), units_of(weight)
        except (KeyError, TypeError, ValueError):
            raise NoCycle(f"no such bound: {line}") from None
        if step != "step" or told != bound[2]:
            raise NoCycle(f"a wrong weight: {line}")
        steps.append(bound)
    if not steps:
        raise NoCycle("no step")
    for (_, head, _), (tail, _, _) in zip(steps, steps[1:] + steps[:1]):
        if head != tail:
            raise NoCycle(f"the chain does not go on: {head} {tail}")
    total = sum(weight for _, _, weight in steps)
    if total >= 0:
        raise NoCycle(f"the sum is {total} units")
    return len(steps), total


def lines_of(path: str) -> list[str]:
    """The lines of a text that ends with a line feed."""
    *lines, rest = read(path).decode("ascii").split("\n")
    if rest:
        raise NoCycle(f"{path} has no line feed at its end")
    return lines


def check_files(problem: str, certificate: str) -> tuple[int, int]:
    """The same for two files."""
    return check_cycle(Problem(lines_of(problem)), lines_of(certificate))


def main() -> int:
    parser = argparse.ArgumentParser(description=__doc__.split("\n\n")[0])
    parser.add_argument("problem", metavar="PROBLEM", help="the path of the problem text")
    parser.add_argument("certificate", metavar="CERTIFICATE", help="the path of the certificate")
    said = parser.parse_args()
    try:
        steps, total = check_files(said.problem, said.certificate)
    except NoCycle as why:
        print(f"check_cycle: {why}", file=sys.stderr)
        return 1
    print(f"{steps} steps, {-total} units below 0")
    return 0


if __name__ == "__main__":
    sys.exit(main())
