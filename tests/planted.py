#!/usr/bin/env python3
"""Tries the bugs of bench/planted, one wrong line each: half a minute and more for each.

    tests/planted.py [CRATE[/BUG]..]

With no crates it tries those of all; with CRATE/BUG that one alone. It works in a copy of the repository's last
commit, and says of each crate how many bugs the proofs refuse. Each bug that they let through is then built, and the
tests are run, those of its crate and of each crate of tests (its name ends in _tests) that stands on it: it prints
whether a test fails. The status is 1 where an edit could not be tried, or where a bug was let through and no test
fails.
"""

import argparse
import os
import shutil
import subprocess
import sys
import tempfile

from support.program import TOP


def output(words: list[str], folder: str) -> tuple[str, int]:
    """What a command prints on both outputs, and its status."""
    done = subprocess.run(words, cwd=folder, stdout=subprocess.PIPE, stderr=subprocess.STDOUT, text=True)
    return done.stdout, done.returncode


def edited(crate: str, edit: str) -> tuple[str, str]:
    """The file of an edit, and its text with the edit's lines in place of those that stand there."""
    path, old, text = "", "", ""
    with open(edit) as lines:
        for line in lines.read().splitlines():
            word, _, rest = line.partition(": ")
            if word == "file":
                path = f"{crate}/{rest}"
                with open(path) as it:
                    text = it.read()
            elif word == "old":
                old = rest
            elif word == "new":
                assert text.count(old) == 1, f"{edit}: {old}"
                text = text.replace(old, rest)
    return path, text


def holds_tests(crate: str) -> bool:
    """Whether a crate's code has a test."""
    for at, _, names in os.walk(f"{crate}/src"):
        for name in names:
            with open(f"{at}/{name}") as it:
                if "#[test]" in it.read():
                    return True
    return False


def crates_with_tests_of(copy: str, name: str) -> list[str]:
    """The folders of the crates that test this one: itself, and crates of tests that stand on it."""
    found = [name]
    with open(f"{copy}/crates.txt") as lines:
        for line in lines:
            other, _, uses = line.partition("#")[0].partition(":")
            if other.strip().endswith("_tests") and name in uses.split():
                found.append(other.strip())
    return [crate for crate in (f"{copy}/crates/{it}" for it in found) if holds_tests(crate)]


def told_by_tests(folder: str) -> str | None:
    """Whether a test of a crate fails, in words, or None where none does."""
    told, status = output(["rt", "try", "--test"], folder)
    if not status:
        return None
    return "a test fails" if "FAILED" in told or "failed" in told else f"the tests were not run: {told[-200:]!r}"


def fails_a_test(copy: str, name: str, edit: str) -> str:
    """What the tests of a crate say with an edit, in words."""
    path, text = edited(f"{copy}/crates/{name}", edit)
    with open(path) as it:
        before = it.read()
    with open(path, "w") as it:
        it.write(text)
    told: str | None = "there is no test"
    for folder in crates_with_tests_of(copy, name):
        told = told_by_tests(folder)
        if told:
            break
    with open(path, "w") as it:
        it.write(before)
    return told or "no test fails"


def asked(words: list[str]) -> dict[str, list[str] | None]:
    """The crates that are asked for, in their order, each with its bugs that are asked for, or None for all of them."""
    found: dict[str, list[str] | None] = {}
    for word in words:
        name, _, bug = word.partition("/")
        some = found.setdefault(name, [])
        if bug and some is not None:
            some.append(f"{bug}.edit")
        else:
            found[name] = None
    return found


def try_crate(copy: str, name: str, bugs: list[str] | None) -> bool:
    """Tries bugs of a crate, and tells of them; whether the proofs or a test refuse each."""
    crate, planted = f"{copy}/crates/{name}", f"{copy}/bench/planted/{name}"
    shutil.rmtree(f"{crate}/must-fail", ignore_errors=True)
    os.mkdir(f"{crate}/must-fail")
    edits = bugs or sorted(os.listdir(planted))
    for edit in edits:
        shutil.copyfile(f"{planted}/{edit}", f"{crate}/must-fail/{edit}")
    lines = output(["rt", "must-fail", name], copy)[0].splitlines()
    refused, found = sum(": refused, as it must be" in line for line in lines), 0
    print(f"{name}: {refused} of {len(edits)} refused", flush=True)
    for line in lines:
        if "BAD EDIT" in line or "NOT TRIED" in line:
            print(f"  {line}", flush=True)
        if "NOT REFUSED" in line:
            edit = line.split("/", 1)[1].split(".edit")[0]
            told = fails_a_test(copy, name, f"{planted}/{edit}.edit")
            found += told == "a test fails"
            print(f"  {edit}: let through, {told}", flush=True)
    return refused + found == len(edits)


def main() -> int:
    parser = argparse.ArgumentParser(description=__doc__.split("\n\n")[0])
    which = "the crates or bugs; all of them, if none is named"
    parser.add_argument("bugs", metavar="CRATE[/BUG]", nargs="*", help=which)
    folders = sorted(it for it in os.listdir(f"{TOP}/bench/planted") if it != "README.md")
    with tempfile.TemporaryDirectory() as folder:
        copy = f"{folder}/repository"
        subprocess.run(["git", "clone", "-q", TOP, copy], check=True)
        each = [try_crate(copy, name, bugs) for name, bugs in asked(parser.parse_args().bugs or folders).items()]
    return 0 if all(each) else 1


if __name__ == "__main__":
    sys.exit(main())
