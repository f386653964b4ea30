"""What a package says of its proof: the commit, the kit, the gate's last line, and the sums of the sources and of the program."""

import hashlib
import os
import re
import subprocess
from dataclasses import dataclass

from commit import Commit
from texts import plain

# A source of a crate: what the compiler and the proofs read. Edits that must be refused are none.
SOURCE = re.compile(r"crates/[^/]+/(?:src|specs|proofs)/.+\.(?:rt|antt)")
LINE_MOST = 400
BUILT = "crates/tracesync/out/tracesync of the clone: it is newer than each source of its crates"
NAMED = "one that was named: from which sources it was built was not looked at"

TEXT = """What is known of the proof of this package. It was written when the package was made, and the kit is the one that was
then on the PATH.

commit   {commit}
version  {version}
kit      {kit}
program  {program}
gate     {gate}

The sums below are SHA-256, of the program and of the sources. In a clone at this commit this compares the sources, and
in the folder that the package is in, which is /usr for a .deb, the program:

    grep '^[0-9a-f]* *crates' PROOF.txt | sha256sum -c --quiet
    grep '^[0-9a-f]* *lib' share/doc/tracesync/PROOF.txt | sha256sum -c

"""


@dataclass(frozen=True)
class Proof:
    """What was looked at for a package: the kit, which program it is, and the gate's last line."""

    kit: str
    program: str
    gate: str


def sum_of(data: bytes) -> str:
    return hashlib.sha256(data).hexdigest()


def read(path: str) -> bytes:
    with open(path, "rb") as it:
        return it.read()


def kit_line() -> str:
    """Returns the line by which the kit names itself."""
    try:
        ran = subprocess.run(["rt", "version"], stdin=subprocess.DEVNULL, capture_output=True, check=True)
    except (OSError, subprocess.CalledProcessError):
        return "no kit was on the PATH"
    return plain(os.fsdecode(ran.stdout).strip())[:LINE_MOST]


def gate_line(path: str | None) -> str:
    """Returns the last line of a gate's log, and the log's sum. Raises ValueError where it has no line, or OSError."""
    if path is None:
        return "no log of a gate was named"
    data = read(path)
    lines = data.decode(errors="replace").strip().splitlines()
    if not lines:
        raise ValueError(f"{path} has no line: it is no log of a gate")
    return f"{plain(lines[-1].strip())[:LINE_MOST]} (the last line of the log {sum_of(data)} that was named)"


def newer_source(top: str, files: list[str], program: str) -> str | None:
    """Returns a source that is newer than the program, or None if there is none. Crates of tests are no part of the program."""
    limit = os.stat(program).st_mtime_ns
    sources = [it for it in files if SOURCE.fullmatch(it) and not it.split("/")[1].endswith("_tests")]
    return next((it for it in ["crates.txt", *sources] if os.stat(f"{top}/{it}").st_mtime_ns > limit), None)


def proof_text(top: str, files: list[str], commit: Commit, proof: Proof, program: bytes, place: str) -> str:
    """Returns the text, with the sum of each source among these files and of the program, which the package has at a place."""
    head = TEXT.format(commit=commit.name, version=commit.version, kit=proof.kit, program=proof.program, gate=proof.gate)
    sources = ["crates.txt", *(it for it in files if SOURCE.fullmatch(it))]
    sums = [f"{sum_of(read(f'{top}/{it}'))}  {it}\n" for it in sources]
    return "".join([head, f"{sum_of(program)}  {place}\n", *sums])
