"""The pages docs/DEFINED.md and docs/CALLS.md, from definitions and calls."""

import re
from collections.abc import Callable, Iterator
from pathlib import Path

from calls import Call, source_files
from crate_map import CrateMap
from definitions import Definition, spec_files
from wrapping import wrapped, wrapped_code

MADE = "This page is made by `tools/contracts` from {}, and is not changed by hand."
DEFINED_HEAD = [
    "# Definitions, with the comments above them",
    "This page is for whoever reads a contract, and wants to know what a name in it means.",
    MADE.format("`crates/*/specs/*.antt`") + " The definition itself stands in the file that is linked, and decides what is meant.",
    "[How to read a definition](DEFINITIONS.md) has the notation, examples, and an order in which to read this page.",
]
CALLS_HEAD = [
    "# Calls, with their clauses",
    "This page is for whoever calls a crate, or checks what is proved of it.",
    MADE.format("`crates/*/src/*.rt`") + " The clauses are proved. What the text above them says beside them is not.",
    "[Claims](CLAIMS.md) has what the clauses come to, and [How to read a definition](DEFINITIONS.md) the notation.",
]

Crate = Callable[[Path], Iterator[str]]

# Crates of tests tell nothing here.
TESTS = "_tests"


def code(name: str) -> str:
    return f"`{name}`"


def escaped(comment: str) -> str:
    """Returns a comment so that Markdown shows it as it stands: what stands between backticks stays."""
    parts = comment.split("`")
    for place in range(0, len(parts), 2):
        parts[place] = re.sub(r"([<\[\\]|\*(?=\S)|(?<=\S)\*|\b_|_\b)", r"\\\1", parts[place])
    return "`".join(parts)


def anchor(title: str) -> str:
    return re.sub(r"[^\w -]", "", title.lower()).replace(" ", "-")


def subject_of(crate: Path) -> str:
    """Returns the first line of what the root of a crate says of itself."""
    roots = [crate / "src" / name for name in ("lib.rt", "main.rt")]
    text = next(root.read_text(encoding="utf-8") for root in roots if root.is_file())
    said = re.match(r"(?://! ?.+\n)+", text)
    return " ".join(line.removeprefix("//!").strip() for line in said[0].splitlines()) if said else ""


def link(crate: Path, folder: str, name: str) -> str:
    return f"[`{folder}/{name}`](../crates/{crate.name}/{folder}/{name})"


def definition_lines(it: Definition, indent: str = "") -> Iterator[str]:
    """Gives the item of a definition, and one below it for each field with a comment."""
    names = ", ".join(map(code, it.names))
    yield from wrapped(f"{names}: {escaped(it.comment)}" if it.comment else names, f"{indent}- ", f"{indent}  ")
    for inner in it.fields:
        yield from definition_lines(inner, f"{indent}  ")


def defined(crate: Path) -> Iterator[str]:
    """Gives the lines of a crate's definitions, file by file."""
    for spec in spec_files(crate):
        yield ""
        yield from wrapped(f"{link(crate, 'specs', spec.name)}: {escaped(spec.subject)}" if spec.subject else link(crate, "specs", spec.name))
        yield ""
        for it in spec.definitions:
            yield from definition_lines(it)


def paragraphs(told: list[str]) -> Iterator[str]:
    """Gives what stands above a call, wrapped: an empty line and a list's item begin anew."""
    held: list[str] = []
    for line in [*told, ""]:
        if held and (not line or line.startswith("- ")):
            yield from wrapped(" ".join(held), "", "  " if held[0].startswith("- ") else "")
            held = []
        if line:
            held.append(line)
        elif told:
            yield ""


def call_lines(it: Call) -> Iterator[str]:
    """Gives the part of a call."""
    yield from ["", f"#### `{it.name}`", ""]
    yield from paragraphs(it.told)
    yield "```text"
    yield from wrapped_code(it.signature)
    for clause in it.clauses:
        yield from clause.above
        yield from wrapped_code(clause.line())
    yield "```"


def called(crate: Path) -> Iterator[str]:
    """Gives the lines of a crate's calls, file by file."""
    for source in source_files(crate):
        yield from ["", link(crate, "src", source.name)]
        for it in source.calls:
            yield from call_lines(it)


def page(head: list[str], found: dict[str, list[str]], top: Path, told: Crate) -> str:
    """Returns a page: its head, links to its layers, and each crate that tells something."""
    lines, titles = [], []
    for layer, names in found.items():
        parts = [(name, list(told(top / "crates" / name))) for name in names if not name.endswith(TESTS)]
        if not any(part for _, part in parts):
            continue
        titles.append(layer[:1].upper() + layer[1:])
        lines += ["", f"## {titles[-1]}"]
        for name, part in parts:
            if part:
                lines += ["", f"### `{name}`", "", *wrapped(escaped(subject_of(top / "crates" / name))), *part]
    begin = [line for it in head for line in [*wrapped(it), ""]]
    links = wrapped("By layers of crates: " + ", ".join(f"[{it}](#{anchor(it)})" for it in titles) + ".")
    return "\n".join([*begin, *links, *lines, ""])


def pages(top: Path) -> dict[Path, str]:
    """Returns each page with its text."""
    found = CrateMap((top / "crates.txt").read_text(encoding="utf-8")).layers
    return {
        top / "docs" / "DEFINED.md": page(DEFINED_HEAD, found, top, defined),
        top / "docs" / "CALLS.md": page(CALLS_HEAD, found, top, called),
    }
