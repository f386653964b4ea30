"""The public definitions of crates/*/specs/*.antt, each with the comment above it."""

import re
from collections.abc import Iterator
from dataclasses import dataclass, field
from pathlib import Path

DEFINITION = re.compile(r"^( *)(?:(?:abbrev|unfoldable) )?pub (record |data )?(?!use |mod |record |data )([^\s:({]+)")
COMMENT = re.compile(r"^ *--(?! ----)(.*)$")


@dataclass
class Definition:
    """One name, or several under one comment, and the fields that have comments of their own."""

    names: list[str]
    comment: str
    fields: list["Definition"] = field(default_factory=list)


@dataclass
class SpecFile:
    """A file of definitions: its name, what its first line says, and its definitions in their order."""

    name: str
    subject: str
    definitions: list[Definition]


def comment_above(lines: list[str], place: int) -> str | None:
    """Returns the comment that ends above a line, none of it where a blank line does, and None where code stands there."""
    found: list[str] = []
    while place > 0 and lines[place - 1].startswith("infix"):
        place -= 1
    while place > 0 and (said := COMMENT.match(lines[place - 1])):
        found.insert(0, said[1].strip())
        place -= 1
    if found:
        return " ".join(found)
    return "" if place == 0 or not lines[place - 1].strip() or lines[place - 1].lstrip().startswith("--") else None


def is_field(indent: int, owner: tuple[int, str] | None) -> bool:
    """Whether a `pub` at this indent stands inside the record that was begun last."""
    return owner is not None and owner[1] == "record" and indent > owner[0]


def told(lines: list[str]) -> Iterator[tuple[bool, str, str | None]]:
    """Gives each `pub` name of a file: whether it is a field, the name, and the comment above it."""
    owner: tuple[int, str] | None = None
    for place, line in enumerate(lines):
        owner = None if line.startswith("module ") else owner
        if not (said := DEFINITION.match(line)):
            continue
        indent, kind, name = len(said[1]), (said[2] or "").strip(), said[3]
        inside = not kind and is_field(indent, owner)
        if not inside:
            owner = (indent, kind)
        yield inside, name, comment_above(lines, place)


def definitions_of(text: str) -> list[Definition]:
    """Returns the definitions of a file; one that follows another without a blank line shares its comment."""
    found: list[Definition] = []
    for inside, name, comment in told(text.split("\n")):
        into = found[-1].fields if inside else found
        if inside and not comment and not (comment is None and into):
            continue
        if comment is None and into and name not in into[-1].names:
            into[-1].names.append(name)
        else:
            into.append(Definition([name], comment or ""))
    return found


def subject_of(text: str) -> str:
    """Returns the comment with which a file begins."""
    lines = text.split("\n")
    end = next((place for place, line in enumerate(lines) if not COMMENT.match(line)), len(lines))
    return comment_above(lines, end) or ""


def spec_files(crate: Path) -> list[SpecFile]:
    """Returns the files of definitions of a crate that define something public, by their names."""
    found = []
    for path in sorted((crate / "specs").glob("*.antt")):
        text = path.read_text(encoding="utf-8")
        if definitions := definitions_of(text):
            found.append(SpecFile(path.name, subject_of(text), definitions))
    return found
