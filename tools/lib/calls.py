"""The public calls that a crate hands out, from crates/*/src: each with its `///`, its first line and its clauses."""

import re
from collections.abc import Iterator
from dataclasses import dataclass
from pathlib import Path

CLAUSE = re.compile(r"((?:\s*//[^\n]*\n)*)\s*(requires|ensures\*?)(?: (\w+))? \{")
TAKEN = re.compile(r"^pub use (?:crate::)?(\w+)::(?:(\w+)|\{([^}]*)\});", re.M)
OPEN = re.compile(r"^pub mod (\w+);", re.M)
BLOCK = re.compile(r"^(pub trait |impl(?:<[^{]*?>)? )([^{]*?) \{$", re.M)
# The module that is the root of a library.
ROOT = "lib"
CALL = re.compile(r"^( *)(pub )?fn (\w+)", re.M)


@dataclass
class Clause:
    """`requires` or `ensures`, the clause's name, where it has one, its words, and the lines of comment above it."""

    above: list[str]
    kind: str
    name: str
    words: str

    def line(self) -> str:
        return " ".join(it for it in (self.kind, self.name, "{", self.words, "}") if it)


@dataclass
class Call:
    """A call: its name as others write it, its first line without `pub`, what stands above it as `///`, and its clauses."""

    name: str
    signature: str
    told: list[str]
    clauses: list[Clause]


@dataclass
class SourceFile:
    """A file of code, with the calls of it that are handed out."""

    name: str
    calls: list[Call]


@dataclass
class HandedOut:
    """What the root of a crate hands out: whole modules, and single items, each with its module."""

    modules: set[str]
    items: set[tuple[str, str]]

    def has_type(self, module: str, name: str) -> bool:
        """Whether a type is handed out, whose block may stand in another module than the type."""
        return module in self.modules or any(item == name for _, item in self.items)

    def has_call(self, module: str, name: str) -> bool:
        return module in self.modules or (module, name) in self.items


def handed_out(root: str) -> HandedOut:
    """Returns what a lib.rt hands out."""
    found = {(module, word.strip().split(" as ")[0]) for module, one, many in TAKEN.findall(root) for word in [one, *many.split(",")]}
    return HandedOut({ROOT, *OPEN.findall(root)}, found)


def closing(text: str, place: int) -> int:
    """Returns the place behind the brace that closes the one at `place`."""
    depth = 0
    for at in range(place, len(text)):
        depth += {"{": 1, "}": -1}.get(text[at], 0)
        if depth == 0:
            return at + 1
    return len(text)


def end_of_signature(text: str, place: int) -> int:
    """Returns where a call's clauses, its body or its semicolon begins."""
    depth = 0
    for at in range(place, len(text)):
        depth += {"(": 1, "[": 1, ")": -1, "]": -1}.get(text[at], 0)
        if depth == 0 and (text[at] in "{;" or text[at] == "\n" and CLAUSE.match(text, at)):
            return at
    return len(text)


def clauses_at(text: str, place: int) -> list[Clause]:
    """Returns the clauses that begin at a place."""
    found = []
    while said := CLAUSE.match(text, place):
        place = closing(text, said.end() - 1)
        above = [line.strip() for line in said[1].split("\n") if line.strip()]
        found.append(Clause(above, said[2], said[3] or "", " ".join(text[said.end() : place - 1].split())))
    return found


def told_above(text: str, place: int) -> list[str]:
    """Returns the lines of `///` above a place, without these marks; attributes between are passed over."""
    found: list[str] = []
    for line in reversed(text[:place].split("\n")[:-1]):
        word = line.strip()
        if word.startswith("///"):
            found.insert(0, word[3:].strip())
        elif not word.startswith("#["):
            break
    return found


def signature_of(text: str, place: int, end: int) -> str:
    """Returns what stands before a call's clauses, on one line."""
    return " ".join(text[place:end].split()).replace("( ", "(").replace(", )", ")")


def owner_at(blocks: list[tuple[int, int, str, str]], place: int) -> tuple[str, str]:
    """Returns the kind and the type of the block around a place, or nothing."""
    return next(((kind, name) for begin, end, kind, name in blocks if begin < place < end), ("", ""))


def blocks_of(text: str) -> list[tuple[int, int, str, str]]:
    """Returns each block of a type: where it begins and ends, `trait`, `impl` or the trait that it is for, and the type's name."""
    found = []
    for said in BLOCK.finditer(text):
        trait, _, name = said[2].rpartition(" for ")
        kind = "trait" if said[1].startswith("pub trait") else re.sub(r"<.*", "", trait) or "impl"
        found.append((said.start(), closing(text, said.end() - 1), kind, re.sub(r"\W.*", "", name.strip())))
    return found


def is_handed_out(kind: str, is_public: bool, clauses: list[Clause], told: list[str]) -> bool:
    """Whether a call of a public type is one of its own: of a trait's, those that say more than the trait does."""
    if kind == "Model":
        return False
    return is_public or kind == "trait" or kind not in ("", "impl") and bool(clauses or told)


def calls_of(text: str, module: str, out: HandedOut) -> Iterator[Call]:
    """Gives the calls of a file that are handed out."""
    blocks = blocks_of(text)
    for said in CALL.finditer(text):
        kind, owner = owner_at(blocks, said.start())
        end = end_of_signature(text, said.start())
        clauses, told = clauses_at(text, end), told_above(text, said.start())
        is_there = out.has_type(module, owner) if owner else out.has_call(module, said[3])
        if not is_there or not is_handed_out(kind, bool(said[2]), clauses, told):
            continue
        path = [owner] if owner else [] if module == ROOT or (module, said[3]) in out.items else [module]
        begin = said.start() + len(said[1]) + len(said[2] or "")
        yield Call("::".join([*path, said[3]]), signature_of(text, begin, end), told, clauses)


def source_files(crate: Path) -> list[SourceFile]:
    """Returns the files of a crate with a call that it hands out, by their names."""
    root = crate / "src" / f"{ROOT}.rt"
    if not root.is_file():
        return []
    out, found = handed_out(root.read_text(encoding="utf-8")), []
    for path in sorted((crate / "src").glob("*.rt")):
        text = path.read_text(encoding="utf-8")
        module = path.stem
        if calls := list(calls_of(text, module, out)):
            found.append(SourceFile(path.name, calls))
    return found
