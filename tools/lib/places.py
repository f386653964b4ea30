"""Places of the code that no contract ties down: want of memory made, a counter opened, an arc or a file read."""

import os
from collections import Counter
from collections.abc import Iterable, Mapping, Sequence
from typing import NamedTuple

from rust_text import (
    Group, Tree, Unreadable, end_of_angles, is_group, is_operand_next, is_word, text_of, trees_in, trees_of, words_in,
)

MEMORY, COUNTERS, ARCS, FILES = "want of memory", "counters of steps", "arcs read without a step", "reads of files"
KINDS = (MEMORY, COUNTERS, ARCS, FILES)
# Types whose values are want of memory, variants that say it, and types that count.
FAILURES, VARIANTS, COUNTING = {"AllocError", "AllocFailed"}, {"Memory", "OutOfMemory"}, {"Steps", "Blank"}
# The crate of the graph, and the lists of it whose reading takes no step there.
GRAPH_CRATE, GRAPH_LISTS, GRAPH_READS = "sync_graph", {"arcs", "leaving", "arriving"}, {"get", "entry"}
ARC_METHODS = {"arc", "parent_arc"}
# What reads a file of the host.
FILE_READS = {"read_at", "read_file"}
HEADS = {"if", "while", "for", "match"}
TYPES = {"struct", "enum", "union"}
SCOPES = {"impl", "trait", "mod", "macro_rules"}
ITEMS = TYPES | SCOPES | {"use", "type", "const", "static", "fn"}
OUTSIDE = "(outside of functions)"


class Place(NamedTuple):
    """Where something is made, opened or read; the text has the heads of the blocks around, and the statement."""

    kind: str
    file: str
    function: str
    text: str


def end_of_pattern(trees: Sequence[Tree], at: int) -> int:
    """Returns the place of the `=` behind the pattern and the type of a `let`, or of the end where it has no value."""
    depth = 0
    for place in range(at + 1, len(trees)):
        tree = trees[place]
        depth += {"<": 1, "<<": 2, ">": -1}.get(tree, 0) if isinstance(tree, str) else 0
        if tree == ";" or tree == "=" and depth <= 0:
            return place
    return len(trees)


def place_of(trees: Sequence[Tree], wanted: str, at: int, end: int | None = None) -> int:
    """Returns the first place of a sign or word from a place on, or the end."""
    end = len(trees) if end is None else end
    return next((place for place in range(at, end) if trees[place] == wanted), end)


def group_behind(trees: Sequence[Tree], at: int) -> int | None:
    """Returns the place of the braces behind the head of an `if`, a loop or a `match`, or None where there are none."""
    place = place_of(trees, "in", at) if trees[at] == "for" else at + 1
    while place < len(trees):
        if trees[place] == "let":
            place = end_of_pattern(trees, place)
        elif is_group(trees[place]):
            return place
        place += 1
    return None


def path_at(trees: Sequence[Tree], at: int) -> tuple[list[str], int]:
    """Returns the names of the path that begins at a place, without arguments of types, and the place behind it."""
    behind = end_of_angles(trees, at) if trees[at] == "<" else at + 1
    names, at = list(words_in(trees[at:behind])), behind
    while at + 1 < len(trees) and trees[at] == "::":
        after = trees[at + 1]
        if after == "<":
            at = end_of_angles(trees, at + 1)
        elif is_word(after):
            names, at = [*names, after], at + 2
        else:
            break
    return names, at


def is_item(trees: Sequence[Tree], at: int) -> bool:
    """Whether an item begins at a place among statements."""
    after = trees[at + 1] if at + 1 < len(trees) else None
    if not isinstance(trees[at], str) or trees[at] not in ITEMS or after is None:
        return False
    return is_word(after) or trees[at] in ("use", "impl") or trees[at] == "macro_rules" and after == "!"


class Aliases:
    """Other names that `use .. as` and `type` give to what is looked for, in any file."""

    def __init__(self, files: Iterable[Sequence[Tree]]) -> None:
        self.failures, self.variants, self.counting = set(FAILURES), set(VARIANTS), set(COUNTING)
        self.reading = set(FILE_READS)
        known = 0
        while known < self.known():
            known = self.known()
            for trees in files:
                self.look_through(trees)

    def known(self) -> int:
        return sum(len(it) for it in self.all())

    def all(self) -> tuple[set[str], ...]:
        return self.failures, self.variants, self.counting, self.reading

    def look_through(self, trees: Sequence[Tree]) -> None:
        for place, tree in enumerate(trees):
            if isinstance(tree, Group):
                self.look_through(tree.trees)
            elif tree == "as" and 0 < place < len(trees) - 1:
                self.note(trees[place - 1], trees[place + 1])
            elif tree == "type" and place + 2 < len(trees):
                value = place_of(trees, "=", place) + 1
                if value < len(trees) and is_word(trees[value]):
                    self.note(path_at(trees, value)[0][-1], trees[place + 1])

    def note(self, name: Tree, other: Tree) -> None:
        for known in self.all():
            if name in known and is_word(other) and other != "_":
                known.add(other)


class Context(NamedTuple):
    """Where the walk is: the modules and functions around, the type of the `impl`, and the heads of the blocks."""

    names: tuple[str, ...] = ()
    own: str = ""
    heads: tuple[str, ...] = ()

    def under(self, *heads: str) -> "Context":
        return self._replace(heads=(*self.heads, *(it for it in heads if it)))


class Walk:
    """Finds the places of one file."""

    def __init__(self, file: str, aliases: Aliases) -> None:
        self.file, self.crate, self.aliases = file, file.split("/")[0], aliases
        self.found: list[Place] = []
        # Functions of no type that take no counter, what the file imports, and what may be a call of such a function.
        self.uncounted: set[str] = set()
        self.imported: set[tuple[str, str]] = set()
        self.named: list[tuple[Place, list[str]]] = []

    def note(self, kind: str, context: Context, statement: str) -> None:
        self.found.append(self.place(kind, context, statement))

    def place(self, kind: str, context: Context, statement: str) -> Place:
        return Place(kind, self.file, "::".join(context.names) or OUTSIDE, " > ".join((*context.heads, statement)))

    def named_readers(self, readers: set[tuple[str, str]]) -> list[Place]:
        """Returns the places that name one of these functions, which are given by their files and names."""
        anywhere = {(file, name.split("::")[-1]) for file, name in readers}
        here = {name for file, name in anywhere if file == self.file or (file.split("/")[0], name) in self.imported}
        behind_modules = {name for _, name in anywhere}
        return [
            place for place, names in self.named
            if names[-1] in here or len(names) > 1 and names[-2].islower() and names[-1] in behind_modules
        ]

    # Items

    def items(self, trees: Sequence[Tree], context: Context) -> None:
        """Walks through the items of a file, module, trait or `impl`."""
        at = 0
        while at < len(trees):
            at = self.item(trees, at, context)

    def item(self, trees: Sequence[Tree], at: int, context: Context) -> int:
        """Walks through the item that begins at a place, and returns the place behind it."""
        word, after = trees[at], trees[at + 1] if at + 1 < len(trees) else ";"
        if word == "#":
            return at + 2 + (after == "!")
        if word == "fn":
            return self.function(trees, at, context)
        if word in ("const", "static") and is_word(after) and after not in ("fn", "unsafe"):
            return self.constant(trees, at, context)
        if isinstance(word, str) and word in SCOPES:
            return self.scope(trees, at, context)
        if word in ("use", "type"):
            end = place_of(trees, ";", at)
            names = list(words_in(trees[at + 1 : end]))
            crate = self.crate if names[0] in ("crate", "self", "super") else names[0]
            self.imported |= {(crate, name) for name in names} if word == "use" else set()
            return end + 1
        if isinstance(word, str) and word in TYPES:
            return self.end_of_type(trees, at)
        if word in ("pub", "unsafe", "async", "const", "default", "extern", ";") or is_group(word, "("):
            return at + 1
        return self.other_item(trees, at, context)

    def constant(self, trees: Sequence[Tree], at: int, context: Context) -> int:
        """Walks through the value of a constant."""
        end = place_of(trees, ";", at)
        inner = context._replace(names=(*context.names, f"{trees[at]} {trees[at + 1]}"))
        self.block(trees[end_of_pattern(trees, at) + 1 : end], inner)
        return end + 1

    def other_item(self, trees: Sequence[Tree], at: int, context: Context) -> int:
        """Walks through what is no known item, as code."""
        end = self.end_of_type(trees, at)
        self.block(trees[at:end], context)
        return end

    def end_of_type(self, trees: Sequence[Tree], at: int) -> int:
        """Returns the place behind the braces or the `;` of a struct or an enum, whose variants are no values."""
        return end_of_head(trees, at) + 1

    def scope(self, trees: Sequence[Tree], at: int, context: Context) -> int:
        """Walks through an `impl`, a trait, a module or a macro."""
        body = end_of_head(trees, at + 1)
        if body == len(trees) or trees[body] == ";":
            return body + 1
        head = trees[at + 1 : body]
        if trees[at] == "impl":
            name, own = name_of_impl(head)
        else:
            name = own = next((it for it in head if is_word(it)), "")
        inner = Context((*context.names, name), own)
        (self.block if trees[at] == "macro_rules" else self.items)(trees_in(trees[body]), inner)
        return body + 1

    def function(self, trees: Sequence[Tree], at: int, context: Context) -> int:
        """Walks through the body of a function."""
        body = end_of_head(trees, at + 1)
        names = (*context.names, text_of(trees[at + 1 : at + 2]))
        if not context.own and not self.aliases.counting & set(words_in(trees[at:body])):
            self.uncounted.add("::".join(names))
        if body < len(trees):
            self.block(trees_in(trees[body]), Context(names, context.own))
        return body + 1

    # Code

    def block(self, trees: Sequence[Tree], context: Context) -> None:
        """Walks through statements, or the fields of a value."""
        at = 0
        while at < len(trees):
            if is_item(trees, at):
                at = self.item(trees, at, context)
            elif trees[at] == "#" and at + 1 < len(trees) and is_group(trees[at + 1], "["):
                at += 2
            else:
                end = end_of_statement(trees, at)
                statement = trees[at:end]
                self.code(statement, context, text_of(statement))
                at = end + (end < len(trees) and trees[end] in (";", ","))

    def code(self, trees: Sequence[Tree], context: Context, statement: str) -> None:
        """Walks through what is no more than one statement."""
        before: Tree | None = None
        chain: tuple[str, ...] = ()
        at = 0
        while at < len(trees):
            tree = trees[at]
            head = group_behind(trees, at) if tree in HEADS else None
            if head is not None:
                chain = chain if before == "else" else ()
                chain = self.headed(trees, at, head, context, chain)
                at, before = head + 1, trees[head]
                continue
            if tree == "else" and at + 1 < len(trees) and is_group(trees[at + 1]):
                heads = chain or (text_of(trees[: at + 1]),)
                self.block(trees_in(trees[at + 1]), context.under(*heads))
                at += 1
            elif is_group(tree):
                self.block(tree.trees, context.under(text_of(trees[:at])))
            elif isinstance(tree, Group):
                self.code(tree.trees, context, statement)
            elif tree == "let":
                at = end_of_pattern(trees, at)
            elif tree in ("|", "||") and is_operand_next(before):
                at = self.end_of_parameters(trees, at) - 1
            elif tree == "matches" and at + 2 < len(trees) and trees[at + 1] == "!":
                self.matched(trees_in(trees[at + 2]), context, statement)
                at += 2
            elif is_word(tree) or tree == "<" and is_operand_next(before):
                at = self.path(trees, at, before, context, statement) - 1
            before = trees[at] if at < len(trees) else None
            at += 1

    def headed(
        self, trees: Sequence[Tree], at: int, head: int, context: Context, chain: tuple[str, ...]
    ) -> tuple[str, ...]:
        """Walks through an `if`, a loop or a `match`, and returns what an `else` behind it stands for."""
        text, inner = text_of(trees[at:head]), trees_in(trees[head])
        start = place_of(trees, "in", at, head) if trees[at] == "for" else at
        self.code(trees[start + 1 : head], context.under(*chain), text)
        if trees[at] == "match" and "=>" in inner:
            self.arms(inner, context.under(*chain), text)
        else:
            self.block(inner, context.under(*chain, text))
        return (*chain, f"else of {text}")

    def arms(self, trees: Sequence[Tree], context: Context, head: str) -> None:
        """Walks through the arms of a `match`: left of each `=>` is a pattern, but for what stands behind an `if`."""
        at = 0
        while at < len(trees):
            arrow = place_of(trees, "=>", at)
            if arrow == len(trees):
                return self.block(trees[at:], context.under(head))
            guard = place_of(trees, "if", at, arrow)
            self.code(trees[guard + 1 : arrow], context.under(head), text_of(trees[at:arrow]))
            inner = context.under(head, f"{text_of(trees[at:arrow])} =>")
            end = arrow + 2
            goes_on = end < len(trees) and trees[end] in (".", "?")
            if arrow + 1 < len(trees) and is_group(trees[arrow + 1]) and not goes_on:
                self.block(trees_in(trees[arrow + 1]), inner)
            else:
                end = end_of_arm(trees, arrow + 1)
                self.code(trees[arrow + 1 : end], inner, text_of(trees[arrow + 1 : end]))
            at = end + (end < len(trees) and trees[end] == ",")

    def matched(self, trees: Sequence[Tree], context: Context, statement: str) -> None:
        """Walks through what `matches!` is given: a value, a pattern, and what stands behind an `if`."""
        comma = place_of(trees, ",", 0)
        self.code(trees[:comma], context, statement)
        self.code(trees[place_of(trees, "if", comma) + 1 :], context, statement)

    def end_of_parameters(self, trees: Sequence[Tree], at: int) -> int:
        """Returns the place behind the parameters of a closure, and the type of its answer."""
        end = at + 1 if trees[at] == "||" else place_of(trees, "|", at + 1) + 1
        if end < len(trees) and trees[end] == "->":
            while end < len(trees) and not is_group(trees[end]):
                end += 1
        return end

    def path(self, trees: Sequence[Tree], at: int, before: Tree | None, context: Context, statement: str) -> int:
        """Notes what the path at a place is, and returns the place behind it."""
        names, end = path_at(trees, at)
        if before == ".":
            is_list = self.crate == GRAPH_CRATE and at > 1 and trees[at - 2] in GRAPH_LISTS and names[0] in GRAPH_READS
            if (names[0] in ARC_METHODS or is_list) and end < len(trees) and is_group(trees[end], "("):
                self.note(ARCS, context, statement)
            if names[0] in self.aliases.reading:
                self.note(FILES, context, statement)
            return end
        own = [context.own if it == "Self" and context.own else it for it in names]
        if own[-1] in self.aliases.variants or self.aliases.failures & set(own):
            self.note(MEMORY, context, statement)
        if self.aliases.counting & set(own):
            self.note(COUNTERS, context, statement)
        if own[-1] in self.aliases.reading:
            self.note(FILES, context, statement)
        self.named.append((self.place(ARCS, context, statement), own))
        if len(own) > 1 and (own[-1] in ARC_METHODS or own[-2] in ("Arcs", "Lists") and own[-1] in GRAPH_READS):
            self.note(ARCS, context, statement)
        return end


def end_of_head(trees: Sequence[Tree], at: int) -> int:
    """Returns the place of the braces or the `;` behind the head of an item, or the end."""
    while at < len(trees) and trees[at] != ";" and not is_group(trees[at]):
        at += 1
    return at


def end_of_statement(trees: Sequence[Tree], at: int) -> int:
    """Returns the place of the `;` or `,` behind a statement, or behind its last braces where it needs none."""
    before = None
    while at < len(trees):
        tree = trees[at]
        if tree in (";", ","):
            return at
        if tree in HEADS and is_operand_next(before):
            head = group_behind(trees, at)
            at = at if head is None else head
        elif tree == "let":
            at = end_of_pattern(trees, at)
            continue
        elif tree in ("|", "||") and is_operand_next(before):
            at = place_of(trees, "|", at + 1) if tree == "|" else at
        elif begins_angles(trees, at, before):
            at = end_of_angles(trees, at + (tree == "::")) - 1
        if at < len(trees) and is_group(trees[at]) and goes_no_further(trees, at + 1):
            return at + 1
        before = trees[at] if at < len(trees) else None
        at += 1
    return len(trees)


def begins_angles(trees: Sequence[Tree], at: int, before: Tree | None) -> bool:
    """Whether brackets with types begin at a place, or behind the `::` there."""
    if trees[at] == "::":
        return at + 1 < len(trees) and trees[at + 1] == "<"
    return trees[at] == "<" and is_operand_next(before)


def goes_no_further(trees: Sequence[Tree], at: int) -> bool:
    """Whether a statement ends where braces did: a word or a bracket stands there, and no `else`."""
    if at == len(trees):
        return False
    after = trees[at]
    return not isinstance(after, str) or (is_word(after) or after[0] in "'#*") and after not in ("else", "as")


def end_of_arm(trees: Sequence[Tree], at: int) -> int:
    """Returns the place of the `,` behind the right side of an arm."""
    before = None
    while at < len(trees) and trees[at] != ",":
        if trees[at] in ("|", "||") and is_operand_next(before):
            at = place_of(trees, "|", at + 1) if trees[at] == "|" else at
        elif begins_angles(trees, at, before):
            at = end_of_angles(trees, at + (trees[at] == "::")) - 1
        before = trees[at] if at < len(trees) else None
        at += 1
    return at


def name_of_impl(head: Sequence[Tree]) -> tuple[str, str]:
    """Returns the name of an `impl` and the type that it is of, by what stands before its braces."""
    at = end_of_angles(head, 0) if head and head[0] == "<" else 0
    head = head[at : place_of(head, "where", at)]
    parted = place_of(head, "for", 0)
    own = head[parted + 1 :] if parted < len(head) else head
    names = [it for it in own if is_word(it)]
    plain = path_at(own, own.index(names[0]))[0][-1] if names else ""
    return (f"<{text_of(own)} as {text_of(head[:parted])}>" if parted < len(head) else plain), plain


def paths_of(top: str) -> dict[str, str]:
    """Returns the path of each file of code by its crate and name; crates of tests are left out."""
    paths = {}
    for crate in sorted(os.listdir(f"{top}/crates")):
        source = f"{top}/crates/{crate}/src"
        for folder, _, names in os.walk(source) if not crate.endswith("_tests") else ():
            for name in names:
                if name.endswith(".rt"):
                    paths[f"{crate}/{os.path.relpath(f'{folder}/{name}', source)}"] = f"{folder}/{name}"
    return dict(sorted(paths.items()))


def files_of(top: str) -> dict[str, list[Tree]]:
    """Returns the trees of each file of code."""
    files = {}
    for file, path in paths_of(top).items():
        try:
            with open(path, encoding="utf-8") as text:
                files[file] = trees_of(text.read())
        except Unreadable as why:
            raise Unreadable(f"{file}: {why}") from None
    return files


def places_of(files: Mapping[str, Sequence[Tree]]) -> Counter[Place]:
    """Returns how often each place stands in these files."""
    aliases = Aliases(files.values())
    walks = [Walk(file, aliases) for file in files]
    for walk in walks:
        walk.items(files[walk.file], Context())
    found = [place for walk in walks for place in walk.found]
    return Counter(found) + Counter(named_readers(walks, [it for it in found if it.kind == ARCS]))


def named_readers(walks: Sequence[Walk], found: Iterable[Place]) -> list[Place]:
    """Returns the places that name a function that reads arcs itself, or by such a function, and takes no counter."""
    uncounted = {(walk.file, name) for walk in walks for name in walk.uncounted}
    more = {(it.file, it.function) for it in found} & uncounted
    readers: set[tuple[str, str]] = set()
    named: list[Place] = []
    while more > readers:
        readers = more
        named = [place for walk in walks for place in walk.named_readers(readers)]
        more = readers | {(it.file, it.function) for it in named} & uncounted
    return named


class Entry(NamedTuple):
    """What the list says of a place: how often it stands there, and why it may, in the words of one who looked."""

    times: int
    reason: str


def list_of(lines: Iterable[str]) -> dict[Place, Entry]:
    """Returns the entries of a list by their places; of a line that is of no form it says which."""
    entries: dict[Place, Entry] = {}
    kind, file, function, text = "", "", "", ""
    for number, line in enumerate(lines, 1):
        body = line.strip()
        blanks = len(line) - len(line.lstrip())
        if not body or line.startswith("#"):
            continue
        if blanks == 0 and body.startswith("== ") and body[3:] in KINDS:
            kind = body[3:]
        elif blanks == 0 and ": " in body:
            file, function = body.split(": ", 1)
        elif blanks == 2:
            text = body
        elif blanks == 4 and body.partition(":")[0].isdigit():
            times, _, reason = body.partition(":")
            entries[Place(kind, file, function, text)] = Entry(int(times), reason.strip())
        else:
            raise Unreadable(f"line {number} of the list is of no form that it has")
    return entries


def lines_of(counts: Mapping[Place, int], entries: Mapping[Place, Entry]) -> list[str]:
    """Returns the lines of a list of these places, with the reasons that other entries have for them."""
    lines: list[str] = []
    for kind in KINDS:
        lines += ["", f"== {kind}"]
        before = None
        for place in sorted(it for it in counts if it.kind == kind):
            head = f"{place.file}: {place.function}"
            reason = entries[place].reason if place in entries else ""
            lines += ["", head] if head != before else []
            lines += [f"  {place.text}", f"    {counts[place]}: {reason}".rstrip()]
            before = head
    return lines


def differences(counts: Mapping[Place, int], entries: Mapping[Place, Entry]) -> list[str]:
    """Returns a line for each place that the list has otherwise than the code."""
    said = []
    for place in sorted({*counts, *entries}):
        if place not in entries:
            why = "new"
        elif place not in counts:
            why = "gone"
        elif counts[place] != entries[place].times:
            why = f"{counts[place]} times in place of {entries[place].times}"
        elif not entries[place].reason:
            why = "no reason is written"
        else:
            continue
        said.append(f"{place.file}: {place.function}: {why}: {place.kind}: {place.text}")
    return said
