"""The words and signs of a text of Rust with contracts, in groups by their brackets, without comments and contracts.

A tree is a word, a sign or a text in quotes as it stands, or a Group. What a contract says is no code: a clause
`requires` or `ensures`, and an item or field that begins with `ghost`, are left out with all in their braces.
"""

import re
from collections.abc import Iterable, Iterator, Sequence
from typing import TypeGuard, Union

TOKEN = re.compile(
    r"""(?P<gap>\s+|//[^\n]*)
      | (?P<comment>/\*)
      | (?P<text>b?r(?P<marks>\#*)".*?"(?P=marks) | b?"(?:[^"\\]|\\.)*" | b?'(?:[^'\\\n]|\\[^\n][^'\n]*)')
      | (?P<word>'?[^\W\d]\w*|\d\w*(?:\.\d\w*)?)
      | (?P<sign>::|->|=>|==|!=|<=|>=|<<=?|&&|\|\||\.\.[=.]?|[-+*/%^&|]=|.)""",
    re.S | re.X,
)
CLAUSE = re.compile(r"\s*(?:[^\W\d]\w*\s*)?\{")
CLOSING = {"(": ")", "[": "]", "{": "}"}
# Behind these a word such as `requires` would be a name of the code.
BEFORE_NAMES = {"if", "while", "match", "in", "return", "let", "mut", "fn", "else", "ref", "move", "as"}


class Unreadable(Exception):
    """A text has brackets or quotes that do not fit, so that its places cannot be told."""


class Group:
    """What stands between two brackets."""

    def __init__(self, opening: str, trees: list["Tree"]) -> None:
        self.opening, self.trees = opening, trees


Tree = Union[str, Group]


def is_group(tree: Tree | None, opening: str = "{") -> TypeGuard[Group]:
    return isinstance(tree, Group) and tree.opening == opening


def is_word(tree: Tree | None) -> TypeGuard[str]:
    return isinstance(tree, str) and (tree[0].isalpha() or tree[0] == "_") and '"' not in tree and "'" not in tree


def end_of_comment(text: str, at: int) -> int:
    """Returns where a comment between signs ends; such comments may stand in one another."""
    depth = 0
    for found in re.compile(r"/\*|\*/").finditer(text, at):
        depth += 1 if found[0] == "/*" else -1
        if depth == 0:
            return found.end()
    raise Unreadable("a comment has no end")


def end_of_ghost(text: str, at: int, is_clause: bool) -> int:
    """Returns where a clause ends, at the end of its braces, or an item or field, at a `;` or `,` outside of them."""
    depth = 0
    for found in re.compile(r"//[^\n]*|[{};,]").finditer(text, at):
        sign = found[0]
        if sign == "}" and depth == 0:
            return found.start()
        depth += (sign == "{") - (sign == "}")
        if depth == 0 and (sign == "}" if is_clause else sign in ";,"):
            return found.end()
    raise Unreadable("a ghost clause has no end")


def tokens_of(text: str) -> list[str]:
    """Returns the words, signs and texts of the code."""
    tokens: list[str] = []
    at = 0
    while at < len(text):
        found = TOKEN.match(text, at)
        assert found, "each character is a sign, if nothing else"
        kind, token, before = found.lastgroup, found[0], tokens[-1] if tokens else ";"
        at = found.end()
        if kind == "comment":
            at = end_of_comment(text, found.start())
        elif token == "ghost" and before not in (".", "fn"):
            at = end_of_ghost(text, at, False)
        elif token in ("requires", "ensures") and ends_type(before) and CLAUSE.match(text, at):
            at = end_of_ghost(text, at, True)
        elif kind != "gap":
            tokens.append(token)
    return tokens


def ends_type(token: str) -> bool:
    """Whether this may be the last word or sign of a signature, or of the parameters of a closure."""
    return token in (")", "]", ">", "|", "||", "}") or (is_word(token) or token[0] == "'") and token not in BEFORE_NAMES


def trees_of(text: str) -> list[Tree]:
    """Returns the trees of a text."""
    open_groups = [Group("", [])]
    for token in tokens_of(text):
        if token in CLOSING:
            open_groups.append(Group(token, []))
        elif token in CLOSING.values():
            group = open_groups.pop()
            if CLOSING.get(group.opening) != token:
                raise Unreadable(f"a bracket {token} closes none")
            open_groups[-1].trees.append(group)
        else:
            open_groups[-1].trees.append(token)
    if len(open_groups) > 1:
        raise Unreadable(f"a bracket {open_groups[-1].opening} is not closed")
    return open_groups[0].trees


def end_of_angles(trees: Sequence[Tree], at: int) -> int:
    """Returns the place behind the bracket `>` that closes the one at a place, or the next place if none does."""
    depth = 0
    for place in range(at, len(trees)):
        tree = trees[place]
        depth += {"<": 1, "<<": 2, ">": -1}.get(tree, 0) if isinstance(tree, str) else 0
        if depth <= 0:
            return place + 1
    return at + 1


def trees_in(tree: Tree) -> list[Tree]:
    """Returns the trees of a group, and none of a word or sign."""
    return tree.trees if isinstance(tree, Group) else []


def words_in(trees: Iterable[Tree]) -> Iterator[str]:
    """Returns all words of trees, also those in their groups."""
    for tree in trees:
        if isinstance(tree, Group):
            yield from words_in(tree.trees)
        elif is_word(tree):
            yield tree


TIGHT_BEFORE = {",", ";", ".", "?", ":", "::", "..", "..="}
TIGHT_BEHIND = {".", "::", "#", "..", "..=", ""}
UNARY = {"&", "*", "-", "!"}
# Behind these stands an operand, so that `|` begins a closure there, `<` a path, and `-` changes a sign.
OPERAND_BEHIND = {"if", "while", "for", "match", "return", "break", "in", "else", "move", "let", "mut", "loop", "as"}


def is_operand_next(before: Tree | None) -> bool:
    """Whether an operand begins behind this tree; None stands for the begin of a statement."""
    if before is None:
        return True
    if not isinstance(before, str):
        return False
    is_operand = is_word(before) or before[0].isdigit() or any(it in before for it in "?'\"")
    return before in OPERAND_BEHIND or not is_operand


class Line:
    """A line that grows by words, signs and groups, with blanks where a reader expects them."""

    def __init__(self) -> None:
        self.text, self.is_tight, self.depth, self.is_in_parameters = "", True, 0, False
        self.before: Tree | None = None

    def add(self, tree: Tree) -> None:
        is_first = is_operand_next(self.before)
        if isinstance(tree, Group):
            self.put(group_text(tree), tree.opening != "{" and not is_first, False)
        elif tree == "|" and (is_first or self.is_in_parameters):
            # (a closure's parameters begin or end)
            self.is_in_parameters = not self.is_in_parameters
            self.put(tree, not self.is_in_parameters, self.is_in_parameters)
        elif tree == "<" and (is_first or self.before == "::" or is_word(self.before) and self.before[0].isupper()):
            self.depth += 1
            self.put(tree, not is_first, True)
        elif tree == ">" and self.depth:
            self.depth -= 1
            self.put(tree, True, False)
            # (brackets stand close behind, as behind a name)
            tree = "T"
        else:
            is_tight = tree in TIGHT_BEFORE or tree == "!" and not is_first
            self.put(tree, is_tight, tree in TIGHT_BEHIND or tree in UNARY and is_first)
        self.before = tree

    def put(self, shown: str, is_tight_before: bool, is_tight_behind: bool) -> None:
        self.text += shown if self.is_tight or is_tight_before else f" {shown}"
        self.is_tight = is_tight_behind


def group_text(group: Group) -> str:
    return "{..}" if group.opening == "{" else f"{group.opening}{text_of(group.trees)}{CLOSING[group.opening]}"


def text_of(trees: Sequence[Tree]) -> str:
    """Returns one line for trees, the same for each layout; `{..}` stands for braces and all that is in them."""
    line = Line()
    for tree in trees[:-1] if trees and trees[-1] == "," else trees:
        line.add(tree)
    return line.text
