"""Texts of docs/ as manual pages: Markdown, as far as those pages have it, becomes macros of man(7). A table becomes tagged paragraphs."""

import re
import textwrap
from collections.abc import Iterable, Iterator
from dataclasses import dataclass

WIDTH = 78
SIGNS = {"\\": "\\(rs", "'": "\\(aq", "`": "\\(ga", "^": "\\(ha", "~": "\\(ti", "-": "\\-"}
# In a sentence a hyphen is one, and an apostrophe too.
PROSE = {sign: text for sign, text in SIGNS.items() if sign not in "-'"}
FONTS = {(False, False): "\\fR", (True, False): "\\fB", (False, True): "\\fI", (True, True): "\\f(BI"}
TOKEN = re.compile(r"`([^`]+)`|\*\*|\*|!?\[([^\]]*)\]\([^)]*\)")
# What is a mark in a text that is no Markdown.
CODE = re.compile(r"`([^`]+)`")
ITEM = re.compile(r"(- |\d+\. )(.*)")
CELL_END = re.compile(r"(?<!\\)\|")


@dataclass
class Block:
    """A part of a page: its kind, and its lines; of a list each item is a line, of a table each row."""

    kind: str
    lines: list[str]


def escaped(text: str, signs: dict[str, str]) -> str:
    return "".join(signs.get(it, it) for it in text)


def inline(text: str, marks: re.Pattern[str] = TOKEN) -> str:
    """Returns a text with the fonts that its marks say: what is code is bold."""
    out, at, bold, italic = [], 0, False, False
    for it in marks.finditer(text):
        out.append(escaped(text[at : it.start()], PROSE))
        at = it.end()
        if it[1] is not None:
            out.append(f"\\fB{escaped(it[1], SIGNS)}{FONTS[bold, italic]}")
        elif it[2] is not None:
            out.append(escaped(it[2], PROSE))
        else:
            bold, italic = bold ^ (it[0] == "**"), italic ^ (it[0] == "*")
            out.append(FONTS[bold, italic])
    out.append(escaped(text[at:], PROSE))
    return "".join(out)


def safe(line: str) -> str:
    """Returns a line of text that no macro begins."""
    return f"\\&{line}" if line[:1] in (".", "'") else line


def filled(text: str, marks: re.Pattern[str] = TOKEN) -> list[str]:
    """Returns a text as lines that are filled when they are shown; without any text, as one that shows nothing."""
    lines = textwrap.wrap(inline(text, marks), WIDTH, break_long_words=False, break_on_hyphens=False)
    return [safe(it) for it in lines] or ["\\&"]


def blocks(lines: Iterable[str]) -> Iterator[Block]:
    """Returns the parts of a page, each with its lines as they stand."""
    block, is_fenced = Block("", []), False
    for line in lines:
        if line.startswith("```"):
            is_fenced = not is_fenced
            if block.lines:
                yield block
            block = Block("code" if is_fenced else "", [])
            continue
        if is_fenced:
            block.lines.append(line)
            continue
        kind = kind_of(line, block.kind)
        if kind != block.kind or kind in ("head", ""):
            if block.lines:
                yield block
            block = Block(kind, [])
        if kind:
            put(block, line)
    if block.lines:
        yield block


def kind_of(line: str, before: str) -> str:
    """Returns the kind of the part that a line belongs to, behind a part of another kind or of the same one."""
    if not line.strip():
        return before if before == "code" else ""
    if line.startswith("#"):
        return "head"
    if line.startswith("|"):
        return "table"
    if ITEM.match(line):
        return "list"
    if line.startswith("    ") and before in ("", "code"):
        return "code"
    return before if before == "list" and line.startswith(" ") else "text"


def put(block: Block, line: str) -> None:
    """Adds a line to a part; one that goes on with an item or a sentence stands behind it."""
    if block.kind == "code":
        block.lines.append(line[4:])
    elif block.lines and (block.kind == "text" or block.kind == "list" and not ITEM.match(line)):
        block.lines[-1] += f" {line.strip()}"
    else:
        block.lines.append(line.strip())


def cells(row: str) -> list[str]:
    return [it.strip().replace("\\|", "|") for it in CELL_END.split(row.strip().strip("|"))]


def table(rows: list[str]) -> list[str]:
    """Returns a table as tagged paragraphs, its head as the first; a row without a tag is one more paragraph of the tag before.

    From the third column on, each cell stands on a line of its own behind the head of its column.
    """
    heads, out = cells(rows[0]), []
    if any(heads):
        out += [".TP", safe(f"\\fI{inline(heads[0])}\\fR") if heads[0] else "\\&", f"\\fI{inline('; '.join(it for it in heads[1:] if it))}\\fR"]
    for row in rows[2:]:
        tag, *others = cells(row)
        parts = [filled(f"*{head}*: {it}" if head and at else it) for at, (head, it) in enumerate(zip(heads[1:], others)) if it]
        body = [line for part in parts for line in (".br", *part)][1:] or ["\\&"]
        out += [".TP", safe(inline(tag)), *body] if tag else [".IP", *body]
    return out


def code(lines: list[str]) -> list[str]:
    while lines and not lines[-1].strip():
        lines = lines[:-1]
    return [".PP", ".RS 4", ".EX", *(safe(escaped(it, SIGNS)) if it.strip() else "\\&" for it in lines), ".EE", ".RE"]


def items(lines: list[str]) -> list[str]:
    """Returns a list, with a point or its number before each item."""
    out = []
    for line in lines:
        found = ITEM.match(line)
        mark, text = (found[1].strip(), found[2]) if found else ("", line)
        out += [".IP \\(bu 2" if mark == "-" else f".IP {mark} 4", *filled(text)]
    return out


def head(line: str) -> list[str]:
    marks, _, title = line.partition(" ")
    text = escaped(title.replace("`", ""), PROSE).replace('"', "\\(dq")
    return [f'{".SH" if len(marks) < 3 else ".SS"} "{text}"']


def macros(lines: Iterable[str]) -> list[str]:
    """Returns lines of Markdown as lines with macros. A paragraph that stands right behind a head needs no macro."""
    out: list[str] = []
    for it in blocks(lines):
        if it.kind == "head":
            out += head(it.lines[0])
        elif it.kind == "text":
            is_first = bool(out) and out[-1].startswith((".SH", ".SS"))
            out += [*([] if is_first else [".PP"]), *filled(it.lines[0])]
        else:
            made = {"table": table, "list": items, "code": code}[it.kind](it.lines)
            # (a part that begins with a paragraph's macro needs none)
            is_first = bool(out) and out[-1].startswith((".SH", ".SS")) and made[:1] == [".PP"]
            out += made[1:] if is_first else made
    return out


def page(name: str, section: int, told: str, version: str, day: str, body: list[str]) -> str:
    """Returns a whole page: its title, its name with what it is about, and its body."""
    title = f'.TH {name.upper()} {section} {day} "tracesync {version}" tracesync'
    return "\n".join([title, ".SH NAME", f"{escaped(name, SIGNS)} \\- {inline(told)}", *body]) + "\n"
