"""Text and code in lines of a width."""

import re

WIDTH = 120
# A word that would begin a list, a heading or a quotation where it begins a line.
MARK = re.compile(r" (?=(?:[-+*>#=]|\d+[.)])(?: |$))")
LINK = re.compile(r"\[[^\]]*\]\([^)]*\)")
# What a line of code begins with if there is a choice.
JOINTS = ("→", "×", "⊎", "↔", "->")


def wrapped(text: str, first: str = "", others: str = "") -> list[str]:
    """Returns a text in lines, with each link on one; `first` begins the first line, `others` each of the others."""
    lines, line = [], first
    whole = LINK.sub(lambda it: it[0].replace(" ", "\0"), MARK.sub("\0", text))
    for word in whole.split(" "):
        if line.strip() and line not in (first, others) and len(line) + 1 + len(word) > WIDTH:
            lines.append(line)
            line = others
        line += word if line in (first, others) else f" {word}"
    return [it.replace("\0", " ") for it in [*lines, line]]


def depths(line: str) -> list[int]:
    """Returns in how many brackets each character stands."""
    depth, found = 0, []
    for it in line:
        depth += (it in "([{⟦") - (it in ")]}⟧")
        found.append(depth)
    return found


def is_joint(line: str, at: int) -> bool:
    """Whether a line of code is well cut at this blank: behind a comma, or before a sign."""
    return line[at - 1] in ",;" or line[at + 1 :].partition(" ")[0] in JOINTS


def joint(line: str, least: int) -> int:
    """Returns the place of the blank at which a line of code is cut, or -1 where it has none: in few brackets, at a joint, far on."""
    deep = depths(line)
    blanks = [at for at in range(least + 1, min(WIDTH, len(line) - 1) + 1) if line[at] == " "]
    late = [at for at in blanks if at > WIDTH // 2] or blanks[-1:] or [line.find(" ", least + 1)]
    return min(late, key=lambda at: (deep[at], not is_joint(line, at), -at))


def wrapped_code(line: str) -> list[str]:
    """Returns a line of code in lines, cut before an arrow or a sign where there is one."""
    found, indent = [], 0
    while len(line) > WIDTH and (at := joint(line, indent)) > 0:
        found.append(line[:at])
        line, indent = f"    {line[at + 1 :]}", 4
    return [*found, line]
