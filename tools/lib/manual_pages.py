"""The manual pages of a package: what stands on each, by the sections of docs/FORMATS.md, the program's help and that of the tools."""

import re
from dataclasses import dataclass

from front import commands_of, help_of
from manual import CODE, PROSE, SIGNS, code, escaped, filled, macros, page
from tool_help import Help


@dataclass(frozen=True)
class Page:
    """A page by its name, the section of the manual, what it is about, and the sections of docs/FORMATS.md that it has."""

    name: str
    section: int
    told: str
    parts: tuple[str, ...]


PAGES = (
    Page("tracesync", 1, "captures and logs of several hosts on one time",
         ("Statuses", *(f"What `{it}` prints" for it in ("obey", "solve", "ends", "trial", "verify", "widen", "judge", "blame", "thin", "session", "mergecap")))),
    Page("tracesync-session", 5, "scripts, replies, logs and captures",
         ("Session script and replies", "Event log", "Packet capture", "Packet key")),
    Page("tracesync-declaration", 5, "hosts, clocks, stamps and links", ("Names", "Declaration")),
    Page("tracesync-problem", 5, "problems and certificates",
         ("Numbers", "Texts of lines", "Problem text", "Nodes", "Bounds and the short list", "Execution text", "Certificate text", "Widening text")),
)  # fmt: skip
FILES = """below the folder that the package is in, which is /usr for a .deb: the guide and the formats in docs, examples, and
PROOF.txt, which has the sums of all sources. Paths in the pages and the examples are relative to this folder: copy it
to try them."""
# Words in two columns.
COLUMNS = re.compile(r"\S+ {2,}\S")


def sections_of(text: str) -> dict[str, list[str]]:
    """Returns the lines of each section of a page by its head; what stands before the first one by the empty text."""
    found: dict[str, list[str]] = {"": []}
    own, is_code = found[""], False
    for line in text.split("\n"):
        is_code ^= line.startswith("```")
        if line.startswith("## ") and not is_code:
            own = found.setdefault(line[3:].strip(), [])
        own.append(line)
    return found


def see_also(own: str, tools: list[str]) -> list[str]:
    """Returns what a page ends with: where more is, and the references to all other pages."""
    others = [*((it.name, it.section) for it in PAGES), *((f"tracesync-{it}", 1) for it in tools)]
    names = [f".BR {escaped(name, SIGNS)} ({section})" for name, section in others if name != own]
    return [".SH FILES", ".TP", ".I share/doc/tracesync", *filled(FILES), ".SH SEE ALSO", *(f"{it} ," for it in names[:-1]), *names[-1:]]


def command_lines(source: str) -> list[str]:
    """Returns what the program's help says: how it is called, its commands, and what stands behind them."""
    found = commands_of(source)
    out = [".SH SYNOPSIS", ".B tracesync", ".I COMMAND WORD ..", ".SH COMMANDS"]
    for it in found:
        words = "".join(f" \\fI{word}\\fR" for word in it.words) + (" < \\fISCRIPT\\fR" if it.is_scripted else "")
        out += [".TP", f"\\fB{it.name}\\fR{words}", *filled(it.told)]
    return [*out, ".PP", *filled(help_of(source).split("\n\n")[-1].replace("\n", " "))]


def main_pages(formats: str, source: str, version: str, day: str, tools: list[str]) -> dict[str, str]:
    """Returns the pages of PAGES by the names of their files. Raises ValueError where a section is not there, or stands on no page."""
    sections, found = sections_of(formats), {}
    wanted = [part for it in PAGES for part in it.parts]
    strange = sorted(set(wanted) ^ (set(sections) - {""}))
    if strange:
        raise ValueError(f"docs/FORMATS.md and the manual pages differ in the section {strange[0]}")
    for it in PAGES:
        body = command_lines(source) if it.section == 1 else macros(["## DESCRIPTION", *sections[""][1:]])
        body += macros([line for part in it.parts for line in sections[part]])
        found[f"{it.name}.{it.section}"] = page(it.name, it.section, it.told, version, day, [*body, *see_also(it.name, tools)])
    return found


def paragraph(text: str) -> list[str]:
    """Returns a paragraph of a tool's help: sentences are filled, and what stands in columns or behind blanks stays as it is."""
    lines = text.split("\n")
    is_columns = any(line.startswith("  ") or COLUMNS.match(line) for line in lines)
    return code(lines) if is_columns else [".PP", *filled(" ".join(lines), CODE)]


def tool_page(tool: str, told: Help, version: str, day: str, tools: list[str]) -> str:
    """Returns the page of a tool, by the parts of its help."""
    body = [".SH SYNOPSIS", *code([line.strip() for line in told.usage.split("\n")])[1:], ".SH DESCRIPTION", *filled(told.about, CODE)]
    for text in told.paragraphs:
        body += paragraph(text)
    for head, entries in told.groups.items():
        body.append(f'.SH "{escaped(head.capitalize(), PROSE)}"')
        for it in entries:
            body += [".TP", f"\\fB{escaped(it.name, SIGNS)}\\fR", *filled(it.told, CODE)]
    about = re.split("[:,] ", told.about.replace("\n", " ").rstrip("."))[0]
    return page(f"tracesync-{tool}", 1, about[0].lower() + about[1:], version, day, [*body, *see_also(f"tracesync-{tool}", tools)])
