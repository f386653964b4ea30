"""Texts that others wrote, as they may be shown: on a terminal, and in a cell of a spreadsheet."""

# A spreadsheet takes a cell that begins with one of these for a formula; behind a quote each text is a text.
FORMULA_SIGNS = "=+-@"
QUOTE = "'"


def plain(text: str) -> str:
    """Returns a text with a question mark for each sign that cannot be seen: escapes, ends of lines, signs that turn the way of writing."""
    return "".join(it if it.isprintable() else "?" for it in text)


def cell(text: str) -> str:
    """Returns a text, as `plain` does, as a cell that no spreadsheet runs: a quote stands before one that begins like a formula, or with a quote."""
    shown = plain(text)
    return f"{QUOTE}{shown}" if shown[:1] in (*FORMULA_SIGNS, QUOTE) else shown
