"""Texts of senders and of offices as they are shown: as cells of a CSV file that a spreadsheet opens, and in lines that are printed."""

import re

# The place before what a spreadsheet takes for a formula, where a cell begins: for many of them also behind a `;` and its quotes.
FORMULA = re.compile(r"(^ *|;[ \"]*)(?=[=+@\t\r-])")


def plain(value: str) -> str:
    """A text of a sender as a cell of a CSV file: an apostrophe before what a spreadsheet would take for a formula."""
    return FORMULA.sub(r"\1'", value)


def printable(words: str) -> str:
    """Words in which `?` stands for what has no form, as control characters and marks that turn the direction of a line."""
    return words if words.isprintable() else "".join(it if it.isprintable() else "?" for it in words)
