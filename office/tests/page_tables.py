"""The tables of a page, cell by cell, and its figures, as a browser reads them."""

import html.parser
import re


class Reader(html.parser.HTMLParser):
    """Reads the headings of a page, and below each the rows of its table, with the header first."""

    def __init__(self) -> None:
        super().__init__()
        self.tables: dict[str, list[list[str]]] = {}
        self.heading, self.inside = "", ""

    def handle_starttag(self, tag: str, attrs: list[tuple[str, str | None]]) -> None:
        if tag == "h2":
            self.heading = ""
        elif tag == "tr":
            self.tables.setdefault(self.heading, []).append([])
        elif tag in ("td", "th"):
            self.tables[self.heading][-1].append("")
        self.inside = tag if tag in ("h2", "td", "th") else self.inside

    def handle_endtag(self, tag: str) -> None:
        self.inside = "" if tag == self.inside else self.inside

    def handle_data(self, data: str) -> None:
        if self.inside == "h2":
            self.heading += data
        elif self.inside:
            self.tables[self.heading][-1][-1] += data


def tables_of(page: str) -> dict[str, list[list[str]]]:
    """The rows of each table, by the heading above it."""
    reader = Reader()
    reader.feed(page)
    return reader.tables


def figures_of(page: str) -> dict[str, str]:
    """The figures of a page by their words."""
    return dict(re.findall(r"<dt>(.*?)</dt><dd>(.*?)</dd>", page))
