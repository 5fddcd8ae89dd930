"""Every fault of a return of plays, by a reading of our own, and what spreadsheets do to such a file."""

import itertools
import re
from collections.abc import Iterator

from society_office.checks.work_faults import Fault
from society_office.formats.plays import BOM, HEADER, MOST_PLAYS, MOST_ROWS, MOST_SECONDS, ReturnFault, records
from society_office.works.records import decoded, text

ISRC = re.compile(r"[A-Z]{2}(-?)[A-Z0-9]{3}\1[0-9]{2}\1[0-9]{5}", re.IGNORECASE | re.ASCII)
PLAYS, SECONDS, DIGITS = re.compile(r"[0-9]{1,7}"), re.compile(r"[0-9]{1,5}"), re.compile(r"[0-9]+")
# What a number looks like after a spreadsheet, and what to do.
NUMBERS = (
    (re.compile(r"\d+:\d\d(:\d\d)?"), "a time: write it in seconds, 3:00 as 180"),
    (
        re.compile(r"\d+([.,]\d+)?E[+-]?\d+", re.IGNORECASE),
        "a number in powers of ten: format the column as a number without decimals",
    ),
    (re.compile(r"\d{1,3}(\.\d{3})+"), "points between thousands, or decimals: format the column as a number without either"),
    (re.compile(r"\d+\.0+"), "decimals: format the column as a number without decimals"),
    (re.compile(r"\d+[.,]\d{1,2}"), "a fraction: round it to whole numbers"),
    (re.compile(r"\d{1,3}([.,' ]\d{3})+"), "separators between thousands: format the column without them"),
    (re.compile(r"\d{4}-\d\d-\d\d|\d{1,2}[./]\d{1,2}[./]\d{2,4}"), "a date: format the column as text before you type"),
    (re.compile(r"-\d+"), "a negative number"),
    (re.compile(r"#+"), "the column was too narrow: make it wider, and save it again"),
    (re.compile(r"\d+\s*[a-z]+\.?", re.IGNORECASE), "a unit behind it: write the number alone"),
    (re.compile(r"\s+.*|.*\s+"), "blanks around it"),
)
NO_PLAYS, NO_SECONDS = "leave out rows without plays", "look the length up, or delete the row"
TOO_LONG = "the seconds of one play, not of all, and no milliseconds"
# How a file that is no CSV begins.
BEGINNINGS = (
    (b"\xff\xfe", "this is UTF-16 ('Unicode text'): save it as 'CSV UTF-8 (comma delimited)'"),
    (b"\xfe\xff", "this is UTF-16 ('Unicode text'): save it as 'CSV UTF-8 (comma delimited)'"),
    (b"PK", "this is a workbook (.xlsx) or another zip: save it as 'CSV UTF-8 (comma delimited)', or unpack it"),
    (b"\xd0\xcf\x11\xe0", "this is a workbook (.xls): save it as 'CSV UTF-8 (comma delimited)'"),
    (b"\x1f\x8b", "this was compressed by gzip: unpack it"),
)
QUOTED = "quotation marks stand around the whole row, or one is not closed: take them away"
# So many rows the header is looked for below others.
MOST_ABOVE = 20
# What a file of works is named, and lines that only such a file has.
WORKS_NAME, WORKS_LINE = re.compile(r"\.(cwr|v2[12])$", re.IGNORECASE), re.compile(rb"^(GRH[A-Z]{3}|TRL)[0-9]{5}", re.MULTILINE)
# Letters that are shown of what is wrong.
MOST_SHOWN = 60
CELL_ERRORS = ("#N/A", "#REF!", "#VALUE!", "#NAME?", "#DIV/0!")


def first_line(body: bytes) -> bytes:
    """The first line of a return that has a byte."""
    return body.removeprefix(BOM).lstrip(b"\r\n").partition(b"\n")[0]


def header_hint(body: bytes, first: list[str]) -> str:
    """What was done to a header that is not the right one."""
    line = first_line(body).strip()
    for beginning, hint in BEGINNINGS:
        if body.startswith(beginning):
            return hint
    above = next((k for k, it in enumerate(itertools.islice(records(body), MOST_ABOVE)) if it == HEADER), 0)
    if above:
        return f"the header stands in row {above + 1}: delete what is above it"
    if first == [",".join(HEADER)]:
        return QUOTED
    if b";" in line:
        return "semicolons stand between the fields: save it with commas, or replace them"
    if b"\t" in line:
        return "tabs stand between the fields: save it with commas"
    words = [it.strip().lower() for it in first]
    if words == HEADER:
        return "the words are right: write them in small letters and without blanks"
    if [it for it in first if it] == HEADER:
        return "empty columns stand beside it: delete them in the spreadsheet"
    if set(HEADER) <= set(words):
        titled = "; works are found by a column title with `society-office unknown COPY --titles FILE`" if "title" in words else ""
        return f"keep these three columns alone, in this order{titled}"
    if first and ISRC.fullmatch(first[0]):
        return "the first row is data: put isrc,plays,seconds above it"
    return ""


def number_hint(cell: str, most: int, zero: str, great: str = "") -> str:
    """What was done to a number that is none, or that is not from 1 to the greatest."""
    if cell in CELL_ERRORS:
        return "an error of the spreadsheet's formula"
    if not cell:
        return "the cell is empty"
    if DIGITS.fullmatch(cell):
        digits = cell.lstrip("0")
        return zero if not digits else great if len(digits) > len(str(most)) or int(digits) > most else "zeros before it: leave them out"
    return next((hint for form, hint in NUMBERS if form.fullmatch(cell)), "")


def isrc_hint(cell: str) -> str:
    """What was done to an ISRC that is none."""
    cell = decoded(cell.encode("latin-1"))
    if ISRC.fullmatch(cell.strip()):
        return "blanks around it"
    bare = re.sub(r"[\s.-]", "", cell)
    for it in (bare, re.sub(r"^ISRC:?", "", bare, flags=re.IGNORECASE)):
        if cell != it and ISRC.fullmatch(it):
            return f"written {it} it is right"
    if not cell:
        return "the cell is empty: delete the row"
    for at, it in enumerate(cell, 1):
        if not it.isascii():
            return f"character {at} is U+{ord(it):04X}, none of A-Z and 0-9, though it may look like one"
    if len(bare) != 12:
        return f"it has {len(bare)} letters and digits, and needs 12"
    return "" if bare[5:].isdigit() else "the last seven have to be digits"


def row_hint(cells: list[str]) -> str:
    """What was done to a row that has not three fields."""
    if not any(cells):
        return "an empty row of the spreadsheet: delete it"
    if len(cells) > len(HEADER) and not any(cells[len(HEADER) :]):
        return "empty columns stand beside it: delete them in the spreadsheet"
    if len(cells) > len(HEADER):
        return "a comma within a number or a name makes one field two"
    if ";" in "".join(cells):
        return "the semicolons are no commas"
    return QUOTED if len(cells) == 1 and "," in cells[0] else ""


def row_faults(row: int, cells: list[str]) -> Iterator[Fault]:
    """The faults of a row of data."""

    def fault(number: int, field: str, found: str, hint: str) -> Fault:
        return Fault("return", number, row, "row", field, text(found[:MOST_SHOWN].encode("latin-1")), hint)

    if len(cells) != len(HEADER):
        yield fault(ReturnFault.FIELDS, f"{len(cells)} fields", ",".join(cells), row_hint(cells))
        return
    isrc, plays, seconds = cells
    if not any(cells):
        yield fault(ReturnFault.ISRC, "isrc", "", "an empty row of the spreadsheet: delete it")
        return
    if not ISRC.fullmatch(isrc):
        yield fault(ReturnFault.ISRC, "isrc", isrc, isrc_hint(isrc))
    if not (PLAYS.fullmatch(plays) and 1 <= int(plays) <= MOST_PLAYS):
        yield fault(ReturnFault.PLAYS, "plays", plays, number_hint(plays, MOST_PLAYS, NO_PLAYS))
    if not (SECONDS.fullmatch(seconds) and 1 <= int(seconds) <= MOST_SECONDS):
        yield fault(ReturnFault.SECONDS, "seconds", seconds, number_hint(seconds, MOST_SECONDS, NO_SECONDS, TOO_LONG))


def return_faults(body: bytes) -> list[Fault]:
    """Every fault of a return, by row; the header is row 1."""
    listed = records(body)
    header = next(listed, None)
    if header != HEADER:
        return [
            Fault(
                "return",
                ReturnFault.HEADER,
                1,
                "row",
                "header",
                text(first_line(body)[:MOST_SHOWN]),
                header_hint(body, header or []),
            )
        ]
    found: list[Fault] = []
    for row, cells in enumerate(listed, 2):
        if row - 1 > MOST_ROWS:
            found.append(Fault("return", ReturnFault.ROWS, row, "row", "rows of data", "", f"more than {MOST_ROWS:,}"))
            break
        found += row_faults(row, cells)
    return found


def looks_like_return(name: str, body: bytes) -> bool:
    """Whether a file is meant as a return and not as a file of works, by its name and by what stands in it."""
    return not (body.startswith(b"HDR") or WORKS_NAME.search(name) or WORKS_LINE.search(body))
