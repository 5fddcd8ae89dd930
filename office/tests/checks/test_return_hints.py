"""What `check` says of what spreadsheets and people do to a return."""

import pytest
from society_office.checks.return_faults import return_faults

HEADER = "isrc,plays,seconds\r\n"
HEADERS = [
    ("isrc;plays;seconds\r\n", "semicolons stand between the fields"),
    ('"isrc,plays,seconds"\r\n"ATABC2600001,3,180"\r\n', "quotation marks stand around the whole row"),
    ("Plays of May\r\n" + HEADER, "the header stands in row 2: delete what is above it"),
    ("sep=,\r\n\r\n" + HEADER, "the header stands in row 2: delete what is above it"),
    ("isrc,plays,seconds,title\r\n", "keep these three columns alone, in this order"),
    ("ISRC,Seconds,Plays\r\n", "keep these three columns alone, in this order"),
    ("ISRC, Plays,Seconds\r\n", "the words are right: write them in small letters and without blanks"),
    ("isrc,plays,seconds,,\r\n", "empty columns stand beside it"),
    ("isrc\tplays\tseconds\r\n", "tabs stand between the fields"),
    ("ATABC2600001,3,180\r\n", "the first row is data"),
    ("PK\x03\x04", "this is a workbook (.xlsx) or another zip"),
    ("\xd0\xcf\x11\xe0\xa1", "this is a workbook (.xls)"),
    ("\x1f\x8b\x08", "this was compressed by gzip"),
    ("\xff\xfei\0", "this is UTF-16"),
]
ROWS = [
    ("ATABC2600001 ,3,180", "blanks around it"),
    (" AT-ABC-26-00001,3,180", "blanks around it"),
    ("AT ABC 26 00001,3,180", "written ATABC2600001 it is right"),
    ("ISRC AT-ABC-26-00001,3,180", "written ATABC2600001 it is right"),
    ("isrc:ATABC2600001,3,180", "written ATABC2600001 it is right"),
    ("AT\u0410BC2600001,3,180", "character 3 is U+0410, none of A-Z and 0-9, though it may look like one"),
    ("ATABC2600001\u200b,3,180", "character 13 is U+200B"),
    ("ATABC260OOO1,3,180", "the last seven have to be digits"),
    ("Total,3,180", "it has 5 letters and digits, and needs 12"),
    (",3,180", "the cell is empty: delete the row"),
    (",,", "an empty row of the spreadsheet"),
    ("ATABC2600001;3;180", "the semicolons are no commas"),
    ('"ATABC2600001,3,180"', "quotation marks stand around the whole row"),
    ('"ATABC2600001,3,180', "quotation marks stand around the whole row, or one is not closed"),
    ("ATABC2600001,3,180,,", "empty columns stand beside it"),
    ("ATABC2600001,1,000,180", "a comma within a number or a name makes one field two"),
    ('ATABC2600001,"1,000",180', "separators between thousands"),
    ("ATABC2600001,1.000,180", "points between thousands"),
    ("ATABC2600001,1E+05,180", "a number in powers of ten"),
    ('ATABC2600001,"1,00E+05",180', "a number in powers of ten"),
    ("ATABC2600001,0,180", "leave out rows without plays"),
    ("ATABC2600001,00000003,180", "zeros before it: leave them out"),
    ("ATABC2600001,-3,180", "a negative number"),
    ("ATABC2600001,###,180", "the column was too narrow"),
    ("ATABC2600001,3\u00a0,180", "blanks around it"),
    ("ATABC2600001,3,0", "look the length up, or delete the row"),
    ("ATABC2600001,3,180000", "the seconds of one play, not of all, and no milliseconds"),
    ("ATABC2600001,3," + "9" * 5_000, "the seconds of one play, not of all, and no milliseconds"),
    ("ATABC2600001,3,180 s", "a unit behind it: write the number alone"),
    ("ATABC2600001,3,3:00", "a time: write it in seconds"),
    ('ATABC2600001,3,"180,5"', "a fraction: round it to whole numbers"),
    ("ATABC2600001,3,180.00", "decimals: format the column"),
    ("ATABC2600001,3,#N/A", "an error of the spreadsheet's formula"),
    ("ATABC2600001,3,", "the cell is empty"),
]


@pytest.mark.parametrize("body, hint", HEADERS)
def test_what_was_done_to_a_header(body: str, hint: str) -> None:
    (found,) = return_faults(body.encode("latin-1"))
    assert (found.number, found.hint[: len(hint)]) == (1, hint)


@pytest.mark.parametrize("row, hint", ROWS)
def test_what_was_done_to_a_row(row: str, hint: str) -> None:
    (found,) = return_faults((HEADER + row + "\r\n").encode())
    assert (found.line, found.hint[: len(hint)]) == (2, hint)
