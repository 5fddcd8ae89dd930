"""What became of a sender's files, as CSV and as JSON: the same as in its lines."""

import csv
import io
import json
import pathlib

import pytest
import quarter
from command import run
from society_office.book.copy import open_copy
from society_office.checks import why
from society_office.formats.numbering import as_sent


@pytest.mark.parametrize("sender", sorted({it.sender for it in quarter.OFFICE.files}))
def test_what_became_of_files_as_csv_and_json(copy: pathlib.Path, sender: str) -> None:
    """Both have the files, works and faults of the lines."""
    with open_copy(copy) as it:
        told = why.story(it, sender)
    rows = list(csv.DictReader(io.StringIO(run("why", copy, sender, "--format", "csv"))))
    found = json.loads(run("why", copy, sender, "--format", "json"))
    works = [(as_sent(file.number), bad.work, bad.fault) for file in told.files for bad in file.rejected]
    assert list(dict.fromkeys((it["file"], it["work"], int(it["rejected"])) for it in rows if it["rejected"])) == works
    assert [(file["file"], bad["work"], bad["fault"]) for file in found["files"] for bad in file["rejected"]] == works
    assert {it["file"]: (it["state"], int(it["accepted"])) for it in rows} == {
        as_sent(it.number): (it.state, it.accepted) for it in told.files
    }
    places = [(it["fault"], it["line"]) for it in rows if it["line"]]
    assert places == [(str(it.number), str(it.line)) for bad in told.rejected for it in bad.own.faults]
    assert all(it["means"] for it in rows if it["rejected"]) and found["front"] == as_sent(told.line.front)
