"""Tables of very many rows are compared by thousands; a difference is told the same, wherever it stands."""

import contextlib
import pathlib
import shutil
import sqlite3

import pytest
from society_office.book.copy import open_copy
from society_office.second_office import comparing

CHANGES = {
    "UPDATE credits SET units = units + 1 WHERE pool = 2 AND line = 1": "credits",
    "DELETE FROM credits WHERE pool = 1 AND line = 0": "credits",
    "UPDATE verdicts SET fault = 7 WHERE sender = 'PB000000090' AND place = 1": "verdicts",
    "INSERT INTO balances VALUES ('Z', 1)": "balances",
}


@pytest.mark.parametrize("change, kind", CHANGES.items())
def test_a_difference_is_found_wherever_it_stands(
    copy: pathlib.Path, tmp_path: pathlib.Path, monkeypatch: pytest.MonkeyPatch, change: str, kind: str
) -> None:
    other = pathlib.Path(shutil.copy(copy, tmp_path / "other.db"))
    with contextlib.closing(sqlite3.connect(other)) as database, database:
        database.execute(change)
    with open_copy(copy) as one, open_copy(other) as two:
        for many in (1, 3, 1_000):
            monkeypatch.setattr(comparing, "MANY", many)
            found = comparing.compare(one, two) + comparing.compare(two, one)
            assert [(it.kind, it.count) for it in found] == [(kind, 1)] * 2 and comparing.compare(one, one) == []
