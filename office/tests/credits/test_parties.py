"""Parties and senders: which of their names a statement has."""

import collections
import json
import pathlib

import quarter
import reckoning
from command import run
from conftest import further
from office_value import File, Pool, Return, Step
from society_office.book.copy import open_copy
from society_office.book.page_sums import changed
from society_office.credits import parties, statements
from society_office.works.records import sender_names


def test_the_name_that_most_works_have_comes_first() -> None:
    writings = collections.Counter(
        {("ANNA W.", "writer"): 1, ("ANNA WRITER", "writer"): 2, ("ANNA WRITER", "publisher"): 1, ("", "writer"): 9}
    )
    found = parties.named("I00000000295", writings, 13)
    assert (found.name, found.others, found.sides, found.works, found.ipi) == (
        "ANNA WRITER",
        ["ANNA W."],
        ["publisher", "writer"],
        13,
        "00000000295",
    )


def test_names_and_sums_that_are_equal_are_in_the_order_of_their_words() -> None:
    found = parties.named("I1", collections.Counter({("B", "writer"): 1, ("", "writer"): 9, ("A", "writer"): 1}), 2)
    assert (found.name, found.others) == ("A", ["B"])
    sums = statements.greatest_first({("B", "2"): 5, ("A", "1"): 5, ("C", "3"): 7}.items())
    assert [it.words[0] for it in sums] == ["C", "A", "B"]


def test_a_statement_has_the_name_of_the_last_work_that_was_credited(copy: pathlib.Path, tmp_path: pathlib.Path, program: str) -> None:
    steps: list[Step] = [
        File(quarter.ALPHA, 4, "transmissions/4", [quarter.rev("A2", "SONG", "ATABC2600002", quarter.writer("B/7", "NEW", "BORIS"))]),
        Return("RADIO9", 1, [("ATABC2600002", 3, 7)]),
        Pool(6, "PR", 50, {**quarter.LAST_CUT, quarter.ALPHA: 4}, [("RADIO9", 1)]),
    ]
    then = further(program, copy, [quarter.OFFICE.request(it) for it in steps], tmp_path / "then.db")
    assert run("statement", copy, "PPB000000012B/7").startswith("PPB000000012B/7 BORIS COMPOSER\n")
    assert run("statement", then, "PPB000000012B/7").startswith("PPB000000012B/7 BORIS NEW\n")


def test_the_name_of_a_sender_is_that_of_its_last_file(copy: pathlib.Path) -> None:
    with changed(copy) as database:
        [(body,)] = database.execute("SELECT body FROM transmissions WHERE sender = ? AND number = 1", (quarter.ALPHA,)).fetchall()
        database.execute(
            "UPDATE transmissions SET body = ? WHERE sender = ? AND number = 1",
            (body.replace(b"ALPHA MUSIC", b"OLD MUSIC  ", 1), quarter.ALPHA),
        )
    with open_copy(copy) as opened:
        assert sender_names(opened) == quarter.NAMES


def test_parties(copy: pathlib.Path) -> None:
    with open_copy(copy) as opened:
        found = {it.account: it for it in parties.parties(opened)}
    assert found["I00000000295"].name == "ANNA WRITER" and found["I00000000295"].sides == ["writer"]
    assert found["I00000000555"].name == "ÖDÖN ÄRGER"
    assert found["PPB000000012B/7"].number == "B/7" and found["PPB000000012B/7"].sender == quarter.ALPHA
    assert json.loads(run("parties", copy, "--format", "json"))[0]["account"] == "I00000000199"
    last = reckoning.versions(quarter.OFFICE, quarter.OFFICE.fronts())
    wanted = {reckoning.account(sender, it) for (sender, _), work in last.items() for it in work.parties}
    assert set(found) == wanted - {reckoning.NOBODY}
