"""What is due as it is told: by account and recording, and of an order that is rehearsed what it pays beyond that."""

import pathlib

import pytest
from chains import Chain
from ledger import EMPTY, Order, Work, opened
from society_office.basics import terminal
from society_office.book.copy import Copy
from society_office.book.own_returns import ROWLESS
from society_office.closings import dues_output, rehearsal
from society_office.closings.amendments import orders_as_due
from society_office.closings.dues import Dues
from society_office.closings.pool_kinds import Book
from society_office.decided.decisions import Decisions
from test_chains import ANNA, HOUSE, A, B, amend, prepared

BORIS = "I00000000102"


def due_of(chain: Chain) -> Dues:
    """What is due by a chain as it is."""
    copy = Copy(EMPTY, opened(chain.ledger.kept()))
    book = Book(copy)
    return Dues(copy, book, orders_as_due(book, chain.listed, []), chain.ask)


def test_what_an_account_is_due_of_a_recording_in_each_right() -> None:
    chain = prepared(("PR", 1_000, True, A), ("PR", 500, True, f"{A} {B}"), ("MR", 300, True, A))
    amend(chain, 1, 1_100)
    amend(chain, 2, 900)
    found = due_of(chain)
    listed = [(*it.words, it.due, it.paid) for it in dues_output.recordings(found.copy, found, ANNA)]
    assert listed == [("MR", A, 300, 300), ("PR", A, 1_550, 1_250), ("PR", B, 450, 250)]
    of_one = [(*it.words, it.due, it.paid) for it in dues_output.recordings(found.copy, found, ANNA, 2)]
    assert of_one == [("PR", A, 450, 250), ("PR", B, 450, 250)]


def test_nobody_is_no_account_that_lacks(capsys: pytest.CaptureFixture[str]) -> None:
    listed = [dues_output.Line(it, due, paid) for it, due, paid in ((("UNCLAIMED", ""), 9, 0), ((ANNA, ""), 7, 2), (("I1", ""), 3, 3))]
    dues_output.show(terminal.console(), listed, dues_output.COLUMNS)
    said = capsys.readouterr().out
    assert "lacking: 5 units of 1 account\n" in said and "too much" not in said and "written off was credited" not in said


def test_sums_of_an_account_count_recordings(capsys: pytest.CaptureFixture[str]) -> None:
    listed = [dues_output.Line(("PR", it), due, paid) for it, due, paid in ((A, 9, 2), (B, 0, 1_001), ("ATABC0000002", 5, 6), ("-", 3, 3))]
    dues_output.show(terminal.console(), listed, dues_output.OF_ACCOUNT)
    sums = ["lacking: 7 units of 1 recording", "too much: 1,002 units of 2 recordings"]
    assert [it for it in capsys.readouterr().out.splitlines() if ": " in it] == sums


def made_up(chain: Chain, number: int, units: int, rows: str) -> None:
    """Closes a make-up over these rows, at the first cut."""
    chain.ledger.send_return(("DUE00000001", number), ROWLESS + rows)
    assert chain.ledger.close(number, Order("PR", units, ((HOUSE, 1),), (("DUE00000001", number),))) == 201


def test_what_is_beyond_of_one_recording_is_not_set_off_by_another() -> None:
    chain = prepared(("PR", 1_000, True, A), ("PR", 1_000, True, B))
    amend(chain, 1, 1_100)
    amend(chain, 2, 1_500)
    made_up(chain, 99_997, 300, f"{A},200,1\n{B},100,1\n")
    assert rehearsal.beyond_dues(due_of(chain), 99_997) == {ANNA: 100}


def test_what_a_make_up_pays_beyond_and_what_it_leaves_is_told(monkeypatch: pytest.MonkeyPatch) -> None:
    chain = Chain(0)
    chain.ledger.send_file(HOUSE, [Work("W1", (A,), ((ANNA, 4_000, 0), (BORIS, 4_000, 0)))])
    chain.ledger.send_return(("RADIO1", 1), f"{ROWLESS}{A},1,1\n")
    chain.ledger.close(1, Order("PR", 1_000, ((HOUSE, 1),), (("RADIO1", 1),)))
    amend(chain, 1, 2_000)
    monkeypatch.setattr(rehearsal, "asking", lambda program, copy: chain.ask)
    monkeypatch.setattr(rehearsal, "MOST_TOLD", 1)

    def told(pool: int) -> list[str]:
        known = Decisions(pathlib.Path(), [], chain.listed, {}, [], {})
        return list(rehearsal.notes_on_dues(Copy(EMPTY, opened(chain.ledger.kept())), pool, known, ""))

    assert told(99_999) == ["800 units more are due to 2 accounts: `society-office dues --next` writes their order"]
    made_up(chain, 99_998, 1_500, f"{A},1500,1\n")
    assert told(99_998) == [f"200 units to {ANNA} are beyond what is due", "and so are units to 1 more account, 400 units in all"]
    monkeypatch.setattr(rehearsal, "MOST_TOLD", 2)
    assert told(99_998) == [f"200 units to {it} are beyond what is due" for it in (ANNA, BORIS)]
