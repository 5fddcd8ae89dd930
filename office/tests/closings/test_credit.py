"""`society credit` beside a reckoning by hand, and beside what pools were credited."""

import collections
import io
import json
import pathlib
import subprocess

import credit_by_hand
import pytest
import quarter
import random_office
import reckoning
from conftest import OFFICE, made
from office_value import File, Office, Pool, Return, order_body
from society_office.basics.errors import OfficeError
from society_office.book.copy import open_copy
from society_office.book.own_returns import ROWLESS
from society_office.closings import credit
from society_office.closings.credit import Asked, asking
from society_office.closings.dues import Dues
from society_office.closings.orders import Order
from society_office.closings.pool_kinds import Book

COUNT = 12


def lines_for(office: Office) -> list[str]:
    """Orders as they were closed, in the other right at the newest cut, of some recordings, and wrong ones."""
    found = []
    for it in office.pools.values():
        later = it._replace(cut=office.fronts(), right="MR" if it.right == "PR" else "PR")
        some = json.dumps({**json.loads(order_body(it)), "isrcs": random_office.RECORDINGS[:4]})
        unknown = it._replace(returns=[*it.returns, ("NONE", 7)])
        too_far = it._replace(cut={**it.cut, **{key: 999_999 for key in list(office.fronts())[:1]}})
        found += [order_body(one).decode() for one in (it, later, unknown, too_far)] + [some, "{", '{"amount":1}']
    return found


@pytest.mark.parametrize("number", range(COUNT))
def test_the_program_answers_what_a_reckoning_says(number: int, folder: pathlib.Path, program: str) -> None:
    office = random_office.office(number)
    copy, lines = made(program, office, folder), lines_for(office)
    done = subprocess.run([program, "credit", "--db", copy, *OFFICE], input="\n".join(lines).encode(), capture_output=True, check=False)
    out, errors = io.StringIO(), io.StringIO()
    status = credit_by_hand.answer(copy, lines, out, errors)
    assert (done.returncode, done.stdout.decode(), done.stderr.decode()) == (status, out.getvalue(), errors.getvalue())


def test_an_order_of_a_closed_pool_gives_its_credits(copy: pathlib.Path, program: str) -> None:
    with open_copy(copy) as opened:
        book, ask = Book(opened), asking(program, opened)
        answers = ask([Asked(it) for it in book.orders.values()])
        for pool, rows in zip(book.orders, answers):
            credited = list(opened.rows("SELECT isrc, account, units FROM credits WHERE pool = ? ORDER BY line", pool))
            assert [(it.isrc, it.account, it.part) for it in rows] == credited
            assert sum(it.part for it in rows) == book.orders[pool].amount


def test_what_a_pool_would_credit_is_the_sum_of_an_accounts_lines(program: str, tmp_path: pathlib.Path) -> None:
    isrc, anna = "ATABC2600001", "I00000000295"
    holders = [quarter.writer(number, "WRITER", "ANNA", anna[1:]) for number in ("A1", "A2")]
    works = File(quarter.ALPHA, 1, "transmissions/1", [quarter.nwr("W1", "SONG", isrc, *holders)])
    with open_copy(made(program, Office(quarter.NAMES, [works]), tmp_path)) as opened:
        returned = ("RADIO1", 2)
        order = Order("PR", 1_001, [(quarter.ALPHA, 1)], [returned])
        found = credit.closed(program, opened, 7, order, returned, f"{ROWLESS}{isrc},1,1\n")
    assert found == {(isrc, anna): 1_001, (isrc, "UNCLAIMED"): 0}


def test_what_a_pool_would_credit_is_what_it_credits(copy: pathlib.Path, program: str) -> None:
    plays = Return("RADIO8", 1, [(it, 3, 77) for it in ("ATABC2600001", "ATABC2600010", "FREPS2600001", "FREPS2600002", "ZZZZZ2600001")])
    pool, wanted = Pool(6, "PR", 98_765, quarter.LAST_CUT, [("RADIO8", 1)]), collections.Counter[tuple[str, str]]()
    for isrc, account, units in reckoning.credits(quarter.OFFICE.with_steps(plays, pool), 6):
        wanted[isrc, account] += units
    order, body = Order("PR", pool.amount, sorted(pool.cut.items()), pool.returns), quarter.OFFICE.request(plays)[1].decode()
    with open_copy(copy) as opened:
        assert credit.closed(program, opened, 6, order, pool.returns[0], body) == wanted


def test_more_recordings_than_a_line_takes(copy: pathlib.Path, program: str, monkeypatch: pytest.MonkeyPatch) -> None:
    with open_copy(copy) as opened:
        book, ask = Book(opened), asking(program, opened)
        [whole] = list(ask([Asked(book.orders[1])]))
        monkeypatch.setattr(credit, "MOST_NAMED", 2)
        isrcs = sorted({it.isrc for it in whole})
        assert list(ask([Asked(book.orders[3], []), Asked(book.orders[1], isrcs), Asked(book.orders[3], [])])) == [[], whole, []]
        found = Dues(opened, book, book.orders, ask)
        assert found.difference and not found.changed


def test_a_refusal_is_told(copy: pathlib.Path, program: str) -> None:
    with open_copy(copy) as opened:
        order = Book(opened).orders[1]
        order.cut[:] = [(quarter.ALPHA, 99)]
        with pytest.raises(OfficeError, match="cut PB000000012 front 3"):
            list(asking(program, opened)([Asked(order)]))
