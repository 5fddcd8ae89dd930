"""Random chains in memory, in which the laws of what is due are asserted after each step, and chains of very many senders, rows and units.

office/bench/random_chains.py runs thousands of them.
"""

import dataclasses
import os
import subprocess
import sys
from collections import Counter

import chains
import pytest
from chains import Chain
from command import Word
from conftest import HERE
from ledger import EMPTY, Due, Order, Work, opened
from society_office.basics.errors import OfficeError
from society_office.book import own_returns
from society_office.book.copy import Copy
from society_office.book.own_returns import ROWLESS, return_of, unit_rows
from society_office.book.stored_returns import stored_returns
from society_office.checks.return_faults import return_faults
from society_office.closings import amendments, dues
from society_office.closings.amendments import orders_as_due
from society_office.closings.pool_kinds import Book
from society_office.formats.fields import MAX_BODY
from society_office.formats.plays import points
from society_office.formats.return_names import entry

COUNT = 60
ANNA = "I00000000101"
FULL = 10_000_000_000
UNITS = [1, 9_999, 10_000, 1_000_000, 1_000_001, 1_009_999, FULL - 1, FULL, FULL + 1, 3 * FULL + 1_234_567, 1_000_000_000_000]


@pytest.mark.parametrize("number", range(COUNT))
def test_a_random_chain(number: int) -> None:
    chains.run(number)


def test_chains_do_what_they_are_to_try() -> None:
    found: Counter[str] = Counter()
    for number in range(COUNT, COUNT + 20):
        found += chains.run(number).counts
    for it in ("amended", "DUE closed", "LAT closed", "sent 200", "sent 409", "refused", "not in order"):
        assert found[it] > 2, (it, found)


def test_the_same_book_and_list_give_the_same_bytes() -> None:
    def letters(seed: int) -> str:
        environment = {**os.environ, "PYTHONHASHSEED": str(seed), "PYTHONPATH": f"{HERE.parent}:{HERE}"}
        command: list[Word] = [sys.executable, HERE / "chains.py", "0", "12"]
        return subprocess.run(command, env=environment, capture_output=True, text=True, check=True).stdout

    assert letters(1) == letters(2) != ""


def rows(count: int, plays: int = 1, seconds: int = 1) -> str:
    """Rows of so many recordings."""
    return ROWLESS + "".join(f"ATABC{k:07d},{plays},{seconds}\n" for k in range(count))


def all_paid(chain: Chain, most: int) -> list[int]:
    """The units of the make-ups that pay all that is lacking."""
    found = list[int]()
    while made := chain.write_make_up(Copy(EMPTY, opened(chain.ledger.kept()))):
        assert [chain.send(it) for it in chain.letters[-2:]] == [201, 201] and len(found) < most
        found.append(made.order.amount)
    chain.check_dues()
    return found


def lacking(chain: Chain) -> int:
    """What holders still lack."""
    due = Due(chain.ledger, chain.amendments, chain.void)
    return sum(max(0, units - due.paid()[key]) for key, units in due.due()[0].items() if key[2] != "UNCLAIMED")


@pytest.mark.parametrize("most", [100, 1])
def test_of_more_rows_than_a_return_has_there_are_several(most: int, monkeypatch: pytest.MonkeyPatch) -> None:
    monkeypatch.setattr(dues, "MOST_ROWS", most)
    chain = Chain(0)
    chain.apart = False
    chain.ledger.send_return(("RADIO1", 1), rows(2 * most + 1))
    chain.ledger.close(1, Order("PR", 30_300, (), (("RADIO1", 1),)))
    named = tuple(chain.ledger.points((("RADIO1", 1),)))[: most + 1]
    chain.ledger.send_file("PB000000012", [Work("W1", named, ((ANNA, 10_000, 0),))])
    units = all_paid(chain, 3)
    assert len(units) == 2 and lacking(chain) == 0 and sum(units) >= 30_300 // 2


def test_a_return_of_the_most_rows_is_taken() -> None:
    body = return_of({f"ATABC{k:07d}": 1_000_000 for k in range(10_000)}).encode()
    assert return_faults(body) == [] and len(body) < MAX_BODY


def test_of_more_units_than_an_order_has_there_are_several() -> None:
    chain = Chain(0)
    chain.apart = False
    for k in (1, 2, 3):
        chain.ledger.send_return(("RADIO1", k), rows(2, k, 7))
        chain.ledger.close(k, Order("PR", 10**12, (), (("RADIO1", k),)))
    chain.ledger.send_file("PB000000012", [Work("W1", ("ATABC0000000", "ATABC0000001"), ((ANNA, 10_000, 0),))])
    assert all_paid(chain, 4) == [10**12] * 3 and lacking(chain) == 0


def test_as_many_senders_as_a_cut_has() -> None:
    chain = Chain(0)
    chain.apart = False
    chain.ledger.send_return(("RADIO1", 1), rows(200))
    chain.ledger.close(1, Order("PR", 20_000, (), (("RADIO1", 1),)))
    for k in range(200):
        chain.ledger.send_file(f"PB{k:09d}", [Work("W1", (f"ATABC{k:07d}",), ((f"I{k + 1:011d}", 10_000, 0),))])
    assert all_paid(chain, 2) == [20_000] and lacking(chain) == 0


@pytest.mark.parametrize("shared", [False, True])
def test_of_more_senders_than_a_cut_has(shared: bool) -> None:
    chain = Chain(0)
    chain.apart = False
    chain.ledger.send_return(("RADIO1", 1), rows(300))
    chain.ledger.close(1, Order("PR", 30_000, (), (("RADIO1", 1),)))
    for k in range(300):
        isrcs = (f"ATABC{k:07d}", f"ATABC{(k + 1) % 300:07d}")[: 2 if shared and k % 3 == 0 else 1]
        chain.ledger.send_file(f"PB{k:09d}", [Work("W1", isrcs, ((f"I{k + 1:011d}", 10_000, 0),))])
    assert len(all_paid(chain, 5)) == 2 and lacking(chain) == 0
    due = Due(chain.ledger, [], set()).paid()
    assert sum(units for key, units in due.items() if key[2] != "UNCLAIMED") == (20_000 if shared else 30_000)


@pytest.mark.parametrize("units", UNITS)
def test_rows_have_the_points_of_units(units: int) -> None:
    listed = list(unit_rows("ATABC2600001", units))
    body = (ROWLESS + "".join(listed)).encode()
    assert return_faults(body) == [] and points(body) == {"ATABC2600001": units} and len(listed) <= units // FULL + 2


HOUSE, A, B, C = "PB000000012", "ATABC0000000", "ATABC0000001", "ATABC0000002"


def prepared(*pools: tuple[str, int, bool, str]) -> Chain:
    """An office in which Anna has three recordings, and pools of a right and an amount, whose cut counts her work or not, over some."""
    chain = Chain(0)
    chain.apart = False
    chain.ledger.send_file(HOUSE, [Work("W1", (A, B, C), ((ANNA, 10_000, 10_000),))])
    for pool, (right, amount, counts, isrcs) in enumerate(pools, 1):
        chain.ledger.send_return(("RADIO1", pool), ROWLESS + "".join(f"{it},1,1\n" for it in isrcs.split()))
        chain.ledger.close(pool, Order(right, amount, ((HOUSE, 1),) if counts else (), (("RADIO1", pool),)))
    return chain


def amend(chain: Chain, pool: int, amount: int) -> None:
    number, was = 99_999 - len(chain.amendments), chain.ledger.pools[pool]
    chain.amendments.append((number, pool, Order(was.right, amount, was.cut, was.returns)))
    chain.ledger.send_return((f"AMEND{pool}", number), ROWLESS)
    assert chain.ledger.close(number, Order(was.right, 0, was.cut, ((f"AMEND{pool}", number),))) == 201


def next_of(chain: Chain) -> tuple[str, dict[str, int]]:
    """What the next order is of, and the units of its recordings."""
    made = chain.write_make_up(Copy(EMPTY, opened(chain.ledger.kept())))
    assert made is not None
    return made.way.reporter, dict(chain.ledger_points(made.body))


def test_what_may_change_is_paid_by_the_newest_cut_alone() -> None:
    chain = prepared(("PR", 1_000, False, A), ("PR", 1_000, True, f"{A} {B}"))
    amend(chain, 2, 11_000)
    assert next_of(chain) == ("DUE", {A: 5_000, B: 5_000})


def test_what_may_change_is_needed_by_the_order_that_pays_it_alone() -> None:
    chain = prepared(("PR", 1_000, False, A), ("PR", 1_500, True, B), ("PR", 100, True, C))
    amend(chain, 2, 500)
    amend(chain, 3, 700)
    assert next_of(chain) == ("LATE", {A: 600})


def test_what_may_change_of_a_recording_is_no_room_of_another_order() -> None:
    chain = prepared(("PR", 100, False, A), *(("PR", 1_000, True, it) for it in (A, B, C)))
    for pool, amount in ((2, 1_500), (3, 3_000), (4, 700)):
        amend(chain, pool, amount)
    assert next_of(chain) == ("DUE", {A: 500, B: 1_700})


def test_what_may_change_in_another_right_is_needed_by_another_order() -> None:
    chain = prepared(("PR", 300, False, A), ("MR", 700, False, A), ("PR", 1_500, True, B))
    amend(chain, 3, 1_400)
    copy = Copy(EMPTY, opened(chain.ledger.kept()))
    book = Book(copy)
    found = dues.Dues(copy, book, orders_as_due(book, chain.listed, []), chain.ask)
    made = chain.write_make_up(copy)
    assert made is not None and made.order.kind == "MR" and made.order.amount == 600
    other = dataclasses.replace(made, way=dataclasses.replace(made.way, right="PR"))
    assert found.beyond(other, {(A, ANNA): 200}) == [] and found.beyond(made, {(A, ANNA): 600}) == []
    assert found.beyond(other, {(A, ANNA): 201}) == [f"201 units to {ANNA}, which lacks 200 in all"]


def test_what_a_recording_pays_is_needed_no_more() -> None:
    chain = prepared(("PR", 1_000, True, f"{A} {B}"), ("PR", 1_500, True, C))
    amend(chain, 1, 2_000)
    amend(chain, 2, 800)
    assert next_of(chain) == ("DUE", {A: 300})


@pytest.mark.parametrize(
    "weights, rooms, units",
    [
        # All that is lacking, where its split is just that, to the last unit.
        ([3_333, 3_333, 3_334, 0], [333, 333, 334, 0], 1_000),
        ([3_333, 3_333, 3_334, 0], [333, 333, 332, 0], 995),
        ([5_000, 5_000, 0], [3, 2, 0], 5),
        ([5_000, 5_000, 0], [2, 3, 0], 4),
        ([10_000, 0, 0], [7, 0, 0], 7),
        ([9_999, 1, 0], [6_000, 0, 0], 0),
        # Up to a half is nobody's without a limit, more than that no more than nobody lacks.
        ([5_000, 5_000], [500, 0], 1_000),
        ([4_999, 5_001], [500, 0], 0),
        ([4_000, 6_000], [400, 300], 500),
        ([4_000, 6_000], [400, 301], 501),
        ([4_000, 6_000], [400, 600], 1_000),
        ([4_000, 6_000], [0, 600], 0),
        ([10_000], [85], 85),
        ([10_000], [0], 0),
    ],
)
def test_the_units_of_a_recording(weights: list[int], rooms: list[int], units: int) -> None:
    names = [*(f"I{k:011d}" for k in range(1, len(weights))), "UNCLAIMED"]
    assert dues.fitting(list(zip(names, weights)), dict(zip(names, rooms)), 10**12) == units
    assert dues.fitting(list(zip(names, weights)), dict(zip(names, rooms)), units // 2) <= units // 2


def test_of_ways_that_pay_the_same_units_one_is_next() -> None:
    chain = prepared(("PR", 500, False, A), ("MR", 500, False, B))
    made = chain.write_make_up(Copy(EMPTY, opened(chain.ledger.kept())))
    assert made is not None and made.order.kind == "MR"
    chain = prepared(("PR", 500, False, A), ("PR", 500, True, B))
    amend(chain, 2, 1_000)
    assert next_of(chain) == ("LATE", {A: 500})
    chain = prepared(("PR", 500, True, A), ("PR", 500, True, B))
    chain.ledger.send_file("PB000000034", [])
    chain.ledger.send_return(("RADIO1", 3), f"{ROWLESS}{C},1,1\n")
    chain.ledger.close(3, Order("PR", 500, ((HOUSE, 1), ("PB000000034", 1)), (("RADIO1", 3),)))
    amend(chain, 1, 1_000)
    amend(chain, 3, 1_000)
    assert next_of(chain) == ("DUE", {C: 500})


def test_the_first_make_up_that_has_an_owner_counts() -> None:
    chain = prepared(("PR", 1_000, False, A))
    chain.ledger.send_file("PB000000034", [Work("W1", (A,), (("I00000000102", 10_000, 10_000),))])
    chain.ledger.send_file(HOUSE, [Work("W1", (B,), ((ANNA, 10_000, 10_000),))])
    cuts = ((HOUSE, 1), ("PB000000034", 1)), ((HOUSE, 1),), ((HOUSE, 2), ("PB000000034", 1))
    for k, cut in enumerate(cuts):
        chain.ledger.send_return((f"LATE0000000{k}", 99_999 - k), f"{ROWLESS}{A},100,1\n")
        assert chain.ledger.close(99_999 - k, Order("PR", 100, cut, ((f"LATE0000000{k}", 99_999 - k),))) == 201
    # At the first cut two works name it, at the second Anna's alone, at the third the other one's.
    chain.check_dues()
    assert next_of(chain) == ("LATE", {A: 900})


def of_ledger(chain: Chain) -> Book:
    """The book of a chain as it is."""
    return Book(Copy(EMPTY, opened(chain.ledger.kept())))


def test_a_pool_over_an_own_return_and_plays_is_of_people() -> None:
    chain = prepared(("PR", 1_000, False, A))
    chain.ledger.send_return(("LATE00000001", 5), f"{ROWLESS}{A},100,1\n")
    chain.ledger.send_return(("RADIO1", 9), f"{ROWLESS}{B},100,1\n")
    assert chain.ledger.close(5, Order("PR", 400, ((HOUSE, 1),), (("LATE00000001", 5), ("RADIO1", 9)))) == 201
    assert of_ledger(chain).is_play(5) and of_ledger(chain).late("PR") == []
    chain.check_dues()


def test_an_amendment_under_a_wrong_number_amends_nothing() -> None:
    chain = prepared(("PR", 1_000, True, A))
    chain.ledger.send_return(("AMEND1", 99_999), ROWLESS)
    assert chain.ledger.close(5, Order("PR", 0, (), (("AMEND1", 99_999),))) == 201
    chain.check_dues()
    assert of_ledger(chain).amending == {} and of_ledger(chain).next_number() == 99_998


def test_what_an_amendments_pool_has_credited_is_paid() -> None:
    chain = prepared(("PR", 1_000, True, A))
    chain.amendments.append((99_999, 1, chain.ledger.pools[1]))
    chain.ledger.send_return(("AMEND1", 99_999), f"{ROWLESS}{A},1,1\n")
    assert chain.ledger.close(99_999, Order("PR", 300, ((HOUSE, 1),), (("AMEND1", 99_999),))) == 201
    chain.check_dues()


def test_rounds_of_before_own_in_the_order_of_their_pools() -> None:
    chain = prepared(("PR", 1_000, False, A))
    own = ("SETTLED", 1, 2), ("SETTLED", 2, 3), ("LATE00000001", 99_998, 99_998), ("LATE00000002", 99_999, 99_999)
    for reporter, number, pool in own:
        chain.ledger.send_return((reporter, number), f"{ROWLESS}{A},1,1\n")
        assert chain.ledger.close(pool, Order("PR", 1, ((HOUSE, 1),), ((reporter, number),))) == 201
    assert of_ledger(chain).late("PR") == [2, 3, 99_999, 99_998] and of_ledger(chain).late("MR") == []


def test_a_correction_of_before_of_a_pool_that_is_not_there_asks_for_nothing() -> None:
    chain = prepared(("PR", 1_000, True, A))
    chain.ledger.send_return(("CORRECTED7", 7), ROWLESS)
    chain.check_dues()


def test_numbers_end() -> None:
    book = of_ledger(prepared(("PR", 1_000, True, A)))
    book.paid_by[own_returns.amends(99_999), 3] = 3
    assert book.next_number() == 2
    book.paid_by[own_returns.amends(99_999), 2] = 2
    # (pool 1 is of people)
    with pytest.raises(OfficeError, match="all pool numbers from 99,999 down are used"):
        book.next_number()


def test_whoever_has_too_much_in_all_is_paid_nothing_of_a_recording() -> None:
    chain = prepared(("PR", 1_000, True, A), ("PR", 1_000, True, B))
    amend(chain, 1, 1_200)
    amend(chain, 2, 500)
    book = of_ledger(chain)
    found = dues.Dues(Copy(EMPTY, opened(chain.ledger.kept())), book, orders_as_due(book, chain.listed, []), chain.ask)
    made = found.make_up(True)
    assert made is not None and made.order.amount == 200 and found.make_up() is None
    assert found.beyond(made, {(A, ANNA): 200}, True) == []
    assert found.beyond(made, {(A, ANNA): 200}) == [f"200 units to {ANNA}, which lacks 0 in all"]


def test_amended_pools_where_more_have_files_than_a_cut_has(monkeypatch: pytest.MonkeyPatch) -> None:
    monkeypatch.setattr(dues, "MOST_SENDERS", 4)
    chain = Chain(0)
    chain.apart = False
    for pool, first in ((1, 0), (2, 4)):
        chain.ledger.send_return(("RADIO1", pool), ROWLESS + "".join(f"ATABC{k:07d},1,1\n" for k in range(first, first + 4)))
        chain.ledger.close(pool, Order("PR", 400 * pool, (), (("RADIO1", pool),)))
        amend(chain, pool, 800 * pool)
    for k in range(8):
        chain.ledger.send_file(f"PB{k:09d}", [Work("W1", (f"ATABC{k:07d}",), ((f"I{k + 1:011d}", 10_000, 0),))])
    assert all_paid(chain, 3) == [1_600, 800] and lacking(chain) == 0


def test_what_may_change_where_more_have_files_than_a_cut_has(monkeypatch: pytest.MonkeyPatch) -> None:
    monkeypatch.setattr(dues, "MOST_SENDERS", 1)
    chain = prepared(("PR", 1_000, False, A), ("PR", 1_000, True, f"{A} {B}"))
    chain.ledger.send_file("PB000000034", [])
    amend(chain, 2, 11_000)
    assert next_of(chain) == ("DUE", {A: 5_000, B: 5_000})


def test_an_order_is_amended_up_to_its_limits(monkeypatch: pytest.MonkeyPatch) -> None:
    monkeypatch.setattr(amendments, "MOST_SENDERS", 1)
    chain = prepared(("PR", 1_000, True, A))
    copy, book = Copy(EMPTY, opened(chain.ledger.kept())), of_ledger(chain)
    found = amendments.amended(copy, book.orders, 1, amendments.Changes(10**12), stored_returns(copy), [])
    assert (found.amount, found.cut) == (10**12, [(HOUSE, 1)])
    with pytest.raises(OfficeError, match="an amount is 0 to 1,000,000,000,000 units"):
        amendments.amended(copy, book.orders, 1, amendments.Changes(10**12 + 1), stored_returns(copy), [])


def test_a_return_of_a_pool_that_is_due_no_more_is_moved() -> None:
    chain = prepared(("PR", 1_000, True, A), ("PR", 500, True, B))
    amend(chain, 1, 0)
    copy, book = Copy(EMPTY, opened(chain.ledger.kept())), of_ledger(chain)
    changes = amendments.Changes(1_500, returns=[entry("RADIO1/1-2", "--returns")])
    should = amendments.amended(copy, orders_as_due(book, chain.listed, []), 2, changes, stored_returns(copy), [])
    order = Order("PR", 1_500, ((HOUSE, 1),), (("RADIO1", 1), ("RADIO1", 2)))
    assert (should.amount, tuple(should.returns)) == (order.amount, order.returns)
    chain.amendments.append((99_998, 2, order))
    chain.ledger.send_return(("AMEND2", 99_998), ROWLESS)
    assert chain.ledger.close(99_998, Order("PR", 0, order.cut, (("AMEND2", 99_998),))) == 201
    chain.check_dues()


def test_what_a_way_does_not_pay_is_no_room_for_it() -> None:
    chain = prepared(("PR", 1_000, False, A), ("PR", 1_000, True, f"{A} {B}"))
    amend(chain, 2, 11_000)
    book = of_ledger(chain)
    found = dues.Dues(Copy(EMPTY, opened(chain.ledger.kept())), book, orders_as_due(book, chain.listed, []), chain.ask)
    made = found.make_up()
    # (1,000 units more of the first are due by the newest cut alone)
    assert made is not None and made.way.reporter == "DUE" and found.difference["PR", A, ANNA] == 6_000
    assert found.beyond(made, {(A, ANNA): 5_500, (B, ANNA): 5_000}) == [
        f"5,500 units of {A} to {ANNA}, which lacks 5,000 of it",
        f"10,500 units to {ANNA}, which lacks 10,000 in all",
    ]


def test_what_is_not_given_of_an_order_stays() -> None:
    chain = prepared(("MR", 1_000, True, A))
    copy, book = Copy(EMPTY, opened(chain.ledger.kept())), of_ledger(chain)
    for changes in (amendments.Changes(), amendments.Changes(cut=["now"]), amendments.Changes(kind="MR")):
        assert amendments.amended(copy, book.orders, 1, changes, stored_returns(copy), []) == book.orders[1]
    assert amendments.amended(copy, book.orders, 1, amendments.Changes(0, "PR"), stored_returns(copy), []).json.startswith('{"amount":0,')
