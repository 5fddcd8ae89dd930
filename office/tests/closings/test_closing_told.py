"""What is told of orders that were begun, closed or given up at an office: who has asked, under which number, and what differs."""

import pathlib

import pytest
from society_office.closings import closing
from society_office.decided import decisions, journal
from society_office.offices import answered
from test_closing import told


def test_who_has_asked_for_an_order_is_who_has_asked_last(decided: pathlib.Path, monkeypatch: pytest.MonkeyPatch) -> None:
    it = closing.Plan(b'{"amount":5,"cut":[],"returns":[]}', {"amount": 5}, 6)
    closing.begin(decisions.read(decided), it, "why")
    # (a line that begins a pool has its sum too)
    assert closing.asked_by(decisions.read(decided).journal, it.body) is None
    for name, file in (("anna", "an order, the second.json"), ("bert", "order.json")):
        monkeypatch.setattr(journal, "who", lambda name=name: name)
        closing.ask_for(decisions.read(decided), it, pathlib.Path(file), "why")
        found = closing.asked_by(decisions.read(decided).journal, it.body)
        assert found and (found.who, list(found.sums.values())) == (name, [journal.sum_of(it.body)])
    monkeypatch.setattr(closing, "who", lambda: "anna")
    assert closing.need_second(decisions.read(decided).journal, it.body).who == "bert"


def test_two_calls_that_end_it_write_one_line(decided: pathlib.Path) -> None:
    it = closing.Plan(b"{}", {"amount": 5}, 6)
    for word in ("closed", "closed", "gave up", "gave up", "closed"):
        closing.end(decided, word, it, "why")
    assert [it.partition(" pool")[0] for it in told(decided)] == ["closed", "gave up", "closed"]


def test_which_numbers_are_asked_for() -> None:
    assert answered.numbers_beside([], 99) == [1, 2, 3]
    assert answered.numbers_beside([1, 2, 4, 7], 99) == [8, 9, 10, 6, 5, 3]
    assert answered.numbers_beside(range(1, 98), 99) == [98, 99]
    assert answered.numbers_beside([60], 99) == [61, 62, 63, 59, 58, 57, 56, 55]


def test_the_first_credit_that_differs_is_told() -> None:
    was, now = [("A", "X", 5), ("B", "X", 8)], [("A", "X", 7), ("B", "X", 8)]
    assert closing.difference(was, now) == "rehearsed were 5 units of A for X, and the office has credited 7 units of A for X"
    assert closing.difference(was, was[:1]) == "rehearsed were 8 units of B for X, and the office has credited no more"
    assert closing.difference(was, was) == ""
    other = [("A", "Y", 5), ("B", "X", 8)]
    assert closing.difference(was, other) == "rehearsed were 5 units of A for X, and the office has credited 5 units of A for Y"


def test_the_right_of_an_order_is_told(decided: pathlib.Path) -> None:
    kinds: tuple[tuple[dict[str, str], str], ...] = (({}, "PR"), ({"kind": "MR"}, "MR"))
    for kind, right in kinds:
        it = closing.Plan(b"{}", {**kind, "amount": 5_000, "returns": []}, 6)
        closing.ask_for(decisions.read(decided), it, decided / "order.json", "why")
        assert it.words == f"pool 6: 5,000 units of the {right}" and told(decided)[-1] == f"asked for a pool: 5,000 units of the {right}"


def test_of_returns_of_the_office_those_of_the_pools_number_are_sent() -> None:
    returns = [["AMEND1", 6], ["LATE00000001", 7], ["RADIO1", 6]]
    assert closing.Plan(b"{}", {"amount": 5, "returns": returns}, 6).own == [("AMEND1", 6)]
