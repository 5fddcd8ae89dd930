"""Deductions by text: what each rule takes, of whom, and what is no rule."""

import pathlib

import pytest
from society_office.basics.errors import OfficeError
from society_office.payments import deductions
from society_office.payments.owed import Rule

TAXES = {"M1": "domestic", "M2": "foreign", "M3": ""}


def read(tmp_path: pathlib.Path, text: str) -> list[Rule]:
    file = tmp_path / "deductions.txt"
    file.write_text(text)
    return deductions.read(file, TAXES)


def test_a_new_list_has_no_rule(tmp_path: pathlib.Path) -> None:
    assert read(tmp_path, deductions.HEAD) == []


@pytest.mark.parametrize(
    "words, hundredths, fixed, of_gross",
    [
        ("15 % of gross", 1_500, 0, True),
        ("5.5% of rest", 550, 0, False),
        ("0.01 % of rest", 1, 0, False),
        ("100 % of gross", 10_000, 0, True),
        ("7.25 % of gross", 725, 0, True),
        ("100 units", 0, 100, False),
    ],
)
def test_what_a_rule_takes(tmp_path: pathlib.Path, words: str, hundredths: int, fixed: int, of_gross: bool) -> None:
    [found] = read(tmp_path, f"Übliche Abgabe: {words}  # a remark\n")
    assert (found.name, found.hundredths, found.fixed, found.is_of_gross) == ("Übliche Abgabe", hundredths, fixed, of_gross)
    assert found.applies(1, "PR", "M1") and found.applies(99_999, "MR", "M3")


@pytest.mark.parametrize(
    "limits, yes, no",
    [
        ("right PR", [(1, "PR", "M1")], [(1, "MR", "M1")]),
        ("right PR MR", [(1, "PR", "M1"), (1, "MR", "M1")], []),
        ("from pool 3", [(3, "PR", "M1"), (99_999, "PR", "M1")], [(2, "PR", "M1")]),
        ("pools 3-5,9", [(3, "PR", "M1"), (5, "PR", "M1"), (9, "PR", "M1")], [(2, "PR", "M1"), (6, "PR", "M1"), (10, "PR", "M1")]),
        ("members M1 M3", [(1, "PR", "M1"), (1, "PR", "M3")], [(1, "PR", "M2")]),
        ("tax foreign", [(1, "PR", "M2")], [(1, "PR", "M1"), (1, "PR", "M3"), (1, "PR", "M9")]),
        ("tax foreign domestic; right MR", [(1, "MR", "M2"), (1, "MR", "M1")], [(1, "PR", "M2"), (1, "MR", "M3")]),
    ],
)
def test_of_whom_a_rule_is(tmp_path: pathlib.Path, limits: str, yes: list[tuple[int, str, str]], no: list[tuple[int, str, str]]) -> None:
    [found] = read(tmp_path, f"x: 15 % of gross; {limits}\n")
    assert [it for it in yes if not found.applies(*it)] == [] == [it for it in no if found.applies(*it)]


def test_rules_are_taken_in_their_order(tmp_path: pathlib.Path) -> None:
    assert [it.name for it in read(tmp_path, "b: 1 units\na: 2 units\n\n# c: 3 units\n")] == ["b", "a"]


@pytest.mark.parametrize(
    "line, said",
    [
        ("administration 15 % of gross", "is no deduction"),
        (": 15 % of gross", "is no deduction"),
        ("a;b: 15 % of gross", "is no deduction"),
        ("x" * 41 + ": 15 % of gross", "is no deduction"),
        ("a\u200bb: 15 % of gross", "is no deduction"),
        ("x: 15 %", "is no part and no amount"),
        ("x: 100.01 % of gross", "is no part and no amount"),
        ("x: 0 % of gross", "is no part and no amount"),
        ("x: 0 units", "is no part and no amount"),
        ("x: -5 % of gross", "is no part and no amount"),
        ("x: 1.555 % of gross", "is no part and no amount"),
        ("x: 5 % of gross; right SR", "does not say of whom"),
        ("x: 5 % of gross; from pool 0", "does not say of whom"),
        ("x: 5 % of gross; pools 5-3", "does not say of whom"),
        ("x: 5 % of gross; pools 5,", "does not say of whom"),
        ("x: 5 % of gross; members m1", "does not say of whom"),
        ("x: 5 % of gross; right PR; right MR", "it was said already"),
        ("x: 5 % of gross; from pool 3; pools 1-2", "it was said already"),
        ("x: 5 % of gross;", "does not say of whom"),
    ],
)
def test_what_is_no_rule_is_told_with_its_line(tmp_path: pathlib.Path, line: str, said: str) -> None:
    with pytest.raises(OfficeError, match=r"deductions\.txt, line 2: ") as raised:
        read(tmp_path, f"first: 1 units\n{line}\n")
    assert said in str(raised.value)


def test_two_rules_of_one_name_are_told(tmp_path: pathlib.Path) -> None:
    with pytest.raises(OfficeError, match="there is a deduction x already"):
        read(tmp_path, "x: 1 units\nx: 2 units\n")
