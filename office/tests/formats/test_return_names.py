"""The one way in which returns are named: on the command line, in lists of void ones, and in what is printed."""

import json
import pathlib

import pytest
import quarter
from command import run
from society_office.basics.errors import OfficeError
from society_office.book.copy import open_copy
from society_office.closings.orders import Wanted, propose
from society_office.formats.return_names import entries, entry, listed, names, unmatched

SOME = [("RADIO1", number) for number in (1, 2, 3, 4, 5, 8, 9, 35, 999_999)] + [("RADIO10", 3), ("TV1", 3)]
FORMS = {
    "RADIO1": {1, 2, 3, 4, 5, 8, 9, 35, 999_999},
    "RADIO1/3": {3},
    "RADIO1/3-5": {3, 4, 5},
    "RADIO1/3-5,8": {3, 4, 5, 8},
    "RADIO1/8,3-3,35-999999": {3, 8, 35, 999_999},
}
NONE = [
    *("", " RADIO1", "RADIO1 3", "RADIO1  3", "RADIO1\t3", "RADIO1 5-3", "RADIO1 3, a wrong month", "RADIO1 3,4", "RADIO1/3 4"),
    *("RADIO1/", "RADIO1/0", "RADIO1/03", "RADIO1/1000000", "RADIO1/3-", "RADIO1/-3", "RADIO1/3,", "RADIO1/3,,4", "RADIO1/3-4-5"),
    *("radio1", "RADIO1/3\n", "RADIO\u0661", "RADIO1/\u0663", "R\u00c4DIO", "A" * 21, "RADIO1/5-3", "RADIO1/1,5-3", "RADIO1/3 # x", "/3"),
]


@pytest.mark.parametrize("words", FORMS)
def test_what_names_returns(words: str) -> None:
    found = entry(words, "here")
    assert {number for reporter, number in SOME if found.has((reporter, number))} == FORMS[words]
    assert not any(found.has(it) for it in SOME if it[0] != "RADIO1")


@pytest.mark.parametrize("words", NONE)
def test_what_names_none(words: str, copy: pathlib.Path) -> None:
    with pytest.raises(OfficeError, match="^here: "):
        entry(words, "here")
    said = run("propose", copy, "--amount", 1, "--returns", words, status=1)
    assert said.startswith("society-office: --returns: ") and said.count("\n") == 1


def test_what_is_printed_is_read_again() -> None:
    assert names(SOME) == ["RADIO1/1-5,8-9,35,999999", "RADIO10/3", "TV1/3"]
    assert [it for it in SOME if any(one.has(it) for one in entries(names(SOME[3:]), "here"))] == SOME[3:]
    assert [it.words for it in unmatched(entries(["RADIO1/6-7", "RADIO2", "TV1"], "here"), SOME)] == ["RADIO1/6-7", "RADIO2"]


def test_a_list_of_void_returns(tmp_path: pathlib.Path) -> None:
    file = tmp_path / "void.txt"
    file.write_bytes(b"\xef\xbb\xbf# all of these\r\n\r\nRADIO1/3-5,8 # a wrong month, RADIO2 3\r\n \tTV1\t#\n")
    assert [(it.words, it.where) for it in listed(file)] == [("RADIO1/3-5,8", f"{file}, line 3"), ("TV1", f"{file}, line 4")]
    file.write_bytes(b"RADIO1\nTV1 # a wrong M\xc4rz\n")
    with pytest.raises(OfficeError, match=r"void.txt, line 2: the byte 0xC4 is no UTF-8"):
        listed(file)


@pytest.mark.parametrize("line", [it for it in NONE if it.strip() and "#" not in it and it != " RADIO1" and "\n" not in it])
def test_a_line_of_a_list_that_names_none(copy: pathlib.Path, line: str, decided: pathlib.Path) -> None:
    (decided / "void.txt").write_text(f"TV1/2\n\n{line} # a remark\n")
    for words in (["propose", copy, "--amount", 1], ["site", copy, "--into", copy.parent / "site"]):
        said = run(*words, status=1)
        assert said.startswith(f"society-office: {decided / 'void.txt'}, line 3: ") and said.count("\n") == 1
    assert not (copy.parent / "site").exists()


REFUSED = {
    "RADIO1/1": "RADIO1/1: RADIO1/1: paid by pool 1",
    "RADIO9/1": "RADIO9/1: no such return is stored",
    "TV1/1-99": "TV1/1-99: TV1/3-99: not stored; TV1/2: void",
    "TVI": "TVI: no such return is stored",
    "TV1/2": "TV1/2: TV1/2: void",
    "RADIO2": "RADIO2: none of its returns can be named: RADIO2/1: paid by pool 1; RADIO2/2: paid by pool 3",
    "RADIO1/4,6-7,9": "RADIO1/4,6-7,9: RADIO1/6-7,9: not stored",
    "TV1/1-2,8": "TV1/1-2,8: TV1/8: not stored; TV1/2: void",
    "RADIO1/1-4": "RADIO1/1-4: RADIO1/1: paid by pool 1; RADIO1/2: paid by pool 2; RADIO1/3: paid by pool 3",
    "RADIO1/1,3-4": "RADIO1/1,3-4: RADIO1/1: paid by pool 1; RADIO1/3: paid by pool 3",
}


@pytest.mark.parametrize("words", REFUSED)
def test_returns_that_were_asked_for_and_cannot_be_paid(copy: pathlib.Path, words: str, decided: pathlib.Path) -> None:
    (decided / "void.txt").write_text(quarter.VOID)
    target = copy.with_name("order.json")
    said = run("propose", copy, "--amount", 1, "--returns", "RADIO1", "--returns", words, "--output", target, status=1)
    assert said == f"society-office: --returns: {REFUSED[words]}\n" and not target.exists()


def test_all_that_was_asked_for_wrongly_is_told(copy: pathlib.Path) -> None:
    said = run("propose", copy, "--amount", 1, "--returns", "TV1/8", "--returns", "TV1/1-2", "--returns", "RADIO1/3-4", status=1)
    assert said == "society-office: --returns: TV1/8: no such return is stored; --returns: RADIO1/3-4: RADIO1/3: paid by pool 3\n"


def test_only_what_was_asked_for_is_named(copy: pathlib.Path) -> None:
    assert json.loads(run("propose", copy, "--amount", 1, "--returns", "TV1/1-2"))["returns"] == [["TV1", 1], ["TV1", 2]]
    with open_copy(copy) as opened:
        found = propose(opened, 1, "MR", Wanted(entries(["RADIO1/4", "TV1/2"], "here")), entries(["RADIO9"], "void.txt, line 1"))
    assert found.order.returns == [("RADIO1", 4), ("TV1", 2)]
    assert [(it.returns, it.why) for it in found.left_out] == [((("TV1", 1),), "not asked for")]
    assert "void.txt, line 1: RADIO9: no such return is stored" in found.remarks
    assert any(it.startswith("RADIO1/4 has the same plays as RADIO1/3, paid by pool 3 in the PR") for it in found.remarks)


def test_an_order_that_throws_all_away_has_to_be_asked_for(copy: pathlib.Path, decided: pathlib.Path) -> None:
    (decided / "void.txt").write_text("TV1\n")
    target = copy.with_name("order.json")
    assert "no return can be named" in run("propose", copy, "--amount", 1, "--output", target, status=1) and not target.exists()
    run("propose", copy, "--amount", 1, "--no-returns", "--output", target)
    found = json.loads(target.read_text())
    assert found["returns"] == [] and len(found["cut"]) == len(quarter.NAMES)
    (decided / "void.txt").write_text("")
    assert json.loads(run("propose", copy, "--amount", 1, "--no-files"))["cut"] == []
