"""A member who has left, a journal for other programs, and two who pay at once."""

import os
import pathlib
import subprocess
import sys

import pytest
from command import Word, run
from conftest import ROOT
from society_office.payments import home
from test_members import HEADER
from test_payments import ROWS, begun, paid


@pytest.fixture
def place(decided: pathlib.Path) -> pathlib.Path:
    """The folder of payments of the quarter's office."""
    return begun(decided)


def test_a_member_who_has_left_is_erased(copy: pathlib.Path, place: pathlib.Path, tmp_path: pathlib.Path) -> None:
    assert "there is no member M9" in run("members", "erase", "M9", "--why", "x", status=1)
    run("pay", "book", copy, "--why", "x")
    assert "M2 is owed" in run("members", "erase", "M2", "--why", "x", status=1)
    paid(copy, tmp_path / "out")
    assert "the bank has not told what became of batch 1 for M2" in run("members", "erase", "M2", "--why", "x", status=1)
    run("pay", "confirm", "--batch", 1, "--why", "x")
    before = home.read(None).ledger
    run("members", "erase", "M2", "--why", "left")
    for it in place.parent.rglob("*"):
        assert it.is_dir() or not any(word in it.read_bytes() for word in (b"Anna", b"DE8937", b"10115", b"Berlin")), it
    found = home.read(None)
    assert found.ledger.owed == before.owed and "M2" not in found.members.by_key
    assert found.ledger.batches[1].orders == before.batches[1].orders
    assert "batch 1 has paid M2, who was erased since" in run("pay", "again", 1, "--into", tmp_path / "again", status=1)
    (place / "members.csv").write_text("\n".join([HEADER, *ROWS]) + "\n")
    assert "M2 was erased on" in run("members", "note", "--why", "x", status=1)
    # (what was broken off is ended by asking again)
    assert "was erased" in run("members", "check", status=1, out=True)


@pytest.mark.parametrize("left", range(1, 6))
def test_what_was_broken_off_of_an_erasure_is_ended_by_asking_again(
    copy: pathlib.Path, place: pathlib.Path, tmp_path: pathlib.Path, monkeypatch: pytest.MonkeyPatch, left: int
) -> None:
    paid(copy, tmp_path / "out")
    run("pay", "confirm", "--batch", 1, "--why", "x")
    before, rename, count = home.read(None).ledger.owed, pathlib.Path.rename, [left]

    def ended(self: pathlib.Path, target: pathlib.Path) -> pathlib.Path:
        count[0] -= 1
        if not count[0]:
            raise KeyboardInterrupt
        return rename(self, target)

    with monkeypatch.context() as patch:
        patch.setattr(pathlib.Path, "rename", ended)
        run("members", "erase", "M2", "--why", "left", status=0 if left > 4 else 1)
    run("members", "erase", "M2", "--why", "left")
    found = home.read(None)
    assert "M2" not in found.members.by_key and found.ledger.owed == before and list(found.ledger.erased) == ["M2"]
    assert b"Anna" not in b"".join(it.read_bytes() for it in place.rglob("*") if it.is_file()) and found.changed_by_hand == []


def test_a_journal_for_hledger_comes_to_what_is_owed(copy: pathlib.Path, place: pathlib.Path, tmp_path: pathlib.Path) -> None:
    (place / "deductions.txt").write_text("administration: 15 % of gross\n")
    run("members", "note", "--why", "x")
    paid(copy, tmp_path / "out")
    run("pay", "confirm", "--batch", 1, "--why", "x")
    run("adjust", "M1", -5, "--why", "a: advance; tag:x | y")
    text = run("ledger", "--format", "hledger")
    sums, accounts, open_sum = dict[str, int](), set[str](), 0
    for line in text.splitlines():
        if line.startswith("    "):
            account, units, *rest = line.split("  = ")[0].split()
            sums[account] = sums.get(account, 0) + int(units)
            open_sum += int(units)
            accounts.add(account)
            assert not rest and (" = " not in line or int(line.split(" = ")[1]) == sums[account])
        elif line:
            assert open_sum == 0 and (line[0] == ";" or line[:10].count("-") == 2)
    owing = home.read(None).ledger.owed
    assert {it.removeprefix("Members:"): units for it, units in sums.items() if it.startswith("Members:")} == owing
    assert sums["Ordered:1"] == 0 and sums["Deductions:administration"] > 0 and sums["Adjustments"] == 5
    assert sum(sums.values()) == 0 and "tag:x" not in text


def test_of_two_who_pay_at_once_one_orders(copy: pathlib.Path, place: pathlib.Path, tmp_path: pathlib.Path) -> None:
    words: list[Word] = [sys.executable, ROOT / "office/society-office", "pay", copy, "--why", "x", "--into"]
    begun_both = [
        subprocess.Popen([*words, tmp_path / name], stdout=subprocess.PIPE, stderr=subprocess.DEVNULL, text=True, env={**os.environ})
        for name in ("a", "b")
    ]
    said = [it.communicate()[0] for it in begun_both]
    assert [it.returncode for it in begun_both] == [0, 0]
    assert sorted("nobody is to be paid; the last batch is 1" in it for it in said) == [False, True]
    assert list(home.read(None).ledger.batches) == [1]
    assert sorted(len(list((tmp_path / name).glob("*.xml"))) for name in ("a", "b")) == [0, 1]
