"""Treasurers at random offices: what each member is owed, beside a reckoning of its own, whatever is done in whatever order."""

import datetime
import pathlib
import random
import shutil

import pytest
import random_office
from command import run
from conftest import TAKEN, backed_up, put, served
from office_value import Office, Pool
from treasury import DAY, Treasurer

COUNT = 60
STEPS = 7


class Killed(BaseException):
    """The end of a command in the middle."""


def copies(program: str, office: Office, folder: pathlib.Path) -> list[tuple[pathlib.Path, list[int]]]:
    """Copies of an office, one after each of some of its pools, each with the pools that are closed by then."""
    found, closed = list[tuple[pathlib.Path, list[int]]](), list[int]()
    marks = [k for k, it in enumerate(office.steps) if isinstance(it, Pool)]
    marks = [marks[0], marks[len(marks) // 2], marks[-1]]
    begun = 0
    for mark in sorted(set(marks)):
        with served(program, folder / "office.db") as connection:
            for it in office.steps[begun : mark + 1]:
                path, body = office.request(it)
                assert put(connection, path, body) in TAKEN, path
                closed += [it.pool] if isinstance(it, Pool) else []
        begun = mark + 1
        found.append((backed_up(folder / "office.db", folder / f"copy{mark}.db"), list(closed)))
    return found


def kill(it: Treasurer, rng: random.Random, monkeypatch: pytest.MonkeyPatch) -> None:
    """Ends a payment before or after any of the files that it puts in their places: the batch is ordered whole, or not at all."""
    left, is_before, rename = [rng.randint(1, 9)], rng.random() < 0.5, pathlib.Path.rename

    def ended(self: pathlib.Path, target: pathlib.Path) -> pathlib.Path:
        left[0] -= 1
        if left[0] == 0 and is_before:
            raise Killed
        found = rename(self, target)
        if left[0] == 0:
            raise Killed
        return found

    books = [it.book, it.booked(it.book), it.ordered(it.book)]
    with monkeypatch.context() as patch:
        patch.setattr(pathlib.Path, "rename", ended)
        try:
            run("pay", it.path, "--into", it.folder / "out", "--why", "cut off")
        except Killed:
            pass
    [*_, it.book] = [book for book in books if it.agrees(book)]
    number = len(it.book.orders)
    if number and number not in it.batches:
        run("pay", "again", number, "--into", it.folder / "out")
        it.keep(it.folder / "out")


def put_back(it: Treasurer, rng: random.Random, older: list[bytes]) -> None:
    """An older ledger is refused by each command, and nothing is ordered over it."""
    ledger = it.place / "ledger.txt"
    now = ledger.read_bytes()
    if (old := rng.choice(older)) == now:
        return
    ledger.write_bytes(old)
    for words in (("pay", it.path, "--into", it.folder / "out", "--why", "x"), ("ledger",), ("adjust", "M0", 5, "--why", "x")):
        assert "lacks lines that the journal tells of" in run(*words, status=1)
    assert ledger.read_bytes() == old
    ledger.write_bytes(now)


def live(number: int, folder: pathlib.Path, decided: pathlib.Path, program: str, monkeypatch: pytest.MonkeyPatch) -> Treasurer:
    """A treasurer's days at the random office of a number."""
    office, rng = random_office.office(number), random.Random(f"days {number}")
    it, older = Treasurer(number, office, folder, decided), list[bytes]()
    for k, (path, pools) in enumerate(copies(program, office, folder)):
        it.take(path, pools, DAY + datetime.timedelta(40 * k + 10))
        older.append((it.place / "ledger.txt").read_bytes())
        it.pay()
        for _ in range(STEPS):
            way = rng.randrange(7)
            if way == 0:
                it.pay()
            elif way in (1, 2):
                it.hear(returned=way == 2)
            elif way == 3:
                it.adjust()
            elif way == 4:
                it.change()
            elif way == 5:
                kill(it, rng, monkeypatch)
            else:
                put_back(it, rng, older)
    it.pay()
    it.again()
    it.check_statements()
    return it


@pytest.mark.parametrize("number", range(COUNT))
def test_a_treasurer(number: int, folder: pathlib.Path, decided: pathlib.Path, program: str, monkeypatch: pytest.MonkeyPatch) -> None:
    it = live(number, folder, decided, program, monkeypatch)
    due = it.due(it.book)
    assert due == {}, "what is owed and can be paid was ordered"
    assert sum(map(len, it.book.orders)) >= len(it.batches)
    shutil.rmtree(folder / "out", ignore_errors=True)
