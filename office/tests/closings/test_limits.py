"""What an order may have at most."""

import json
import pathlib

import pytest
from click.testing import CliRunner
from command import run
from society_office.book.copy import open_copy
from society_office.book.page_sums import changed
from society_office.closings import orders
from society_office.commands.cli import main


def test_an_order_names_no_more_returns_than_it_may(copy: pathlib.Path) -> None:
    with changed(copy) as database:
        bodies = [("RADIO9", k, b"isrc,plays,seconds\nATABC2600001,%d,1\n" % k) for k in range(1, 1_003)]
        database.executemany("INSERT INTO returns VALUES (?, ?, ?)", bodies)
    ended = CliRunner(mix_stderr=False).invoke(main, ["propose", str(copy), "--amount", "1", "--returns", "RADIO9"])
    more = "note: 2 more returns are unpaid: an order names 1,000 at most, so close a further pool"
    assert ended.exit_code == 0 and more in ended.stderr.splitlines()
    assert json.loads(ended.output)["returns"] == [["RADIO9", k] for k in range(1, 1_001)]


def test_an_order_counts_no_more_senders_than_it_may(copy: pathlib.Path, monkeypatch: pytest.MonkeyPatch) -> None:
    monkeypatch.setattr(orders, "MOST_SENDERS", 4)
    said = "5 senders have files, and a cut has 4 at most: write the order by hand, in several pools"
    assert run("propose", copy, "--amount", "1", status=1) == f"society-office: {said}\n"


@pytest.mark.parametrize("amount", [-1, 1_000_000_000_001])
def test_an_amount_is_within_its_limits(copy: pathlib.Path, amount: int) -> None:
    assert run("propose", copy, f"--amount={amount}", status=1) == "society-office: an amount is 0 to 1,000,000,000,000 units\n"


@pytest.mark.parametrize("last, free", [(99_998, 99_999), (99_999, 4)])
def test_the_number_of_the_next_pool(copy: pathlib.Path, last: int, free: int) -> None:
    with changed(copy) as database:
        database.execute("INSERT INTO pools VALUES (?, 0)", (last,))
    ended = CliRunner(mix_stderr=False).invoke(main, ["propose", str(copy), "--amount", "1"])
    assert f"5 senders, 2 returns; pool {free} is free" in ended.stderr.splitlines()


def test_a_number_that_the_office_itself_has_used_is_not_free(copy: pathlib.Path) -> None:
    """Its own pools go down from the greatest number, until they meet the others."""
    with changed(copy) as database:
        database.executemany("INSERT INTO pools VALUES (?, 0)", [(99_997,), (99_998,), (99_999,)])
        for number in (99_998, 99_999):
            database.execute("INSERT INTO returns VALUES ('LATE3F0A9C21', ?, x'')", (number,))
            database.execute("INSERT INTO pool_returns VALUES ('LATE3F0A9C21', ?, ?)", (number, number))
    with open_copy(copy) as opened:
        assert orders.free_pool(opened) == 4
