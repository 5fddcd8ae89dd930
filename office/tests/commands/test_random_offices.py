"""What the commands say of some hundred random offices, filled through the program, beside the reckoning."""

import json
import pathlib
from collections import Counter

import answers
import pytest
import random_office
import reckoning
from answers import rows_of
from command import run
from conftest import further, made
from office_value import Key, Office, Pool
from society_office.book.copy import open_copy
from society_office.credits.statements import folder_of

COUNT = 160
CAUSES = {
    "plays": {"no plays"},
    "share": {"a share that nobody collects"},
    "conflict": {"several works claim it"},
    "none": {"not in the cut yet", "rejected", "in a file that waits", "nobody has the recording"},
}


def check_credits(copy: pathlib.Path, office: Office) -> None:
    """What the program credited."""
    with open_copy(copy) as opened:
        for pool in office.pools:
            found = list(opened.rows("SELECT isrc, account, units FROM credits WHERE pool = ? ORDER BY line", pool))
            assert found == reckoning.credits(office, pool), pool
        assert dict(opened.rows("SELECT account, units FROM balances")) == reckoning.balances(office)
        lines = {it.sender: it for it in opened.lines()}
        assert {(key, number) for key, it in lines.items() for number in it.applied} == office.applied


def check_statements(copy: pathlib.Path, office: Office, folder: pathlib.Path) -> None:
    """The statement of each account and each publisher."""
    said = run("statement", copy, "--all", "--into", folder)
    lines = {it: reckoning.lines_of(office, it) for it in reckoning.balances(office)}
    earned = {sender: [(*it[:6], to, it[6]) for to, listed in lines.items() for it in listed if it[5] == sender] for sender in office.names}
    wanted = {it: [(*one[:6], it, one[6]) for one in listed] for it, listed in lines.items() if it != reckoning.NOBODY}
    wanted |= {sender: earned[sender] for sender, _ in reckoning.versions(office, office.fronts())}
    assert f"{len(wanted):,} statement" in said and "all equal to the balances" in said
    assert {it.name for it in folder.glob("*")} == {folder_of(it) for it in wanted}
    for key, listed in wanted.items():
        found = [tuple(it.values())[:8] for it in rows_of((folder / folder_of(key) / "statement.csv").read_text())]
        assert sorted(found) == sorted(tuple(str(it) for it in one) for one in listed), key
    nobodys = [tuple(it.values())[:8] for it in rows_of(run("statement", copy, "UNCLAIMED", "--format", "csv"))]
    assert nobodys == [tuple(str(it) for it in (*one[:6], "UNCLAIMED", one[6])) for one in lines.get("UNCLAIMED", [])]


def check_parties(copy: pathlib.Path, office: Office) -> None:
    """The accounts, and in how many works each stands."""
    counts: Counter[str] = Counter()
    for (sender, _), work in reckoning.versions(office, office.fronts()).items():
        counts.update({reckoning.account(sender, it) for it in work.parties} - {reckoning.NOBODY})
    assert {it["account"]: int(it["works"]) for it in rows_of(run("parties", copy))} == counts


def check_unclaimed(copy: pathlib.Path, office: Office) -> None:
    """What went to nobody: each recording of a pool once, with its cause."""
    found = {(it["pool"], it["isrc"]): it for it in json.loads(run("unclaimed", copy, "--format", "json"))}
    wanted = {(pool, isrc): it for pool in office.pools for isrc, it in reckoning.unclaimed(office, pool).items()}
    assert {key: it["units"] for key, it in found.items()} == {key: units for key, (_, units) in wanted.items()}
    for key, (cause, _) in wanted.items():
        assert found[key]["cause"] in CAUSES[cause], (key, found[key])


def to_be_paid(office: Office, kind: str) -> list[Key]:
    """The returns that an order of this kind names: those that no pool has paid, but for plays that it has paid in this right, or names."""

    def content(it: Key) -> tuple[tuple[str, int, int], ...]:
        return tuple(sorted((isrc.upper().replace("-", ""), plays, seconds) for isrc, plays, seconds in office.returns[it]))

    paid = {it for pool in office.pools.values() for it in pool.returns}
    seen = {content(it) for pool in office.pools.values() if pool.right == kind for it in pool.returns}
    found = []
    for it in sorted(set(office.returns) - paid):
        if content(it) not in seen:
            seen.add(content(it))
            found.append(it)
    return found


def check_order(copy: pathlib.Path, office: Office, program: str, kind: str) -> None:
    """The order that is proposed, and what it would credit."""
    returns, target = to_be_paid(office, kind), copy.with_name("order.json")
    flags = [*([] if returns else ["--no-returns"]), *([] if office.fronts() else ["--no-files"])]
    run("propose", copy, "--amount", 98_765, "--kind", kind, "--output", target, *flags)
    order = json.loads(target.read_text())
    assert [tuple(it) for it in order["returns"]] == returns and order.get("kind", "PR") == kind
    number = max(office.pools) + 1
    then = office.with_steps(Pool(number, kind, 98_765, office.fronts(), returns))
    said = json.loads(run("rehearse", copy, target, "--program", program, "--format", "json"))
    assert (said["pool"], said["status"], said["right"], said["amount"]) == (number, 201, kind, 98_765)
    assert {it["account"]: it["units"] for it in said["accounts"]} == reckoning.sums(reckoning.credits(then, number))
    assert {it["isrc"]: it["units"] for it in said["unclaimed"]} == {isrc: it[1] for isrc, it in reckoning.unclaimed(then, number).items()}
    points = {it: sum(plays * seconds for _, plays, seconds in office.returns[it]) for it in returns}
    assert {(it["reporter"], it["number"]): it["points"] for it in said["returns"]} == points
    assert not any("the cut" in it or "twice" in it for it in said["notes"])
    assert sum("not named, and paid by no pool" in it for it in said["notes"]) == (len(paid_or(office, returns)) < len(office.returns))


def paid_or(office: Office, returns: list[Key]) -> set[Key]:
    """The returns that a pool has paid, and these."""
    return {*returns, *(it for pool in office.pools.values() for it in pool.returns)}


def accounts_of(copy: pathlib.Path, program: str) -> dict[str, tuple[int, int]]:
    """What is due and was paid by account."""
    listed = json.loads(run("dues", copy, "--program", program, "--format", "json"))
    return {it["account"]: (it["due"], it["paid"]) for it in listed}


def check_dues(copy: pathlib.Path, office: Office, program: str) -> None:
    """What is due and was paid; of each account by recording."""
    due, wanted = reckoning.due(office), Counter[str]()
    for (_, _, account), units in due.items():
        wanted[account] += units
    paid = reckoning.balances(office)
    found = {it: both for it, both in accounts_of(copy, program).items() if any(both)}
    assert found == {it: (wanted[it], paid.get(it, 0)) for it in {*wanted, *paid} if wanted[it] or paid.get(it)}
    account = max(sorted(wanted), key=lambda it: wanted[it] != paid.get(it, 0))
    rows = rows_of(run("dues", copy, "--account", account, "--program", program, "--format", "csv"))
    assert {(it["right"], it["isrc"]): int(it["due"]) for it in rows if int(it["due"])} == {
        key[:2]: units for key, units in due.items() if key[2] == account and units
    }


def check_make_ups(copy: pathlib.Path, program: str) -> None:
    """What is lacking is paid order by order: nobody gets more than is due, and it ends."""
    before = accounts_of(copy, program)
    for count in range(20):
        folder = copy.with_name(f"next{count}")
        run("dues", copy, "--next", folder, "--program", program)
        if not folder.exists():
            break
        [order], [text] = folder.glob("*.json"), folder.glob("*.csv")
        requests = [(f"/returns/{text.stem.replace('-', '/')}", text.read_bytes()), (f"/pools/{order.stem}", order.read_bytes())]
        copy = further(program, copy, requests, copy.with_name(f"then{count}.db"))
    else:
        raise AssertionError("it does not end")
    for account, (due, paid) in accounts_of(copy, program).items():
        had = before.get(account, (0, 0))
        assert account == reckoning.NOBODY or (due == had[0] and paid <= max(due, had[1])), account


@pytest.mark.parametrize("number", range(COUNT))
def test_a_random_office(number: int, folder: pathlib.Path, program: str) -> None:
    office = random_office.office(number)
    copy = made(program, office, folder)
    check_credits(copy, office)
    check_statements(copy, office, folder / "statements")
    check_parties(copy, office)
    check_unclaimed(copy, office)
    check_order(copy, office, program, "PR" if number % 2 else "MR")
    check_dues(copy, office, program)
    if number % 4 == 0:
        check_make_ups(copy, program)
    check_answers(copy, office, folder / "site", number)


def check_answers(copy: pathlib.Path, office: Office, folder: pathlib.Path, number: int) -> None:
    """What the commands say that answer questions; of the accounts of each pool one is explained."""
    answers.check_balances(copy, office)
    answers.check_why(copy, office)
    answers.check_pages(copy, office, folder)
    if number % 8 == 0:
        answers.check_stored(copy, office)
    for pool in office.pools:
        accounts = sorted({it[1] for it in reckoning.credits(office, pool)})
        answers.check_explained(copy, office, pool, accounts[number % len(accounts)])
