#!/usr/bin/python3
"""Tries payments at length: treasurers at random offices, commands that are killed, and an office of thousands of members.

    payments.py --offices 2000     the days of tests/payments/test_random_payments.py at as many offices; payment files by the schema,
                                   and every tenth ledger by hledger, where xmllint and hledger are installed
    payments.py --kills 1000       ends `pay` by SIGKILL at any moment: a batch is ordered whole or not at all, and nothing twice
    payments.py --members 6000     seconds and memory of `pay` and of all statements

The program is $SOCIETY_PROGRAM. The status is 1 where something is not as it has to be; the number of an office is printed, and
`--first NUMBER --offices 1` tries it again.
"""
import argparse
import contextlib
import os
import pathlib
import random
import shutil
import signal
import subprocess
import sys
import tempfile
import time
import traceback
from collections.abc import Iterator

OFFICE = pathlib.Path(__file__).resolve().parent.parent
sys.path[:0] = [str(OFFICE), str(OFFICE / "tests"), str(OFFICE / "tests/payments"), str(OFFICE / "bench")]

import pytest  # noqa: E402 (the folders of the checkout come first)
import sizes  # noqa: E402
from command import Word, run  # noqa: E402
from conftest import made, program_under_test  # noqa: E402
from quarter import OFFICE as QUARTER  # noqa: E402
from society_office.book.copy import open_copy  # noqa: E402
from society_office.commands.cli import main as command  # noqa: E402
from society_office.decided import decisions  # noqa: E402
from society_office.payments import home  # noqa: E402
from test_members import HEADER  # noqa: E402
from test_payments import ROWS, begun  # noqa: E402
from test_random_payments import live  # noqa: E402
from treasury import Treasurer, iban  # noqa: E402

MEMORY = "/dev/shm" if os.access("/dev/shm", os.W_OK) else None
# Seconds in which a payment is killed at first; they follow how long payments take, so that kills come at all their moments.
AT_FIRST, LONGER, SHORTER = 0.06, 1.05, 0.8
# Payments that are killed over one ledger, before another one is begun.
PER_LEDGER = 50


@contextlib.contextmanager
def folders() -> Iterator[tuple[pathlib.Path, pathlib.Path]]:
    """A throw-away folder, and a folder of decisions that commands take."""
    with tempfile.TemporaryDirectory(prefix="payments-", dir=MEMORY) as found:
        decided = pathlib.Path(found) / "decided"
        decisions.begin(decided)
        os.environ[decisions.VARIABLE] = str(decided)
        yield pathlib.Path(found), decided


def refused_by_schema(folder: pathlib.Path) -> str:
    """What xmllint says against payment files."""
    files = sorted(folder.glob("payment-*.xml"))
    if not files or not shutil.which("xmllint"):
        return ""
    words: list[Word] = ["xmllint", "--nonet", "--noout", "--schema", OFFICE / "tests/pain.xsd", *files]
    done = subprocess.run(words, capture_output=True, text=True, check=False)
    return done.stderr if done.returncode else ""


def refused_by_hledger(it: Treasurer) -> str:
    """What hledger says against the journal, or where its balances are others."""
    if not shutil.which("hledger"):
        return ""
    file = it.folder / "journal"
    file.write_text(run("ledger", "--format", "hledger"))
    done = subprocess.run(["hledger", "-f", str(file), "check"], capture_output=True, text=True, check=False)
    if done.returncode:
        return done.stderr
    words = ["hledger", "-f", str(file), "balance", "--flat", "-N", "-E", "Members"]
    listed = subprocess.run(words, capture_output=True, text=True, check=True).stdout
    found = {cells[1].removeprefix("Members:"): int(cells[0]) for line in listed.splitlines() if (cells := line.split())}
    wanted = {key: it.book.owed(key) for key in it.book.members()}
    return "" if found == wanted else f"hledger has {found}, and owed is {wanted}"


def offices(first: int, count: int, program: str) -> bool:
    """Treasurers at random offices; whether all was as it has to be."""
    broken, batches, orders = list[int](), 0, 0
    for number in range(first, first + count):
        with folders() as (folder, decided), pytest.MonkeyPatch.context() as patch:
            patch.setattr(tempfile, "tempdir", str(folder))
            try:
                it = live(number, folder, decided, program, patch)
                assert not (said := refused_by_schema(folder / "out")), said
                assert number % 10 or not (said := refused_by_hledger(it)), said
                batches, orders = batches + len(it.book.orders), orders + sum(map(len, it.book.orders))
            except Exception:
                traceback.print_exc()
                broken.append(number)
    print(f"{count:,} offices, {batches:,} batches, {orders:,} orders; broken: {', '.join(map(str, broken)) or 'none'}", flush=True)
    return not broken


def killed(words: list[str], seconds: float) -> bool:
    """Runs a command in a process of its own and ends it by SIGKILL after so long; whether it had not ended by itself."""
    child = os.fork()
    if not child:
        try:
            null = os.open(os.devnull, os.O_WRONLY)
            os.dup2(null, 1)
            os.dup2(null, 2)
            command(words, standalone_mode=False)
        finally:
            os._exit(0)
    time.sleep(seconds)
    os.kill(child, signal.SIGKILL)
    return os.waitstatus_to_exitcode(os.waitpid(child, 0)[1]) == -signal.SIGKILL


def kills(count: int, program: str) -> bool:
    """Ends payments at any moment; whether each was whole or nothing, and paid once."""
    rng, longest, cut, whole = random.Random(1), AT_FIRST, 0, 0
    with tempfile.TemporaryDirectory(prefix="payments-", dir=MEMORY) as office:
        copy = made(program, QUARTER, pathlib.Path(office))
        for first in range(0, count, PER_LEDGER):
            with folders() as (folder, decided):
                place = begun(decided)
                (place / "members.csv").write_text("\n".join([HEADER, *ROWS[:3]]) + "\n")
                run("members", "note", "--why", "x")
                run("pay", copy, "--into", folder / "out", "--why", "the first one")
                for _ in range(min(PER_LEDGER, count - first)):
                    was_cut, was_whole = cut_off(copy, folder, rng, longest)
                    longest *= LONGER if was_cut else SHORTER
                    cut, whole = cut + was_cut, whole + (was_cut and was_whole)
            print(f"{first + PER_LEDGER:,} so far, {cut:,} killed, {whole:,} of them with all of it ordered", flush=True)
    print(f"{count:,} payments, {cut:,} killed: {cut - whole:,} with nothing ordered, {whole:,} with all of it; each paid once", flush=True)
    return True


def cut_off(copy: pathlib.Path, folder: pathlib.Path, rng: random.Random, longest: float) -> tuple[bool, bool]:
    """Kills a payment, looks what it has ordered, and pays again; whether it was killed before its end, and whether it had ordered all."""
    for key in ("M1", "M2", "M3"):
        run("adjust", key, rng.randint(1_000, 9_999), "--why", "x")
    before = home.read(None).ledger
    due = {key: before.owed[key] for key in ("M1", "M2", "M3")}
    was_cut = killed(["pay", str(copy), "--into", str(folder / "out"), "--why", "x"], rng.random() * longest)
    new = [it.orders for batch, it in home.read(None).ledger.batches.items() if batch not in before.batches]
    assert new in ([], [due]), (new, due)
    run("pay", copy, "--into", folder / "out", "--why", "x")
    ended = home.read(None).ledger
    assert [it.orders for batch, it in ended.batches.items() if batch not in before.batches] == [due]
    run("pay", "again", len(ended.batches), "--into", folder / "again")
    run("pay", "confirm", "--batch", len(ended.batches), "--why", "x")
    assert set(home.read(None).ledger.owed.values()) <= {0, before.owed["UNCLAIMED"]}
    return was_cut, bool(new)


def many(count: int) -> None:
    """Measures an office of so many members, each with an account."""
    rng = random.Random(2)
    sizes.WRITERS = count
    with folders() as (folder, decided):
        copy, place = folder / "large-office-of-many-members-of-a-society.db", begun(decided)
        sizes.make(copy, 5 * count, 20, 10)
        with open_copy(copy) as opened:
            accounts = [it[0] for it in opened.rows("SELECT account FROM balances WHERE account <> 'UNCLAIMED' ORDER BY account")]
        rows = [f"M{k},Member {k},Road {k},1010,Town,AT,de,{iban(rng)},,,domestic,,{it}" for k, it in enumerate(accounts)]
        (place / "members.csv").write_text("\n".join([HEADER, *rows]) + "\n")
        (place / "deductions.txt").write_text("administration: 15 % of gross\nsocial fund: 5 % of rest\ntax: 20 % of rest; tax domestic\n")
        run("members", "note", "--why", "x")
        print(f"{len(accounts):,} members, {copy.stat().st_size / 1e6:,.0f} MB", flush=True)
        sizes.measured("members", "check", str(copy))
        sizes.measured("pay", str(copy), "--into", f"{folder}/out", "--why", "x")
        sizes.measured("pay", str(copy), "--into", f"{folder}/out", "--why", "x")
        sizes.measured("ledger", "--format", "csv", "--output", f"{folder}/ledger.csv")
        sizes.measured("members", "statement", str(copy), "M7", "--format", "csv")
        sizes.measured("members", "statement", str(copy), "--all", "--into", f"{folder}/all", "--workbook")


def main() -> None:
    """Tries what is asked for."""
    options = argparse.ArgumentParser(description=__doc__, formatter_class=argparse.RawDescriptionHelpFormatter)
    options.add_argument("--offices", type=int, default=0)
    options.add_argument("--first", type=int, default=0)
    options.add_argument("--kills", type=int, default=0)
    options.add_argument("--members", type=int, default=0)
    given = options.parse_args()
    program = os.environ["SOCIETY_PROGRAM"] = program_under_test()
    if not (given.offices or given.kills or given.members):
        options.error("say what to try: --offices 2000, --kills 1000 or --members 6000")
    right = not given.offices or offices(given.first, given.offices, program)
    right &= not given.kills or kills(given.kills, program)
    if given.members:
        many(given.members)
    sys.exit(0 if right else 1)


if __name__ == "__main__":
    main()
