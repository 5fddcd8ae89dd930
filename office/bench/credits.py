#!/usr/bin/python3
"""Holds what `society credit` says of each closed order of random offices against the pool's table that the office answers, byte for byte.

The offices are those of tests/random_office.py. The status is 1 where one differs; its number is printed, and `--first NUMBER --count 1`
runs it again.
"""
import argparse
import os
import pathlib
import re
import subprocess
import sys
import tempfile
from collections import Counter

OFFICE = pathlib.Path(__file__).resolve().parent.parent
sys.path[:0] = [str(OFFICE), str(OFFICE / "tests")]

import random_office  # noqa: E402 (the folders of the checkout come first)
from society_office.book.copy import open_copy  # noqa: E402
from society_office.closings.credit import Asked  # noqa: E402
from society_office.closings.pool_kinds import Book  # noqa: E402
from society_office.offices.program import find_program, trial_office  # noqa: E402

WORDS = ["--society", "900", "--territory", "40", "--name", "EXAMPLE SOCIETY"]
# A cell with its quotes, where it has any.
CELL = rb'("(?:[^"]|"")*"|[^,\n]*)'
ROW = re.compile(rb",".join([CELL] * 11) + rb"\n")
TABLE = b"isrc,account,units\n"


def answered(program: str, database: pathlib.Path, lines: str) -> bytes:
    """What the program says of orders."""
    done = subprocess.run([program, "credit", "--db", str(database), *WORDS], input=lines.encode(), capture_output=True, check=False)
    if done.returncode:
        raise ValueError(f"`society credit` ends with status {done.returncode}: {done.stderr.decode()}")
    return done.stdout


def tables(said: bytes) -> dict[int, bytes]:
    """The tables of the orders, by their lines: of each row the recording, the account and the part, as they are written."""
    header, _, rows = said.partition(b"\n")
    columns, found, end = header.split(b","), dict[int, bytes](), 0
    isrc, account, part = (columns.index(it) for it in (b"isrc", b"account", b"part"))
    for row in ROW.finditer(rows):
        if row.start() != end:
            raise ValueError(f"no row: {rows[end:row.end()]!r}")
        cells, end = row.groups(), row.end()
        found[int(cells[0])] = found.get(int(cells[0]), TABLE) + b",".join([cells[isrc], cells[account], cells[part]]) + b"\n"
    if end != len(rows):
        raise ValueError(f"no row: {rows[end:]!r}")
    return found


def compare(program: str, number: int) -> Counter[str]:
    """Compares all closed orders of a random office; a ValueError names the first pool that differs."""
    office = random_office.office(number)
    with trial_office(program, WORDS) as trial:
        for path, body in office.requests():
            if not trial.office.ask("PUT", f"/v1{path}", body).is_taken:
                raise ValueError(f"{path} is not taken")
        wanted = {it: trial.office.ask("GET", f"/v1/pools/{it}").body for it in office.pools}
        trial.end()
        with open_copy(trial.database) as copy, tempfile.TemporaryDirectory() as folder:
            copy.save(database := pathlib.Path(folder) / "copy.db")
            orders = Book(copy).orders
            if set(orders) != set(wanted):
                raise ValueError("other pools are closed")
            found = tables(answered(program, database, "".join(f"{Asked(it).json}\n" for it in orders.values())))
    for line, pool in enumerate(orders, 1):
        if found.get(line) != wanted[pool]:
            raise ValueError(f"pool {pool}: the office answers {wanted[pool]!r}, `society credit` {found.get(line)!r}")
    return Counter({"offices": 1, "pools": len(orders), "credits": sum(it.count(b"\n") - 1 for it in wanted.values())})


def main() -> None:
    """Compares them."""
    options = argparse.ArgumentParser(description=__doc__, formatter_class=argparse.RawDescriptionHelpFormatter)
    options.add_argument("--first", type=int, default=0)
    options.add_argument("--count", type=int, default=1_000)
    given, program, total, broken = options.parse_args(), find_program(), Counter[str](), list[int]()
    if os.access("/dev/shm", os.W_OK):
        tempfile.tempdir = "/dev/shm"
    for number in range(given.first, given.first + given.count):
        try:
            total += compare(program, number)
        except ValueError as error:
            print(f"office {number}: {error}", file=sys.stderr)
            broken.append(number)
    for what, count in total.items():
        print(f"{count:10,} {what}")
    print(f"{given.count:,} random offices, differing: {', '.join(map(str, broken)) or 'none'}")
    sys.exit(1 if broken else 0)


if __name__ == "__main__":
    main()
