"""Databases that requests leave, read and changed by SQLite itself, and the rows that they have."""
import contextlib
import pathlib
import sqlite3
from typing import Any

from bodies import FIRST, NO_WORKS, REVISION, SENDER, order_body, put_file, put_named, put_pool, put_return, request, state_end
from program import SERVED_ONE, Server, served_one, told, trial
from society_office.book import page_sums


# Requests that leave a database.
def put_year(year: int, body: bytes) -> bytes:
    """The put of the first file of a year."""
    return put_named(body, f"CW{year}0001EXA_900.V22")


def played(plays: int) -> bytes:
    return put_return(b"isrc,plays,seconds\nATABC2600001,%d,200\n" % plays)


def close(amount: int, cut: int) -> bytes:
    """The order that closes pool 7 over the sender's files up to this number and the first return."""
    return put_pool(7, amount, [[SENDER, cut]], [["RADIO1", 1]])


# A registration, two files with no group, a return and a pool of 1,001 units, whose order comes first when it still has to wait.
CLOSED_AT_A_CUT = b"".join([put_file(FIRST, 1), put_file(NO_WORKS, 2), played(10), close(1_001, 3), put_file(NO_WORKS, 3), close(1_001, 3)])
# The revision under the first number of 2026, a registration, and the end of the plain numbers that leads from the one to the other.
YEAR_BEGUN = put_year(26, REVISION) + put_file(FIRST, 1) + state_end("plain", 1, 26)
# A registration that waits, one that does not, a return and a pool that pays it.
ONE_WAITS = put_file(FIRST, 3) + put_file(FIRST, 1) + played(3) + close(1_000, 1)
# Requests that leave rows in every table: a file of a year behind the end of the plain numbers, and a pool of each right.
IN_EVERY_TABLE = b"".join(
    [put_file(FIRST, 1), put_file(REVISION, 2), state_end("plain", 2, 26), put_year(26, NO_WORKS), put_year(27, FIRST)]
    + [played(10), close(1_001, 1), put_return(b"isrc,plays,seconds\nATABC2600001,7,70\n", 2)]
    + [request("PUT", "/v1/pools/8", order_body(999, [[SENDER, 2]], [["RADIO1", 2]])[:-1] + b',"kind":"MR"}')]
)
# A registration, a file with no group behind a gap, and the revision that fills it; the same, the last one first.
GAP_FILLED = put_file(FIRST, 1) + put_file(NO_WORKS, 3) + put_file(REVISION, 2)
REVERSE_ARRIVAL = put_file(NO_WORKS, 3) + put_file(REVISION, 2) + put_file(FIRST, 1)
# A registration, its revisions in 2025 and 2026 and a file of 2024, which all wait for the end of the plain numbers. That leads to 2025.
TWO_YEARS = b"".join(
    [put_year(26, REVISION), put_year(25, REVISION), put_year(24, NO_WORKS)]
    + [state_end("25", 1, 26), put_file(FIRST, 1), state_end("plain", 1, 25)]
)


def left_by(program: pathlib.Path, folder: pathlib.Path, name: str, requests: bytes) -> pathlib.Path:
    """The database that requests leave after a normal end, in its file alone."""
    with Server(program, folder, name) as server:
        server.sent(requests)
        told(name, server.ended().status, 0)
    return folder / name


def change(path: pathlib.Path, statements: str) -> None:
    """Runs statements over a database, whose pages are summed anew where they have sums."""
    with page_sums.changed(path) as database:
        database.executescript(f"PRAGMA foreign_keys = ON; {statements}")


def names_in(path: pathlib.Path) -> list[tuple[str]]:
    """The names of all tables and indexes."""
    with contextlib.closing(sqlite3.connect(path)) as database:
        return sorted(database.execute("SELECT name FROM sqlite_master"))


# The rows of each table, by its key; of a transmission its body is left out.
TABLES = {
    "office": "one, layout, society, territory, name",
    "transmissions": "sender, number",
    "fronts": "sender, front, works",
    "verdicts": "sender, number, place, fault, ordinal, revision",
    "versions": "sender, work, revision, number, place, ordinal",
    "recordings": "sender, work, revision, isrc",
    "returns": "reporter, number, body",
    "pools": "pool, amount",
    "pool_cuts": "pool, sender, number",
    "pool_returns": "reporter, number, pool",
    "credits": "pool, line, isrc, account, units",
    "balances": "account, units",
    "segment_ends": "sender, segment, last, next",
    "mechanical_pools": "pool",
}


def rows_of(path: pathlib.Path) -> list[tuple[Any, ...]]:
    """The rows of all tables, each behind its table's name."""
    with contextlib.closing(sqlite3.connect(path)) as database:
        asked = {table: database.execute(f"SELECT {columns} FROM {table} ORDER BY {columns}") for table, columns in TABLES.items()}
        return [(table, *row) for table, found in asked.items() for row in found]


OFFICE_ROW = ("office", 1, 3, 900, 40, "EXAMPLE SOCIETY")


def rows(table: str, *values: tuple[object, ...]) -> list[tuple[object, ...]]:
    """Rows of a table, of which the first columns are the sender's."""
    return [(table, SENDER, *it) for it in values]


# What a registration, its revision and a file with no group leave, in whichever order they come.
ROWS_OF_THREE_FILES = [
    OFFICE_ROW,
    *rows("transmissions", (1,), (2,), (3,)),
    *rows("fronts", (3, 1)),
    *rows("verdicts", (1, 0, 0, 1, 0), (2, 0, 0, 1, 1)),
    *rows("versions", ("W1", 0, 1, 0, 1), ("W1", 1, 2, 0, 1)),
    *rows("recordings", ("W1", 0, "ATABC2600001"), ("W1", 1, "ATABC2600001")),
]
# What a registration, its revision under the first number of 2026 and the end of the plain numbers leave.
ROWS_OF_A_YEAR = [
    OFFICE_ROW,
    *rows("transmissions", (1,), (1_260_001,)),
    *rows("fronts", (1_260_001, 1)),
    *rows("verdicts", (1, 0, 0, 1, 0), (1_260_001, 0, 0, 1, 1)),
    *rows("versions", ("W1", 0, 1, 0, 1), ("W1", 1, 1_260_001, 0, 1)),
    *rows("recordings", ("W1", 0, "ATABC2600001"), ("W1", 1, "ATABC2600001")),
    *rows("segment_ends", (-1, 1, 26)),
]
# What the end of the plain numbers leaves before anything has come.
ROWS_OF_AN_END = [OFFICE_ROW, *rows("fronts", (1_260_000, 0)), *rows("segment_ends", (-1, 0, 26))]
# What a registration, its revisions in 2025 and 2026, a file of a year that is skipped and the ends of the plain numbers and of 2025 leave.
ROWS_OF_TWO_YEARS = [
    OFFICE_ROW,
    *rows("transmissions", (1,), (1_240_001,), (1_250_001,), (1_260_001,)),
    *rows("fronts", (1_260_001, 1)),
    *rows("verdicts", (1, 0, 0, 1, 0), (1_250_001, 0, 0, 1, 1), (1_260_001, 0, 0, 1, 2)),
    *rows("versions", ("W1", 0, 1, 0, 1), ("W1", 1, 1_250_001, 0, 1), ("W1", 2, 1_260_001, 0, 1)),
    *rows("recordings", *(("W1", it, "ATABC2600001") for it in range(3))),
    *rows("segment_ends", (-1, 1, 25), (25, 1, 26)),
]
# What a registration, two files with no group, a return and a pool over it leave.
ROWS_OF_A_POOL = [
    OFFICE_ROW,
    *rows("transmissions", (1,), (2,), (3,)),
    *rows("fronts", (3, 1)),
    *rows("verdicts", (1, 0, 0, 1, 0)),
    *rows("versions", ("W1", 0, 1, 0, 1)),
    *rows("recordings", ("W1", 0, "ATABC2600001")),
    ("returns", "RADIO1", 1, b"isrc,plays,seconds\nATABC2600001,10,200\n"),
    ("pools", 7, 1_001),
    ("pool_cuts", 7, SENDER, 3),
    ("pool_returns", "RADIO1", 1, 7),
    ("credits", 7, 0, "ATABC2600001", "I00000000199", 501),
    ("credits", 7, 1, "ATABC2600001", "I00000000295", 500),
    ("credits", 7, 2, "ATABC2600001", "UNCLAIMED", 0),
    ("balances", "I00000000199", 501),
    ("balances", "I00000000295", 500),
    ("balances", "UNCLAIMED", 0),
]
LEFT = [
    ("rows_of_a_gap_filled", GAP_FILLED, ROWS_OF_THREE_FILES),
    ("rows_of_a_reverse_arrival", REVERSE_ARRIVAL, ROWS_OF_THREE_FILES),
    ("rows_of_a_year_begun", YEAR_BEGUN, ROWS_OF_A_YEAR),
    ("rows_of_an_end_alone", state_end("plain", 0, 26), ROWS_OF_AN_END),
    ("rows_of_two_years", TWO_YEARS, ROWS_OF_TWO_YEARS),
    ("rows_of_a_pool_closed_at_a_cut", CLOSED_AT_A_CUT, ROWS_OF_A_POOL),
]


@trial
def rows_that_requests_leave(program: pathlib.Path, folder: pathlib.Path) -> None:
    for name, requests, wanted in LEFT:
        told(name, rows_of(left_by(program, folder, name, requests)), wanted)


@trial
def a_file_holds_what_was_committed(program: pathlib.Path, folder: pathlib.Path) -> None:
    """Every table has rows, and has them still after the file was closed, opened and closed again."""
    left = left_by(program, folder, "left", IN_EVERY_TABLE)
    held = rows_of(left)
    told("tables with rows", {it[0] for it in held}, set(TABLES))
    told("opened again", served_one(program, folder, left.name, True, 900), SERVED_ONE)
    told("its rows then", rows_of(left) == held, True)
