"""The page sums of SQLite's cksumvfs, which a new file of an office has: who changes such a file by sqlite3 sums its pages anew."""

import array
import contextlib
import itertools
import os
import pathlib
import sqlite3
import struct
import sys
from collections.abc import Container, Iterator

from society_office.basics.errors import OfficeError
from society_office.book import book_log

# Where the header of a file tells how it is written, and how many bytes each page keeps free; how many bytes a sum has.
FORM, RESERVED, SUM = 18, 20, 8
# Where the first page of a file without tables tells where its rows would begin, which is at its end.
FIRST_ROW = 105
# How a header tells that the file has a log.
WITH_LOG = b"\2\2"


def sum_of(page: bytes) -> bytes:
    """What has to stand at the end of a page: the two sums over all that is before it, as a log has them."""
    words = array.array("I", page[:-SUM])
    if sys.byteorder == "big":
        words.byteswap()
    return struct.pack("<2I", *book_log.summed(words, (0, 0)))


def has_sums(database: pathlib.Path) -> bool:
    """Whether the pages of a file have sums, as its header tells."""
    with database.open("rb") as file:
        start = file.read(RESERVED + 1)
    return start.startswith(book_log.DATABASE) and start[RESERVED:] == bytes([SUM])


def wrong_pages(database: pathlib.Path) -> list[int]:
    """The pages of a file that has sums whose sum is wrong."""
    return [number for number, page in book_log.pages(database) if page[-SUM:] != sum_of(page)]


def resum(database: pathlib.Path) -> None:
    """Writes the right sum of each page of a file that has sums, and nothing into another one. Nobody has the file open meanwhile."""
    if not has_sums(database):
        return
    with database.open("r+b") as file:
        for number, page in book_log.pages(database):
            if page[-SUM:] != (right := sum_of(page)):
                file.seek(number * len(page) - SUM)
                file.write(right)
        file.flush()
        os.fsync(file.fileno())


@contextlib.contextmanager
def changed(database: pathlib.Path) -> Iterator[sqlite3.Connection]:
    """A file that sqlite3 changes, which knows of no sums: where it has some, its pages are summed anew when the `with` has ended."""
    with contextlib.closing(sqlite3.connect(database)) as opened:
        yield opened
        opened.commit()
    resum(database)


def write_with_sums(database: pathlib.Path, target: pathlib.Path) -> None:
    """Writes what a file without a log holds into a new one with sums: the same tables, rows and settings, in the same order.

    The sums come last, so that what is left of a target that was not ended is refused as damaged.
    """
    if target.exists():
        raise OfficeError(f"{target} is there already")
    try:
        begin(database, target)
        copy_tables(database, target)
    except sqlite3.DatabaseError as error:
        raise OfficeError(f"{database} can't be written into {target}: {error}") from error
    with target.open("r+b") as file:
        file.seek(FORM)
        file.write(WITH_LOG)
    resum(target)


def alone(database: pathlib.Path) -> str:
    """The address of a file that nobody changes, beside which nothing is made."""
    return f"{database.resolve().as_uri()}?mode=ro&immutable=1"


def begin(database: pathlib.Path, target: pathlib.Path) -> None:
    """Makes a file of no table, with the settings of another one, whose pages keep the bytes of a sum free; sqlite3 then does so too."""
    size, _ = book_log.page_size_and_count(database)
    with contextlib.closing(sqlite3.connect(alone(database), uri=True)) as old:
        settings = {it: old.execute(f"PRAGMA {it}").fetchone()[0] for it in ("user_version", "application_id")}
    with contextlib.closing(sqlite3.connect(target)) as made:
        made.executescript("; ".join(f"PRAGMA {name} = {value}" for name, value in {"page_size": size, **settings}.items()))
    with target.open("r+b") as file:
        file.seek(RESERVED)
        file.write(bytes([SUM]))
        file.seek(FIRST_ROW)
        file.write(struct.pack(">H", size - SUM))


def copy_tables(database: pathlib.Path, target: pathlib.Path, empty: Container[str] = ()) -> None:
    """Makes the tables of a file in another one, which has none, in the same order, and some of them without their rows."""
    with contextlib.closing(sqlite3.connect(target.resolve().as_uri(), uri=True, isolation_level=None)) as made:
        made.executescript("PRAGMA journal_mode = OFF; PRAGMA synchronous = OFF")
        made.execute("ATTACH ? AS old", (alone(database),))
        made.execute("BEGIN")
        for table, text in made.execute("SELECT name, sql FROM old.sqlite_schema WHERE sql IS NOT NULL ORDER BY rowid").fetchall():
            if table in empty:
                made.execute(text)
            else:
                copy_table(made, table, text)
        made.execute("COMMIT")


def copy_table(made: sqlite3.Connection, table: str, text: str) -> None:
    """Makes a table of the old file in the new one, by its own text, with its rows and their rowids; an OfficeError where they differ."""
    made.execute(text)
    columns = ", ".join(["rowid", *(it[1] for it in made.execute(f"PRAGMA old.table_info({table})"))])
    made.execute(f"INSERT INTO main.{table} ({columns}) SELECT {columns} FROM old.{table} ORDER BY rowid")
    rows = (made.execute(f"SELECT {columns} FROM {it}.{table} ORDER BY rowid") for it in ("old", "main"))
    if any(one != other for one, other in itertools.zip_longest(*rows)):
        raise OfficeError(f"the new rows of {table} are not those of the old file")
