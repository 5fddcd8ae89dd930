"""A copy of the office's file, opened to be read and never written to, whatever its layout and whatever stands beside it."""

import contextlib
import datetime
import fcntl
import os
import pathlib
import shutil
import sqlite3
import struct
from collections.abc import Iterator
from typing import Any

from society_office.basics.errors import OfficeError
from society_office.basics.throw_away import room
from society_office.book import book_log, page_sums
from society_office.formats.numbering import Line

BOOK = {"office", "transmissions", "returns", "pools", "pool_cuts", "pool_returns"}
DERIVED = {"fronts", "verdicts", "versions", "recordings", "credits", "balances"}
LATER = {"segment_ends", "mechanical_pools"}
# The tables of each layout.
TABLES = {1: BOOK, 2: BOOK | DERIVED, 3: BOOK | DERIVED | LATER}
# What pools leave in a file.
OF_POOLS = {"pools", "pool_cuts", "pool_returns", "mechanical_pools", "credits", "balances"}
WAL_HEADER, FRAME_HEADER = 32, 24
# Where SQLite locks a file: a byte for a writer that waits, one for a writer, and 510 for readers.
LOCKS = 0x4000_0000
ALL_LOCKS = 512


class Copy:
    """A copy that is open: its office, and questions to its tables."""

    def __init__(self, path: pathlib.Path, database: sqlite3.Connection, note: str = "") -> None:
        """Reads the layout and the office; an OfficeError where it is no office's file."""
        self.path, self.database, self.note = path, database, note
        self.layout = layout_of(path, database)
        self.society, self.territory, self.name = self.row("SELECT society, territory, name FROM office")
        self.moment = path.stat().st_mtime

    @property
    def taken(self) -> float:
        """When it was made, in seconds since 1970, by the time of its file; an OfficeError where no calendar has that."""
        try:
            datetime.datetime.fromtimestamp(self.moment).astimezone()
        except (ValueError, OverflowError, OSError) as error:
            raise OfficeError(f"{self.path} has a time that no calendar has, of a clock that was wrong: `touch {self.path}`") from error
        return self.moment

    @property
    def office_words(self) -> list[str]:
        """The options of the program that name this office."""
        return ["--society", str(self.society), "--territory", str(self.territory), f"--name={self.name}"]

    @property
    def file(self) -> pathlib.Path:
        """The file that is read: that of the copy, or where a log stands beside it, a throw-away one with its log."""
        return pathlib.Path(self.row("PRAGMA database_list")[2])

    def rows(self, question: str, *values: Any) -> Iterator[Any]:
        """The rows that answer a question, one after another."""
        try:
            # (no `yield from`: it would end the question too, where the rest is not asked for, and that after the file)
            for row in self.database.execute(question, values):
                yield row
        except sqlite3.DatabaseError as error:
            raise self.damaged(error) from error

    def blocks(self, question: str, size: int) -> Iterator[list[Any]]:
        """The rows that answer a question, so many at once."""
        try:
            cursor = self.database.execute(question)
            while some := cursor.fetchmany(size):
                yield some
        except sqlite3.DatabaseError as error:
            raise self.damaged(error) from error

    def listed(self, question: str, *values: Any) -> list[Any]:
        """The rows that answer a question, all at once, which is faster than one after another."""
        try:
            return self.database.execute(question, values).fetchall()
        except sqlite3.DatabaseError as error:
            raise self.damaged(error) from error

    def damaged(self, error: sqlite3.DatabaseError) -> OfficeError:
        """What is said where a question can't be answered."""
        return OfficeError(f"{self.path}: {error}: restore another copy, and ask `society audit` about this one")

    def row(self, question: str, *values: Any) -> Any:
        """The first row that answers a question, or None."""
        return next(self.rows(question, *values), None)

    def need_derived(self) -> None:
        """An OfficeError where the file is of layout 1, which has the book alone."""
        if self.layout == 1:
            raise OfficeError(
                f"{self.path} is of layout 1, which has no credits: where the program is on the PATH, or in $SOCIETY_PROGRAM, "
                "it is taken over in a throw-away copy"
            )

    def cuts(self) -> dict[int, dict[str, int]]:
        """How far each pool counts the files of each sender."""
        found: dict[int, dict[str, int]] = {pool: {} for pool in self.pools()}
        for pool, sender, number in self.rows("SELECT pool, sender, number FROM pool_cuts"):
            found[pool][sender] = number
        return found

    def pools(self) -> dict[int, int]:
        """The amount of each pool, by their numbers."""
        return dict(self.rows("SELECT pool, amount FROM pools ORDER BY pool"))

    def rights(self) -> dict[int, str]:
        """The right that each pool pays: PR or MR."""
        mechanical = {it[0] for it in self.rows("SELECT pool FROM mechanical_pools")} if self.layout >= 3 else set()
        return {pool: "MR" if pool in mechanical else "PR" for pool in self.pools()}

    def lines(self) -> list[Line]:
        """Each sender's line of files, in the order of the senders."""
        numbers: dict[str, list[int]] = {}
        for sender, number in self.rows("SELECT sender, number FROM transmissions ORDER BY sender, number"):
            numbers.setdefault(sender, []).append(number)
        ends: dict[str, dict[int, tuple[int, int]]] = {}
        if self.layout >= 3:
            for sender, segment, last, following in self.rows("SELECT sender, segment, last, next FROM segment_ends"):
                ends.setdefault(sender, {})[segment] = (last, following)
        fronts = self.rows("SELECT sender, front, works FROM fronts ORDER BY sender")
        return [Line(sender, front, works, ends.get(sender, {}), numbers.get(sender, [])) for sender, front, works in fronts]

    def line(self, sender: str) -> Line | None:
        """One sender's line; None where nothing of it has come."""
        return next((it for it in self.lines() if it.sender == sender), None)

    def need_line(self, sender: str, hint: str = "") -> Line:
        """A sender with its front; an OfficeError where nothing has come of it, with a hint behind its key."""
        if (found := self.line(sender)) is None:
            listed = ", ".join(it.sender for it in self.lines()[:10]) or "no sender"
            raise OfficeError(f"nothing has come of {sender}{hint}; the copy has {listed}")
        return found

    def save(self, target: pathlib.Path) -> None:
        """Writes what the copy holds into a file of its own, each page as it is: sqlite3's own backup writes no sum of the first one."""
        book_log.join(self.file, self.file.with_name(self.file.name + "-wal"), target)

    def save_before_pools(self, target: pathlib.Path) -> None:
        """Writes what the copy holds of files and returns into a file of its own, without page sums, as if no pool were closed yet."""
        with room() as folder:
            whole = folder / "whole.db"
            self.save(whole)
            page_sums.copy_tables(whole, target, OF_POOLS)

    def body(self, sender: str, number: int) -> bytes:
        """A file's bytes."""
        return bytes(self.row("SELECT body FROM transmissions WHERE sender = ? AND number = ?", sender, number)[0])


def layout_of(path: pathlib.Path, database: sqlite3.Connection) -> int:
    """The layout of an office's file; an OfficeError where it is another file, or damaged."""
    try:
        tables = {it[0] for it in database.execute("SELECT name FROM sqlite_schema WHERE type = 'table'")}
        if "office" not in tables:
            raise OfficeError(f"{path} is an SQLite database, but not an office's file")
        found = database.execute("SELECT layout FROM office").fetchone()
    except sqlite3.DatabaseError as error:
        raise OfficeError(f"{path} can't be read: {error}") from error
    layout = found[0] if found else 0
    if layout not in TABLES:
        raise OfficeError(f"{path} is of layout {layout}, and this command reads the layouts 1 to 3: a newer one is needed")
    if lacking := TABLES[layout] - tables:
        raise OfficeError(f"{path} says layout {layout}, but has no table {', '.join(sorted(lacking))}")
    return int(layout)


def is_in_use(path: pathlib.Path) -> bool:
    """Whether a program has the file open to write, as an office does as long as it runs."""
    with path.open("rb") as file:
        asked = struct.pack("hhqqi", fcntl.F_RDLCK, os.SEEK_SET, LOCKS, ALL_LOCKS, 0)
        found = struct.unpack("hhqqi", fcntl.fcntl(file, fcntl.F_GETLK, asked))
    return bool(found[0] != fcntl.F_UNLCK)


def beside(path: pathlib.Path, ending: str) -> pathlib.Path:
    """What SQLite has beside a file, as its log (`-wal`): where a link leads, and not beside the link."""
    place = pathlib.Path(os.path.realpath(path)) if path.is_symlink() else path
    return place.parent / (place.name + ending)


def has_frames(log: pathlib.Path) -> bool:
    """Whether a write-ahead log has a page that counts: one whose salts are those of the log's header."""
    if not log.exists():
        return False
    with log.open("rb") as file:
        header, frame = file.read(WAL_HEADER), file.read(FRAME_HEADER)
    return len(header) == WAL_HEADER and len(frame) == FRAME_HEADER and header[16:24] == frame[8:16]


def page_sizes(path: pathlib.Path, log: pathlib.Path) -> tuple[int, int]:
    """The size of a page of a database, 0 where it is empty, and of its log."""
    with path.open("rb") as file:
        start = file.read(18)
    with log.open("rb") as file:
        header = file.read(WAL_HEADER)
    own = struct.unpack(">H", start[16:18])[0] if len(start) == 18 else 0
    return 65_536 if own == 1 else own, struct.unpack(">I", header[8:12])[0]


def open_alone(path: pathlib.Path) -> sqlite3.Connection:
    """Opens a file that nobody changes, and makes nothing beside it."""
    return sqlite3.connect(f"{path.resolve().as_uri()}?mode=ro&immutable=1", uri=True)


def refuse_another(path: pathlib.Path) -> None:
    """An OfficeError where the path is no database that can be read now."""
    if not path.exists():
        raise OfficeError(f"there is no file {path}")
    if not path.is_file():
        raise OfficeError(f"{path} is no file")
    try:
        with path.open("rb") as file:
            start = file.read(len(book_log.DATABASE))
        if is_in_use(path):
            raise OfficeError(f"{path} is in use: it is no copy, but the file of an office that runs")
    except PermissionError as error:
        raise OfficeError(f"{path} may not be read by this user") from error
    if start and start != book_log.DATABASE:
        raise OfficeError(f"{path} is no SQLite database")
    if (log := beside(path, "-wal")).exists() and not log.is_file():
        raise OfficeError(f"{log} is no file")
    journal = beside(path, "-journal")
    if journal.exists() and journal.stat().st_size:
        raise OfficeError(f"{journal} stands beside {path}: a change of it was not ended. Copy it again")


def refuse_foreign_log(path: pathlib.Path, log: pathlib.Path, joined: sqlite3.Connection) -> None:
    """An OfficeError where the log is not of the file: what both come to is no sound file that has all that the file alone has."""
    why = f"{log} is not of {path}: "
    cure = ". Take both files of one moment, or the one file that society-backup makes"
    try:
        if (fault := joined.execute("PRAGMA integrity_check(1)").fetchone()[0]) != "ok":
            raise OfficeError(f"{why}both together are no sound file ({fault.splitlines()[-1]}){cure}")
        if joined.execute("PRAGMA foreign_key_check").fetchone():
            raise OfficeError(f"{why}together a row has lost the row to which it refers{cure}")
        layout_of(path, joined)
    except sqlite3.DatabaseError as error:
        raise OfficeError(f"{why}both together are no sound file ({error}){cure}") from error
    with contextlib.closing(open_alone(path)) as alone:
        lost = lost_rows(alone, joined)
    if lost:
        raise OfficeError(f"{why}{path} alone has {lost}, which both together have not{cure}")


def lost_rows(alone: sqlite3.Connection, joined: sqlite3.Connection) -> str:
    """What a file has without its log and not with it, of what is never taken away; the empty text where there is nothing."""
    keys = {
        "office": "society || '/' || territory || '/' || name",
        "transmissions": "sender || '/' || number || '/' || length(body)",
        "returns": "reporter || '/' || number || '/' || length(body)",
        "pools": "pool || '/' || amount",
    }
    for table, key in keys.items():
        try:
            had = {it[0] for it in alone.execute(f"SELECT {key} FROM {table}")}
        except sqlite3.DatabaseError:
            # The file alone may be empty, or stopped while its log was copied into it: then the log alone tells.
            return ""
        if lost := had - {it[0] for it in joined.execute(f"SELECT {key} FROM {table}")}:
            return f"{table} {min(lost)}"
    return ""


@contextlib.contextmanager
def open_copy(name: str | os.PathLike[str]) -> Iterator[Copy]:
    """A copy, open while the `with` lasts; an OfficeError where it can't be read as an office's file."""
    path = pathlib.Path(name)
    refuse_another(path)
    log = beside(path, "-wal")
    if has_frames(log):
        with open_pair(path, log) as pair:
            yield pair
    elif path.stat().st_size == 0:
        raise OfficeError(f"{path} is empty, and no log with its content stands beside it")
    else:
        with contextlib.closing(open_alone(path)) as database:
            yield Copy(path, database)


@contextlib.contextmanager
def open_pair(path: pathlib.Path, log: pathlib.Path) -> Iterator[Copy]:
    """A file and its log, read as one out of a throw-away folder, so that nothing is written beside them."""
    own, others = page_sizes(path, log)
    if own not in (0, others):
        raise OfficeError(
            f"{log} is not of {path}: it has pages of {others} bytes, and the file pages of {own}. Take it away from the copy"
        )
    with room() as folder:
        both = folder / "copy.db"
        shutil.copyfile(path, both)
        shutil.copyfile(log, both.with_name("copy.db-wal"))
        with contextlib.closing(sqlite3.connect(both)) as database:
            refuse_foreign_log(path, log, database)
            yield Copy(path, database, f"{path} and {log.name} were read as one")
