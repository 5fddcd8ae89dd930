"""What the office has decided, as text in one folder that people read and keep in git, and the journal of who decided it and why.

    void.txt        RADIO1/3  # a wrong month          returns never to be paid
    amendments.txt  99998 7 {"amount":1000, ..}        a number of the make-ups' row, a pool, and its order as it should be
    pools.txt       7 2026-01-01/2026-03-31 Spring     what a pool is called, and the days whose plays it pays
    journal.txt     when, who, what, why and the sums of the files that were written then, with a tab between

A file is replaced whole, so that it never has half a line, and under a lock of the folder.
"""

import contextlib
import dataclasses
import fcntl
import json
import os
import pathlib
import re
import stat
import time
from collections.abc import Iterable, Iterator
from typing import Any

from society_office.basics.errors import OfficeError
from society_office.decided.journal import Decided, journal_in, sum_of, written_now
from society_office.formats.numbering import counted
from society_office.formats.pool_names import PoolNames, names_in
from society_office.formats.return_names import Entry, listed
from society_office.formats.word_lists import entries_of

# Where an installed office has its decisions: its group may write there.
FOLDER = pathlib.Path("/var/lib/society-decisions")
# Names another folder, where no option does.
VARIABLE = "SOCIETY_DECISIONS"
VOID, AMENDMENTS, POOLS, JOURNAL = "void.txt", "amendments.txt", "pools.txt", "journal.txt"
FILES = (VOID, AMENDMENTS, POOLS, JOURNAL)
# What stands at the head of each file of a new folder.
HEADS = {
    VOID: "# Returns never to be paid, an entry in a line: RADIO1/3  # why\n",
    AMENDMENTS: "# Orders as they should have been: the number of the amendment's pool, the pool, and the whole order.\n",
    POOLS: "# Names and days of pools: 3 2026-01-01/2026-03-31 First quarter\n",
    JOURNAL: "# Who decided what, when and why: only commands write here.\n",
}
AMENDMENT = re.compile(r"([1-9][0-9]{0,4}) +([1-9][0-9]{0,4}) +(\{.*\})", re.ASCII)
# Seconds that a command waits for another one that writes.
PATIENCE = 10.0
# Who may read and write a file: its user, and its group where the folder is open to it.
OPEN = 0o660


@dataclasses.dataclass(frozen=True)
class Amendment:
    """An order as it should have been: the number of the pool that puts it in force, the pool, the order, and where it is written."""

    number: int
    pool: int
    order: dict[str, Any]
    where: str


@dataclasses.dataclass(frozen=True)
class Decisions:
    """All that a folder has, read at one moment."""

    folder: pathlib.Path
    void: list[Entry]
    amendments: list[Amendment]
    pools: PoolNames
    journal: list[Decided]
    sums: dict[str, str]

    @property
    def changed_by_hand(self) -> list[str]:
        """The files that are not as the last line of the journal has them, or that no line names though they say something."""
        last = {name: it for one in self.journal for name, it in one.sums.items()}
        return [name for name in (VOID, AMENDMENTS, POOLS) if self.sums[name] != last.get(name, sum_of(HEADS[name].encode()))]

    @property
    def words(self) -> str:
        """What it has, in a line."""
        return (
            f"decisions of {self.folder}: {counted(len(self.void), 'line')} of void returns, "
            f"{counted(len(self.amendments), 'amendment')}, {counted(len(self.pools), 'name')} of pools"
        )


def folder_of(named: pathlib.Path | None = None) -> pathlib.Path | None:
    """The folder that is named, else that of $SOCIETY_DECISIONS, else that of an installed office; None where there is none."""
    if named is not None:
        return named
    if word := os.environ.get(VARIABLE):
        return pathlib.Path(word)
    return FOLDER if FOLDER.is_dir() else None


def need_folder(named: pathlib.Path | None = None) -> pathlib.Path:
    """The folder as `folder_of` has it; an OfficeError where there is none."""
    if (found := folder_of(named)) is None:
        raise OfficeError(
            f"no folder of decisions, so nobody knows which returns are void: name it with --decisions FOLDER or ${VARIABLE}, "
            f"or make one: `society-office decisions --begin FOLDER` (an installed office has {FOLDER})"
        )
    return found


@contextlib.contextmanager
def locked(folder: pathlib.Path, is_writer: bool) -> Iterator[None]:
    """Nobody writes there while the `with` lasts, and if this is a writer nobody reads; an OfficeError where another one takes too long."""
    try:
        handle = os.open(folder, os.O_RDONLY | os.O_DIRECTORY | os.O_CLOEXEC)
    except OSError as error:
        raise OfficeError(f"{folder} is no folder of decisions that can be read: {error.strerror}") from error
    try:
        until = time.monotonic() + PATIENCE
        while not has_lock(handle, fcntl.LOCK_EX if is_writer else fcntl.LOCK_SH):
            if time.monotonic() > until:
                raise OfficeError(f"{folder}: another command is writing there; run this again")
            time.sleep(0.05)
        yield
    finally:
        os.close(handle)


def has_lock(handle: int, kind: int) -> bool:
    """Whether a lock was got at once."""
    try:
        fcntl.flock(handle, kind | fcntl.LOCK_NB)
    except BlockingIOError:
        return False
    return True


def content_of(folder: pathlib.Path, name: str) -> bytes:
    """What a file of the folder has; an OfficeError where it is not there: no list at all is not an empty one."""
    try:
        return (folder / name).read_bytes()
    except FileNotFoundError as error:
        raise OfficeError(
            f"{folder} has no {name}: put it back, or where nothing was decided yet: `society-office decisions --begin {folder}`"
        ) from error


def read(folder: pathlib.Path) -> Decisions:
    """All that the folder has; an OfficeError with file and line where one is wrong."""
    with locked(folder, is_writer=False):
        return read_locked(folder)


def read_locked(folder: pathlib.Path) -> Decisions:
    """The same, where the folder is locked already."""
    sums = {name: sum_of(content_of(folder, name)) for name in FILES}
    void, amendments = listed(folder / VOID), list(amendments_in(folder / AMENDMENTS))
    return Decisions(folder, void, amendments, names_in(folder / POOLS), list(journal_in(folder / JOURNAL)), sums)


def amendments_in(file: pathlib.Path) -> Iterator[Amendment]:
    """The amendments of a list; an OfficeError with the line of what is none, or has the number of another."""
    seen: dict[int, str] = {}
    for where, words in entries_of(file):
        found = AMENDMENT.fullmatch(words)
        try:
            order = json.loads(found[3]) if found else None
        except (ValueError, RecursionError):
            order = None
        if found is None or not isinstance(order, dict):
            raise OfficeError(f'{where}: {words!r} is no amendment: write 99998 7 {{"amount":1000,"cut":[..],"returns":[..]}}')
        number, pool = int(found[1]), int(found[2])
        if number in seen:
            raise OfficeError(f"{where}: {seen[number]} has the number {number} already")
        seen[number] = where
        yield Amendment(number, pool, order, where)


def add(folder: pathlib.Path, name: str, lines: Iterable[str], what: str, why: str) -> Decided:
    """Adds lines to a file of the folder, and a line to the journal; what the folder has has to be right before and after."""
    written_now(what, why, {})
    with writing(folder) as it:
        it.add(name, lines)
        return it.note(what, why)


@contextlib.contextmanager
def writing(folder: pathlib.Path) -> Iterator["Writer"]:
    """The folder, to be written by nobody else while the `with` lasts; an OfficeError where what it has is wrong."""
    with locked(folder, is_writer=True):
        yield Writer(folder, read_locked(folder))


@dataclasses.dataclass
class Writer:
    """A folder that is locked, what it had then, and the sums of what was written since the last line of the journal."""

    folder: pathlib.Path
    had: Decisions
    sums: dict[str, str] = dataclasses.field(default_factory=dict)

    def add(self, name: str, lines: Iterable[str]) -> None:
        """Adds whole lines to a file; where the folder would not be right then it stays as it is, and that is an OfficeError."""
        before = content_of(self.folder, name)
        self.put(name, ended(before) + "".join(f"{it}\n" for it in lines).encode())
        try:
            self.had = read_locked(self.folder)
        except OfficeError:
            self.put(name, before)
            raise

    def put(self, name: str, content: bytes) -> None:
        """Replaces a file of the folder, or makes it; its sum goes to the next line of the journal."""
        replace(self.folder / name, content)
        self.sums[name] = sum_of(content)

    def note(self, what: str, why: str, sums: dict[str, str] | None = None) -> Decided:
        """A line of the journal, with the sums of what was written since the line before, and with these."""
        made = written_now(what, why, {**self.sums, **(sums or {})})
        replace(self.folder / JOURNAL, ended(content_of(self.folder, JOURNAL)) + f"{made.line}\n".encode())
        self.sums = {}
        self.had = read_locked(self.folder)
        return made


def ended(content: bytes) -> bytes:
    """What a file has, with its last line ended."""
    return content if content.endswith(b"\n") or not content else content + b"\n"


def replace(file: pathlib.Path, content: bytes) -> None:
    """Puts a file in the place of another one in one step, for the same users; after a power failure it is one of the two."""
    made = file.with_name(f".{file.name}.new")
    with contextlib.suppress(FileNotFoundError):
        made.unlink()
    shared = file.stat().st_mode if file.exists() else file.parent.stat().st_mode
    handle = os.open(made, os.O_WRONLY | os.O_CREAT | os.O_EXCL | os.O_CLOEXEC, 0o600)
    with open(handle, "wb") as out:
        os.fchmod(handle, stat.S_IMODE(shared) & OPEN)
        out.write(content)
        out.flush()
        os.fsync(handle)
    made.rename(file)
    sync(file.parent)


def make(folder: pathlib.Path) -> None:
    """Makes a folder in the folder of decisions, for the same users."""
    if not folder.is_dir():
        folder.mkdir()
        folder.chmod(folder.parent.stat().st_mode & 0o7777)
        sync(folder.parent)


def sync(folder: pathlib.Path) -> None:
    """The names of a folder are on the disk."""
    handle = os.open(folder, os.O_RDONLY | os.O_DIRECTORY | os.O_CLOEXEC)
    try:
        os.fsync(handle)
    finally:
        os.close(handle)


def begin(folder: pathlib.Path) -> list[str]:
    """Makes the folder where it is not there, and what it lacks; answers the names of the files that were made."""
    folder.mkdir(parents=True, exist_ok=True)
    with locked(folder, is_writer=True):
        lacking = [name for name in FILES if not (folder / name).exists()]
        for name in lacking:
            replace(folder / name, HEADS[name].encode())
    return lacking
