"""The index by which works of a copy are found soon: an SQLite database with FTS5, in a file of its own beside the copy.

    copy.db          the copy
    copy.db.works    a line that says of which copy it is and what its sum is, and behind it the database

It is taken only where that line is what it has to be: of the copy as it is now, and with the sum (SHA-256) of all that stands behind it.
Else it is made anew, out of the copy alone, and put in its place in one step. Where it can't be written, it is used all the same, once.

A word is kept as `w` and a number as `n`, with its bytes as digits behind that, so that FTS5 sees no sign to which it gives a meaning.
"""

import contextlib
import hashlib
import json
import os
import pathlib
import sqlite3
import unicodedata
from collections.abc import Iterable, Iterator, Sequence

from society_office.basics.errors import OfficeError
from society_office.book.copy import Copy, beside
from society_office.printed.pages import locked
from society_office.works.registered_works import Place, sent_works
from society_office.works.work_search import Part, Thing, words_of

ENDING = ".works"
# What is kept in it, and how words are made: where one of both changes, an index of before is no index any more.
FORM = f"society-office works 1 {unicodedata.unidata_version}"
# No word of a work has more characters than this, since no field of a file has as many; FTS5 would cut off what has many more.
LONGEST = 2_000
TABLES = """
  CREATE TABLE works (id INTEGER PRIMARY KEY, sender TEXT NOT NULL, work TEXT NOT NULL, places TEXT NOT NULL);
  CREATE VIRTUAL TABLE tokens USING fts5 (token, content = '', detail = none, tokenize = 'ascii');
  ATTACH ':memory:' AS draft;
  CREATE TABLE draft.works (sender TEXT, work TEXT, places TEXT, title TEXT, tokens TEXT);"""
# Works stand in the order of their titles, as people read them.
ORDERED = """
  INSERT INTO works SELECT row_number() OVER (ORDER BY title, sender, work), sender, work, places FROM draft.works;
  INSERT INTO tokens (rowid, token) SELECT row_number() OVER (ORDER BY title, sender, work), tokens FROM draft.works;"""


def token(kind: str, word: str) -> str:
    """A word (w) or a number (n) as the index has it: a beginning of the one is a beginning of the other."""
    return kind + word.encode().hex()


class Index:
    """The works of a copy, to be found by what is asked for."""

    def __init__(self, database: sqlite3.Connection) -> None:
        """By a database with an index."""
        self.database = database

    def find(self, things: Sequence[Thing]) -> list[int]:
        """The works in which all things are found, in the order of their titles."""
        if not things:
            return [it for it, in self.database.execute("SELECT id FROM works ORDER BY id")]
        return sorted(common(self.having(it) for it in things))

    def having(self, it: Thing) -> set[int]:
        """The works in which one thing is found."""
        return self.beginning("n", it.number) | common(self.with_part(part) for part in it.parts)

    def with_part(self, it: Part) -> set[int]:
        """The works that have a part, as a number or as words."""
        return self.beginning("n", it.number) | common(self.beginning("w", word) for word in it.words)

    def beginning(self, kind: str, word: str) -> set[int]:
        """The works with a word, or a number, that begins so."""
        if not 0 < len(word) <= LONGEST:
            return set()
        question = "SELECT rowid FROM tokens WHERE tokens MATCH ?"
        return {it for it, in self.database.execute(question, (f'"{token(kind, word)}" *',))}

    def places(self, found: Iterable[int]) -> list[tuple[str, str, list[Place]]]:
        """Works with their senders, their numbers, and the places of all that was sent of them."""
        question = "SELECT sender, work, places FROM works WHERE id = ?"
        rows = (self.database.execute(question, (it,)).fetchone() for it in found)
        return [(sender, work, [Place(*it) for it in json.loads(places)]) for sender, work, places in rows]


def common(sets: Iterable[set[int]]) -> set[int]:
    """What is in each of some sets; of those behind an empty one none is asked for."""
    found: set[int] | None = None
    for it in sets:
        found = it if found is None else found & it
        if not found:
            break
    return found or set()


def made(copy: Copy) -> sqlite3.Connection:
    """The index of a copy, in memory."""
    database = sqlite3.connect(":memory:")
    database.executescript(TABLES)
    rows = (
        (it.sender, it.work, json.dumps(it.places), " ".join(words_of(it.title)), " ".join(tokens(it.facts.words, it.facts.numbers)))
        for it in sent_works(copy)
    )
    database.executemany("INSERT INTO draft.works VALUES (?, ?, ?, ?, ?)", rows)
    database.executescript(ORDERED)
    database.commit()
    database.execute("DETACH draft")
    return database


def tokens(words: Iterable[str], numbers: Iterable[str]) -> Iterator[str]:
    """What a work is found by, as the index has it."""
    yield from (token("w", it) for it in words)
    yield from (token("n", it) for it in numbers)


def place_of(copy: Copy) -> pathlib.Path:
    """Where the index of a copy stands."""
    return beside(copy.path, ENDING)


def stamp_of(copy: Copy) -> str:
    """Which files a copy is, as an index says it; the empty text where another one has taken its place since it was opened."""
    files = [it.stat() for it in (copy.path, beside(copy.path, "-wal")) if it.exists()]
    told = json.dumps([[it.st_size, it.st_mtime_ns, it.st_ctime_ns, it.st_ino] for it in files])
    return f"{FORM} {told}" if files and files[0].st_mtime == copy.taken else ""


def line_of(stamp: str, image: bytes) -> bytes:
    """The first line of an index of a copy, with the sum of the database behind it."""
    return f"{stamp} {hashlib.sha256(image).hexdigest()}\n".encode()


def read(place: pathlib.Path, stamp: str) -> sqlite3.Connection | None:
    """The index that stands beside a copy; None where there is none that can be trusted."""
    try:
        content = place.read_bytes()
    except OSError:
        return None
    head, end, image = content.partition(b"\n")
    if head + end != line_of(stamp, image):
        return None
    database = sqlite3.connect(":memory:")
    database.deserialize(image)
    return database


def write(place: pathlib.Path, stamp: str, database: sqlite3.Connection, like: os.stat_result) -> None:
    """Puts an index beside a copy in one step, for those who may read the copy; an OSError where it can't be there."""
    image, draft = database.serialize(), place.with_name(f".{place.name}.new")
    draft.unlink(missing_ok=True)
    handle = os.open(draft, os.O_WRONLY | os.O_CREAT | os.O_EXCL | os.O_CLOEXEC | os.O_NOFOLLOW, 0o600)
    try:
        with open(handle, "wb") as out:
            out.write(line_of(stamp, image) + image)
            with contextlib.suppress(OSError):
                os.fchown(handle, -1, like.st_gid)
            # (where it can't be of the copy's group, no group may read it)
            has_group = os.fstat(handle).st_gid == like.st_gid
            os.fchmod(handle, like.st_mode & (0o644 if has_group else 0o604))
        draft.replace(place)
    finally:
        draft.unlink(missing_ok=True)


def of(copy: Copy) -> tuple[Index, str]:
    """The index of a copy, which is made where none that can be trusted stands beside it; and why it could not be written, or nothing."""
    place, stamp = place_of(copy), stamp_of(copy)
    if (found := read(place, stamp)) is not None:
        return Index(found), ""
    with contextlib.ExitStack() as lock:
        with contextlib.suppress(OfficeError):
            lock.enter_context(locked(place))
        if (found := read(place, stamp)) is not None:
            return Index(found), ""
        database = made(copy)
        try:
            if stamp:
                write(place, stamp, database, copy.path.stat())
        except OSError as error:
            return Index(database), f"{place} could not be written ({error.strerror}), so all works were read, as they will be next time"
    return Index(database), ""
