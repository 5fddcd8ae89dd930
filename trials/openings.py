"""Databases of an office that were changed, and of older layouts: which are opened, and which are refused as they are."""
import pathlib
import shutil
from collections.abc import Iterator

from bodies import FIRST, SENDER, changed, get
from leaving import CLOSED_AT_A_CUT, ONE_WAITS, TABLES, YEAR_BEGUN, change, left_by, names_in, rows_of
from program import ANOTHER_OFFICE, EMPTY_DATABASE, SERVED_ONE, Server, answer, audited, served_one, told, trial
from served import Ended

SOUND = Ended(b"sound\n", b"", 0)
DAMAGED = Ended(b"", b"society: database damaged\n", 1)
NO_OFFICE = Ended(b"", b"society: database schema\n", 1)

# Changes of rows that no requests leave so.
DAMAGES = [
    "UPDATE balances SET units = 502 WHERE account = 'I00000000199'",
    "UPDATE fronts SET front = 4",
    "DELETE FROM versions",
    "UPDATE verdicts SET fault = 5",
    "INSERT INTO recordings (sender, work, revision, isrc) VALUES ('PB000000012', 'W1', 0, 'GBXYZ2600002')",
    "UPDATE credits SET account = 'I00000000493' WHERE line = 1",
    "UPDATE pools SET amount = 1002",
    "DELETE FROM pool_cuts",
    "DELETE FROM pool_returns",
    "UPDATE returns SET body = x'00'",
    # A play of another recording.
    "UPDATE returns SET body = x'697372632c706c6179732c7365636f6e64730a4154414243323630303030322c31302c3230300a'",
    "UPDATE credits SET line = 9 WHERE line = 0; UPDATE credits SET line = 0 WHERE line = 1; UPDATE credits SET line = 1 WHERE line = 9",
    "INSERT INTO segment_ends (sender, segment, last, next) VALUES ('PB000000012', -1, 3, 26)",
    "INSERT INTO mechanical_pools (pool) VALUES (7)",
]

# Changes of the rows of a year begun that no requests leave so.
YEAR_DAMAGES = [
    "DELETE FROM segment_ends",
    # The end is below a number that is there.
    "UPDATE segment_ends SET last = 0",
    # The ends lead past the number that is there.
    "UPDATE segment_ends SET last = 2",
    "UPDATE segment_ends SET next = 27",
    "UPDATE segment_ends SET segment = 25",
    "UPDATE segment_ends SET sender = 'PB000000034'",
    "UPDATE segment_ends SET next = 100",
    "UPDATE segment_ends SET last = -1",
    "UPDATE segment_ends SET segment = -2",
    "UPDATE segment_ends SET segment = 100",
    "UPDATE segment_ends SET sender = 'PB1'",
    "INSERT INTO segment_ends (sender, segment, last, next) VALUES ('PB000000012', 26, 0, 27)",
    "INSERT INTO segment_ends (sender, segment, last, next) VALUES ('PB000000012', 26, 10000, 27)",
    "INSERT INTO segment_ends (sender, segment, last, next) VALUES ('PB000000012', 30, 4, 30)",
    "UPDATE transmissions SET number = 1250001 WHERE number = 1260001",
    # No number, though the front before it is one.
    "UPDATE transmissions SET number = 1260000 WHERE number = 1260001",
    # A number that only a year past 99 could have.
    "UPDATE transmissions SET number = 2000001 WHERE number = 1260001",
    "UPDATE versions SET number = 1250001 WHERE number = 1260001",
    "UPDATE fronts SET front = 1",
    # An end alone has its front too, at the year that it leads to.
    "INSERT INTO segment_ends (sender, segment, last, next) VALUES ('PB000000034', -1, 0, 26)",
    "INSERT INTO segment_ends (sender, segment, last, next) VALUES ('PB000000034', -1, 0, 26); INSERT INTO fronts (sender, front, works) VALUES ('PB000000034', 0, 0)",
]

# Changes of those rows that requests leave so.
YEAR_CHANGES = [
    "",
    # An end of a year to which none leads.
    "INSERT INTO segment_ends (sender, segment, last, next) VALUES ('PB000000012', 30, 4, 31)",
    "INSERT INTO segment_ends (sender, segment, last, next) VALUES ('PB000000034', -1, 0, 26); INSERT INTO fronts (sender, front, works) VALUES ('PB000000034', 1260000, 0)",
]

# Changes after which a database is no office's.
STRAYS = [
    "CREATE INDEX stray ON credits (account)",
    "CREATE VIEW stray AS SELECT account FROM credits",
    "CREATE TABLE stray (one INTEGER) STRICT",
]

# Changes of the rows of an office to which a file has come that waits.
WAITING_DAMAGES = [
    "UPDATE balances SET units = 502",
    "UPDATE fronts SET front = 2",
    "DELETE FROM fronts",
    "DELETE FROM versions",
    "UPDATE transmissions SET body = x'00' WHERE number = 3",
    "DELETE FROM credits WHERE line = 0",
    "INSERT INTO recordings (sender, work, revision, isrc) VALUES ('PB000000012', 'W9', 0, 'ATABC2600009')",
    "INSERT INTO segment_ends (sender, segment, last, next) VALUES ('PB000000012', -1, 2, 26)",
    "INSERT INTO mechanical_pools (pool) VALUES (7)",
]

# What makes layout 2 of layout 3.
SECOND_LAYOUT = "DROP TABLE mechanical_pools; DROP TABLE segment_ends; UPDATE office SET layout = 2"

# What makes layout 1 of layout 2.
FIRST_LAYOUT = "DROP TABLE balances; DROP TABLE credits; DROP TABLE recordings; DROP TABLE versions; DROP TABLE verdicts; DROP TABLE fronts; UPDATE office SET layout = 1"

# What makes each older layout of layout 3.
LAYOUT_2 = SECOND_LAYOUT
LAYOUT_1 = f"{SECOND_LAYOUT}; {FIRST_LAYOUT}"

# A name, what leaves a database, and the changes after that, each by itself; then the society that opens it, and what is written then.
OTHER = "UPDATE office SET society = 901"
OPENINGS = [
    ("an_unchanged_database_is_opened", CLOSED_AT_A_CUT, [""], 900, SERVED_ONE),
    ("a_changed_row_is_damage", CLOSED_AT_A_CUT, DAMAGES, 900, DAMAGED),
    ("a_changed_end_is_damage", YEAR_BEGUN, YEAR_DAMAGES, 900, DAMAGED),
    ("a_year_begun_is_opened", YEAR_BEGUN, YEAR_CHANGES, 900, SERVED_ONE),
    ("another_office_is_told_before_damage", CLOSED_AT_A_CUT, [OTHER, f"{OTHER}; {DAMAGES[0]}"], 900, ANOTHER_OFFICE),
    (
        "another_layout_is_no_office",
        CLOSED_AT_A_CUT,
        ["UPDATE office SET layout = 9", "UPDATE office SET layout = 2"],
        900,
        NO_OFFICE,
    ),
    ("what_somebody_else_made_is_no_office", CLOSED_AT_A_CUT, STRAYS, 900, NO_OFFICE),
    ("a file that waits", ONE_WAITS, [""], 900, SERVED_ONE),
    ("what_was_changed_is_damage", ONE_WAITS, WAITING_DAMAGES, 900, DAMAGED),
    ("what_is_not_the_offices_is_refused", ONE_WAITS, STRAYS, 900, NO_OFFICE),
    ("no office", ONE_WAITS, ["DELETE FROM office"], 900, NO_OFFICE),
    ("another office", ONE_WAITS, [""], 901, ANOTHER_OFFICE),
    ("a_damaged_database_stays_as_it_is", ONE_WAITS, WAITING_DAMAGES[:1], 900, DAMAGED),
]


def check_opened(program: pathlib.Path, folder: pathlib.Path, row: object, society: int, wanted: Ended) -> None:
    """Audits and opens the only database of a folder. Its bytes stay after an audit and where it is refused, and its rows where it is
    opened."""
    (path,) = folder.iterdir()
    held, is_sound = path.read_bytes(), wanted == SERVED_ONE
    told((row, "audited"), audited(program, path, society), SOUND if is_sound else wanted)
    told((row, "its bytes after an audit"), path.read_bytes() == held, True)
    before = rows_of(path) if is_sound else held
    told((row, "opened"), served_one(program, folder, path.name, False, society), wanted)
    told((row, "what it has then"), (rows_of(path) if is_sound else path.read_bytes()) == before, True)


def each_changed(folder: pathlib.Path, left: pathlib.Path, changes: list[str]) -> Iterator[tuple[pathlib.Path, str]]:
    """A folder of its own for each change, with the database that has it."""
    for number, text in enumerate(changes):
        room = folder / f"{left.name} {number}"
        room.mkdir()
        change(shutil.copy(left, room / "office.db"), text)
        yield room, text


@trial
def openings(program: pathlib.Path, folder: pathlib.Path) -> None:
    for name, requests, changes, society, wanted in OPENINGS:
        for room, text in each_changed(folder, left_by(program, folder, name, requests), changes):
            check_opened(program, room, (name, text), society, wanted)


# Changes of a new office's tables, one after another, and what an audit finds behind each.
LAYOUTS = [
    ("", SOUND),
    ("DROP TABLE mechanical_pools", NO_OFFICE),
    # A column is renamed.
    ("CREATE TABLE mechanical_pools (number INTEGER NOT NULL PRIMARY KEY, FOREIGN KEY (number) REFERENCES pools (pool)) STRICT", NO_OFFICE),
    # There is no reference.
    ("DROP TABLE mechanical_pools; CREATE TABLE mechanical_pools (pool INTEGER NOT NULL PRIMARY KEY) STRICT", NO_OFFICE),
    # It is the same table.
    (
        "DROP TABLE mechanical_pools; CREATE TABLE mechanical_pools (pool INTEGER NOT NULL PRIMARY KEY, FOREIGN KEY (pool) REFERENCES pools (pool)) STRICT",
        SOUND,
    ),
    ("CREATE TABLE more (number INTEGER NOT NULL) STRICT", NO_OFFICE),
    ("DROP TABLE more", SOUND),
    # The tables of layout 2 under a row of layout 3, and under one of their own.
    ("DROP TABLE mechanical_pools; DROP TABLE segment_ends", NO_OFFICE),
    ("UPDATE office SET layout = 2", SOUND),
]


@trial
def only_the_layout_is_found(program: pathlib.Path, folder: pathlib.Path) -> None:
    change(folder / "empty.db", "CREATE TABLE more (number INTEGER NOT NULL) STRICT; DROP TABLE more")
    told("empty", audited(program, folder / "empty.db"), EMPTY_DATABASE)
    path = left_by(program, folder, "office.db", b"")
    for text, wanted in LAYOUTS:
        change(path, text)
        told(text, audited(program, path), wanted)


def standing(front: int, held: bytes, units: int) -> bytes:
    """What is answered of the sender's numbers and of an account's balance."""
    numbers = b'{"front":%d,"held":%s}' % (front, held)
    return answer(b"200 OK", numbers) + answer(b"200 OK", b'{"account":"I00000000295","units":%d}' % units)


# A row, whether an office has to be there, whether there is one, and what is answered then.
BOOKS = [
    ("an_empty_database_becomes_a_new_book", False, False, standing(0, b"[]", 0)),
    ("a_database_opens_as_it_was_left", False, True, standing(1, b"[3]", 500)),
    ("tables_that_are_there_are_opened", True, True, standing(1, b"[3]", 500)),
]


@trial
def books_are_opened(program: pathlib.Path, folder: pathlib.Path) -> None:
    left = left_by(program, folder, "left.db", ONE_WAITS)
    asked = get(f"/v1/senders/{SENDER}", "/v1/accounts/I00000000295")
    for row, existing, is_there, wanted in BOOKS:
        with Server(program, folder, left.name if is_there else "new.db", existing=existing) as server:
            told(row, (server.sent(asked), server.ended().status), (wanted, 0))


@trial
def tables_that_are_not_there(program: pathlib.Path, folder: pathlib.Path) -> None:
    """Nothing is begun where tables have to be there, and those of another office are told as such and stay as they are."""
    empty = folder / "empty.db"
    change(empty, "CREATE TABLE more (number INTEGER NOT NULL) STRICT; DROP TABLE more")
    left = left_by(program, folder, "left.db", ONE_WAITS)
    for row, path, society, wanted in (
        ("nothing_is_begun_where_tables_are_to_be_there", empty, 900, EMPTY_DATABASE),
        ("tables_of_another_office_are_told_as_such", left, 901, ANOTHER_OFFICE),
    ):
        held, names = path.read_bytes(), names_in(path)
        told(row, served_one(program, folder, path.name, True, society), wanted)
        told((row, "afterwards"), (path.read_bytes() == held, names_in(path)), (True, names))
    told("tables", (names_in(empty), [it for (it,) in names_in(left) if it in TABLES]), ([], sorted(TABLES)))


@trial
def a_changed_byte_of_a_body_is_damage(program: pathlib.Path, folder: pathlib.Path) -> None:
    body = changed(FIRST, 1, 1, b"X").hex()
    left = left_by(program, folder, "left", CLOSED_AT_A_CUT)
    for room, text in each_changed(folder, left, [f"UPDATE transmissions SET body = x'{body}' WHERE number = 1"]):
        check_opened(program, room, text, 900, DAMAGED)


@trial
def pools_alone_are_no_office(program: pathlib.Path, folder: pathlib.Path) -> None:
    pools = "CREATE TABLE pools (pool INTEGER NOT NULL PRIMARY KEY, amount INTEGER NOT NULL) STRICT"
    change(folder / "office.db", f"{pools}; INSERT INTO pools (pool, amount) VALUES (7, 1001)")
    check_opened(program, folder, "pools", 900, NO_OFFICE)


NO_DATABASE = Ended(b"", b"society: database store\n", 1)

# Rows that are taken from under those that refer to them; sqlite3 lets that be done, since it does not look at references by itself.
UNREFERRED = ["returns", "transmissions", "pools"]


def zeroed(data: bytes, page: int) -> bytes:
    """A database whose page has only zeros; pages have 4,096 bytes."""
    return data[: page * 4_096] + bytes(4_096) + data[(page + 1) * 4_096 :]


@trial
def files_that_are_no_database(program: pathlib.Path, folder: pathlib.Path) -> None:
    """A file that does not begin as a database is told as the store's fault, one that does and is none as damaged; each keeps its bytes."""
    left = left_by(program, folder, "left", CLOSED_AT_A_CUT)
    held = left.read_bytes()
    for row, data, wanted in (
        ("a text", b"isrc,plays,seconds\n" * 1_000, NO_DATABASE),
        ("a short text", b"SQL", NO_DATABASE),
        ("another header", b"sqlite" + held[6:], NO_DATABASE),
        ("cut behind its header", held[:100], DAMAGED),
        ("cut in the middle", held[: len(held) // 2], DAMAGED),
        ("its first page but for the header", held[:16] + bytes(4_080) + held[4_096:], DAMAGED),
        *((f"page {it}", zeroed(held, it), DAMAGED) for it in range(1, len(held) // 4_096)),
    ):
        room = folder / row
        room.mkdir()
        (room / "office.db").write_bytes(data)
        check_opened(program, room, row, 900, wanted)


@trial
def rows_that_lost_what_they_refer_to(program: pathlib.Path, folder: pathlib.Path) -> None:
    left = left_by(program, folder, "left", CLOSED_AT_A_CUT)
    deletions = [f"PRAGMA foreign_keys = OFF; DELETE FROM {it}" for it in UNREFERRED]
    for layout in ("", LAYOUT_2, LAYOUT_1):
        for room, text in each_changed(folder, left, [f"{layout}; {it}" for it in deletions]):
            check_opened(program, room, text, 900, DAMAGED)
            shutil.rmtree(room)
