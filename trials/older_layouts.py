"""Databases of older layouts: they are taken over with all their rows, and those that are not sound stay as they are."""
import pathlib
import shutil

from bodies import SENDER, get, put_pool, put_return
from leaving import CLOSED_AT_A_CUT, ONE_WAITS, TABLES, change, left_by, names_in, rows_of
from openings import DAMAGED, LAYOUT_1, LAYOUT_2, NO_OFFICE, SOUND, check_opened, each_changed
from program import ANOTHER_OFFICE, SERVED_ONE, Server, answer, audited, served_one, told, trial

# Changes of what a layout 1 keeps that no requests leave so.
OWN_DAMAGES = [
    "UPDATE transmissions SET body = x'00' WHERE number = 1",
    "UPDATE returns SET body = x'00'",
    # A reporter is written without blanks behind it.
    "INSERT INTO returns (reporter, number, body) VALUES ('RADIO9 ', 1, x'697372632c706c6179732c7365636f6e64730a4154414243323630303030322c31302c3230300a')",
    "UPDATE pools SET amount = 1000000000001",
    "UPDATE pools SET amount = -1",
    "INSERT INTO transmissions (sender, number, body) VALUES ('PB000000012', 0, x'00')",
]

# Changes of what layout 2 keeps that no requests leave so.
DERIVED_DAMAGES = [
    "UPDATE balances SET units = 502 WHERE account = 'I00000000199'",
    "UPDATE fronts SET front = 4",
    "DELETE FROM fronts",
    "DELETE FROM versions",
    "UPDATE verdicts SET fault = 5",
    "INSERT INTO recordings (sender, work, revision, isrc) VALUES ('PB000000012', 'W1', 0, 'GBXYZ2600002')",
    "UPDATE credits SET account = 'I00000000493' WHERE line = 1",
    "UPDATE pools SET amount = 1002",
    "DELETE FROM pool_cuts",
    "DELETE FROM pool_returns",
    "UPDATE returns SET body = x'697372632c706c6179732c7365636f6e64730a4154414243323630303030322c31302c3230300a'",
]

# The pool that is closed at a cut, as who asks for it gets it.
POOL_TABLE = b"isrc,account,units\nATABC2600001,I00000000199,501\nATABC2600001,I00000000295,500\nATABC2600001,UNCLAIMED,0\n"


@trial
def older_databases_are_taken_over(program: pathlib.Path, folder: pathlib.Path) -> None:
    """They get the rows and the tables that the requests leave in layout 3; an audit leaves them as they are."""
    for layout in (LAYOUT_1, LAYOUT_2):
        for requests in (b"", CLOSED_AT_A_CUT, ONE_WAITS):
            left = left_by(program, folder, "left", requests)
            wanted = names_in(left), rows_of(left)
            change(left, layout)
            held = left.read_bytes()
            told("an older one", audited(program, left), SOUND)
            told("an older one, audited", left.read_bytes() == held, True)
            told("an older one", served_one(program, folder, left.name, False, 900), SERVED_ONE)
            told("an older one, taken over", (names_in(left), rows_of(left)), wanted)
            left.unlink()


@trial
def pools_of_older_databases_are_shown(program: pathlib.Path, folder: pathlib.Path) -> None:
    """Who asks for a pool after an older database was taken over is answered as before."""
    left, asked = left_by(program, folder, "left.db", CLOSED_AT_A_CUT), get("/v1/pools/7")
    wanted = answer(b"200 OK", POOL_TABLE, "text/csv")
    for row, layout in (("layout 3", ""), ("layout 1", LAYOUT_1), ("layout 2", LAYOUT_2)):
        change(shutil.copy(left, folder / "older.db"), layout)
        with Server(program, folder, "older.db") as server:
            told(row, (server.sent(asked), server.ended().status), (wanted, 0))


# Older databases, changes of each by itself, the society that opens it, and what is written then.
REFUSED = [
    (LAYOUT_1, CLOSED_AT_A_CUT, OWN_DAMAGES, 900, DAMAGED),
    (LAYOUT_2, CLOSED_AT_A_CUT, OWN_DAMAGES, 900, DAMAGED),
    (LAYOUT_2, CLOSED_AT_A_CUT, DERIVED_DAMAGES, 900, DAMAGED),
    (LAYOUT_1, ONE_WAITS, [""], 901, ANOTHER_OFFICE),
    (LAYOUT_2, ONE_WAITS, ["DELETE FROM balances"], 901, ANOTHER_OFFICE),
    (
        LAYOUT_1,
        ONE_WAITS,
        ["UPDATE office SET layout = 2", "UPDATE office SET layout = 3", "DELETE FROM office"],
        900,
        NO_OFFICE,
    ),
    (
        LAYOUT_2,
        ONE_WAITS,
        ["UPDATE office SET layout = 1", "UPDATE office SET layout = 3", "UPDATE office SET layout = 9"],
        900,
        NO_OFFICE,
    ),
    (
        LAYOUT_2,
        ONE_WAITS,
        ["DROP TABLE balances", "CREATE TABLE segment_ends (sender TEXT NOT NULL) STRICT"],
        900,
        NO_OFFICE,
    ),
]


@trial
def older_databases_that_are_not_sound_stay_as_they_are(program: pathlib.Path, folder: pathlib.Path) -> None:
    for number, (layout, requests, changes, society, wanted) in enumerate(REFUSED):
        left = left_by(program, folder, f"left {number}", requests)
        change(left, layout)
        for room, text in each_changed(folder, left, changes):
            check_opened(program, room, (layout, text), society, wanted)


# Tables of older layouts, by the texts that make them: the office, transmissions, returns and pools.
FIRST_TABLES = """
CREATE TABLE office (one INTEGER NOT NULL PRIMARY KEY CHECK (one = 1), layout INTEGER NOT NULL, society INTEGER NOT NULL, territory INTEGER NOT NULL, name TEXT NOT NULL) STRICT;
CREATE TABLE transmissions (sender TEXT NOT NULL, number INTEGER NOT NULL, body BLOB NOT NULL, PRIMARY KEY (sender, number)) STRICT;
CREATE TABLE returns (reporter TEXT NOT NULL, number INTEGER NOT NULL, body BLOB NOT NULL, PRIMARY KEY (reporter, number)) STRICT;
CREATE TABLE pools (pool INTEGER NOT NULL PRIMARY KEY, amount INTEGER NOT NULL) STRICT;
"""
CUTS = "CREATE TABLE pool_cuts (pool INTEGER NOT NULL, sender TEXT NOT NULL, number INTEGER NOT NULL, PRIMARY KEY (pool, sender), FOREIGN KEY (pool) REFERENCES pools (pool), FOREIGN KEY (sender, number) REFERENCES transmissions (sender, number)) STRICT;"
# Cuts that name their transmission first, then their pool.
CUTS_TURNED = "CREATE TABLE pool_cuts (pool INTEGER NOT NULL, sender TEXT NOT NULL, number INTEGER NOT NULL, PRIMARY KEY (pool, sender), FOREIGN KEY (sender, number) REFERENCES transmissions (sender, number), FOREIGN KEY (pool) REFERENCES pools (pool)) STRICT;"
PAYMENTS = "CREATE TABLE pool_returns (reporter TEXT NOT NULL, number INTEGER NOT NULL, pool INTEGER NOT NULL, PRIMARY KEY (reporter, number), FOREIGN KEY (reporter, number) REFERENCES returns (reporter, number), FOREIGN KEY (pool) REFERENCES pools (pool)) STRICT;"
# Payments that name their pool first, then their return.
PAYMENTS_TURNED = "CREATE TABLE pool_returns (reporter TEXT NOT NULL, number INTEGER NOT NULL, pool INTEGER NOT NULL REFERENCES pools (pool), PRIMARY KEY (reporter, number), FOREIGN KEY (reporter, number) REFERENCES returns (reporter, number)) STRICT;"
# The six tables that are derived.
DERIVED = """
CREATE TABLE fronts (sender TEXT NOT NULL PRIMARY KEY, front INTEGER NOT NULL, works INTEGER NOT NULL) STRICT;
CREATE TABLE verdicts (sender TEXT NOT NULL, number INTEGER NOT NULL, place INTEGER NOT NULL, fault INTEGER NOT NULL, ordinal INTEGER NOT NULL, revision INTEGER NOT NULL, PRIMARY KEY (sender, number, place)) STRICT;
CREATE TABLE versions (sender TEXT NOT NULL, work TEXT NOT NULL, revision INTEGER NOT NULL, number INTEGER NOT NULL, place INTEGER NOT NULL, ordinal INTEGER NOT NULL, PRIMARY KEY (sender, work, revision)) STRICT;
CREATE TABLE recordings (sender TEXT NOT NULL, work TEXT NOT NULL, revision INTEGER NOT NULL, isrc TEXT NOT NULL, PRIMARY KEY (sender, work, revision, isrc)) STRICT;
CREATE TABLE credits (pool INTEGER NOT NULL, line INTEGER NOT NULL, isrc TEXT NOT NULL, account TEXT NOT NULL, units INTEGER NOT NULL, PRIMARY KEY (pool, line)) STRICT;
CREATE TABLE balances (account TEXT NOT NULL PRIMARY KEY, units INTEGER NOT NULL) STRICT;
"""
OLDER = [
    ("layout 1", 1, FIRST_TABLES + CUTS + PAYMENTS),
    ("layout 1, both turned", 1, FIRST_TABLES + CUTS_TURNED + PAYMENTS_TURNED),
    ("layout 2, payments turned", 2, FIRST_TABLES + CUTS + PAYMENTS_TURNED + DERIVED),
    ("layout 2, cuts turned", 2, FIRST_TABLES + CUTS_TURNED + PAYMENTS + DERIVED),
]


def made_by(path: pathlib.Path, layout: int, texts: str, left: pathlib.Path) -> None:
    """A database of an older layout that texts make, with the rows that another one has."""
    change(path, texts)
    copies = "".join(f"INSERT INTO {it} SELECT * FROM other.{it};" for (it,) in names_in(path) if it in TABLES)
    change(path, f"ATTACH '{left}' AS other; PRAGMA foreign_keys = OFF; {copies} UPDATE office SET layout = {layout}")


# One more return, and a pool that pays it.
MORE = put_return(b"isrc,plays,seconds\nATABC2600001,1,20\n", 2) + put_pool(8, 1_001, [[SENDER, 3]], [["RADIO1", 2]])
TAKEN = answer(b"201 Created", b'{"state":"stored"}') + answer(b"201 Created", b'{"pool":8,"state":"closed"}')


@trial
def older_layouts_are_raised(program: pathlib.Path, folder: pathlib.Path) -> None:
    """Whichever of its references a table names first, it is an older one's; what comes later is written into the same tables."""
    left = left_by(program, folder, "left.db", CLOSED_AT_A_CUT)
    for row, layout, texts in OLDER:
        path = folder / f"{row}.db"
        made_by(path, layout, texts, left)
        told(row, audited(program, path), SOUND)
        told(row, served_one(program, folder, path.name, False, 900), SERVED_ONE)
        told((row, "taken over"), (names_in(path), rows_of(path)), (names_in(left), rows_of(left)))
        with Server(program, folder, path.name, existing=True) as server:
            told((row, "more"), (server.sent(MORE), server.ended().status), (TAKEN, 0))
        told((row, "with more"), audited(program, path), SOUND)
