"""One row for each equality that an audit compares, changed, missing or more than it should be: each is damage in every layout that has
it."""
import pathlib
from bodies import FIRST, NO_WORKS, REVISION, SENDER, order_body, put_file, put_pool, put_return, request
from leaving import IN_EVERY_TABLE, change, left_by, put_year
from openings import DAMAGED, LAYOUT_1, LAYOUT_2, SOUND, check_opened, each_changed
from program import audited, told, trial

# Rows in every table, and a file of a year that no end leads to.
A_YEAR_SKIPPED = IN_EVERY_TABLE + put_year(25, NO_WORKS)
# The same pools over plain numbers alone, as an older layout has them: a file waits, and both pools pay the performing right.
PLAIN_NUMBERS = b"".join(
    [put_file(FIRST, 1), put_file(REVISION, 2), put_file(NO_WORKS, 4)]
    + [put_return(b"isrc,plays,seconds\nATABC2600001,10,200\n"), put_pool(7, 1_001, [[SENDER, 1]], [["RADIO1", 1]])]
    + [
        put_return(b"isrc,plays,seconds\nATABC2600001,7,70\n", 2),
        request("PUT", "/v1/pools/8", order_body(999, [[SENDER, 2]], [["RADIO1", 2]])),
    ]
)


def again(number: int) -> str:
    """A transmission more, under this number, with the bytes of the first one."""
    return f"INSERT INTO transmissions SELECT sender, {number}, body FROM transmissions WHERE number = 1"


def return_again(reporter: str, number: int) -> str:
    """A return more, with the bytes of the first one."""
    return f"INSERT INTO returns SELECT '{reporter}', {number}, body FROM returns WHERE number = 1"


# What is no request's: of a transmission, of a return, and of an order.
ENTRIES = [
    "UPDATE transmissions SET body = x'00' WHERE number = 1",
    "UPDATE transmissions SET body = x'' WHERE number = 2",
    # Its bytes, and a letter behind its last line.
    "UPDATE transmissions SET body = CAST(body || 'X' AS BLOB) WHERE number = 2",
    # It is a file of the first sender.
    "INSERT INTO transmissions SELECT 'PB000000034', 1, body FROM transmissions WHERE number = 1",
    "INSERT INTO transmissions SELECT 'PB34', 1, body FROM transmissions WHERE number = 1",
    again(-1),
    again(0),
    again(1_000_000),
    again(1_260_000),
    again(2_000_001),
    "UPDATE returns SET body = x'00' WHERE number = 2",
    "UPDATE returns SET body = x'' WHERE number = 2",
    return_again("RADIO1", 0),
    return_again("RADIO1", 1_000_000),
    return_again("", 1),
    return_again("radio1", 1),
    "INSERT INTO pools (pool, amount) VALUES (0, 0)",
    "INSERT INTO pools (pool, amount) VALUES (100000, 0)",
    "UPDATE pools SET amount = 1000000000001 WHERE pool = 7",
    "UPDATE pools SET amount = -1 WHERE pool = 7",
]

# A cut that names what waits.
WAITING_CUT = "UPDATE pool_cuts SET number = (SELECT max(number) FROM transmissions) WHERE pool = 7"

# A return of plays of another recording.
OF_ANOTHER = "CAST('isrc,plays,seconds' || char(10) || 'ATABC2600002,10,200' || char(10) AS BLOB)"

# What a request could have brought, beside what the others left.
OTHER_ENTRIES = [
    "UPDATE transmissions SET body = (SELECT body FROM transmissions WHERE number = 1) WHERE number = 2",
    f"UPDATE returns SET body = {OF_ANOTHER} WHERE number = 2",
    "UPDATE pools SET amount = amount - 1 WHERE pool = 7",
    "UPDATE pool_cuts SET number = 2 WHERE pool = 7",
    "DELETE FROM pool_cuts WHERE pool = 8",
    "UPDATE pool_returns SET pool = 7",
    "DELETE FROM pool_returns WHERE pool = 8",
    f"INSERT INTO returns (reporter, number, body) VALUES ('RADIO1', 3, {OF_ANOTHER}); INSERT INTO pool_returns (reporter, number, pool) VALUES ('RADIO1', 3, 8)",
    "INSERT INTO pools (pool, amount) VALUES (9, 1)",
]

# The rows of a line: a front, verdicts, versions and recordings.
LINES = [
    "UPDATE fronts SET front = front - 1",
    "UPDATE fronts SET front = front + 1",
    "UPDATE fronts SET works = 2",
    "UPDATE fronts SET works = 0",
    "UPDATE fronts SET sender = 'PB000000034'",
    "DELETE FROM fronts",
    "INSERT INTO fronts (sender, front, works) VALUES ('PB000000034', 0, 0)",
    "INSERT INTO fronts (sender, front, works) VALUES ('PB000000034', 1, 1)",
    "UPDATE verdicts SET fault = 20 WHERE number = 2",
    "UPDATE verdicts SET ordinal = 2 WHERE number = 2",
    "UPDATE verdicts SET revision = 0 WHERE number = 2",
    "UPDATE verdicts SET place = 1 WHERE number = 2",
    "UPDATE verdicts SET number = 3 WHERE number = 2",
    "UPDATE verdicts SET sender = 'PB000000034' WHERE number = 2",
    "DELETE FROM verdicts WHERE number = 1",
    "DELETE FROM verdicts WHERE number = 2",
    "DELETE FROM verdicts",
    "INSERT INTO verdicts SELECT sender, number, 1, fault, ordinal, revision FROM verdicts WHERE number = 2",
    "INSERT INTO verdicts SELECT sender, 9, place, fault, ordinal, revision FROM verdicts WHERE number = 2",
    "INSERT INTO verdicts SELECT 'PB000000034', number, place, fault, ordinal, revision FROM verdicts WHERE number = 1",
    "UPDATE versions SET number = 1 WHERE revision = 1",
    "UPDATE versions SET place = 1 WHERE revision = 1",
    "UPDATE versions SET ordinal = 2 WHERE revision = 1",
    "UPDATE versions SET revision = 2 WHERE revision = 1",
    "UPDATE versions SET work = 'W2' WHERE revision = 1",
    "UPDATE versions SET sender = 'PB000000034' WHERE revision = 1",
    "DELETE FROM versions WHERE revision = 0",
    "DELETE FROM versions WHERE revision = 1",
    "INSERT INTO versions SELECT sender, work, 2, number, place, ordinal FROM versions WHERE revision = 1",
    "INSERT INTO versions SELECT 'PB000000034', work, revision, number, place, ordinal FROM versions WHERE revision = 0",
    "UPDATE recordings SET isrc = 'ATABC2600002' WHERE revision = 1",
    "UPDATE recordings SET revision = 2 WHERE revision = 1",
    "UPDATE recordings SET work = 'W2' WHERE revision = 1",
    "UPDATE recordings SET sender = 'PB000000034' WHERE revision = 1",
    "DELETE FROM recordings WHERE revision = 0",
    "DELETE FROM recordings WHERE revision = 1",
    "DELETE FROM recordings",
    "INSERT INTO recordings (sender, work, revision, isrc) VALUES ('PB000000012', 'W1', 1, 'ATABC2600002')",
    "INSERT INTO recordings (sender, work, revision, isrc) VALUES ('PB000000034', 'W1', 0, 'ATABC2600001')",
]

# What pools pay: lines of credits, and balances.
MONEY = [
    "UPDATE credits SET units = units + 1 WHERE pool = 7 AND line = 2",
    "UPDATE credits SET units = units - 1 WHERE pool = 7 AND line = 0",
    # A unit goes from one line to another.
    "UPDATE credits SET units = units + 1 - 2 * line WHERE pool = 7 AND line < 2",
    "UPDATE credits SET isrc = 'ATABC2600002' WHERE pool = 7 AND line = 0",
    "UPDATE credits SET account = 'UNCLAIMED' WHERE pool = 7 AND line = 0",
    "UPDATE credits SET line = 3 WHERE pool = 7 AND line = 2",
    "UPDATE credits SET pool = 9 WHERE pool = 8",
    "DELETE FROM credits WHERE pool = 7 AND line = 0",
    # Nothing is credited by it.
    "DELETE FROM credits WHERE pool = 7 AND line = 2",
    "DELETE FROM credits WHERE pool = 8",
    "INSERT INTO credits SELECT pool, 3, isrc, account, 0 FROM credits WHERE pool = 7 AND line = 2",
    "INSERT INTO credits SELECT 9, 0, isrc, account, 0 FROM credits WHERE pool = 7 AND line = 2",
    "UPDATE balances SET units = units + 1 WHERE account = 'UNCLAIMED'",
    "UPDATE balances SET units = units - 1 WHERE account = 'I00000000199'",
    "UPDATE balances SET units = -1 WHERE account = 'UNCLAIMED'",
    "UPDATE balances SET account = 'I00000000493' WHERE account = 'UNCLAIMED'",
    "DELETE FROM balances WHERE account = 'I00000000295'",
    # It has no unit.
    "DELETE FROM balances WHERE account = 'UNCLAIMED'",
    "DELETE FROM balances",
    "INSERT INTO balances (account, units) VALUES ('I00000000493', 0)",
    "INSERT INTO balances (account, units) VALUES ('nobody', 0)",
]

# What layout 3 alone has: stated ends, numbers of years, and pools of the mechanical right.
YEARS_AND_RIGHTS = [
    "UPDATE transmissions SET body = x'00' WHERE number = 1250001",
    "UPDATE transmissions SET body = x'00' WHERE number = 1260001",
    "UPDATE transmissions SET body = x'00' WHERE number = 1270001",
    "DELETE FROM transmissions WHERE number = 1260001",
    "UPDATE transmissions SET number = 1260002 WHERE number = 1270001",
    # A plain number above the end of the plain numbers, which leads to a year; then one that a cut names.
    again(3),
    f"{again(3)}; UPDATE pool_cuts SET number = 3 WHERE pool = 7",
    # A number of a year that no end leads to, which is below the front.
    "UPDATE pool_cuts SET number = 1250001 WHERE pool = 7",
    "UPDATE pool_cuts SET number = 1260001 WHERE pool = 7",
    "UPDATE segment_ends SET last = 1",
    "UPDATE segment_ends SET last = 3",
    "UPDATE segment_ends SET next = 25",
    "UPDATE segment_ends SET next = 27",
    "UPDATE segment_ends SET segment = 24",
    "UPDATE segment_ends SET sender = 'PB000000034'",
    "DELETE FROM segment_ends",
    "INSERT INTO segment_ends (sender, segment, last, next) VALUES ('PB000000012', 26, 1, 27)",
    "INSERT INTO segment_ends (sender, segment, last, next) VALUES ('PB000000012', 25, 0, 26)",
    "DELETE FROM mechanical_pools",
    "UPDATE mechanical_pools SET pool = 7",
    "INSERT INTO mechanical_pools (pool) VALUES (7)",
    "PRAGMA foreign_keys = OFF; INSERT INTO mechanical_pools (pool) VALUES (9)",
]

# A name, what makes the layout, what leaves the database, and the changes, each by itself.
EQUALITIES = [
    ("layout 3", "", A_YEAR_SKIPPED, ENTRIES + [WAITING_CUT] + OTHER_ENTRIES + LINES + MONEY + YEARS_AND_RIGHTS),
    ("layout 2", LAYOUT_2, PLAIN_NUMBERS, ENTRIES + [WAITING_CUT] + OTHER_ENTRIES + LINES + MONEY),
    # (what a request could have brought is nothing that this layout could tell)
    ("layout 1", LAYOUT_1, PLAIN_NUMBERS, ENTRIES + [WAITING_CUT]),
]


@trial
def each_equality_of_an_audit_is_compared(program: pathlib.Path, folder: pathlib.Path) -> None:
    """Each changed row is damage, whatever the layout, and the file keeps its bytes; without a change it is sound."""
    for name, layout, requests, changes in EQUALITIES:
        left = left_by(program, folder, f"{name}.db", requests)
        change(left, layout)
        told(name, audited(program, left), SOUND)
        for room, text in each_changed(folder, left, changes):
            check_opened(program, room, (name, text), 900, DAMAGED)
