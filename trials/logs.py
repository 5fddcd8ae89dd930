"""Logs that no stop of the office leaves: each is told, nothing is opened, and both files keep their bytes; and those that stops leave are
taken."""
import pathlib
import random
import shutil
import sqlite3
import subprocess
import sys
from collections.abc import Iterator

from bodies import CSV_HEADER, FIRST, put_file, put_return
from served import OFFICE, Ended
from openings import SOUND
from program import EMPTY_DATABASE, answered, audited, held_by, run, served_one, told, trial
from society_office.book import book_log

LOG = Ended(b"", b"society: database log\n", 1)
PAGE, FRAME = 4_096, 4_096 + book_log.FRAME_HEADER
# Where a frame has the first byte of its salts: it is written last, and ends a commit.
GATE = 8
# The starts that open a database, beside an audit.
STARTS = [["serve", "--port", "1", "--connections", "1"], ["serve", "--existing", "--port", "1", "--connections", "1"]]
PUTS = [
    put_file(FIRST, 1),
    put_return(CSV_HEADER, 1),
    put_file(FIRST, 2),
    put_return(CSV_HEADER, 2),
    put_return(CSV_HEADER, 3),
    put_file(FIRST, 3),
]


def young(program: pathlib.Path, folder: pathlib.Path) -> None:
    """An office that has all in its log but its first page."""
    answered(program, folder, "office.db", b"".join(PUTS))


def older(program: pathlib.Path, folder: pathlib.Path) -> None:
    """An office that has some in its file and some in its log."""
    answered(program, folder, "office.db", b"".join(PUTS[:2]))
    served_one(program, folder, "office.db", True, 900)
    answered(program, folder, "office.db", b"".join(PUTS[2:]))


OFFICES = {"a young office": young, "an older one": older}


def commits(log: pathlib.Path) -> tuple[int, list[int]]:
    """How many frames a log has up to its end, and behind which of them a transaction ends."""
    read = book_log.Log(log)
    frames = [it.ends for it, _ in zip(read.frames(), range(read.lost()[0]))]
    return len(frames), [place + 1 for place, ends in enumerate(frames) if ends]


def refuse(program: pathlib.Path, folder: pathlib.Path, row: object, log: bytes, every_start: bool = False) -> None:
    """With these bytes as its log a database is refused, by an audit or by each start too, and both files stay."""
    (folder / "office.db-wal").write_bytes(log)
    held = held_by(folder)
    for words in [["audit"], *STARTS * every_start]:
        told((row, words), run(program, folder, [*words, "--db", "office.db", *OFFICE]), LOG)
    told((row, "the files"), held_by(folder) == held, True)


def flipped(log: bytes, bit: int) -> bytes:
    return log[: bit // 8] + bytes([log[bit // 8] ^ 1 << bit % 8]) + log[bit // 8 + 1 :]


def over_each_office(program: pathlib.Path, folder: pathlib.Path) -> Iterator[tuple[str, pathlib.Path, bytes, int, list[int]]]:
    """Each kind of office in a folder of its own, with the bytes of its log, its frames and where its transactions end."""
    for row, make in OFFICES.items():
        room = folder / row
        room.mkdir()
        make(program, room)
        log = (room / "office.db-wal").read_bytes()
        yield row, room, log, *commits(room / "office.db-wal")
        (room / "office.db-wal").write_bytes(log)
        told((row, "as it was"), audited(program, room / "office.db"), SOUND)


@trial
def each_bit_of_a_logs_header(program: pathlib.Path, folder: pathlib.Path) -> None:
    for row, room, log, _, _ in over_each_office(program, folder):
        for bit in range(8 * book_log.HEADER):
            refuse(program, room, (row, "bit", bit), flipped(log, bit), bit % 32 == 0)


@trial
def changed_bits_of_a_log(program: pathlib.Path, folder: pathlib.Path) -> None:
    """Each of some bits up to the log's end is told, but for those that a stop leaves so: the last transaction, which is not ended yet."""
    chance = random.Random(94)
    for row, room, log, frames, ends in over_each_office(program, folder):
        gates = [book_log.HEADER + first * FRAME + GATE for first in (0, *ends[:-1])]
        bits = [chance.randrange(8 * book_log.HEADER, 8 * (book_log.HEADER + frames * FRAME)) for _ in range(100)]
        for bit in (*bits, *(8 * gate + 3 for gate in gates[:-1])):
            if bit // 8 != gates[-1]:
                refuse(program, room, (row, "bit", bit), flipped(log, bit), bit % 50 == 0)
        (room / "office.db-wal").write_bytes(flipped(log, 8 * gates[-1]))
        told((row, "a last transaction that is not ended"), audited(program, room / "office.db"), SOUND)


@trial
def logs_that_were_cut(program: pathlib.Path, folder: pathlib.Path) -> None:
    """Behind each frame and within it, up to the header's last byte."""
    for row, room, log, frames, _ in over_each_office(program, folder):
        for place in range(frames + 1):
            refuse(program, room, (row, "cut", place), log[: book_log.HEADER + place * FRAME], place % 9 == 0)
        for place in (1, 31, 33, 40, book_log.HEADER + 100, (book_log.HEADER + frames * FRAME) // 2):
            refuse(program, room, (row, "cut to", place), log[:place])


@trial
def zeros_in_a_log(program: pathlib.Path, folder: pathlib.Path) -> None:
    chance = random.Random(95)
    for row, room, log, frames, ends in over_each_office(program, folder):
        last = book_log.HEADER + ends[-2] * FRAME
        for count in (32, 512, 4_096):
            for start in (0, *(chance.randrange(0, last - FRAME - count) for _ in range(20))):
                zeroed = log[:start] + bytes(count) + log[start + count :]
                if zeroed != log:
                    refuse(program, room, (row, count, "zeros at", start), zeroed, start == 0)


@trial
def a_log_that_is_begun_anew(program: pathlib.Path, folder: pathlib.Path) -> None:
    """Once all of it is in the file the log loses its first byte, then its header: both are taken where the file has its pages, and not
    before."""
    young(program, folder)
    log = (folder / "office.db-wal").read_bytes()
    whole = folder / "whole.db"
    book_log.join(folder / "office.db", folder / "office.db-wal", whole)
    shut = {"its first byte": b"\0" + log[1:], "its header": bytes(41) + log[41:], "garbage for it": b"\0" + bytes(range(40)) + log[41:]}
    for row, held in shut.items():
        refuse(program, folder, row, held, True)
    shutil.copyfile(whole, folder / "office.db")
    for row, held in shut.items():
        (folder / "office.db-wal").write_bytes(held)
        told((row, "its pages are in the file"), audited(program, folder / "office.db"), SOUND)


@trial
def a_database_without_a_table(program: pathlib.Path, folder: pathlib.Path) -> None:
    """It is no office, and is not begun as one without page sums; its bytes stay."""
    path = folder / "office.db"
    database = sqlite3.connect(path)
    database.execute("PRAGMA user_version = 7")
    database.execute("VACUUM")
    database.close()
    held = path.read_bytes()
    for words in (["audit"], *STARTS):
        told(words, run(program, folder, [*words, "--db", "office.db", *OFFICE]), EMPTY_DATABASE)
        told((words, "its files"), held_by(folder), {"office.db": held})


# A process that writes rows to a database in WAL mode, and is killed with its log beside it.
WRITES = """
import os, signal, sqlite3, sys
database = sqlite3.connect(sys.argv[1])
database.executescript("PRAGMA journal_mode = WAL; PRAGMA wal_autocheckpoint = 20; CREATE TABLE IF NOT EXISTS it (a)")
for turn in range(int(sys.argv[2])):
    database.execute("INSERT INTO it VALUES (zeroblob(3000))")
    database.commit()
os.kill(os.getpid(), signal.SIGKILL)
"""


@trial
def logs_that_sqlite_left(program: pathlib.Path, folder: pathlib.Path) -> None:
    """Each is read as one, whatever its end: the database has other tables, and its file stays."""
    schema = Ended(b"", b"society: database schema\n", 1)
    for turns in (1, 9, 19, 33, 60):
        room = folder / str(turns)
        room.mkdir()
        subprocess.run([sys.executable, "-c", WRITES, room / "office.db", str(turns)], check=False)
        held = (room / "office.db").read_bytes()
        told((turns, "an audit"), audited(program, room / "office.db"), schema)
        told((turns, "its file"), (room / "office.db").read_bytes() == held, True)
