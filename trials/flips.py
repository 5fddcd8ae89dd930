"""Changed bits of a file that the program made: its pages have sums, so each is damage, also where no row and no page is broken by it."""
import pathlib
from bodies import CSV_HEADER, put_return
from leaving import IN_EVERY_TABLE, change, left_by
from openings import DAMAGED, SOUND, check_opened
from program import SERVED_ONE, answer, answered, audited, served_one, told, trial
from society_office.book import page_sums

# The bytes of a page, and where the first one tells how often the file was changed, and the first free page.
PAGE = 4_096
CHANGES, FREE = 27, 32
# The byte that tells that pages have sums, and its bit that does; the same bit of each other byte is changed.
SAYS_SUMS, BIT = 20, 8
# Makes pages that are free afterwards.
FREES = "CREATE TABLE more (it BLOB NOT NULL) STRICT; INSERT INTO more (it) VALUES (zeroblob(20000)); DROP TABLE more"


def changed_places(held: bytes) -> dict[str, int]:
    """Bytes of a file in which a changed bit breaks nothing that is read, by their names."""
    free = int.from_bytes(held[FREE : FREE + 4], "big")
    return {
        "a letter of a title": held.index(b"FIRST SONG"),
        "a digit of a return": held.index(b"ATABC2600001,7,70") + len(b"ATABC2600001,7,7"),
        "how often it was changed": CHANGES,
        "that there are sums": SAYS_SUMS,
        "a free page": free * PAGE - 100,
        "the sum of the first page": PAGE - 1,
        "a sum of the last page": len(held) - 8,
    }


@trial
def pages_of_a_new_file_have_sums(program: pathlib.Path, folder: pathlib.Path) -> None:
    """They are right when the program has ended, also behind one that was killed."""
    left = left_by(program, folder, "left.db", IN_EVERY_TABLE)
    told("after an end", (page_sums.has_sums(left), page_sums.wrong_pages(left)), (True, []))
    told(
        "a put before it is killed",
        answered(program, folder, left.name, put_return(CSV_HEADER, 9)),
        answer(b"201 Created", b'{"state":"stored"}'),
    )
    told("opened again", served_one(program, folder, left.name, True, 900), SERVED_ONE)
    told("its sums then", page_sums.wrong_pages(left), [])


@trial
def a_changed_bit_is_damage(program: pathlib.Path, folder: pathlib.Path) -> None:
    """Each of some bits, in an audit and in a start; the file keeps its bytes."""
    left = left_by(program, folder, "left.db", IN_EVERY_TABLE)
    change(left, FREES)
    told("with free pages", audited(program, left), SOUND)
    held = left.read_bytes()
    for row, place in changed_places(held).items():
        room = folder / row
        room.mkdir()
        (room / "office.db").write_bytes(held[:place] + bytes([held[place] ^ BIT]) + held[place + 1 :])
        check_opened(program, room, row, 900, DAMAGED)


@trial
def pages_that_only_sqlite_wrote_are_damage(program: pathlib.Path, folder: pathlib.Path) -> None:
    """sqlite3 knows of no sums: what it writes is refused until its pages are summed anew."""
    left = left_by(program, folder, "left.db", IN_EVERY_TABLE)
    with page_sums.changed(left) as database:
        database.execute("UPDATE returns SET rowid = rowid + 50")
        database.commit()
        room = folder / "copied"
        room.mkdir()
        database.execute("VACUUM INTO ?", (str(room / "office.db"),))
    check_opened(program, room, "written by VACUUM INTO", 900, DAMAGED)
    page_sums.resum(room / "office.db")
    told("summed anew", (audited(program, room / "office.db"), audited(program, left)), (SOUND, SOUND))
