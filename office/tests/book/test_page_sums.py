"""Page sums: what they are, that the program tests them, and that whoever changes or copies a file keeps them right."""

import contextlib
import os
import pathlib
import random
import shutil
import sqlite3
import struct
import subprocess
from collections.abc import Callable

import pytest
import quarter
from command import Word, run
from conftest import OFFICE, ROOT, put, running, served
from society_office.basics.errors import OfficeError
from society_office.book import book_log, page_sums
from society_office.book.copy import has_frames, open_copy
from society_office.offices import book_files
from society_office.offices.program import Office, free_port
from scripts import backed_up

DAMAGED = (1, "society: database damaged\n")
PAGE = 4_096


def plain_sum(page: bytes) -> bytes:
    """The sum of a page word by word, as SQLite's ext/misc/cksumvfs.c says."""
    first = second = 0
    for one, other in struct.iter_unpack("<2I", page[:-8]):
        first = (first + one + second) % 2**32
        second = (second + other + first) % 2**32
    return struct.pack("<2I", first, second)


def audited(program: str, path: pathlib.Path) -> tuple[int, str]:
    """The status of an audit, and what it says."""
    done = subprocess.run([program, "audit", "--db", path, *OFFICE], capture_output=True, text=True, check=False)
    return done.returncode, done.stdout + done.stderr


def flipped(path: pathlib.Path, place: int, bit: int = 0) -> pathlib.Path:
    """A copy of a file in which a bit is another."""
    content = bytearray(path.read_bytes())
    content[place] ^= 1 << bit
    (found := path.with_name("flipped.db")).write_bytes(content)
    return found


@pytest.fixture
def summed(copy: pathlib.Path, tmp_path: pathlib.Path) -> pathlib.Path:
    """The quarter's office in a file whose pages have sums, whatever the program gives a new one."""
    page_sums.write_with_sums(copy, tmp_path / "summed.db")
    return tmp_path / "summed.db"


@pytest.fixture
def plain(copy: pathlib.Path, tmp_path: pathlib.Path) -> pathlib.Path:
    """The same in a file without sums."""
    path = tmp_path / "plain.db"
    page_sums.copy_tables(copy, path)
    assert not page_sums.has_sums(path)
    return path


@pytest.mark.parametrize("size", [512, 4_096, 65_536])
def test_a_sum_is_that_of_sqlite(size: int) -> None:
    for page in random.Random(size).randbytes(size), b"\xff" * size, bytes(size - 9) + b"\1" + bytes(8):
        assert page_sums.sum_of(page) == plain_sum(page) == page_sums.sum_of(page[:-8] + b"another!")
    assert page_sums.sum_of(bytes(size)) == bytes(8)


def test_a_new_file_has_the_rows_of_the_old_one(plain: pathlib.Path, tmp_path: pathlib.Path, program: str) -> None:
    with contextlib.closing(sqlite3.connect(plain)) as database:
        database.executescript("PRAGMA user_version = 77; PRAGMA application_id = 99; UPDATE balances SET rowid = rowid + 40")
    before, target = plain.read_bytes(), tmp_path / "new.db"
    page_sums.write_with_sums(plain, target)
    assert plain.read_bytes() == before and target.read_bytes()[18:21] == b"\2\2\x08" and page_sums.wrong_pages(target) == []
    with contextlib.closing(sqlite3.connect(target)) as new, contextlib.closing(sqlite3.connect(plain)) as old:
        for question in (
            "PRAGMA user_version",
            "PRAGMA application_id",
            "PRAGMA page_size",
            "SELECT name, sql FROM sqlite_schema ORDER BY rowid",
            *(f"SELECT rowid, * FROM {name} ORDER BY rowid" for (name,) in old.execute("SELECT name FROM sqlite_schema WHERE sql <> ''")),
        ):
            assert new.execute(question).fetchall() == old.execute(question).fetchall(), question
        assert new.execute("PRAGMA integrity_check").fetchall() == [("ok",)]
    assert audited(program, plain) == audited(program, target) == (0, "sound\n")
    assert "are the same" in run("compare", plain, target)


def test_an_office_goes_on_with_sums(summed: pathlib.Path, program: str) -> None:
    with served(program, summed) as connection:
        assert put(connection, "/returns/TV9/1", b"isrc,plays,seconds\n" + b"".join(b"ATABC%07d,7,60\n" % it for it in range(2_000))) == 201
    assert page_sums.has_sums(summed) and page_sums.wrong_pages(summed) == [] and audited(program, summed)[0] == 0


@pytest.mark.parametrize("step", ["copy_table", "resum"])
def test_what_is_left_of_a_file_that_was_not_ended(
    plain: pathlib.Path, tmp_path: pathlib.Path, program: str, step: str, monkeypatch: pytest.MonkeyPatch
) -> None:
    def stop(*_: object) -> None:
        raise KeyboardInterrupt

    monkeypatch.setattr(page_sums, step, stop)
    with pytest.raises(KeyboardInterrupt):
        page_sums.write_with_sums(plain, tmp_path / "left.db")
    assert audited(program, tmp_path / "left.db") == DAMAGED


def test_what_can_not_be_copied_is_told(plain: pathlib.Path, tmp_path: pathlib.Path) -> None:
    with contextlib.closing(sqlite3.connect(":memory:")) as made:
        made.execute("ATTACH ? AS old", (str(plain),))
        text = made.execute("SELECT sql FROM old.sqlite_schema WHERE name = 'balances'").fetchone()[0]
        with pytest.raises(OfficeError, match="the new rows of balances"):
            page_sums.copy_table(made, "balances", text.replace("units INTEGER", "units TEXT").replace("STRICT", ""))
    (cut := tmp_path / "cut.db").write_bytes(plain.read_bytes()[: 2 * PAGE])
    with pytest.raises(OfficeError, match="can't be written into"):
        page_sums.write_with_sums(cut, tmp_path / "of_cut.db")
    with pytest.raises(OfficeError, match="is there already"):
        page_sums.write_with_sums(plain, cut)


@pytest.mark.parametrize("place", [2 * PAGE - 9, 3 * PAGE - 1, 27, 63, 95])
def test_a_changed_bit_is_found(summed: pathlib.Path, program: str, place: int) -> None:
    changed = flipped(summed, place, 3)
    assert page_sums.wrong_pages(changed) == [place // PAGE + 1] and audited(program, changed) == DAMAGED
    # No tool mends it on the way.
    with open_copy(changed) as opened:
        opened.save(changed.with_name("saved.db"))
    assert changed.with_name("saved.db").read_bytes() == changed.read_bytes()
    failed = backed_up(changed, changed.parent, program)
    assert failed.returncode == 1 and "database damaged" in failed.stderr and list((changed.parent / "backups").glob("*.db")) == []


def test_whoever_changes_a_file_sums_it_anew(summed: pathlib.Path, plain: pathlib.Path, program: str) -> None:
    statement = "UPDATE returns SET rowid = rowid + 50"
    with page_sums.changed(summed) as database:
        database.execute(statement)
    assert page_sums.wrong_pages(summed) == [] and audited(program, summed) == (0, "sound\n")
    with page_sums.changed(plain) as database:
        database.execute(statement)
    assert not page_sums.has_sums(plain) and audited(program, plain) == (0, "sound\n")
    with contextlib.closing(sqlite3.connect(summed)) as database:
        database.execute("UPDATE returns SET rowid = rowid + 50")
        database.commit()
    assert page_sums.wrong_pages(summed) != [] and audited(program, summed) == DAMAGED
    assert book_files.main(["resum", str(summed)]) == 0
    assert page_sums.wrong_pages(summed) == [] and audited(program, summed) == (0, "sound\n")


def test_what_is_not_summed_anew(summed: pathlib.Path, plain: pathlib.Path, program: str, capsys: pytest.CaptureFixture[str]) -> None:
    before = plain.read_bytes()
    assert book_files.main(["resum", str(plain)]) == 1 and "has no sums" in capsys.readouterr().err and plain.read_bytes() == before
    with running(program, summed, free_port(), "--existing", "--connections", "1"):
        assert book_files.main(["resum", str(summed)]) == 1 and "is in use" in capsys.readouterr().err
    for content in b"", b"text", b"SQLite format 3\0":
        plain.write_bytes(content)
        assert not page_sums.has_sums(plain)


def by_backup(source: pathlib.Path, target: pathlib.Path) -> None:
    with contextlib.closing(sqlite3.connect(source)) as one, contextlib.closing(sqlite3.connect(target)) as other:
        one.backup(other)


def by_vacuum(source: pathlib.Path, target: pathlib.Path) -> None:
    with contextlib.closing(sqlite3.connect(source)) as one:
        one.execute("VACUUM INTO ?", (str(target),))


@pytest.mark.parametrize("copied", [by_backup, by_vacuum])
def test_copies_that_sqlite_makes(summed: pathlib.Path, program: str, copied: Callable[[pathlib.Path, pathlib.Path], None]) -> None:
    target = summed.with_name("by_sqlite.db")
    copied(summed, target)
    # They are read as any other, and the program refuses them until they are summed.
    assert page_sums.has_sums(target) and audited(program, target) == DAMAGED
    assert run("balances", target) == run("balances", summed)
    assert book_files.main(["resum", str(target)]) == 0 and audited(program, target) == (0, "sound\n")
    assert "are the same" in run("compare", summed, target)


def test_a_file_and_its_log_are_saved_as_one(summed: pathlib.Path, program: str) -> None:
    port = free_port()
    with running(program, summed, port, "--existing", "--connections", "9"):
        assert Office(f"http://127.0.0.1:{port}").ask("PUT", "/v1/returns/TV9/1", b"isrc,plays,seconds\n").status == 201
    assert has_frames(book_files.log_of(summed))
    saved = summed.with_name("saved.db")
    with open_copy(summed) as opened:
        opened.save(saved)
    assert page_sums.wrong_pages(saved) == [] and audited(program, saved) == (0, "sound\n")
    with open_copy(saved) as opened:
        assert opened.row("SELECT count(*) FROM returns WHERE reporter = 'TV9'") == (1,)


def test_commands_say_the_same_of_both(summed: pathlib.Path, plain: pathlib.Path, program: str, monkeypatch: pytest.MonkeyPatch) -> None:
    monkeypatch.setenv("SOCIETY_PROGRAM", program)
    for words in (
        ["statement", "{}", "UNCLAIMED"],
        ["amend", "{}", "1", "--amount", "2000003"],
        ["rebuild", "{}"],
        ["why", "{}", quarter.ALPHA],
    ):
        said = [run(*(str(it) if word == "{}" else word for word in words)).replace(it.name, "") for it in (summed, plain)]
        assert said[0] == said[1], words


def test_an_older_file_gets_sums(plain: pathlib.Path, tmp_path: pathlib.Path, program: str) -> None:
    database, copies = tmp_path / "book" / "office.db", tmp_path / "backups"
    database.parent.mkdir()
    shutil.copyfile(plain, database)
    port = free_port()
    with running(program, database, port, "--existing", "--connections", "1"):
        refused = backed_up(database, tmp_path, program, "--sums")
        assert refused.returncode == 1 and "stop it first" in refused.stderr and list(copies.glob("*.db")) == []
    before = database.read_bytes()
    done = backed_up(database, tmp_path, program, "--sums")
    assert (done.returncode, done.stderr) == (0, "") and database.read_bytes() == before
    [made] = copies.glob("*.db")
    assert page_sums.has_sums(made) and "are the same" in run("compare", plain, made) and sorted(os.listdir(copies)) == [".lock", made.name]
    words: list[Word] = [ROOT / "debian/bin/society-restore", "--from", made, "--db", database, "--service", "none", "--program", program]
    assert subprocess.run(words, check=False).returncode == 0
    assert page_sums.has_sums(database) and page_sums.wrong_pages(database) == [] and audited(program, database) == (0, "sound\n")
    with served(program, database) as connection:
        assert put(connection, "/returns/TV9/1", b"isrc,plays,seconds\n") == 201
    assert page_sums.has_sums(database) and "TV9" in run("compare", plain, database, status=1, out=True)


def test_a_restore_that_is_cut_off_between_its_files(summed: pathlib.Path, plain: pathlib.Path, program: str) -> None:
    for file, restored in (plain, summed), (summed, plain):
        book = pathlib.Path(shutil.copy(file, file.with_name("office.db")))
        book_log.write_log(restored, book_files.log_of(book))
        assert audited(program, book) == (0, "sound\n")
        book_log.join(book, book_files.log_of(book), joined := book.with_name("joined.db"))
        assert page_sums.has_sums(joined) == (restored == summed) and audited(program, joined) == (0, "sound\n")
        book_files.log_of(book).unlink()
