"""Copies that are opened and refused: layouts, logs beside them, files in use, and files that are none."""

import contextlib
import os
import pathlib
import shutil
import sqlite3

import pytest
import quarter
import reckoning
from command import run
from conftest import ROOT, running, served
from society_office.basics.errors import OfficeError
from society_office.book.copy import OF_POOLS, TABLES, Copy, open_copy
from society_office.book.own_returns import ROWLESS
from society_office.book.page_sums import changed
from society_office.closings.credit import closed
from society_office.closings.orders import Order
from society_office.credits.statements import Statements
from society_office.offices.program import Office, audited, free_port, open_whole

DERIVED = "".join(f"DROP TABLE {it};" for it in ("fronts", "verdicts", "versions", "recordings", "credits", "balances"))


def refused(path: pathlib.Path) -> str:
    with pytest.raises(OfficeError) as raised, open_copy(path):
        pass
    return str(raised.value)


def in_log(path: pathlib.Path, statement: str, into: pathlib.Path) -> None:
    """Copies a file and its log into a folder, while a change stands in the log alone."""
    with contextlib.closing(sqlite3.connect(path)) as database:
        database.execute("PRAGMA journal_mode = WAL")
        database.execute("PRAGMA wal_autocheckpoint = 0")
        database.execute(statement)
        database.commit()
        for end in ("", "-wal"):
            shutil.copyfile(f"{path}{end}", into / f"pair.db{end}")


def test_a_copy_is_never_written_to(copy: pathlib.Path) -> None:
    before = copy.read_bytes()
    for words in (
        ["statement", copy, "UNCLAIMED"],
        ["parties", copy],
        ["unclaimed", copy],
        ["propose", copy, "--amount", 1],
        ["why", copy, quarter.ALPHA],
    ):
        run(*words)
    run("site", copy, "--into", copy.parent / "site")
    assert copy.read_bytes() == before
    assert {it.name for it in copy.parent.iterdir()} == {"copy.db", "site"}


def test_files_and_returns_are_saved_without_pools(copy: pathlib.Path, program: str, tmp_path: pathlib.Path) -> None:
    def counts(opened: Copy) -> dict[str, int]:
        tables = sorted(TABLES[3] - OF_POOLS), sorted(OF_POOLS)
        return {it: sum(opened.row(f"SELECT count(*) FROM {one}")[0] for one in listed) for it, listed in zip(("kept", "of pools"), tables)}

    with open_copy(copy) as opened:
        opened.save_before_pools(tmp_path / "before.db")
        assert audited(opened.save_before_pools, opened.office_words, program) == (0, "sound")
        kept = counts(opened)["kept"]
    with open_copy(tmp_path / "before.db") as before:
        assert counts(before) == {"kept": kept, "of pools": 0}


def test_older_layouts(copy: pathlib.Path, monkeypatch: pytest.MonkeyPatch) -> None:
    with changed(copy) as database:
        database.executescript("DROP TABLE mechanical_pools; DROP TABLE segment_ends; UPDATE office SET layout = 2")
    with open_copy(copy) as opened:
        assert opened.layout == 2 and set(opened.rights().values()) == {"PR"}
        assert Statements(opened).of("I00000000295").agrees
    with changed(copy) as database:
        database.executescript(DERIVED)
        database.execute("UPDATE office SET layout = 1")
    monkeypatch.setenv("PATH", "")
    monkeypatch.setenv("SOCIETY_PROGRAM", "")
    monkeypatch.setattr("society_office.offices.program.CHECKOUT", copy.parent)
    assert "is of layout 1" in run("statement", copy, "UNCLAIMED", status=1)
    with changed(copy) as database:
        database.execute("UPDATE office SET layout = 4")
    assert "reads the layouts 1 to 3" in refused(copy)


@pytest.mark.parametrize("layout, gone", [(1, DERIVED), (2, "")])
def test_an_older_layout_is_taken_over(tmp_path: pathlib.Path, program: str, layout: int, gone: str) -> None:
    path = tmp_path / "old.db"
    with served(program, path) as connection:
        for where, name in (("senders/PB000000012/transmissions/1", "cwr"), ("returns/RADIO1/1", "csv"), ("pools/7", "json")):
            connection.request("PUT", f"/v1/{where}", (ROOT / f"examples/first.{name}").read_bytes())
            assert connection.getresponse().read().startswith(b'{"')
    with changed(path) as database:
        database.executescript(f"DROP TABLE mechanical_pools; DROP TABLE segment_ends; {gone}")
        database.execute("UPDATE office SET layout = ?", (layout,))
    before = path.read_bytes()
    assert "50,000 units in all, which is the balance" in run("statement", path, "I00000000295")
    assert "50,000 units in all, which is what the statement has" in run("explain", path, "I00000000295", "--pool", 7)
    order = Order("PR", 8, [("PB000000012", 1)], [("DUE00000001", 99_999)])
    with open_whole(path) as opened:
        credits = closed(program, opened, 99_999, order, order.returns[0], f"{ROWLESS}ATABC2600001,8,1\n")
    assert sum(credits.values()) == 8
    assert path.read_bytes() == before


def test_a_log_of_the_copy_is_read(copy: pathlib.Path, tmp_path: pathlib.Path) -> None:
    folder = tmp_path / "pair"
    folder.mkdir()
    in_log(copy, "INSERT INTO returns VALUES ('TV9', 1, x'00')", folder)
    with open_copy(folder / "pair.db") as opened:
        assert opened.row("SELECT count(*) FROM returns WHERE reporter = 'TV9'") == (1,)
        assert "were read as one" in opened.note
    assert {it.name for it in folder.iterdir()} == {"pair.db", "pair.db-wal"}
    (tmp_path / "link.db").symlink_to("pair/pair.db")
    assert run("returned", tmp_path / "link.db", "TV9/1") == "\0"
    (folder / "pair.db-journal").write_text("of a change that was not ended")
    assert "pair.db-journal stands beside" in refused(tmp_path / "link.db")


def test_a_log_of_another_file_is_refused(copy: pathlib.Path, tmp_path: pathlib.Path) -> None:
    folder = tmp_path / "pair"
    folder.mkdir()
    other = pathlib.Path(shutil.copy(copy, tmp_path / "other.db"))
    with changed(other) as database:
        # The other office never had the last file of the first sender.
        database.execute("DELETE FROM pool_cuts WHERE sender = ? AND number = 3", (quarter.ALPHA,))
        database.execute("DELETE FROM transmissions WHERE sender = ? AND number = 3", (quarter.ALPHA,))
    in_log(other, "UPDATE transmissions SET body = CAST(body || x'20' AS BLOB)", folder)
    shutil.copyfile(copy, folder / "pair.db")
    said = refused(folder / "pair.db")
    assert "pair.db-wal is not of" in said and "no sound file" in said
    # A log with all pages makes a sound file of any other one, but not with all that the file had.
    in_log(other, "VACUUM", folder)
    shutil.copyfile(copy, folder / "pair.db")
    assert "pair.db alone has transmissions" in refused(folder / "pair.db")
    small = tmp_path / "small.db"
    with changed(small) as database:
        database.executescript("PRAGMA page_size = 512; CREATE TABLE it (is_there)")
    in_log(small, "INSERT INTO it VALUES (1)", folder)
    shutil.copyfile(copy, folder / "pair.db")
    assert "pages of 512 bytes" in refused(folder / "pair.db")


def test_a_log_whose_rows_refer_to_nothing_is_refused(copy: pathlib.Path, tmp_path: pathlib.Path) -> None:
    folder = tmp_path / "pair"
    folder.mkdir()
    in_log(copy, "INSERT INTO pool_returns VALUES ('NONE', 1, 1)", folder)
    assert "a row has lost the row to which it refers" in refused(folder / "pair.db")


def test_a_log_that_was_begun_anew_is_passed_over(copy: pathlib.Path, tmp_path: pathlib.Path) -> None:
    folder = tmp_path / "pair"
    folder.mkdir()
    in_log(copy, "INSERT INTO returns VALUES ('TV9', 1, x'00')", folder)
    log = bytearray((folder / "pair.db-wal").read_bytes())
    log[32 + 8] ^= 1
    (folder / "pair.db-wal").write_bytes(log)
    with open_copy(folder / "pair.db") as opened:
        assert opened.row("SELECT count(*) FROM returns WHERE reporter = 'TV9'") == (0,) and opened.note == ""


def test_an_empty_log_is_passed_over(copy: pathlib.Path) -> None:
    for content in (b"", b"\x37\x7f\x06\x82" + bytes(37)):
        copy.with_name("copy.db-wal").write_bytes(content)
        assert "which is the balance" in run("statement", copy, "UNCLAIMED")


def test_what_is_no_copy(copy: pathlib.Path, tmp_path: pathlib.Path) -> None:
    assert "there is no file" in refused(tmp_path / "nothing.db")
    assert "is no file" in refused(tmp_path)
    (tmp_path / "empty.db").touch()
    assert "is empty" in refused(tmp_path / "empty.db")
    (tmp_path / "text.db").write_text("an office")
    assert "is no SQLite database" in refused(tmp_path / "text.db")
    with changed(tmp_path / "other.db") as database:
        database.execute("CREATE TABLE it (is_there)")
    assert "not an office's file" in refused(tmp_path / "other.db")
    copy.with_name("copy.db-journal").write_bytes(b"x")
    assert "a change of it was not ended" in refused(copy)
    cut = tmp_path / "cut.db"
    cut.write_bytes(copy.read_bytes()[:9_000])
    assert "cut.db" in refused(cut)


def test_the_file_of_an_office_that_runs_is_refused(copy: pathlib.Path, program: str) -> None:
    port = free_port()
    with running(program, copy, port, "--existing", "--connections", "1") as process:
        assert "is in use" in refused(copy)
        # While it runs, both files copied at one moment are a copy: here nothing is written meanwhile.
        folder = copy.parent / "moment"
        folder.mkdir()
        office = Office(f"http://127.0.0.1:{port}")
        office.ask("PUT", "/v1/returns/TV9/1", b"isrc,plays,seconds\n")
        for end in ("", "-wal"):
            shutil.copyfile(f"{copy}{end}", folder / f"copy.db{end}")
        with open_copy(folder / "copy.db") as opened:
            assert opened.row("SELECT count(*) FROM returns WHERE reporter = 'TV9'") == (1,)
            assert dict(opened.rows("SELECT account, units FROM balances")) == reckoning.balances(quarter.OFFICE)
        office.close()
        process.wait(60)


@pytest.mark.parametrize("seconds", [-(10.0**11), 253_402_387_200.0, 10.0**18])
def test_a_time_that_no_calendar_has(copy: pathlib.Path, seconds: float) -> None:
    """A disk that keeps such a time is not everywhere."""
    with open_copy(copy) as opened:
        assert opened.taken == copy.stat().st_mtime
        opened.moment = seconds
        with pytest.raises(OfficeError, match=f"{copy} has a time that no calendar has, of a clock that was wrong: `touch {copy}`"):
            opened.taken


def test_a_copy_from_before_1970(copy: pathlib.Path) -> None:
    os.utime(copy, (-(10**9), -(10**9)))
    with open_copy(copy) as opened:
        assert opened.taken == -(10**9)
    assert "units of all pools out of the copy of 1938-04-2" in run("balances", copy, "--format", "ledger")
