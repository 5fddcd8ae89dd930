"""The index beside a copy: made once, made anew where the copy is another or the index is damaged, and never in the way."""

import json
import os
import pathlib
import shutil
import sqlite3
import stat
import threading
from collections.abc import Callable, Iterator

import pytest
from click.testing import CliRunner
from command import run
from conftest import ROOT, made
from desk import HOUSE, file, holder, work
from office_value import Office
from society_office.book.copy import Copy, open_copy
from society_office.book.page_sums import changed
from society_office.commands.cli import main
from society_office.works import registered_works, work_index

ANNA = "I00000000101"
Readings = list[pathlib.Path]


@pytest.fixture
def read(monkeypatch: pytest.MonkeyPatch) -> Iterator[Readings]:
    """The copies all of whose works were read, one after another."""
    found, before = Readings(), registered_works.sent_works

    def sent_works(copy: Copy) -> Iterator[registered_works.Sent]:
        found.append(copy.path)
        return before(copy)

    monkeypatch.setattr(work_index, "sent_works", sent_works)
    yield found


def index_of(copy: pathlib.Path) -> pathlib.Path:
    return copy.with_name(f"{copy.name}.works")


def found(copy: pathlib.Path, *words: str) -> list[str]:
    """The numbers of the works that are found."""
    return [it["work"] for it in json.loads(run("works", copy, "--format", "json", *words))["works"]]


def names(copy: pathlib.Path) -> list[str]:
    return sorted(it.name for it in copy.parent.iterdir())


def test_an_index_is_made_once(copy: pathlib.Path, read: Readings) -> None:
    before = (copy.read_bytes(), copy.stat().st_mtime_ns)
    assert found(copy, "first", "song") == ["A1"] and read == [copy]
    content = index_of(copy).read_bytes()
    assert found(copy, "first", "song") == found(copy, "song live anna") == ["A1"] and found(copy, "song") == ["A2", "A1", "G1"]
    assert read == [copy] and index_of(copy).read_bytes() == content and names(copy) == ["copy.db", "copy.db.works"]
    assert (copy.read_bytes(), copy.stat().st_mtime_ns) == before
    line, _, image = content.partition(b"\n")
    assert line.startswith(b"society-office works 1 ") and image.startswith(b"SQLite format 3\x00")


def test_it_is_made_anew_of_a_newer_copy(copy: pathlib.Path, read: Readings) -> None:
    assert found(copy, "song") == ["A2", "A1", "G1"]
    with changed(copy) as database:
        database.execute("UPDATE office SET name = 'OTHER'")
    assert found(copy, "song") == ["A2", "A1", "G1"] and read == [copy] * 2
    os.utime(copy, (1_700_000_000, 1_700_000_000))
    assert found(copy, "song") == ["A2", "A1", "G1"] and read == [copy] * 3
    assert found(copy, "song") == ["A2", "A1", "G1"] and read == [copy] * 3


def test_it_is_made_anew_of_another_copy(copy: pathlib.Path, program: str, tmp_path: pathlib.Path, read: Readings) -> None:
    (tmp_path / "other").mkdir()
    other = made(program, Office({HOUSE: "X"}, [file(HOUSE, 1, work("X9", "ATABC2600001", holder(ANNA, 10_000)))]), tmp_path / "other")
    assert found(other, "song") == ["X9"] and found(copy, "song") == ["A2", "A1", "G1"]
    shutil.copy2(index_of(other), index_of(copy))
    assert found(copy, "song") == ["A2", "A1", "G1"] and read == [other, copy, copy]
    # (one that has its size and its time is another one too)
    before, size = copy.stat(), copy.stat().st_size
    copy.write_bytes(other.read_bytes().ljust(size, b"\0")[:size] if size > other.stat().st_size else other.read_bytes())
    os.utime(copy, ns=(before.st_atime_ns, before.st_mtime_ns))
    assert found(copy, "song") == ["X9"] and read == [other, copy, copy, copy]


def test_a_log_beside_a_copy_is_part_of_it(copy: pathlib.Path, tmp_path: pathlib.Path, read: Readings) -> None:
    assert found(copy, "song") == ["A2", "A1", "G1"]
    (tmp_path / "written").mkdir()
    working = pathlib.Path(shutil.copy(copy, tmp_path / "written/copy.db"))
    with sqlite3.connect(working) as database:
        database.execute("PRAGMA journal_mode = wal")
        database.execute("PRAGMA user_version = 7")
        database.commit()
        for ending in ("", "-wal"):
            shutil.copy(f"{working}{ending}", f"{copy}{ending}")
    for _ in range(2):
        assert found(copy, "song") == ["A2", "A1", "G1"] and read == [copy] * 2
    (tmp_path / "copy.db-wal").unlink()
    assert found(copy, "song") == ["A2", "A1", "G1"] and read == [copy] * 3


DAMAGES: list[Callable[[bytes], bytes]] = [
    lambda it: b"",
    lambda it: it[:-1],
    lambda it: it[: len(it) // 2],
    lambda it: it + b"\0",
    lambda it: it.partition(b"\n")[2],
    lambda it: b"\n" + it,
    lambda it: it.replace(b"works 1 ", b"works 0 ", 1),
    lambda it: it.partition(b"\n")[0] + b"\n",
    lambda it: it.partition(b"\n")[0] + b"\n" + bytes(len(it)),
    *(lambda it, k=k: it[: k * len(it) // 40] + bytes([it[k * len(it) // 40] ^ 1]) + it[k * len(it) // 40 + 1 :] for k in range(40)),
]


@pytest.mark.parametrize("damage", DAMAGES)
def test_a_damaged_one_is_made_anew(copy: pathlib.Path, read: Readings, damage: Callable[[bytes], bytes]) -> None:
    assert found(copy, "song") == ["A2", "A1", "G1"]
    right = index_of(copy).read_bytes()
    index_of(copy).write_bytes(damage(right))
    assert found(copy, "song") == ["A2", "A1", "G1"] and read == [copy] * 2
    assert len(index_of(copy).read_bytes()) == len(right)
    assert found(copy, "song") == ["A2", "A1", "G1"] and read == [copy] * 2


def test_where_it_can_not_be_written_all_works_are_read(copy: pathlib.Path, read: Readings, monkeypatch: pytest.MonkeyPatch) -> None:
    def refused(*words: object) -> int:
        raise OSError(30, "Read-only file system")

    with monkeypatch.context() as patch:
        patch.setattr("society_office.works.work_index.os.open", refused)
        for times in (1, 2):
            ended = CliRunner(mix_stderr=False).invoke(main, ["works", str(copy), "first", "song"], catch_exceptions=False)
            said = f"society-office: {index_of(copy)} could not be written (Read-only file system), so all works were read, as they will be"
            assert ended.exit_code == 0 and ended.stderr == f"{said} next time\n" and ended.stdout.startswith("FIRST SONG (LIVE), A1 of ")
            assert read == [copy] * times and names(copy) == ["copy.db"]
    index_of(copy).mkdir()
    ended = CliRunner(mix_stderr=False).invoke(main, ["works", str(copy), "first", "song"], catch_exceptions=False)
    assert "could not be written (Is a directory)" in ended.stderr and ended.stdout.endswith("\n1 work\n")
    assert names(copy) == ["copy.db", "copy.db.works"]


@pytest.mark.parametrize("mode", [0o600, 0o640, 0o644, 0o444])
def test_who_may_read_it_may_read_the_copy(copy: pathlib.Path, mode: int) -> None:
    copy.chmod(mode)
    for umask in (0o000, 0o077):
        before = os.umask(umask)
        found(copy, "song")
        os.umask(before)
        place = index_of(copy).stat()
        assert stat.S_IMODE(place.st_mode) == mode & 0o644 and place.st_gid == copy.stat().st_gid
        index_of(copy).unlink()


def test_what_was_broken_off_leaves_the_old_one(copy: pathlib.Path, monkeypatch: pytest.MonkeyPatch) -> None:
    found(copy, "song")
    os.utime(copy, (1_700_000_000, 1_700_000_000))
    before = index_of(copy).read_bytes()
    copy.with_name(".copy.db.works.new").write_text("of one that was killed")

    def ended(self: pathlib.Path, target: pathlib.Path) -> pathlib.Path:
        raise KeyboardInterrupt

    with monkeypatch.context() as patch:
        patch.setattr(pathlib.Path, "replace", ended)
        run("works", copy, "song", status=1)
    assert index_of(copy).read_bytes() == before and names(copy) == ["copy.db", "copy.db.works"]
    assert found(copy, "song") == ["A2", "A1", "G1"] and index_of(copy).read_bytes() != before


def test_a_copy_that_is_replaced_meanwhile_has_no_index_of_the_one_before(copy: pathlib.Path, program: str, tmp_path: pathlib.Path) -> None:
    (tmp_path / "other").mkdir()
    other = made(program, Office({HOUSE: "X"}, [file(HOUSE, 1, work("X9", "ATABC2600001", holder(ANNA, 10_000)))]), tmp_path / "other")
    os.utime(other, (1_700_000_000, 1_700_000_000))
    with open_copy(copy) as opened:
        other.replace(copy)
        index, note = work_index.of(opened)
        assert len(index.find([])) == 18 and note == "" and not index_of(copy).exists()
    assert found(copy) == ["X9"]


def test_a_link_has_its_index_where_it_leads(copy: pathlib.Path, tmp_path: pathlib.Path) -> None:
    (tmp_path / "links").mkdir()
    (tmp_path / "links/last.db").symlink_to(copy)
    assert found(tmp_path / "links/last.db", "song") == ["A2", "A1", "G1"]
    assert names(tmp_path / "links/last.db") == ["last.db"] and index_of(copy).exists()


def test_several_at_once_make_it_once(copy: pathlib.Path, read: Readings) -> None:
    listed = list[int]()

    def search() -> None:
        with open_copy(copy) as opened:
            listed.append(len(work_index.of(opened)[0].find([])))

    threads = [threading.Thread(target=search) for _ in range(4)]
    for it in threads:
        it.start()
    for it in threads:
        it.join()
    assert listed == [18] * 4 and read == [copy] and names(copy) == ["copy.db", "copy.db.works"]


def test_the_manual_has_the_command_and_its_options() -> None:
    manual = (ROOT / "debian/man/society-office.1").read_text()
    assert "\n.SS works COPY WORDS\n" in manual
    section = manual.partition("\n.SS works COPY WORDS\n")[2].partition("\n.SS ")[0]
    assert all(it in section for it in (r"\-\-most", r"\-\-format", r"\-\-output"))
