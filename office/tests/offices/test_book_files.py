"""The files of an office that runs: moved away, with a changed bit, and what `health` says of them and of the memory of a start."""

import contextlib
import json
import os
import pathlib
import shutil
import subprocess
import time
from collections.abc import Iterator

import pytest
import quarter
from click.testing import CliRunner
from command import Word
from conftest import running
from society_office.book import book_log
from society_office.book.copy import open_copy
from society_office.book.page_sums import changed
from society_office.commands.cli import main
from society_office.offices import book_files
from society_office.offices.program import Office, free_port
from society_office.watch import health
from scripts import BACKUP

Served = tuple[pathlib.Path, list[str]]


@pytest.fixture
def served(copy: pathlib.Path, tmp_path: pathlib.Path, program: str) -> Iterator[Served]:
    """An office over a file of its own, and the words by which its health is asked for."""
    database, port = tmp_path / "office.db", free_port()
    shutil.copyfile(copy, database)
    words = ["health", "--office", f"http://127.0.0.1:{port}", "--db", str(database), "--free", "0", "--seconds", "60", "--json"]
    with running(program, database, port, "--existing", "--connections", "100"):
        yield database, words


def findings(words: list[str]) -> dict[str, tuple[str, str]]:
    """What is found, by its name: how it is, and in words."""
    return {it["name"]: (it["state"], it["words"]) for it in json.loads(CliRunner().invoke(main, words).stdout)["findings"]}


def test_files_that_the_office_writes(served: Served) -> None:
    database, words = served
    found = findings(words)
    assert list(found) == ["answer", "fronts", "file", "memory", "disk"] and {state for state, _ in found.values()} == {"good"}
    away = database.with_name("away.db")
    database.rename(away)
    assert findings(words)["file"] == ("WRONG", f"there is no file {database}")
    shutil.copyfile(away, database)
    state, said = findings(words)["file"]
    assert state == "WRONG" and f"does not write {database}: it was moved" in said
    away.replace(database)
    book_files.log_of(database).unlink()
    shutil.copyfile(database, book_files.log_of(database))
    assert f"does not write {database}-wal" in findings(words)["file"][1]


def test_what_the_next_start_is_refused_for(served: Served) -> None:
    database, words = served
    second, journal = database.with_name("second.db"), database.with_name("office.db-journal")
    second.hardlink_to(database)
    assert findings(words)["file"] == (
        "WRONG",
        f"{database} has a second name (a hard link), and the next start is refused: take that one away",
    )
    second.unlink()
    journal.touch()
    assert findings(words)["file"][0] == "good"
    journal.write_bytes(b"x")
    state, said = findings(words)["file"]
    assert state == "WRONG" and f"{journal} stands there" in said and "and the next start is refused: move it away" in said


def test_a_log_that_was_emptied_under_the_office(served: Served, program: str) -> None:
    database, words = served
    log, office = book_files.log_of(database), Office(words[words.index("--office") + 1])
    backup: list[Word] = [BACKUP, "--db", database, "--to", database.parent / "to", "--program", program]
    log.write_bytes(b"")
    for number in range(3):
        if number:
            assert office.ask("PUT", f"/v1/returns/TV9/{number}", b"isrc,plays,seconds\n").status == 201
            office.close()
        told = f"{log} is damaged: " + (f"{number} transactions stand behind a page" if number else "it was emptied under the office")
        state, said = findings(words)["file"]
        assert state == "WRONG" and told in said
        done = subprocess.run(backup, stderr=subprocess.PIPE, check=False, text=True)
        assert done.returncode == 1 and f"FAILED: {told}" in done.stderr and list((database.parent / "to").glob("*.db")) == []


def test_a_link_to_the_file(served: Served, tmp_path: pathlib.Path) -> None:
    database, words = served
    link = tmp_path / "elsewhere/link.db"
    link.parent.mkdir()
    link.symlink_to(database)
    linked = [str(link) if it == str(database) else it for it in words]
    assert findings(linked)["file"][0] == "good" and f"the disk of {database.parent} " in findings(linked)["disk"][1]
    assert health.memory_needed(health.Looked("", database=link)) == health.memory_needed(health.Looked("", database=database))
    book_files.log_of(database).rename(tmp_path / "away")
    shutil.copyfile(tmp_path / "away", book_files.log_of(database))
    assert f"does not write {database}-wal" in findings(linked)["file"][1]


def test_memory_of_a_start(served: Served, monkeypatch: pytest.MonkeyPatch, tmp_path: pathlib.Path) -> None:
    database, words = served
    needed = health.memory_needed(health.Looked("", database=database))
    log = book_files.log_of(database)
    assert needed == int(1.1 * (database.stat().st_size + log.stat().st_size))
    for percent, state in (66, "good"), (68, "look"), (101, "WRONG"):
        process = next(book_files.offices(database))
        group = next(it.split(":", 2) for it in (process / "cgroup").read_text().splitlines() if it.split(":")[1] in ("", "memory"))
        place = tmp_path / "groups" / group[1] / group[2].lstrip("/")
        place.mkdir(parents=True, exist_ok=True)
        (place / ("memory.max" if group[1] == "" else "memory.limit_in_bytes")).write_text(f"{needed * 100 // percent}\n")
        monkeypatch.setattr(health, "GROUPS", tmp_path / "groups")
        assert findings(words)["memory"][0] == state
    shutil.copyfile(database, tmp_path / "one.db")
    with_credits = health.memory_needed(health.Looked("", database=database, backups=tmp_path))
    with open_copy(tmp_path / "one.db") as copy:
        credits_there, played = copy.row("SELECT count(*), count(DISTINCT isrc) FROM credits")
    assert credits_there and played and with_credits == needed + 150 * credits_there + 400 * played


def test_memory_by_the_unit(monkeypatch: pytest.MonkeyPatch, tmp_path: pathlib.Path) -> None:
    database = tmp_path / "office.db"
    for name in "lib", "etc/society.service.d":
        (tmp_path / name).mkdir(parents=True)
    monkeypatch.setattr(health, "UNITS", [tmp_path / "lib", tmp_path / "etc"])
    assert health.bound_of_unit(database) is None
    unit = tmp_path / "lib/society.service"
    unit.write_text(f"[Service]\nExecStart=society serve --db={database}\nMemoryMax=4G\n")
    assert health.bound_of_unit(database) == 4 << 30 and health.bound_of_unit(tmp_path / "other.db") is None
    (tmp_path / "etc/society.service.d/override.conf").write_text("[Service]\nMemoryMax=300M\n")
    assert health.memory_allowed(health.Looked("", database=database)) == (300 << 20, "the unit's MemoryMax is")
    whole = health.machine_memory()
    # As systemd reads it: a fraction, a part of the machine's memory, no limit, and the one from before taken back.
    for text, bound in ("1.5G", 3 << 29), ("50%", whole // 2), ("infinity", None), ("", None), ("4096 ", 4_096):
        (tmp_path / "etc/society.service.d/override.conf").write_text(f"[Service]\nMemoryMax={text}\n")
        assert health.bound_of_unit(database) == bound, text


def test_senders_that_are_gone(copy: pathlib.Path, tmp_path: pathlib.Path) -> None:
    shutil.copyfile(copy, tmp_path / "office-1.db")
    looked = health.Looked("", backups=tmp_path)
    found = health.known_fronts(looked, {quarter.ALPHA: 99, "PB000000099": 7})
    assert found[quarter.ALPHA] == 99 and "PB000000099" not in found and quarter.BETA in found
    assert health.known_fronts(health.Looked(""), {"PB000000099": 7}) == {"PB000000099": 7}
    # (one that the newest lacks, and the one before has, is what an older file that is served would hide)
    newest = pathlib.Path(shutil.copy(copy, tmp_path / "office-2.db"))
    os.utime(tmp_path / "office-1.db", (time.time() - 99,) * 2)
    with changed(newest) as database:
        for table in "transmissions", "fronts", "segment_ends":
            database.execute(f"DELETE FROM {table} WHERE sender = ?", (quarter.ALPHA,))
    with open_copy(newest) as opened:
        assert quarter.ALPHA not in {it.sender for it in opened.lines()}
    assert health.known_fronts(looked, {quarter.ALPHA: 99, "PB000000099": 7})[quarter.ALPHA] == 99


def written(copy: pathlib.Path, folder: pathlib.Path) -> tuple[pathlib.Path, bytearray]:
    """A log that has each page of a copy, as one transaction, and another transaction of the same pages behind it."""
    log = folder / "written-wal"
    book_log.write_log(copy, log)
    # (the place behind the last frame is shut, and is where the other transaction goes)
    once = log.read_bytes()[: -book_log.FRAME_HEADER]
    read = book_log.Log(log)
    frames = bytearray(once)
    stored: tuple[int, int] = (
        int.from_bytes(once[-read.page_size - 8 : -read.page_size - 4], "big"),
        int.from_bytes(once[-read.page_size - 4 : -read.page_size], "big"),
    )
    size = book_log.FRAME_HEADER + read.page_size
    for start in range(book_log.HEADER, len(once), size):
        head, content = once[start : start + 16], once[start + 24 : start + size]
        stored = read.sums(head[:8] + content, stored)
        frames += head + b"".join(it.to_bytes(4, "big") for it in stored) + content
    log.write_bytes(frames)
    return log, frames


def test_changed_bits_of_a_log(copy: pathlib.Path, tmp_path: pathlib.Path) -> None:
    log, sound = written(copy, tmp_path)
    pages = copy.stat().st_size // 4096
    assert book_log.Log(log).lost() == (2 * pages, 0) and book_log.fault_of_log(log) == ""
    for place in 1, 20, 32 + 8, 32 + 16, 32 + 24, 32 + 4120 * (pages - 1) + 30:
        changed = bytearray(sound)
        changed[place] ^= 1
        log.write_bytes(changed)
        assert "is damaged" in book_log.fault_of_log(log), place
    # A transaction that was broken off, or whose first page is open still, and a log that is shut, have nothing that was confirmed.
    half = len(sound) // 2 + 16
    for left in sound[: len(sound) - 5_000], b"\0" + sound[1:]:
        log.write_bytes(left)
        assert book_log.fault_of_log(log) == ""
    opened = bytearray(sound)
    opened[half + 8] = 0
    log.write_bytes(opened)
    assert book_log.Log(log).lost() == (pages, 0)


def test_a_log_beside_any_file_is_read_as_its_own(copy: pathlib.Path, tmp_path: pathlib.Path) -> None:
    other, target = tmp_path / "other.db", tmp_path / "joined.db"
    other.write_bytes(bytes(range(256)) * 100)
    book_log.write_log(copy, book_files.log_of(other))
    book_log.join(other, book_files.log_of(other), target)
    assert target.read_bytes() == copy.read_bytes()


@pytest.mark.parametrize(
    "words, status", [(["check"], 2), ([], 2), (["office", "none"], 1), (["log", "none-wal"], 0), (["settings", "none"], 1)]
)
def test_words_for_scripts(words: list[str], status: int, capsys: pytest.CaptureFixture[str]) -> None:
    assert book_files.main(words) == status
    assert capsys.readouterr().err.count("\n") == (1 if status == 1 else 11 if status == 2 else 0)
    with contextlib.suppress(FileNotFoundError):
        pathlib.Path("none").unlink()


def test_what_a_restore_compares(copy: pathlib.Path, tmp_path: pathlib.Path, capsys: pytest.CaptureFixture[str]) -> None:
    for sender, front in (("PB000000012", "3"), ("PB000000034", "26-0002"), ("PB000000999", "0")):
        assert book_files.main(["front", str(copy), sender]) == 0 and capsys.readouterr().out == f"{front}\n"
    settings = tmp_path / "office.conf"
    quoted = '# SOCIETY=1\n SOCIETY=0900\nTERRITORY= 40 \nNAME="EXAMPLE SOCIETY"\n'
    for text in (quoted, "SOCIETY=900\nTERRITORY=40\nNAME=EXAMPLE SOCIETY\n"):
        settings.write_text(text)
        assert book_files.main(["settings", str(settings)]) == 0 == book_files.main(["office", str(copy)])
        said = capsys.readouterr().out.splitlines()
        assert said[:5] == said[5:] and len(said) == 10
    settings.write_text("SOCIETY=\nTERRITORY=40\nNAME=X\n")
    assert book_files.main(["settings", str(settings)]) == 1
