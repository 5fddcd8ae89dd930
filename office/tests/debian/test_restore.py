"""What a restore refuses, keeps and clears away; the rest of it is tried in test_restoring.py."""

import fcntl
import http.server
import os
import pathlib
import subprocess
import threading

import pytest
from society_office.book.page_sums import changed
from scripts import Telling, backed_up, everything, restore_words, restored, service


class TellingAnother(Telling):
    """An office that tells a front of 2."""

    def do_GET(self) -> None:
        self.send_response(200)
        self.end_headers()
        self.wfile.write(b'{"front":2,"held":[]}')


@pytest.mark.parametrize("state, starts", [("active", 2), ("inactive", 1)])
def test_an_office_that_tells_another_front(copy: pathlib.Path, tmp_path: pathlib.Path, program: str, state: str, starts: int) -> None:
    """What ran is put back and started; where nothing ran, the service is stopped again, and the copy stays."""
    home, tools, env = service(tmp_path, copy)
    (tools / "state").write_text(f"{state}\n")
    before = (home / "office.db").read_bytes()
    with http.server.HTTPServer(("127.0.0.1", 0), TellingAnother) as office:
        threading.Thread(target=office.serve_forever, daemon=True).start()
        words = restore_words(copy, home, program, "--front", "3", "--port", office.server_port)
        done = subprocess.run(words, env=env, capture_output=True, text=True, timeout=100, check=False)
        office.shutdown()
    assert done.returncode == 1 and "restore: FAILED: the front of PB000000012 is 2, not 3" in done.stderr
    is_back = state == "active"
    assert ("what was there is back again" in done.stderr) == is_back
    assert ("society is stopped; the backup is in place, what was there is in " in done.stderr) == (not is_back)
    assert ((home / "office.db").read_bytes() == before) == is_back and (tools / "state").read_text() == f"{state}\n"
    assert (tools / "asked").read_text().split().count("start") == starts


def test_another_restore_is_not_disturbed(copy: pathlib.Path, tmp_path: pathlib.Path, program: str) -> None:
    home = tmp_path / "home"
    (home / ".restoring.other").mkdir(parents=True)
    handle = os.open(home, os.O_RDONLY)
    fcntl.flock(handle, fcntl.LOCK_EX)
    done = restored(copy, home / "office.db", program)
    os.close(handle)
    said = f"restore: FAILED: another restore or a backup of {home}/office.db is running; nothing was changed\n"
    assert (done.returncode, done.stderr) == (1, said) and [it.name for it in home.iterdir()] == [".restoring.other"]
    assert restored(copy, home / "office.db", program).returncode == 0
    # (what a killed one has left)
    assert [it.name for it in home.iterdir()] == ["office.db"]


def test_a_copy_that_is_not_sound_changes_nothing(copy: pathlib.Path, tmp_path: pathlib.Path, program: str) -> None:
    home, tools, env = service(tmp_path, copy)
    with changed(copy) as database:
        database.execute("UPDATE balances SET units = units + 1 WHERE account = 'UNCLAIMED'")
    before = everything(home)
    done = subprocess.run(restore_words(copy, home, program, "--front", "3"), env=env, capture_output=True, text=True, check=False)
    assert done.returncode == 1 and done.stderr.startswith(f"restore: FAILED: {copy} is not sound: society: database damaged")
    assert done.stderr.endswith("; nothing was changed\n") and everything(home) == before and not (tools / "asked").exists()


def test_a_disk_without_room_for_both_changes_nothing(copy: pathlib.Path, tmp_path: pathlib.Path, program: str) -> None:
    home, tools = tmp_path / "home", tmp_path / "tools"
    home.mkdir()
    tools.mkdir()
    needed = 2 * copy.stat().st_size + 1_048_576
    for room, status in ((needed - 1, 1), (needed, 0)):
        (tools / "df").write_text(f"#!/bin/sh\necho Avail\necho {room}\n")
        (tools / "df").chmod(0o755)
        words = restore_words(copy, home, program, "--service", "none")
        env = {**os.environ, "PATH": f"{tools}:{os.environ['PATH']}"}
        done = subprocess.run(words, env=env, capture_output=True, text=True, check=False)
        assert done.returncode == status and (f"has room for {room} bytes, and {needed} are needed" in done.stderr) == bool(status)
        assert [it.name for it in home.iterdir()] == (["office.db"] if status == 0 else [])


@pytest.mark.skipif(os.geteuid() != 0, reason="only root gives a file to another user")
def test_the_file_is_the_folders_owners_alone(copy: pathlib.Path, tmp_path: pathlib.Path, program: str) -> None:
    home = tmp_path / "home"
    home.mkdir()
    os.chown(home, 33, 33)
    for _ in range(2):
        assert restored(copy, home / "office.db", program).returncode == 0
    found = [(it.stat().st_uid, it.stat().st_gid) for it in (home / "office.db", *home.glob("aside-*"))]
    assert found == [(33, 33)] * 2 and (home / "office.db").stat().st_mode & 0o777 == 0o600


def test_what_a_killed_backup_has_left_is_taken_away(copy: pathlib.Path, tmp_path: pathlib.Path, program: str) -> None:
    (tmp_path / "backups/.unfinished.other").mkdir(parents=True)
    assert backed_up(copy, tmp_path, program).returncode == 0
    assert list((tmp_path / "backups").glob(".unfinished.*")) == []
