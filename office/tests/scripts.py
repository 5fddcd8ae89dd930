"""The scripts of debian/bin, as tests run them: over a copy, in throw-away folders, with a service that is a stand-in."""

import contextlib
import grp
import http.server
import os
import pathlib
import re
import shutil
import sqlite3
import subprocess

from command import Word
from conftest import ROOT

BACKUP, RESTORE = ROOT / "debian/bin/society-backup", ROOT / "debian/bin/society-restore"

NOBODY = 65_534


def backed_up(database: pathlib.Path, folder: pathlib.Path, program: str, *words: str) -> subprocess.CompletedProcess[str]:
    command: list[Word] = [BACKUP, "--db", database, "--to", folder / "backups", "--program", program, *words]
    return subprocess.run(command, capture_output=True, text=True, check=False)


def own_group() -> str:
    """A group that this user can give a file to, for root another one than its own."""
    return (
        next(it.gr_name for it in grp.getgrall() if it.gr_gid not in (0, NOBODY)) if os.getuid() == 0 else grp.getgrgid(os.getgid()).gr_name
    )


def shorter(script: pathlib.Path, folder: pathlib.Path, seconds: int) -> pathlib.Path:
    """The script as in a checkout, whose longest time is so many seconds."""
    found = folder / "checkout/debian/bin" / script.name
    found.parent.mkdir(parents=True)
    (folder / "checkout/office").symlink_to(ROOT / "office")
    found.write_text(re.sub(r"^LONGEST=\d+$", f"LONGEST={seconds}", script.read_text(), flags=re.M))
    found.chmod(0o755)
    return found


# In the place of `systemctl`: `start` starts an office that ends with its first connection.
SERVICE = """#!/bin/bash
cd "$(dirname "$0")"
case $1 in
  start) "$SOCIETY_PROGRAM" serve --existing --db "$SOCIETY_FILE" WORDS > out 2>&1 < /dev/null & echo $! > pid ;;
  stop) { kill "$(cat pid)"; } 2> /dev/null ;;
esac
exit 0
"""


class Refusing(http.server.BaseHTTPRequestHandler):
    """A proxy that lets nobody through."""

    def do_GET(self) -> None:
        self.send_error(403)

    def log_message(self, *_: object) -> None:
        pass


def restored(backup: object, database: object, program: str, cwd: pathlib.Path | None = None) -> subprocess.CompletedProcess[str]:
    words = [RESTORE, "--from", backup, "--db", database, "--service", "none", "--program", program]
    return subprocess.run([str(it) for it in words], cwd=cwd, capture_output=True, text=True, check=False)


def everything(folder: pathlib.Path) -> dict[pathlib.Path, bytes]:
    return {it: it.read_bytes() if it.is_file() else b"" for it in folder.rglob("*")}


# In the place of `systemctl`: a service that runs, whose start is told, and which ends with the script's own test.
RUNNING = """#!/bin/bash
cd "$(dirname "$0")"
echo "$1" >> asked
case $1 in
  is-active) cat state ;;
  stop) echo inactive > state ;;
  start) echo active > state; echo "$(sha256sum < "$SOCIETY_FILE") $(date +%s%N)" >> served ;;
esac
exit 0
"""


def service(tmp_path: pathlib.Path, copy: pathlib.Path) -> tuple[pathlib.Path, pathlib.Path, dict[str, str]]:
    """A service that runs over another book than a copy: its folder, its tools, and the environment of a script."""
    home, tools = tmp_path / "home", tmp_path / "tools"
    for it in home, tools:
        it.mkdir()
    shutil.copy(copy, home / "office.db")
    with contextlib.closing(sqlite3.connect(home / "office.db")) as database, database:
        database.execute("UPDATE returns SET number = 999 WHERE number = 1 AND reporter = 'TV1'")
    (tools / "state").write_text("active\n")
    (tools / "systemctl").write_text(RUNNING)
    (tools / "systemctl").chmod(0o755)
    return home, tools, {**os.environ, "PATH": f"{tools}:{os.environ['PATH']}", "SOCIETY_FILE": str(home / "office.db")}


def restore_words(copy: pathlib.Path, home: pathlib.Path, program: str, *more: object) -> list[str]:
    """The words of a restore that stops a service."""
    given = [RESTORE, "--from", copy, "--db", home / "office.db", "--sender", "PB000000012", "--program", program, *more]
    return [str(it) for it in given]


class Telling(Refusing):
    """An office that tells a front of 3."""

    def do_GET(self) -> None:
        self.send_response(200)
        self.end_headers()
        self.wfile.write(b'{"front":3,"held":[]}')
