"""Copies of an office's file: for a group, by odd names, of an office that is halted, started or cut off meanwhile."""

import contextlib
import grp
import os
import pathlib
import shutil
import signal
import socket
import subprocess
import sys
import tarfile
import tempfile
import time
from collections.abc import Iterator

import pytest
from command import Word, run
from conftest import ROOT, running
from scripts import BACKUP, NOBODY, RESTORE, backed_up, own_group, restored, shorter
from society_office.basics.errors import OfficeError
from society_office.book.copy import open_copy
from society_office.decided import decisions
from society_office.offices.program import Office as Asked, free_port
from society_office.watch.health import Looked, look_into_backup


@pytest.fixture
def open_folder() -> Iterator[pathlib.Path]:
    """A folder that every user may pass through."""
    with tempfile.TemporaryDirectory() as name:
        os.chmod(name, 0o755)
        yield pathlib.Path(name)


# In the place of `cp`: it has the file open, as that has, until it may go on.
HELD_CP = """#!/bin/bash
exec 5< "$1"
touch "$(dirname "$0")/copying"
while [ ! -e "$(dirname "$0")/go-on" ]; do sleep 0.05 5<&-; done
exec /bin/cp "$@"
"""


def test_a_program_that_is_not_there(copy: pathlib.Path, tmp_path: pathlib.Path) -> None:
    done = backed_up(copy, tmp_path, str(tmp_path / "none"))
    assert (done.returncode, done.stderr) == (1, f"backup: FAILED: there is no program {tmp_path / 'none'}\n")
    assert not (tmp_path / "backups").exists()


def test_a_copy_for_a_group(copy: pathlib.Path, open_folder: pathlib.Path, program: str) -> None:
    database, place, group = pathlib.Path(shutil.copy(copy, open_folder / "office.db")), open_folder / "staff", own_group()
    for _ in range(2):
        done = backed_up(database, open_folder, program, "--group", group, "--place", str(place))
        assert (done.returncode, done.stderr) == (0, "")
    gid = grp.getgrnam(group).gr_gid
    [made] = sorted((open_folder / "backups").glob("*.db"))[-1:]
    assert (place / "copy.db").read_bytes() == made.read_bytes() and [it.name for it in place.iterdir()] == ["copy.db"]
    assert [(it.stat().st_gid, it.stat().st_mode & 0o777) for it in (place, place / "copy.db")] == [(gid, 0o750), (gid, 0o640)]
    if os.getuid() == 0:
        shutil.copytree(ROOT / "office/society_office", open_folder / "society_office")
        words: list[Word] = [sys.executable, "-c", "from society_office.commands.cli import main; main()", "parties", place / "copy.db"]
        for groups, status in (((gid,), 0), ((), 1)):
            ran = subprocess.run(words, cwd=open_folder, user=NOBODY, group=NOBODY, extra_groups=groups, capture_output=True, check=False)
            assert ran.returncode == status, ran.stderr


def test_a_folder_for_a_group_where_no_copy_was_made(tmp_path: pathlib.Path, program: str) -> None:
    """Whoever looks after the backups sees that there is none."""
    database, group = tmp_path / "office.db", own_group()
    database.write_bytes(b"no database" * 100)
    assert backed_up(database, tmp_path, program, "--group", group).returncode == 1
    found = (tmp_path / "backups").stat()
    assert (found.st_gid, found.st_mode & 0o777) == (grp.getgrnam(group).gr_gid, 0o750)


def test_no_copy_for_a_group_that_is_none(copy: pathlib.Path, tmp_path: pathlib.Path, program: str) -> None:
    done = backed_up(copy, tmp_path, program, "--group", "no-such-group", "--place", str(tmp_path / "staff"))
    assert (done.returncode, done.stderr) == (1, "backup: FAILED: there is no group no-such-group\n")
    assert not (tmp_path / "staff").exists() and not (tmp_path / "backups").exists()
    assert backed_up(copy, tmp_path, program, "--place", str(tmp_path / "staff")).returncode == 2
    (tmp_path / "file").touch()
    done = backed_up(copy, tmp_path, program, "--group", own_group(), "--place", str(tmp_path / "file"))
    assert done.returncode == 1 and "is there, but it could not be put into" in done.stderr.splitlines()[-1]


NO_AUDIT = ["echo society: database store >&2; exit 1", "echo society: memory fault after 0 requests >&2; exit 1", "kill -9 $$"]


@pytest.mark.parametrize("end", NO_AUDIT)
def test_what_could_not_be_audited_is_not_said_to_be_unsound(copy: pathlib.Path, tmp_path: pathlib.Path, end: str) -> None:
    other, home = tmp_path / "society", tmp_path / "home"
    other.write_text(f"#!/bin/sh\n{end}\n")
    other.chmod(0o755)
    home.mkdir()
    for done in backed_up(copy, tmp_path, str(other)), restored(copy, home / "office.db", str(other)):
        assert done.returncode == 1 and "could not be audited (is the disk full, or the memory?): " in done.stderr.splitlines()[-1]
    assert not list(home.iterdir()) and not list((tmp_path / "backups").glob("*.db"))
    (tmp_path / "copies").mkdir()
    shutil.copy(copy, tmp_path / "copies")
    looked, kept = Looked("", backups=tmp_path / "copies", program=str(other)), dict[str, object]()
    with pytest.raises(OfficeError, match="could not look at it"):
        look_into_backup(looked, kept)
    assert not kept


# In the place of `cp`: lets the office go on so many times.
OTHERS_SIGNAL = """#!/bin/bash
echo x >> "$0.copied"
[ "$(wc -l < "$0.copied")" -gt TIMES ] || kill -CONT OFFICE
exec /bin/cp "$@"
"""


@pytest.mark.parametrize("times, status", [(1, 0), (99, 1)])
def test_another_lets_the_office_go_on(copy: pathlib.Path, tmp_path: pathlib.Path, program: str, times: int, status: int) -> None:
    tools = tmp_path / "tools"
    tools.mkdir()
    with running(program, copy, free_port(), "--existing", "--connections", "1") as office:
        (tools / "cp").write_text(OTHERS_SIGNAL.replace("TIMES", str(times)).replace("OFFICE", str(office.pid)))
        (tools / "cp").chmod(0o755)
        words: list[Word] = [BACKUP, "--db", copy, "--to", tmp_path / "backups", "--program", program]
        env = {**os.environ, "PATH": f"{tools}:{os.environ['PATH']}"}
        done = subprocess.run(words, env=env, capture_output=True, text=True, check=False)
        assert pathlib.Path(f"/proc/{office.pid}/stat").read_text().rpartition(")")[2].split()[0] != "T"
    assert done.returncode == status and ("the office went on before all was copied" in done.stderr) == bool(status)
    assert len(list((tmp_path / "backups").glob("office-*.db"))) == 1 - status


def test_an_office_that_is_started_while_its_files_are_copied(copy: pathlib.Path, tmp_path: pathlib.Path, program: str) -> None:
    tools = tmp_path / "tools"
    tools.mkdir()
    (tools / "cp").write_text(HELD_CP)
    (tools / "cp").chmod(0o755)
    words: list[Word] = [BACKUP, "--db", copy, "--to", tmp_path / "backups", "--program", program]
    env = {**os.environ, "PATH": f"{tools}:{os.environ['PATH']}"}
    with subprocess.Popen(words, env=env, stdout=subprocess.PIPE, stderr=subprocess.PIPE, text=True) as backup:
        until = time.monotonic() + 60
        while not (tools / "copying").exists() and time.monotonic() < until:
            time.sleep(0.05)
        with running(program, copy, free_port(), "--existing", "--connections", "1"):
            (tools / "go-on").touch()
            out, err = backup.communicate(timeout=120)
    assert (backup.returncode, err) == (0, "") and "sound; halted for 0 ms" not in out


@pytest.mark.parametrize("is_running", [True, False])
def test_two_backups_of_one_office_at_once(copy: pathlib.Path, tmp_path: pathlib.Path, program: str, is_running: bool) -> None:
    tools, both = tmp_path / "tools", [tmp_path / "one", tmp_path / "other"]
    tools.mkdir()
    (tools / "cp").write_text(HELD_CP)
    (tools / "cp").chmod(0o755)
    office = running(program, copy, free_port(), "--existing", "--connections", "1") if is_running else contextlib.nullcontext()
    with office:
        started = []
        for folder, path in zip(both, (f"{tools}:{os.environ['PATH']}", os.environ["PATH"])):
            words: list[Word] = [BACKUP, "--db", copy, "--to", folder, "--program", program]
            started.append(subprocess.Popen(words, env={**os.environ, "PATH": path}, stdout=subprocess.DEVNULL, stderr=subprocess.PIPE))
            until = time.monotonic() + 60
            while not ((tools / "copying").exists() and list(folder.glob(".unfinished.*"))) and time.monotonic() < until:
                time.sleep(0.05)
        # (the second one looks for the office now)
        time.sleep(0.5)
        (tools / "go-on").touch()
        assert [(it.communicate(timeout=120)[1], it.returncode) for it in started] == [(b"", 0), (b"", 0)]
    assert [len(list(it.glob("office-*.db"))) for it in both] == [1, 1]


def test_a_clock_that_has_gone_back(copy: pathlib.Path, tmp_path: pathlib.Path, program: str) -> None:
    folder = tmp_path / "backups"
    folder.mkdir()
    for day in range(1, 5):
        later = folder / f"office-2099-01-0{day}-023000.db"
        later.touch()
        os.utime(later, (time.time() + day * 86_400,) * 2)
    for words, kept in ((["--days", "1"], 5), (["--keep", "2"], 2), (["--keep", "1"], 1)):
        before = set(folder.glob("*.db"))
        done = backed_up(copy, tmp_path, program, *words)
        assert (done.returncode, done.stderr) == (0, "") and f"; {kept} kept" in done.stdout
        assert len(list(folder.glob("*.db"))) == kept and set(folder.glob("*.db")) - before


def test_two_copies_of_one_time_by_the_clock(copy: pathlib.Path, tmp_path: pathlib.Path, program: str) -> None:
    tools = tmp_path / "tools"
    tools.mkdir()
    # (the first two times are one, as where the clock is set back by an hour)
    (tools / "date").write_text(
        """#!/bin/bash
[[ $1 = *H%M%S ]] || exec /bin/date "$@"
echo x >> "$(dirname "$0")/asked"
[ "$(wc -l < "$(dirname "$0")/asked")" -le 2 ] && echo 2026-10-25-023000 || echo 2026-10-25-023001
"""
    )
    (tools / "date").chmod(0o755)
    words: list[Word] = [BACKUP, "--db", copy, "--to", tmp_path / "backups", "--program", program]
    for _ in range(2):
        subprocess.run(words, env={**os.environ, "PATH": f"{tools}:{os.environ['PATH']}"}, check=True, stdout=subprocess.DEVNULL)
    assert {it.name for it in (tmp_path / "backups").glob("*.db")} == {f"office-2026-10-25-02300{it}.db" for it in (0, 1)}


def test_names_that_begin_with_a_dash_or_have_a_line_end(copy: pathlib.Path, tmp_path: pathlib.Path, program: str) -> None:
    copy.rename(tmp_path / "--help")
    for folder in "-to", "new\nline":
        words: list[Word] = [BACKUP, "--db", "--help", "--to", folder, "--program", program]
        done = subprocess.run(words, cwd=tmp_path, capture_output=True, text=True, check=False)
        assert (done.returncode, done.stderr) == (0, "") and done.stdout.endswith("; 1 kept\n")
    done = restored("--help", "-x.db", program, tmp_path)
    assert (done.returncode, done.stderr) == (0, "") and (tmp_path / "-x.db").read_bytes() == (tmp_path / "--help").read_bytes()


def test_folders_whose_names_the_program_does_not_read(copy: pathlib.Path, tmp_path: pathlib.Path, program: str) -> None:
    odd = pathlib.Path(os.fsdecode(bytes(tmp_path) + b"/\xff"))
    for name, said in (odd, "is not UTF-8, and the program reads no other"), (tmp_path / "\xfc", ""):
        name.mkdir()
        backup: list[Word] = [BACKUP, "--db", copy, "--to", name, "--program", program]
        restore: list[Word] = [RESTORE, "--from", copy, "--db", name / "office.db", "--service", "none", "--program", program]
        for script in backup, restore:
            done = subprocess.run(script, env={"PATH": os.environ["PATH"], "LC_ALL": "C"}, capture_output=True, check=False)
            assert done.returncode == bool(said) and said in done.stderr.decode(errors="replace")


def test_an_outcome_that_can_not_be_said(copy: pathlib.Path, tmp_path: pathlib.Path, decided: pathlib.Path, program: str) -> None:
    (tmp_path / "home").mkdir()
    unknown = f"no .tar stands beside the copy, so it is not known whether the decisions in {decided} are older than it"
    backup: list[Word] = [BACKUP, "--db", copy, "--to", tmp_path / "backups", "--program", program]
    restore: list[Word] = [RESTORE, "--from", copy, "--db", tmp_path / "home/office.db", "--service", "none", "--program", program]
    for words, said in (backup, "is there and sound"), (restore, f"is in place; nothing was there before; {unknown}"):
        with open("/dev/full", "wb") as full:
            done = subprocess.run(words, stdout=full, stderr=subprocess.PIPE, text=True, check=False)
        assert done.returncode == 1 and f"{said}, but this could not be said on standard output" in done.stderr
        assert done.stderr.count("\n") == 1


def test_a_program_that_fails_meanwhile(copy: pathlib.Path, tmp_path: pathlib.Path, program: str) -> None:
    tools, home = tmp_path / "tools", tmp_path / "home"
    for it in tools, home:
        it.mkdir()
    (tools / "sync").write_text("#!/bin/sh\necho sync: Input/output error >&2\nexit 1\n")
    (tools / "sync").chmod(0o755)
    env = {**os.environ, "PATH": f"{tools}:{os.environ['PATH']}"}
    shutil.copy(copy, home / "office.db")
    backup: list[Word] = [BACKUP, "--db", copy, "--to", tmp_path / "backups", "--program", program]
    restore: list[Word] = [RESTORE, "--from", copy, "--db", home / "office.db", "--service", "none", "--program", program]
    for name, words, last in ("backup", backup, "no new copy is there"), ("restore", restore, "nothing was changed"):
        done = subprocess.run(words, env=env, capture_output=True, text=True, check=False)
        assert (done.returncode, done.stderr) == (1, f"sync: Input/output error\n{name}: FAILED: why is said above; {last}\n")
    assert [it.name for it in home.iterdir()] == ["office.db"] and not list((tmp_path / "backups").glob("office-*"))


def test_a_halted_office_is_not_waited_for_for_ever(copy: pathlib.Path, tmp_path: pathlib.Path, program: str) -> None:
    tools, script = tmp_path / "tools", shorter(BACKUP, tmp_path, 2)
    tools.mkdir()
    # (as where it takes long to look through many processes)
    (tools / "sleep").write_text("#!/bin/sh\nexec /bin/sleep 2\n")
    (tools / "sleep").chmod(0o755)
    with running(program, copy, free_port(), "--existing", "--connections", "1") as office:
        office.send_signal(signal.SIGSTOP)
        words: list[Word] = [script, "--db", copy, "--to", tmp_path / "backups", "--program", program]
        path = f"{tools}:{os.environ['PATH']}"
        done = subprocess.run(words, env={**os.environ, "PATH": path}, timeout=30, capture_output=True, text=True, check=False)
    assert (done.returncode, done.stderr) == (0, "")


def test_the_time_of_a_copy_is_that_of_what_it_holds(copy: pathlib.Path, tmp_path: pathlib.Path, program: str) -> None:
    """What came while it was copied, joined and audited is not in it."""
    tools = tmp_path / "tools"
    tools.mkdir()
    # (the time that a file system gives a file may be some milliseconds old)
    (tools / "cp").write_text('#!/bin/sh\n[ -e "$0.begun" ] || date +%s.%N > "$0.begun"\nsleep 0.2\nexec /bin/cp "$@"\n')
    (tools / "cp").chmod(0o755)
    words: list[Word] = [BACKUP, "--db", copy, "--to", tmp_path / "backups", "--program", program]
    subprocess.run(words, env={**os.environ, "PATH": f"{tools}:{os.environ['PATH']}"}, check=True, stdout=subprocess.DEVNULL)
    [made] = (tmp_path / "backups").glob("office-*.db")
    assert made.stat().st_mtime <= float((tools / "cp.begun").read_text())


def test_what_is_no_copy_is_not_taken_away(copy: pathlib.Path, tmp_path: pathlib.Path, program: str) -> None:
    folder = tmp_path / "backups"
    folder.mkdir()
    others = {folder / it for it in ("office-901.db", "office-2.db", "office-2026-01-06-0230000.db", "office-of-2026-01-06-023000.db")}
    copies = [folder / f"office-2026-01-0{day}-023000.db" for day in range(1, 6)]
    for it in (*others, *copies):
        it.touch()
        os.utime(it, (time.time() - 90 * 86_400,) * 2)
    done = backed_up(copy, tmp_path, program)
    assert (done.returncode, done.stderr) == (0, "") and done.stdout.endswith("; 3 kept\n")
    assert others < set(folder.glob("*.db")) and len(set(folder.glob("*.db")) & set(copies)) == 2


def test_a_place_that_holds_something_else(copy: pathlib.Path, tmp_path: pathlib.Path, program: str) -> None:
    place = tmp_path / "staff"
    (place / "copy.db").mkdir(parents=True)
    done = backed_up(copy, tmp_path, program, "--group", own_group(), "--place", str(place))
    assert done.returncode == 1 and f"is there, but it could not be put into {place} for the group" in done.stderr.splitlines()[-1]
    assert [it.name for it in place.rglob("*")] == ["copy.db"]
    before = copy.read_bytes(), copy.stat().st_ino
    done = backed_up(copy, tmp_path, program, "--group", own_group(), "--place", str(tmp_path))
    assert (done.returncode, done.stderr) == (1, f"backup: FAILED: {tmp_path} is the office's own folder; name another one\n")
    assert (copy.read_bytes(), copy.stat().st_ino) == before


def test_who_may_copy(copy: pathlib.Path, open_folder: pathlib.Path) -> None:
    """Whoever may only read the file can't halt the office, and would copy what it writes meanwhile."""
    if os.getuid() != 0:
        pytest.skip("only root can run a backup as another user")
    script, database = shutil.copy(BACKUP, open_folder), pathlib.Path(shutil.copy(copy, open_folder / "office.db"))
    database.chmod(0o644)
    words = [script, "--db", database, "--to", open_folder / "none", "--program", "true"]
    done = subprocess.run(words, cwd=open_folder, user=NOBODY, group=NOBODY, capture_output=True, text=True, check=False)
    assert (done.returncode, done.stderr) == (1, f"backup: FAILED: only root and the user of the office may copy {database}\n")


def sent(port: int, path: str, body: bytes) -> None:
    """Puts something at an office, over a connection that ends."""
    office = Asked(f"http://127.0.0.1:{port}")
    assert office.ask("PUT", path, body).status == 201
    office.close()


# The bytes of a log with one frame, of a transaction that has more.
ONE_FRAME = 32 + 24 + 4096


NO_ROW = b"isrc,plays,seconds\n"

ORDER = b'{"amount":5,"cut":[],"returns":[]}'


@pytest.mark.parametrize(
    "path, body, what",
    [("/v1/returns/RADIO1/6", NO_ROW, "return RADIO1/6"), ("/v1/pools/6", ORDER, "pool 6"), ("/v1/pools/70", ORDER, "a pool (UNCLAIMED ")],
)
def test_a_log_that_is_cut_under_the_office_is_told(
    copy: pathlib.Path, tmp_path: pathlib.Path, program: str, path: str, body: bytes, what: str
) -> None:
    """The office goes on answering what its files have not, and the copy alone is sound."""
    log = copy.with_name("copy.db-wal")
    with running(program, copy, port := free_port(), "--existing", "--connections", "10000"):
        sent(port, path, body)
        assert backed_up(copy, tmp_path, program).returncode == 0
        os.truncate(log, ONE_FRAME)
        for unasked, status in ((), 1), (("--unasked",), 0):
            done = backed_up(copy, tmp_path, program, *unasked)
            said = f"FAILED: the office answers what its files have not: {what}"
            assert done.returncode == status and (said in done.stderr) == bool(status)


# In the place of `cp`: while it copies the first time something is put, which the office answers when it goes on.
PUTTING_CP = """#!/bin/bash
if [ ! -e "$0.asked" ]; then
  touch "$0.asked"
  (curl -q -s --noproxy '*' -o "$0.answer" -T "$0.csv" http://127.0.0.1:PORT/v1/returns/RADIO1/6 > /dev/null 2>&1 &)
fi
exec /bin/cp "$@"
"""


def test_what_comes_meanwhile_is_no_fault(copy: pathlib.Path, tmp_path: pathlib.Path, program: str) -> None:
    tools = tmp_path / "tools"
    tools.mkdir()
    with running(program, copy, port := free_port(), "--existing", "--connections", "10000"):
        (tools / "cp").write_text(PUTTING_CP.replace("PORT", str(port)))
        (tools / "cp").chmod(0o755)
        (tools / "cp.csv").write_bytes(NO_ROW)
        words: list[Word] = [BACKUP, "--db", copy, "--to", tmp_path / "backups", "--program", program]
        env = {**os.environ, "PATH": f"{tools}:{os.environ['PATH']}"}
        done = subprocess.run(words, env=env, capture_output=True, text=True, check=False)
    assert (done.returncode, done.stderr) == (0, "") and "stored" in (tools / "cp.answer").read_text()
    with open_copy(next((tmp_path / "backups").glob("*.db"))) as opened:
        assert ("RADIO1", 6) in list(opened.rows("SELECT reporter, number FROM returns"))


def test_an_office_that_gives_no_answer_is_copied_all_the_same(copy: pathlib.Path, tmp_path: pathlib.Path, program: str) -> None:
    with running(program, copy, port := free_port(), "--existing", "--connections", "10000"):
        office = socket.create_connection(("127.0.0.1", port))
        office.sendall(b"GET /v1/pools/1 HTTP/1.1\r\n")
        done = backed_up(copy, tmp_path, program)
        office.close()
    assert done.returncode == 0 and "; not compared with the office: no answer from http://127.0.0.1:" in done.stdout


def test_what_a_new_machine_needs_stands_beside_the_copy(copy: pathlib.Path, tmp_path: pathlib.Path, program: str) -> None:
    decided, settings = tmp_path / "decided", tmp_path / "settings"
    decisions.begin(decided)
    settings.mkdir()
    (settings / "passwords").write_text("office:hash\n")
    words = ["--with", str(decided), "--with", str(settings), "--with", str(tmp_path / "none"), "--keep", "1"]
    for _ in range(2):
        done = backed_up(copy, tmp_path, program, *words)
        assert (done.returncode, done.stderr) == (0, "")
        # (what a search writes beside a copy goes with it)
        [made] = (tmp_path / "backups").glob("*.db")
        run("works", made, "song")
        assert made.with_name(f"{made.name}.works").exists()
    made.with_name(f"{made.name}.works").unlink()
    assert sorted(it.name for it in (tmp_path / "backups").iterdir()) == [".lock", made.name, f"{made.stem}.tar"]
    assert made.with_suffix(".tar").stat().st_mode & 0o777 == 0o600
    with tarfile.open(made.with_suffix(".tar")) as found:
        names = {pathlib.Path("/", it.name) for it in found.getmembers() if it.isfile()}
    assert names == {*(decided / it for it in decisions.FILES), settings / "passwords"}
