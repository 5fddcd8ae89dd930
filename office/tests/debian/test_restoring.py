"""The way back of a copy: over a service that fails, hangs or is killed, in the place of what is no file, of another office."""

import http.server
import os
import pathlib
import shutil
import signal
import socket
import subprocess
import threading
import time

import pytest
from command import Word
from conftest import OFFICE, running
from scripts import RESTORE, SERVICE, Refusing, Telling, backed_up, everything, restore_words, restored, service, shorter
from society_office.book.copy import open_copy
from society_office.decided import decisions
from society_office.offices.program import Office as Asked, free_port


@pytest.mark.parametrize("front", ["02", "00", "0000003", "26-1", "-1", ""])
def test_a_front_that_no_office_tells_is_refused_first(copy: pathlib.Path, tmp_path: pathlib.Path, front: str) -> None:
    # (nothing is stopped, and nothing put in place, which the office would then be told to be wrong)
    words: list[Word] = [
        RESTORE,
        "--from",
        copy,
        "--db",
        tmp_path / "office.db",
        "--sender",
        "PB000000012",
        "--front",
        front,
        "--service",
        "no-such",
    ]
    done = subprocess.run(words, capture_output=True, text=True, check=False)
    assert done.returncode == 2 and done.stderr.startswith("usage: society-restore --from") and not (tmp_path / "office.db").exists()


def test_a_restore_asks_the_office_and_no_proxy(copy: pathlib.Path, tmp_path: pathlib.Path, program: str) -> None:
    port, database, tools = free_port(), tmp_path / "office/office.db", tmp_path / "tools"
    tools.mkdir()
    database.parent.mkdir()
    words = " ".join(f"'{it}'" for it in ["--port", str(port), "--connections", "1", *OFFICE])
    (tools / "systemctl").write_text(SERVICE.replace("WORDS", words))
    (tools / "systemctl").chmod(0o755)
    with http.server.HTTPServer(("127.0.0.1", 0), Refusing) as proxy:
        threading.Thread(target=proxy.serve_forever, daemon=True).start()
        address = f"http://127.0.0.1:{proxy.server_port}"
        (tmp_path / ".curlrc").write_text("output = /dev/null\n")
        env = {**os.environ, "PATH": f"{tools}:{os.environ['PATH']}", "http_proxy": address, "HOME": str(tmp_path)}
        env |= {"SOCIETY_PROGRAM": program, "SOCIETY_FILE": str(database)}
        asked = ["--sender", "PB000000012", "--front", "3", "--port", str(port), "--program", program]
        done = subprocess.run([RESTORE, "--from", copy, "--db", database, *asked], env=env, capture_output=True, text=True, check=False)
        proxy.shutdown()
    assert (done.returncode, done.stderr) == (0, "") and "and the front of PB000000012 is 3" in done.stdout


def test_a_restore_without_a_program(copy: pathlib.Path, tmp_path: pathlib.Path) -> None:
    words: list[Word] = [RESTORE, "--from", copy, "--db", tmp_path / "office.db", "--service", "none", "--program", tmp_path / "none"]
    done = subprocess.run(words, capture_output=True, text=True, check=False)
    assert (done.returncode, done.stderr) == (1, f"restore: FAILED: there is no program {tmp_path / 'none'}\n")


def test_an_audit_that_was_killed_finds_nothing_unsound(copy: pathlib.Path, tmp_path: pathlib.Path) -> None:
    """Where memory is short the system kills a program without a word of its own."""
    home, _, env = service(tmp_path, copy)
    killed = tmp_path / "killed"
    killed.write_text("#!/bin/bash\nkill -9 $$\n")
    killed.chmod(0o755)
    words = restore_words(copy, home, str(killed), "--front", "3")
    done = subprocess.run(words, env=env, capture_output=True, text=True, timeout=100, check=False)
    assert done.returncode == 1 and "could not be audited (is the disk full, or the memory?)" in done.stderr


@pytest.mark.parametrize("name", ["", "office.db-wal", "office.db-shm", "office.db-journal"])
def test_what_is_no_file_is_not_replaced(copy: pathlib.Path, tmp_path: pathlib.Path, program: str, name: str) -> None:
    home = tmp_path / "home"
    home.mkdir()
    database = pathlib.Path(shutil.copy(copy, home / "office.db"))
    if name:
        (home / name).mkdir()
    before = everything(home)
    done = restored(copy, database if name else home, program)
    assert (done.returncode, done.stderr) == (1, f"restore: FAILED: {home / name if name else home} is no file; nothing was changed\n")
    assert everything(home) == before and {it.name for it in tmp_path.iterdir()} == {"home", "copy.db"}
    if name == "office.db-wal":
        done = backed_up(database, tmp_path, program)
        assert (done.returncode, done.stderr) == (1, f"backup: FAILED: {home / name} is no file\n")
    if name:
        (home / name).rmdir()
        done = restored(copy, home / name, program)
        assert done.returncode == 1 and "names what stands beside a database; nothing was changed" in done.stderr


@pytest.mark.parametrize("is_young", [True, False])
def test_the_copy_of_another_office(copy: pathlib.Path, tmp_path: pathlib.Path, program: str, is_young: bool) -> None:
    home = tmp_path / "home"
    home.mkdir()
    with running(program, home / "office.db", free_port(), "--connections", "1", office=[*OFFICE[:-1], "OTHER"]):
        # (killed, a young office has all in its log)
        pass
    if not is_young:
        assert backed_up(home / "office.db", tmp_path, program).returncode == 0
        shutil.copy(next((tmp_path / "backups").glob("*.db")), home / "office.db")
        (home / "office.db-wal").unlink()
    before = everything(home)
    done = restored(copy, home / "office.db", program)
    said = "is of another office (--society 900 --territory 40 --name=EXAMPLE SOCIETY) than"
    assert done.returncode == 1 and said in done.stderr and "--name=OTHER): move that away first" in done.stderr
    assert everything(home) == before
    (home / "office.db").unlink()
    (home / "office.db-wal").unlink(missing_ok=True)
    assert restored(copy, home / "office.db", program).returncode == 0


# In the place of `systemctl`, of a service that never answers: it takes a start only once its failures are forgotten.
FAILING = """#!/bin/bash
cd "$(dirname "$0")"
echo "$1" >> asked
case $1 in
  reset-failed) touch forgotten ;;
  start) [ -e forgotten ] ;;
  is-active) echo STATE ;;
esac
"""


@pytest.mark.parametrize("state", ["failed", "activating"])
@pytest.mark.parametrize("hangs", [True, False])
def test_a_service_that_does_not_answer(copy: pathlib.Path, tmp_path: pathlib.Path, program: str, state: str, hangs: bool) -> None:
    tools, script = tmp_path / "tools", shorter(RESTORE, tmp_path, 6 if hangs or state == "activating" else 600)
    tools.mkdir()
    (tmp_path / "office").mkdir()
    (tools / "systemctl").write_text(FAILING.replace("STATE", state))
    (tools / "systemctl").chmod(0o755)
    with socket.create_server(("127.0.0.1", 0)) if hangs else socket.socket() as halted:
        port = halted.getsockname()[1] if hangs else free_port()
        words: list[Word] = [script, "--from", copy, "--db", tmp_path / "office/office.db", "--sender", "PB000000012", "--front", "3"]
        done = subprocess.run(
            [*words, "--port", str(port), "--program", program],
            env={**os.environ, "PATH": f"{tools}:{os.environ['PATH']}"},
            capture_output=True,
            text=True,
            timeout=100,
            check=False,
        )
    assert done.returncode == 1 and f"the front of PB000000012 is not told at port {port}, not 3. society is stopped" in done.stderr
    asked = (tools / "asked").read_text().split()
    assert asked[:3] == ["stop", "reset-failed", "start"] and asked[-1] == "stop" and (tmp_path / "office/office.db").exists()


def test_a_restore_that_is_cut_off_tells_what_stands(copy: pathlib.Path, tmp_path: pathlib.Path, program: str) -> None:
    tools = tmp_path / "tools"
    tools.mkdir()
    (tmp_path / "office").mkdir()
    (tools / "systemctl").write_text(FAILING.replace("STATE", "activating"))
    (tools / "systemctl").chmod(0o755)
    with socket.create_server(("127.0.0.1", 0)) as halted:
        words: list[Word] = [RESTORE, "--from", copy, "--db", tmp_path / "office/office.db", "--sender", "PB000000012", "--front", "3"]
        words += ["--port", str(halted.getsockname()[1]), "--program", program]
        env = {**os.environ, "PATH": f"{tools}:{os.environ['PATH']}"}
        with subprocess.Popen(words, env=env, stderr=subprocess.PIPE, text=True, start_new_session=True) as restore:
            asking, _ = halted.accept()
            os.killpg(restore.pid, signal.SIGTERM)
            said = restore.communicate(timeout=60)[1]
            asking.close()
    assert (restore.returncode, said) == (143, "restore: cut off; the backup is in place; run this again\n")


def test_what_stood_beside_the_file_goes_with_it(copy: pathlib.Path, tmp_path: pathlib.Path, program: str) -> None:
    """The next start would be refused for what another program broke off."""
    home, endings = tmp_path / "home", ("", "-wal", "-shm", "-journal")
    home.mkdir()
    for ending in endings:
        (home / f"office.db{ending}").write_bytes(copy.read_bytes() if not ending else b"x" * 99)
    assert restored(copy, home / "office.db", program).returncode == 0
    aside = next(home.glob("aside-*"))
    assert {it.name for it in home.iterdir()} == {"office.db", aside.name}
    assert {it.name: it.stat().st_size for it in aside.iterdir() if it.name != "office.db"} == {f"office.db{it}": 99 for it in endings[1:]}


class WithoutRoom(Refusing):
    """An office that has no memory for the first question."""

    asked = 0

    def do_GET(self) -> None:
        type(self).asked += 1
        self.send_response(503 if self.asked == 1 else 200)
        self.end_headers()
        self.wfile.write(b'{"error":"busy"}' if self.asked == 1 else b'{"front":3,"held":[]}')


def test_an_office_that_has_no_room_is_asked_again(copy: pathlib.Path, tmp_path: pathlib.Path, program: str) -> None:
    tools = tmp_path / "tools"
    tools.mkdir()
    (tmp_path / "home").mkdir()
    (tools / "systemctl").write_text("#!/bin/sh\n")
    (tools / "systemctl").chmod(0o755)
    with http.server.HTTPServer(("127.0.0.1", 0), WithoutRoom) as office:
        threading.Thread(target=office.serve_forever, daemon=True).start()
        words: list[Word] = [RESTORE, "--from", copy, "--db", tmp_path / "home/office.db", "--sender", "PB000000012", "--front", "3"]
        words += ["--port", str(office.server_port), "--program", program]
        env = {**os.environ, "PATH": f"{tools}:{os.environ['PATH']}"}
        done = subprocess.run(words, env=env, capture_output=True, text=True, check=False)
        office.shutdown()
    assert (done.returncode, done.stderr) == (0, "") and WithoutRoom.asked == 2


def test_half_of_two_files_is_not_restored(copy: pathlib.Path, tmp_path: pathlib.Path, program: str) -> None:
    (tmp_path / "home").mkdir()
    log = copy.with_name(copy.name + "-wal")
    # (an audit leaves a log of 41 bytes beside a copy)
    for size, status in (42, 1), (41, 0):
        log.write_bytes(bytes(size))
        done = restored(copy, tmp_path / "home/office.db", program)
        assert done.returncode == status and ("is half of a copy of two files" in done.stderr) == bool(status)
        assert (tmp_path / "home/office.db").exists() == (not status)


def test_what_a_restore_has_put_aside_is_a_copy(copy: pathlib.Path, tmp_path: pathlib.Path, program: str) -> None:
    """With the log beside it, which has what came last."""
    home, other = tmp_path / "home", tmp_path / "other"
    for it in home, other:
        it.mkdir()
    shutil.copy(copy, home / "office.db")
    with running(program, home / "office.db", port := free_port(), "--existing", "--connections", "9"):
        office = Asked(f"http://127.0.0.1:{port}")
        assert office.ask("PUT", "/v1/returns/RADIO7/1", b"isrc,plays,seconds\n").status == 201
        office.close()
    assert restored(copy, home / "office.db", program).returncode == 0
    aside = next(home.glob("aside-*")) / "office.db"
    assert aside.with_name("office.db-wal").stat().st_size > 41
    assert restored(aside, other / "office.db", program).returncode == 0
    with open_copy(other / "office.db") as opened:
        assert ("RADIO7", 1) in list(opened.rows("SELECT reporter, number FROM returns"))
    aside.with_name("office.db-wal").write_bytes(changed_bit(aside.with_name("office.db-wal").read_bytes()))
    assert restored(aside, other / "office.db", program).returncode == 1


def changed_bit(log: bytes) -> bytes:
    """A log with a changed bit in its first page."""
    return log[:99] + bytes([log[99] ^ 1]) + log[100:]


@pytest.mark.parametrize("front", ["0", "2", "4", "57", "26-0003", "999999"])
def test_a_wrong_front_stops_nothing(copy: pathlib.Path, tmp_path: pathlib.Path, program: str, front: str) -> None:
    home, tools, env = service(tmp_path, copy)
    before = everything(home)
    done = subprocess.run(restore_words(copy, home, program, "--front", front), env=env, capture_output=True, text=True, check=False)
    said = f"restore: FAILED: the front of PB000000012 in {copy} is 3, not {front}: look for the right copy; nothing was changed\n"
    assert (done.returncode, done.stderr) == (1, said)
    assert everything(home) == before and not (tools / "asked").exists()


@pytest.mark.parametrize("name, status", [("OTHER SOCIETY", 1), ("EXAMPLE SOCIETY", 0)])
def test_the_settings_of_another_office_stop_nothing(
    copy: pathlib.Path, tmp_path: pathlib.Path, program: str, name: str, status: int
) -> None:
    home, tools, env = service(tmp_path, copy)
    with http.server.HTTPServer(("127.0.0.1", 0), Telling) as office:
        threading.Thread(target=office.serve_forever, daemon=True).start()
        (tmp_path / "office.conf").write_text(f'# words\nSOCIETY=900\n TERRITORY=40\nNAME="{name}"\nPORT={office.server_port}\n')
        words = restore_words(copy, home, program, "--front", "3", "--settings", tmp_path / "office.conf")
        done = subprocess.run(words, env=env, capture_output=True, text=True, check=False)
        office.shutdown()
    assert done.returncode == status and ("is of another office (--society 900 --territory 40 --name=E" in done.stderr) == bool(status)
    assert (tools / "asked").exists() == (not status)


def test_what_ran_is_put_back_where_the_office_does_not_answer(copy: pathlib.Path, tmp_path: pathlib.Path, program: str) -> None:
    home, tools, env = service(tmp_path, copy)
    before, script = (home / "office.db").read_bytes(), shorter(RESTORE, tmp_path, 2)
    words = [str(script), *restore_words(copy, home, program, "--front", "3", "--port", free_port())[1:]]
    done = subprocess.run(words, env=env, capture_output=True, text=True, timeout=100, check=False)
    assert done.returncode == 1 and "restore: what was there is back again, and society is started again\n" in done.stderr
    assert (home / "office.db").read_bytes() == before and not (home / "office.db-wal").exists()
    assert (tools / "state").read_text() == "active\n" and (tools / "asked").read_text().split().count("stop") == 2


@pytest.mark.parametrize("after", ["cp", "mv", "curl", "mktemp", "sync"])
def test_a_restore_that_is_killed_leaves_a_service_that_runs(copy: pathlib.Path, tmp_path: pathlib.Path, program: str, after: str) -> None:
    """Over what was there, or over the copy, whose front is right."""
    home, tools, env = service(tmp_path, copy)
    where = subprocess.run(["which", after], capture_output=True, text=True, check=True).stdout.strip()
    killing = f'#!/bin/bash\nif grep -qx stop {tools}/asked 2> /dev/null; then kill -9 $PPID; exit 1; fi\nexec {where} "$@"\n'
    (tools / after).write_text(killing)
    (tools / after).chmod(0o755)
    words = restore_words(copy, home, program, "--front", "3", "--port", free_port())
    done = subprocess.run(words, env=env, capture_output=True, text=True, timeout=100, check=False)
    until = time.monotonic() + 20
    while (tools / "state").read_text() != "active\n" and time.monotonic() < until:
        time.sleep(0.05)
    # (curl is run by a part of the script)
    assert done.returncode in (-signal.SIGKILL, 128 + signal.SIGKILL) and (tools / "state").read_text() == "active\n"


def test_a_log_of_before_is_gone_before_the_copy_comes(copy: pathlib.Path, tmp_path: pathlib.Path, program: str) -> None:
    """A restore that is killed behind its last rename leaves the copy alone: the log beside it would be another file's."""
    home, tools, env = service(tmp_path, copy)
    (home / "office.db").unlink()
    (home / "office.db-wal").write_bytes(b"x" * 99)
    where = subprocess.run(["which", "mv"], capture_output=True, text=True, check=True).stdout.strip()
    (tools / "mv").write_text(f'#!/bin/bash\n{where} "$@"\nkill -9 $PPID\n')
    (tools / "mv").chmod(0o755)
    words = restore_words(copy, home, program, "--front", "3", "--port", free_port())
    subprocess.run(words, env=env, capture_output=True, text=True, timeout=100, check=False)
    assert (home / "office.db").exists() and not (home / "office.db-wal").exists()


def test_a_restore_that_is_killed_while_the_service_stops(copy: pathlib.Path, tmp_path: pathlib.Path, program: str) -> None:
    """A stop that is under way goes on without the script: a start that came before it would leave the office down."""
    home, tools, env = service(tmp_path, copy)
    (tools / "systemctl").rename(tools / "at-once")
    slowly = f'#!/bin/bash\nif [ "$1" = stop ]; then kill -9 $PPID; sleep 1; fi\nexec {tools}/at-once "$@"\n'
    (tools / "systemctl").write_text(slowly)
    (tools / "systemctl").chmod(0o755)
    words = restore_words(copy, home, program, "--front", "3", "--port", free_port())
    done = subprocess.run(words, env=env, capture_output=True, text=True, timeout=100, check=False)
    wanted = (["is-active", "stop", "reset-failed", "start"], "active\n")

    def became() -> tuple[list[str], str]:
        return (tools / "asked").read_text().split(), (tools / "state").read_text()

    until = time.monotonic() + 20
    while became() != wanted and time.monotonic() < until:
        time.sleep(0.05)
    assert (done.returncode, became()) == (-signal.SIGKILL, wanted)


def test_nothing_is_restored_under_an_office(copy: pathlib.Path, tmp_path: pathlib.Path, program: str) -> None:
    home = tmp_path / "home"
    home.mkdir()
    shutil.copy(copy, home / "office.db")
    with running(program, home / "office.db", free_port(), "--existing", "--connections", "1") as office:
        before = everything(home)
        done = restored(copy, home / "office.db", program)
        assert (done.returncode, everything(home)) == (1, before)
    assert done.stderr == f"restore: FAILED: process {office.pid} has {home / 'office.db'} open; stop it first\n"


def test_no_signal_comes_between_the_renames(copy: pathlib.Path, tmp_path: pathlib.Path, program: str) -> None:
    tools, home = tmp_path / "tools", tmp_path / "home"
    for it in tools, home:
        it.mkdir()
    (home / "office.db").write_bytes(copy.read_bytes() + bytes(4096))
    (tools / "mv").write_text('#!/bin/bash\n/bin/mv "$@" && kill -TERM $PPID && kill -HUP $PPID && kill -INT $PPID\n')
    (tools / "mv").chmod(0o755)
    words: list[Word] = [RESTORE, "--from", copy, "--db", home / "office.db", "--service", "none", "--program", program]
    env = {**os.environ, "PATH": f"{tools}:{os.environ['PATH']}"}
    done = subprocess.run(words, env=env, capture_output=True, text=True, check=False)
    assert (done.returncode, done.stderr) == (0, "") and "is in place; what was there is in" in done.stdout
    assert (home / "office.db").read_bytes() == copy.read_bytes() and len(list(next(home.glob("aside-*")).iterdir())) == 1


def test_decisions_that_are_older_than_the_copy_are_told(
    copy: pathlib.Path, tmp_path: pathlib.Path, program: str, decided: pathlib.Path
) -> None:
    home = tmp_path / "home"
    home.mkdir()
    shutil.copy(copy, tmp_path / "alone.db")
    decisions.add(decided, decisions.VOID, ["RADIO1/3"], "void RADIO1/3", "a wrong month")
    before = (decided / "journal.txt").read_bytes()
    decisions.add(decided, decisions.VOID, ["RADIO1/4"], "void RADIO1/4", "a wrong month")
    assert backed_up(copy, tmp_path, program, "--with", str(decided)).returncode == 0
    made = next((tmp_path / "backups").glob("*.db"))
    assert "the decisions in" not in restored(made, home / "office.db", program).stdout
    (decided / "journal.txt").write_bytes(before)
    said = restored(made, home / "office.db", program).stdout
    assert f"; the decisions in {decided} are older than the copy: tar -C / -xpf {made.with_suffix('.tar')} {str(decided)[1:]}\n" in said
    said = restored(tmp_path / "alone.db", home / "office.db", program).stdout
    assert f"so it is not known whether the decisions in {decided} are older than it" in said
