"""Whether the office is well."""

import contextlib
import http.server
import json
import os
import pathlib
import re
import shutil
import socket
import subprocess
import threading
import time
from collections.abc import Iterator

import pytest
import quarter
from command import Word, run
from conftest import ROOT, further, running
from society_office.book.copy import open_copy
from society_office.book.page_sums import changed
from society_office.offices.program import Office, free_port
from society_office.second_office import following
from society_office.watch import health
from society_office.watch.findings import GOOD, WARNING, WRONG
from society_office.watch.health import Limits, Looked
from test_checks import FIRST

HOUR, MONTH = 3_600, 30 * 86_400


def certificate_in(folder: pathlib.Path) -> pathlib.Path:
    """A certificate that ends in 20 days."""
    key, certificate = folder / "it.key", folder / "it.crt"
    words: list[Word] = [
        "req",
        "-x509",
        "-newkey",
        "rsa:2048",
        "-nodes",
        "-keyout",
        key,
        "-out",
        certificate,
        "-days",
        "20",
        "-subj",
        "/CN=it",
    ]
    subprocess.run(["openssl", *words], check=True, capture_output=True)
    return certificate


def test_health(copy: pathlib.Path, tmp_path: pathlib.Path, program: str) -> None:
    port, backups, state = free_port(), tmp_path / "backups", tmp_path / "state.json"
    backups.mkdir()
    backup = backups / "office-1.db"
    backup.write_bytes(copy.read_bytes())
    words = ["health", "--office", f"http://127.0.0.1:{port}", "--disk", tmp_path, "--backups", backups, "--state", state]
    words += ["--certificate", certificate_in(tmp_path), "--program", program, "--free", "0", "--seconds", "60"]
    with running(program, copy, port, "--existing", "--connections", "100"):
        found = json.loads(run(*words, "--json"))
        assert found["state"] == "good"
        assert [it["name"] for it in found["findings"]] == ["answer", "fronts", "disk", "backup", "sound", "money", "certificate"]
        assert json.loads(state.read_text())["fronts"][quarter.BETA] == 1_260_002
        assert 'society_state{of="certificate"} 0' in run(*words, "--metrics")
        state.write_text(json.dumps({"fronts": {quarter.ALPHA: 9}, "sound": {}}))
        os.utime(backup, (time.time() - MONTH,) * 2)
        said = run(*words, status=2, out=True)
        assert f"{quarter.ALPHA} had 9 and has 3" in said and re.search(r"WRONG +backup +the newest backup, office-1.db, is 720", said)
        assert json.loads(state.read_text())["fronts"] == {quarter.ALPHA: 9}
    backup.write_bytes(copy.read_bytes()[:9_000])
    said = run(*words, status=2, out=True)
    assert "no answer from" in said and re.search("WRONG +sound", said)


OTHER_STATES = [b"", b"{", b"\xff", b"[]", b"[" * 100_000, b'{"fronts": [], "sound": {}}', b'{"fronts": {"A": "x"}, "sound": {}}']


@pytest.mark.parametrize("kept", OTHER_STATES)
def test_what_was_kept_and_can_not_be_read(copy: pathlib.Path, tmp_path: pathlib.Path, program: str, kept: bytes) -> None:
    port, state = free_port(), tmp_path / "state.json"
    state.write_bytes(kept)
    with running(program, copy, port, "--existing", "--connections", "1"):
        said = run("health", "--office", f"http://127.0.0.1:{port}", "--seconds", "60", "--state", state, status=2, out=True)
    assert "state.json is not what this command keeps there: take it away" in said and "good   answer" in said
    assert state.read_bytes() == kept and list(tmp_path.glob(".state*")) == []


def test_what_stands_beside_the_backups(copy: pathlib.Path, tmp_path: pathlib.Path, monkeypatch: pytest.MonkeyPatch) -> None:
    """What leads nowhere, a pipe, and what the next backup takes away hide no front that is known."""
    folder = tmp_path / "backups"
    folder.mkdir()
    for name, age in (("a.db", 2), ("b.db", 1), ("gone.db", 3)):
        shutil.copy(copy, folder / name)
        os.utime(folder / name, (time.time() - age * HOUR,) * 2)
    (folder / "link.db").symlink_to(tmp_path / "nowhere")
    os.mkfifo(folder / "pipe.db")
    is_file = pathlib.Path.is_file

    def taken_away(path: pathlib.Path) -> bool:
        found = is_file(path)
        if path.name == "gone.db":
            path.unlink(missing_ok=True)
        return found

    monkeypatch.setattr(pathlib.Path, "is_file", taken_away)
    assert [it.name for it in health.newest_first(folder)] == ["b.db", "a.db"]
    assert health.known_fronts(Looked("", backups=folder), {})[quarter.ALPHA] == 3


def test_fronts_that_were_seen_are_kept(tmp_path: pathlib.Path, monkeypatch: pytest.MonkeyPatch) -> None:
    """Those of after the newest backup too: an older file that is served later has less."""
    state = tmp_path / "state.json"
    state.write_text(json.dumps({"fronts": {quarter.ALPHA: 3}, "sound": {}}))
    for front, status, kept in ((5, 0, 5), (4, 2, 5)):
        with other(monkeypatch, b'{"front":%d,"held":[]}' % front) as address:
            run("health", "--office", address, "--state", state, status=status, out=True)
        assert json.loads(state.read_text())["fronts"] == {quarter.ALPHA: kept}


def test_an_office_that_hangs_is_not_waited_for(tmp_path: pathlib.Path) -> None:
    """A next run would come meanwhile."""
    with socket.create_server(("127.0.0.1", 0)) as hanging:
        begun = time.monotonic()
        said = run("health", "--office", f"http://127.0.0.1:{hanging.getsockname()[1]}", "--seconds", "1", status=2, out=True)
    assert "WRONG  answer" in said and time.monotonic() - begun < 30


def test_pipes_in_the_place_of_files(copy: pathlib.Path, tmp_path: pathlib.Path) -> None:
    pipe = tmp_path / "pipe"
    os.mkfifo(pipe)
    for it in pathlib.Path(os.devnull), pipe:
        said = run("resend", copy, "--to", "http://127.0.0.1:1", "--wait", "0", "--state", it, status=1)
        assert said == f"society-office: {it} is not what `resend --state` keeps: it is no file\n"
    said = run("health", "--office", "http://127.0.0.1:1", "--state", pipe, "--db", pipe, "--standby", pipe, status=2, out=True)
    assert f"{pipe} is not what this command keeps there: take it away" in said and f"WRONG  file         there is no file {pipe}\n" in said
    assert f"{pipe} is not what `resend --state` keeps: it is no file" in said


def test_a_clock_that_has_gone_back(copy: pathlib.Path) -> None:
    looked = Looked("", backups=copy.parent)
    for hours, state in (-0.5, GOOD), (-2, WARNING), (31, WARNING), (29, GOOD):
        os.utime(copy, (time.time() - hours * HOUR,) * 2)
        found = health.look_at_backup(looked, Limits())
        assert found.state == state and ("is of a time 2.0 hours from now" in found.words) == (hours == -2), found
    with open_copy(copy) as opened:
        follower = following.Following("http://x", time.time() + 86_400)
        follower.fell_behind(opened)
    assert follower.since <= time.time()


def test_a_disk_that_is_full_hides_nothing(tmp_path: pathlib.Path) -> None:
    # (the folder stands in the way of what is written, as a full disk does)
    (tmp_path / ".state.json.new").mkdir()
    words = ["health", "--office", "http://127.0.0.1:1", "--disk", tmp_path, "--state", tmp_path / "state.json", "--metrics"]
    said = run(*words, "--free", "0", status=2, out=True)
    assert 'society_state{of="disk"} 0\n' in said and 'society_state{of="state"} 2\n' in said


class Other(http.server.BaseHTTPRequestHandler):
    """Another program than an office, which answers each question alike."""

    said, status, kind = b"", 200, "trial"

    def do_GET(self, status: int = 200) -> None:
        """The answer."""
        self.send_response(status)
        self.send_header("Content-Length", str(len(self.said)))
        if self.kind:
            self.send_header("Society-Office", self.kind)
        self.end_headers()
        self.wfile.write(self.said)

    def do_PUT(self) -> None:
        """The same, once all is read."""
        self.rfile.read(int(self.headers["Content-Length"]))
        self.do_GET(self.status)

    def log_message(self, *_: object) -> None:
        """Nothing."""


@contextlib.contextmanager
def other(monkeypatch: pytest.MonkeyPatch, said: bytes, status: int = 200) -> Iterator[str]:
    """The address of such a program; `status` is that of its answers to what is put."""
    monkeypatch.setattr(Other, "said", said)
    monkeypatch.setattr(Other, "status", status)
    with http.server.ThreadingHTTPServer(("127.0.0.1", 0), Other) as server:
        threading.Thread(target=server.serve_forever, daemon=True).start()
        yield f"http://127.0.0.1:{server.server_port}"
        server.shutdown()


NO_FRONTS = [b"", b"[]", b"5", b"null", b"<html>", b'{"front":"x","held":[]}', b'{"front":[],"held":[]}', b'{"front":1}']


@pytest.mark.parametrize("said", [*NO_FRONTS, b'{"front":-1,"held":[]}', b'{"front":2000000,"held":[]}', b"[" * 100_000])
def test_another_program_that_answers(copy: pathlib.Path, tmp_path: pathlib.Path, monkeypatch: pytest.MonkeyPatch, said: bytes) -> None:
    (tmp_path / "it.cwr").write_bytes(FIRST)
    (tmp_path / "it.csv").write_text("isrc,plays,seconds\n")
    with other(monkeypatch, said) as address:
        assert "and with no front: it is no office" in run("health", "--office", address, status=2, out=True)
        assert "tells no front, so it is no office" in run("check", tmp_path / "it.cwr", "--office", address, status=1)
        assert "is no office" in run("resend", copy, "--to", address, "--since-fronts", status=1)
        # (what it answers to what is put is not that it has it)
        assert "REFUSED, status 200 of what is no office" in run("check", tmp_path / "it.csv", "--office", address, status=1, out=True)
        assert "26 sent: 0 new, 0 known, 26 refused" in run("resend", copy, "--to", address, status=1, out=True)


MEMBERS = ["", ',"fault":"x","line":null', ',"error":"ended"', ',"error":"cut"', ',"error":"reused"', ',"state":"applied"']


@pytest.mark.parametrize("status", [200, 204, 409, 422])
@pytest.mark.parametrize("more", MEMBERS)
def test_another_program_that_tells_a_front(tmp_path: pathlib.Path, monkeypatch: pytest.MonkeyPatch, status: int, more: str) -> None:
    (tmp_path / "it.cwr").write_bytes(FIRST)
    (tmp_path / "it.csv").write_text("isrc,plays,seconds\n")
    with other(monkeypatch, b'{"front":0,"held":[]%s}' % more.encode(), status) as address:
        for name in "it.cwr", "it.csv":
            is_taken = status == 200 and "state" in more
            if is_taken and name == "it.cwr":
                assert "tells no verdicts, so it is no office" in run("check", tmp_path / name, "--office", address, status=1)
            else:
                run("check", tmp_path / name, "--office", address, status=0 if is_taken else 1, out=True)


@pytest.mark.parametrize("status, said", [(400, "where that is the port of https, write https://"), (401, "or these are wrong")])
def test_a_proxy_that_takes_nothing(tmp_path: pathlib.Path, monkeypatch: pytest.MonkeyPatch, status: int, said: str) -> None:
    (tmp_path / "it.csv").write_text("isrc,plays,seconds\n")
    with other(monkeypatch, b"<html>", status) as address:
        assert said in run("check", tmp_path / "it.csv", "--office", address, status=1, out=True)


@pytest.mark.parametrize("address", ["http://[::1", "http://\u2100.example"])
def test_what_is_no_address_by_any_command(copy: pathlib.Path, tmp_path: pathlib.Path, address: str) -> None:
    (tmp_path / "it.cwr").write_bytes(FIRST)
    asking = ["check", tmp_path / "it.cwr", "--office"], ["resend", copy, "--netrc", "--to"], ["resend", copy, "--to"], ["compare", copy]
    for words in asking:
        assert f"society-office: {address} is no address of an office" in run(*words, address, status=1)
    assert f"{address} is no address of an office" in run("health", "--office", address, status=2, out=True)


@pytest.mark.parametrize("free, state", [(11, GOOD), (10, GOOD), (9, WARNING), (5, WARNING), (4, WRONG)])
def test_the_free_part_of_a_disk(free: int, state: int, tmp_path: pathlib.Path, monkeypatch: pytest.MonkeyPatch) -> None:
    monkeypatch.setattr(shutil, "disk_usage", lambda _: shutil._ntuple_diskusage(100, 100 - free, free))
    found = health.look_at_disk(Looked("http://x", disk=tmp_path), Limits(disk=10))
    assert (found.state, found.value) == (state, free) and f"{free} % of the disk" in found.words


@pytest.mark.parametrize("hours, state", [(29, GOOD), (31, WARNING), (59, WARNING), (61, WRONG)])
def test_the_age_of_the_newest_backup(hours: int, state: int, tmp_path: pathlib.Path) -> None:
    for name, age in (("a.db", hours + 99), ("b.db", hours), ("c.db", hours + 98)):
        (tmp_path / name).touch()
        os.utime(tmp_path / name, (time.time() - age * HOUR,) * 2)
    found = health.look_at_backup(Looked("http://x", backups=tmp_path), Limits(backup=30))
    assert found.state == state and f"b.db, is {hours}.0 hours old" in found.words


@pytest.mark.parametrize("value, above, below", [(5, GOOD, GOOD), (5.1, WARNING, GOOD), (10, WARNING, GOOD), (10.1, WRONG, GOOD)])
def test_a_number_beside_its_limit(value: float, above: int, below: int) -> None:
    assert health.judged(value, 5, True) == above and health.judged(value, 5, False) == below


def test_fronts_are_kept_at_their_greatest(copy: pathlib.Path, tmp_path: pathlib.Path) -> None:
    shutil.copy(copy, tmp_path / "office.db")
    known = health.known_fronts(Looked("http://x", backups=tmp_path), {quarter.ALPHA: 9, quarter.BETA: 1})
    assert (known[quarter.ALPHA], known[quarter.BETA], known[quarter.DELTA]) == (9, 1_260_002, 2)
    found = health.compared(known, {**known, quarter.ALPHA: 8}, tmp_path / "state.json")
    assert found.state == WRONG and f"{quarter.ALPHA} had 9 and has 8" in found.words and f"take {tmp_path}/state.json away" in found.words
    assert health.compared(known, {**known, quarter.ALPHA: 10}, None).state == GOOD


def test_a_backup_is_audited_once(copy: pathlib.Path, tmp_path: pathlib.Path, program: str) -> None:
    (tmp_path / "backups").mkdir()
    backup = pathlib.Path(shutil.copy(copy, tmp_path / "backups/office-1.db"))
    looked, kept = Looked("http://x", backups=tmp_path / "backups", program=program), dict[str, object]()
    assert health.look_into_backup(looked, kept).state == GOOD
    kept["status"] = 3
    assert health.look_into_backup(looked, kept).state == WRONG
    with changed(backup) as database:
        database.execute("UPDATE credits SET units = units + 1 WHERE units > 0")
    found = health.look_into_backup(looked, kept)
    assert found.state == WRONG and "says of office-1.db" in found.words and kept["status"] not in (0, 3)


def test_what_ends_in_a_fault_of_its_own_is_wrong(monkeypatch: pytest.MonkeyPatch, tmp_path: pathlib.Path) -> None:
    def broken(*_: object) -> float:
        raise ZeroDivisionError("no disk")

    monkeypatch.setattr(shutil, "disk_usage", broken)
    said = run("health", "--office", "http://127.0.0.1:1", "--disk", tmp_path, "--backups", tmp_path, status=2, out=True)
    assert "WRONG  disk         could not be looked at: ZeroDivisionError: no disk\n" in said and "no backup (*.db)" in said
    (tmp_path / "it.crt").write_text("none")
    said = run("health", "--office", "http://127.0.0.1:1", "--certificate", tmp_path / "it.crt", status=2, out=True)
    assert f"could not be looked at: {tmp_path / 'it.crt'} is no certificate that can be read: " in said


@pytest.mark.parametrize("where, said", [("> /dev/full", "No space left on device"), (">&-", "it is closed")])
def test_health_that_can_not_be_told_is_wrong(where: str, said: str, tmp_path: pathlib.Path) -> None:
    for form in "", "--json", "--metrics":
        words = f"{ROOT / 'office/society-office'} health --office http://127.0.0.1:1 {form} {where}"
        done = subprocess.run(["bash", "-c", words], stderr=subprocess.PIPE, text=True, check=False)
        assert (done.returncode, done.stderr) == (2, f"society-office: standard output: {said}\n")


@pytest.mark.parametrize("status, wanted", [(0, 0), (1, 2), (127, 2)])
def test_the_unit_of_health_fails_where_its_command_does_not_start(status: int, wanted: int, tmp_path: pathlib.Path) -> None:
    """Its status 1, which says that something is to be looked at, is also that of Python without a package that is needed."""
    unit = (ROOT / "debian/units/society-health.service").read_text()
    (first,) = re.findall(r"^ExecStartPre=(.*)$", unit, re.M)
    (tmp_path / "society-office").write_text(f"#!/bin/sh\nexit {status}\n")
    (tmp_path / "society-office").chmod(0o755)
    done = subprocess.run(["bash", "-c", first], env={"PATH": f"{tmp_path}:/usr/bin:/bin"}, check=False)
    assert done.returncode == wanted and "SuccessExitStatus=1\n" in unit


@pytest.mark.parametrize(
    "path, body, what",
    [
        ("/returns/RADIO7/1", b"isrc,plays,seconds\n", "return RADIO7/1"),
        ("/pools/70", b'{"amount":5,"cut":[],"returns":[]}', "a pool (UNCLAIMED has "),
    ],
)
def test_returns_and_pools_that_the_office_has_lost(
    copy: pathlib.Path, tmp_path: pathlib.Path, program: str, path: str, body: bytes, what: str
) -> None:
    port, backups = free_port(), tmp_path / "backups"
    backups.mkdir()
    further(program, copy, [(path, body)], backups / "office-1.db")
    words = ["health", "--office", f"http://127.0.0.1:{port}", "--backups", backups, "--program", program, "--seconds", "60"]
    with running(program, copy, port, "--existing", "--connections", "100"):
        said = run(*words, status=2, out=True)
        assert f"WRONG  money        the office has not what office-1.db has: {what}" in said and "good   fronts" in said
        shutil.copy(copy, backups / "office-1.db")
        assert "good   money        the office has the returns and pools of office-1.db\n" in run(*words)


def test_what_was_decided_is_looked_at(copy: pathlib.Path, tmp_path: pathlib.Path, decided: pathlib.Path) -> None:
    backup = pathlib.Path(shutil.copy(copy, tmp_path / "office-1.db"))
    looked = Looked("", backups=tmp_path, decisions=decided)
    copy.unlink()
    found = health.decisions_of(looked)
    assert found.state == WARNING and f"{backup.with_suffix('.tar')} is not there, which a new machine needs" in found.words
    backup.with_suffix(".tar").touch()
    assert health.decisions_of(looked).state == GOOD
    (decided / "void.txt").write_text("RADIO1\n")
    found = health.decisions_of(looked)
    assert found.state == WARNING and "void.txt changed since the last line of the journal" in found.words
    (decided / "void.txt").write_text("radio1\n")
    found = health.look(looked, Limits())[-1]
    assert (found.name, found.state) == ("decisions", WRONG) and "void.txt, line 1" in found.words


def test_nothing_is_checked_at_the_office_itself(
    copy: pathlib.Path, tmp_path: pathlib.Path, program: str, monkeypatch: pytest.MonkeyPatch
) -> None:
    """What it takes stays: only what says that it is a trial office gets anything."""
    (tmp_path / "it.csv").write_text("isrc,plays,seconds\n")
    (tmp_path / "it.cwr").write_bytes(FIRST)
    files, port = [tmp_path / "it.csv", tmp_path / "it.cwr"], free_port()
    with running(program, copy, port, "--existing", "--connections", "100"):
        said = run("check", *files, "--office", f"http://127.0.0.1:{port}", "--reporter", "RADIO9", status=1)
        assert "does not say that it is a trial office (it answers 200, without `Society-Office: trial`): nothing was sent" in said
        office = Office(f"http://127.0.0.1:{port}")
        assert office.ask("PUT", "/v1/returns/RADIO9/900001", b"").status == 422
        office.close()
    for kind in "", "office":
        monkeypatch.setattr(Other, "kind", kind)
        with other(monkeypatch, b'{"front":0,"held":[]}') as address:
            assert "nothing was sent" in run("check", *files, "--office", address, status=1)
