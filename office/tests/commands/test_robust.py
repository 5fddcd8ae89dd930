"""No traceback and nothing half done, whatever a command is given: streams, locales, damaged copies, files that are none."""

import json
import os
import pathlib
import signal
import socket
import subprocess
import sys
import time
from collections.abc import Iterator

import office_value
import pytest
import quarter
from command import run
from conftest import ROOT, further, made, running
from office_value import File, Step
from society_office.basics import signals
from society_office.basics.errors import OfficeError
from society_office.basics.terminal import say
from society_office.book import book_log
from society_office.book.copy import open_copy
from society_office.book.page_sums import changed
from society_office.book.soundness import need_sound
from society_office.checks import checking
from society_office.offices.asking import Request
from society_office.offices.program import Answer, Office, free_port
from society_office.printed import pages
from society_office.second_office import resending
from test_checks import FIRST

COMMAND = [sys.executable, str(ROOT / "office/society-office")]


@pytest.fixture(autouse=True)
def heeded() -> Iterator[None]:
    """What is started in the background ignores Ctrl-C, and under nohup the end of its terminal; neither is so while a test runs."""
    before = {
        signal.SIGINT: signal.signal(signal.SIGINT, signal.default_int_handler),
        signal.SIGHUP: signal.signal(signal.SIGHUP, signal.SIG_DFL),
    }
    yield
    for number, handler in before.items():
        signal.signal(number, handler)


def shell(script: str, **extra: str) -> subprocess.CompletedProcess[str]:
    """Runs a script whose `$it` is the command, with Python as it writes by itself."""
    words = ["bash", "-c", f"it={' '.join(COMMAND)!r}; {script}"]
    return subprocess.run(words, capture_output=True, text=True, env={**os.environ, "PYTHONUNBUFFERED": "", **extra}, check=False)


@pytest.mark.parametrize(
    "script, said",
    [
        ("$it parties {0} >&-", "standard output: it is closed"),
        ("$it statement {0} I00000000295 > /dev/full", "standard output: No space left on device"),
        ("$it --help > /dev/full", "standard output: No space left on device"),
        ("$it why {0} PB000000012 >&- 2>&-", ""),
        ("$it parties {0} --format json | true; exit ${{PIPESTATUS[0]}}", ""),
    ],
)
def test_output_that_goes_nowhere(copy: pathlib.Path, script: str, said: str) -> None:
    done = shell(script.format(copy))
    assert done.returncode == 1 and done.stderr == (f"society-office: {said}\n" if said else "")


def test_letters_that_the_locale_has_not(copy: pathlib.Path) -> None:
    done = shell(f"$it parties {copy}", LC_ALL="C", PYTHONCOERCECLOCALE="0", PYTHONUTF8="0")
    assert done.returncode == 0 and r"\xd6D\xd6N \xc4RGER" in done.stdout


def ended_by(copy: pathlib.Path, folder: pathlib.Path, number: int) -> tuple[int, int]:
    """The status of a command that gets a signal while its throw-away office starts, and the process of that office."""
    begun, room, slow = folder / "begun", folder / "room", folder / "slow"
    room.mkdir(exist_ok=True)
    begun.unlink(missing_ok=True)
    slow.write_text(f"#!/bin/sh\necho $$ > {begun}.new && mv {begun}.new {begun}\nexec sleep 600\n")
    slow.chmod(0o755)
    words = [*COMMAND, "rebuild", str(copy), "--program", str(slow)]
    with subprocess.Popen(words, env={**os.environ, "TMPDIR": str(room)}, stderr=subprocess.PIPE) as process:
        until = time.monotonic() + 60
        while not begun.exists() and time.monotonic() < until:
            time.sleep(0.01)
        process.send_signal(number)
        return process.wait(60), int(begun.read_text())


@pytest.mark.parametrize("number", [signal.SIGTERM, signal.SIGHUP, signal.SIGINT])
def test_a_signal_leaves_no_throw_away_office(copy: pathlib.Path, tmp_path: pathlib.Path, number: int) -> None:
    status, office = ended_by(copy, tmp_path, number)
    # (Ctrl-C is click's, which says so and ends with status 1)
    assert status == (1 if number == signal.SIGINT else -number)
    assert list((tmp_path / "room").iterdir()) == []
    with pytest.raises(ProcessLookupError):
        os.kill(office, 0)


def test_a_kill_leaves_no_throw_away_office(copy: pathlib.Path, tmp_path: pathlib.Path) -> None:
    status, office = ended_by(copy, tmp_path, signal.SIGKILL)
    until = time.monotonic() + 10
    while is_running(office) and time.monotonic() < until:
        time.sleep(0.01)
    assert (status, is_running(office)) == (-signal.SIGKILL, False)
    # (what it has left, a book among it, goes with the next command)
    assert len(list((tmp_path / "room").iterdir())) == 1
    assert ended_by(copy, tmp_path, signal.SIGTERM)[0] == -signal.SIGTERM
    assert list((tmp_path / "room").iterdir()) == []


def is_running(process: int) -> bool:
    """Whether a process goes on; one that waits to be seen by whoever started it does not."""
    try:
        return pathlib.Path(f"/proc/{process}/stat").read_text().rpartition(")")[2].split()[0] != "Z"
    except FileNotFoundError:
        return False


def test_a_signal_is_put_off() -> None:
    done = []
    with pytest.raises(KeyboardInterrupt), signals.put_off():
        signal.raise_signal(signal.SIGINT)
        done.append("what was begun")
    assert done and signal.getsignal(signal.SIGINT) == signal.default_int_handler


# What is done to a copy by hand, and what is said of it.
UNSOUND = [
    ("UPDATE transmissions SET sender = 'XY' WHERE sender = 'PB000000078'", "XY has file 1, whose header names 'PB000000078'"),
    ("UPDATE pools SET amount = -5 WHERE pool = 2", "pool 2 has an amount of -5"),
    ("UPDATE pools SET amount = amount + 1 WHERE pool = 3", "pool 3 has an amount of 7777778 and credits of 7777777"),
    ("UPDATE credits SET units = units + 1 WHERE pool = 2 AND line = 0", "pool 2 has an amount of 40001 and credits of 40002"),
    ("UPDATE balances SET units = units + 1 WHERE account = 'UNCLAIMED'", "the office has balances of 8817794 and pools of 8817793"),
    ("UPDATE credits SET pool = 9 WHERE pool = 5", "pool 5 has an amount of 12 and credits of 0"),
    ("DELETE FROM fronts WHERE sender = 'PB000000012'", "PB000000012 has files and no front"),
    ("UPDATE fronts SET front = 7 WHERE sender = 'PB000000012'", "a front of 7, which has not come"),
    ("UPDATE versions SET number = 9 WHERE work = 'E1'", "a work of file 9, which has not come"),
    ("DELETE FROM returns WHERE reporter = 'RADIO1' AND number = 2", "a row of pool_returns has lost the row of returns"),
    ("UPDATE versions SET place = 99 WHERE work = 'E1'", "`society audit` says: "),
    ("UPDATE returns SET body = x'61'", "`society audit` says: "),
    ("UPDATE returns SET body = CAST('isrc,plays,seconds' || char(10) || 'A,B,C' AS BLOB)", "`society audit` says: "),
]


@pytest.mark.parametrize("change, said", UNSOUND)
def test_a_copy_that_was_changed_by_hand(
    copy: pathlib.Path, tmp_path: pathlib.Path, change: str, said: str, program: str, monkeypatch: pytest.MonkeyPatch
) -> None:
    monkeypatch.setenv("SOCIETY_PROGRAM", program)
    with changed(copy) as database:
        database.execute(change)
    told = run("site", copy, "--into", tmp_path / "site", status=1)
    assert f"{copy} " in told and said in told and not (tmp_path / "site").exists()
    if said.startswith("`"):
        return
    for words in (["balances", copy], ["statement", copy, "--all", "--into", tmp_path / "all"]):
        assert said in run(*words, status=1)
    with open_copy(copy) as opened, pytest.raises(OfficeError):
        need_sound(opened, sums=True)


def test_a_sound_copy_is_one(copy: pathlib.Path) -> None:
    with open_copy(copy) as opened:
        need_sound(opened, sums=True)


def test_pages_are_replaced_whole_or_not_at_all(copy: pathlib.Path, tmp_path: pathlib.Path) -> None:
    folder = tmp_path / "site"
    run("site", copy, "--into", folder)
    folder.chmod(0o710)
    (folder / "senders/XX.html").write_text("of an older copy")
    run("site", copy, "--into", folder)
    assert not (folder / "senders/XX.html").exists() and folder.stat().st_mode & 0o777 == 0o710
    before = {it: it.read_bytes() for it in folder.rglob("*") if it.is_file()}
    with changed(copy) as database:
        database.execute("UPDATE versions SET place = 99 WHERE work = 'E1'")
    run("site", copy, "--into", folder, status=1)
    assert {it: it.read_bytes() for it in folder.rglob("*") if it.is_file()} == before
    assert {it.name for it in tmp_path.iterdir()} == {"copy.db", "site"}
    (folder / "letter.txt").write_text("no page")
    assert "letter.txt is no page" in run("site", copy, "--into", folder, status=1)
    assert (folder / "letter.txt").exists()


@pytest.mark.parametrize("place", ["copy.db", "/"])
def test_pages_take_the_place_of_nothing_but_a_folder(copy: pathlib.Path, place: str) -> None:
    before = copy.read_bytes()
    said = run("site", copy, "--into", copy.parent / place, status=1)
    assert "is no folder of pages" in said and copy.read_bytes() == before and list(copy.parent.iterdir()) == [copy]


@pytest.mark.parametrize("place", [".", "", "/", "/.."])
@pytest.mark.parametrize("words", ["statement {} I00000000199", "balances {}", "propose {} --amount 1", "unclaimed {}", "dues {}"])
def test_a_folder_in_the_place_of_a_copy(tmp_path: pathlib.Path, monkeypatch: pytest.MonkeyPatch, words: str, place: str) -> None:
    monkeypatch.chdir(tmp_path)
    said = run(*(it.format(place) for it in words.split()), status=1)
    assert said == f"society-office: {pathlib.Path(place)} is no file\n"


@pytest.mark.parametrize("place", [".", "/"])
@pytest.mark.parametrize("words", ["statement {} I00000000199 --format csv", "parties {}", "propose {} --amount 1"])
def test_a_folder_in_the_place_of_what_is_written(copy: pathlib.Path, words: str, place: str) -> None:
    said = run(*words.format(copy).split(), "--output", place, status=1)
    assert said.endswith(f"society-office: {place} could not be written: Is a directory\n")


def test_a_pipe_in_the_place_of_the_log_of_a_copy(copy: pathlib.Path) -> None:
    log = copy.with_name("copy.db-wal")
    os.mkfifo(log)
    done = shell(f"timeout 20 $it parties {copy}")
    assert (done.returncode, done.stdout, done.stderr) == (1, "", f"society-office: {log} is no file\n")


@pytest.mark.parametrize("words", ["statement {} I00000000199", "parties {}", "statement {} I00000000199 --format csv"])
def test_nothing_is_written_over_a_copy(copy: pathlib.Path, words: str) -> None:
    log, link = copy.with_name("other.db-wal"), copy.with_name("link")
    book_log.write_log(copy, log)
    link.symlink_to(copy)
    for output in copy, link, log:
        before = output.read_bytes()
        said = run(*words.format(copy).split(), "--output", output, status=1)
        assert "is a database, or the log of one, and would be replaced: name another file" in said and output.read_bytes() == before
    assert len(list(copy.parent.iterdir())) == 3


def test_an_office_that_does_not_answer_is_all_that_is_told(copy: pathlib.Path, program: str) -> None:
    address = f"http://127.0.0.1:{free_port()}"
    done = shell(f"$it compare {copy} {address} --wait 0", SOCIETY_PROGRAM=program)
    assert done.returncode == 1 and done.stdout == ""
    assert [it.partition(": [")[0] for it in done.stderr.splitlines()] == [f"society-office: no answer from {address}"]


@pytest.mark.parametrize("words", ["resend {0} --wait 0 --to", "compare {0} --wait 5", "check {1} --wait 1 --office"])
def test_an_office_that_hangs_is_waited_for_as_long_as_one_says(copy: pathlib.Path, program: str, words: str) -> None:
    # (the system takes connections for it)
    with socket.create_server(("127.0.0.1", 0)) as halted:
        address = f"http://127.0.0.1:{halted.getsockname()[1]}"
        done = shell(f"timeout 30 $it {words.format(copy, ROOT / 'examples/first.cwr')} {address}", SOCIETY_PROGRAM=program)
    assert (done.returncode, done.stdout) == (1, "")
    assert done.stderr.startswith(f"society-office: no answer from {address}: timed out") and done.stderr.count("\n") == 1


@pytest.mark.parametrize("words", [["site"], ["statement", "--all"]])
def test_two_commands_that_write_one_folder(copy: pathlib.Path, tmp_path: pathlib.Path, words: list[str]) -> None:
    alone, both = tmp_path / "alone", tmp_path / "both"
    run(*words, copy, "--into", alone / "it")
    with pages.locked(both / "it"):
        command = [*COMMAND, *words, str(copy), "--into", str(both / "it")]
        started = [subprocess.Popen(command, stdout=subprocess.DEVNULL) for _ in range(2)]
        time.sleep(5)
        assert [it.poll() for it in started] == [None, None] and list(both.iterdir()) == []
    assert [it.wait(60) for it in started] == [0, 0]
    made = [sorted(it.relative_to(folder) for it in folder.rglob("*")) for folder in (alone, both)]
    assert made[0] == made[1] and len(made[0]) > 8


@pytest.mark.parametrize(
    "words, status, said",
    [
        (["file", "{}", "\udcff", 1], 1, r"'\udcff' is no sender of files"),
        (["explain", "{}", "I00000000199", "--pool", 1, "--isrc", "\udcff"], 1, r"'\udcff' is no ISRC"),
        (["statement", "{}", "I00000000199", "--since", 10**30], 2, "is not in the range"),
        (["resend", "{}", "--to", "http://127.0.0.1:1", "--behind", "nan"], 2, "nan is no number"),
        (["health", "--seconds", "inf"], 2, "inf is not in the range"),
        (["health", "--hours", "nan"], 2, "nan is no number"),
    ],
)
def test_words_that_name_nothing(copy: pathlib.Path, words: list[object], status: int, said: str) -> None:
    # (told with status 2 to standard error, and not as what health finds wrong)
    assert said in run(*(copy if it == "{}" else it for it in words), status=status)


@pytest.mark.parametrize(
    "words, said",
    [
        (["propose", "--amount", 5, "--amount", 6], "--amount is given twice"),
        (["statement", "I00000000295", "--since", 2, "--since", 1], "--since is given twice"),
        (["amend", 1, "--kind", "PR", "--kind", "MR"], "--kind is given twice"),
        (["statement", "--all", "--into", "all", "--format", "csv"], "--format and --output are of one statement"),
        (["statement", "--all", "--into", "all", "--output", "it.csv"], "--format and --output are of one statement"),
        (["statement", "I00000000295", "--pdf"], "--pdf belongs to --all"),
    ],
)
def test_words_of_which_one_would_not_count(copy: pathlib.Path, words: list[object], said: str) -> None:
    assert said in run(words[0], copy, *words[1:], status=2)


def test_words_that_may_be_given_again(copy: pathlib.Path) -> None:
    words = ["--returns", "RADIO1/4", "--returns", "TV1/1", "--cut", f"{quarter.ALPHA}=1", "--cut", f"{quarter.DELTA}=0"]
    found = json.loads(run("propose", copy, "--amount", 5, "--kind", "MR", *words))
    cut = dict(found["cut"])
    assert found["returns"] == [["RADIO1", 4], ["TV1", 1]] and cut[quarter.ALPHA] == 1 and quarter.DELTA not in cut


STEERING = "W\x1b[2J\u202e"


def test_nothing_that_was_sent_steers_a_terminal(tmp_path: pathlib.Path, program: str) -> None:
    # (a work whose number is refused for what stands in it)
    title = "FIRST\u202e SONG\x07".encode().ljust(16)
    body = FIRST.replace(b"W1".ljust(10), STEERING.encode().ljust(10)).replace(b"FIRST SONG".ljust(16), title)
    copy = made(program, office_value.Office({}, []), tmp_path)
    steps = [(f"/senders/{quarter.ALPHA}/transmissions/1", body), ("/returns/RADIO1/1", b"isrc,plays,seconds\nATABC2600001,1,1\n")]
    steps.append(("/pools/1", b'{"amount":5,"cut":[],"returns":[["RADIO1",1]]}'))
    copy = further(program, copy, steps, tmp_path / "then.db")
    told = run("why", copy, quarter.ALPHA) + run("unclaimed", copy) + run("unclaimed", copy, "--format", "json")
    run("site", copy, "--into", tmp_path / "site")
    told += "".join(it.read_text() for it in (tmp_path / "site").rglob("*") if it.suffix in (".csv", ".html"))
    assert told.count("W?[2J?") >= 5 and "FIRST? SONG?" in told
    assert all(it.isprintable() for it in told.split("\n"))


def test_nothing_that_is_answered_steers_a_terminal(capsys: pytest.CaptureFixture[str]) -> None:
    say(f"one{STEERING}\ntwo\r")
    assert capsys.readouterr().out == "oneW?[2J?\ntwo?\n"
    told = resending.why(Request(resending.ORDER, "pools/1", b""), Answer(500, STEERING.encode() + b"\nA"))
    assert told == "status 500, W?[2J??A"
    assert not Answer(200, b'{"state":7}').is_taken and Answer(201, b'{"state":"closed"}').is_taken


def test_a_folder_in_the_place_of_the_offices_file(copy: pathlib.Path, monkeypatch: pytest.MonkeyPatch) -> None:
    monkeypatch.chdir(copy.parent)
    assert "file" in run("health", "--office", f"http://127.0.0.1:{free_port()}", "--db", ".", status=2, out=True)


NO_ADDRESSES = ["ftp://x", "http://", "http://x:99999", "http://x:y", "http://x/?a", "http://x y:80"]
NO_ADDRESSES += ["http://x/v1", "http://x/v1/senders/PB000000012"]


@pytest.mark.parametrize("address", NO_ADDRESSES)
def test_what_is_no_address(address: str) -> None:
    with pytest.raises(OfficeError, match="is no address of an office"):
        Office(address)


def test_a_trial_office_that_has_the_file_already(tmp_path: pathlib.Path, program: str, monkeypatch: pytest.MonkeyPatch) -> None:
    # (no proxy stands before it, which would say that it is one)
    monkeypatch.setattr(checking, "TRIAL", "")
    port = free_port()
    with running(program, tmp_path / "trial.db", port, "--connections", "1000"):
        words = ["check", tmp_path / "it.cwr", "--office", f"http://127.0.0.1:{port}"]
        (tmp_path / "it.cwr").write_bytes(FIRST)
        assert run(*words) == f"1 {tmp_path}/it.cwr: applied\n  1 of 1 works accepted\n"
        again = run(*words)
        assert "1 of 1 works accepted" in again and "has this very file under this number already" in again
        (tmp_path / "it.cwr").write_bytes(FIRST.replace(b"FIRST SONG", b"OTHER SONG"))
        said = run(*words, status=1, out=True)
        assert f"2 {tmp_path}/it.cwr: applied" in said and "fault 20 may come of an earlier check" in said
        # A path before the office's own is kept: there the office has nothing.
        assert "can't be asked for" in run(*words[:-1], f"http://127.0.0.1:{port}/trial/", status=1)


MOVED = FIRST.replace(b"FIRST SONG ", "FIRST SÖNG ".encode())


def test_fields_that_letters_of_utf_8_have_moved(tmp_path: pathlib.Path, program: str) -> None:
    (tmp_path / "it.cwr").write_bytes(MOVED)
    said = run("check", tmp_path / "it.cwr", "--program", program, status=1, out=True)
    assert "ISWC 96-106: 'T034524680' (a letter before it takes two bytes" in said
    assert "warning: W1 FIRST SÖNG, line 3, NWR: letters of UTF-8 take 1 byte more" in said
    assert "the work number begins with a blank, which is of it: ' W1'" in said
    (tmp_path / "it.cwr").write_bytes(FIRST.replace(b"W1      ", b"W\xc4      "))
    said = run("check", tmp_path / "it.cwr", "--program", program, status=1, out=True)
    assert "only letters, digits and signs of ASCII" in said and "UTF-8" not in said and "warning" not in said
    # (a letter in a field itself, and one behind it, have not moved it)
    (tmp_path / "it.cwr").write_bytes(FIRST.replace(b"W1       ", "WÄ      ".encode()))
    said = run("check", tmp_path / "it.cwr", "--program", program, status=1, out=True)
    assert "fault 2" in said and "only letters, digits and signs of ASCII" in said and "a letter before it" not in said
    (tmp_path / "it.cwr").write_bytes(FIRST.replace(b"FIRST SONG ", b"FIRST S\xd6NG "))
    assert "warning" not in run("check", tmp_path / "it.cwr", "--program", program)


def test_why_and_the_pages_warn_of_moved_fields(tmp_path: pathlib.Path, program: str) -> None:
    work = quarter.nwr(" E 067", "TRÈS BIEN", "ATABC2600001", quarter.ALPHA_HOUSE, quarter.ANNA)
    files: list[Step] = [File(quarter.ALPHA, number, f"transmissions/{number}", [work]) for number in (1, 2)]
    copy = made(program, office_value.Office(quarter.NAMES, files), tmp_path)
    said = run("why", copy, quarter.ALPHA)
    assert "warning: E 067 TRÈS BIEN, line 3, NWR: letters of UTF-8 take 1 byte more" in said
    # The key is looked up as it is, blanks before it and all.
    assert "revision 0 of file 1 stands" in said
    run("site", copy, "--into", tmp_path / "site")
    assert "the work number begins with a blank" in (tmp_path / f"site/senders/{quarter.ALPHA}.html").read_text()
