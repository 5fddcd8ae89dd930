"""The folder of decisions: read whole or told where it is wrong, written whole or not at all, with a line of the journal for each."""

import fcntl
import os
import pathlib
import re
import stat
import subprocess
import sys
import threading
import time

import pytest
from click.testing import CliRunner
from command import run
from conftest import ROOT
from society_office.basics.errors import OfficeError
from society_office.commands.cli import main
from society_office.decided import decisions, journal

ORDER = '{"amount":1000,"cut":[["PB000000012",1]],"returns":[["RADIO1",1]]}'


@pytest.fixture
def home(tmp_path: pathlib.Path) -> pathlib.Path:
    """A folder of decisions in which nothing is decided yet."""
    decisions.begin(tmp_path / "decided")
    return tmp_path / "decided"


def test_a_new_folder_has_all_files_and_says_nothing(home: pathlib.Path) -> None:
    found = decisions.read(home)
    assert sorted(it.name for it in home.iterdir()) == sorted(decisions.FILES)
    assert (found.void, found.amendments, found.pools, found.journal) == ([], [], {}, [])
    assert found.changed_by_hand == [] and decisions.begin(home) == []


def test_what_is_added_is_read_and_stands_in_the_journal(home: pathlib.Path) -> None:
    decisions.add(home, decisions.VOID, ["RADIO1/3  # a wrong month"], "void RADIO1/3", "a wrong month")
    decisions.add(home, decisions.AMENDMENTS, [f"99998 7 {ORDER}"], "amend pool 7", "its amount, of a wrong year")
    found = decisions.read(home)
    assert [it.words for it in found.void] == ["RADIO1/3"]
    assert [(it.number, it.pool, it.order["amount"]) for it in found.amendments] == [(99998, 7, 1000)]
    assert [(it.what, it.why) for it in found.journal] == [
        ("void RADIO1/3", "a wrong month"),
        ("amend pool 7", "its amount, of a wrong year"),
    ]
    assert found.journal[0].who == journal.who()
    assert found.journal[0].sums == {"void.txt": journal.sum_of((home / "void.txt").read_bytes())}
    assert found.changed_by_hand == []
    before = (home / "void.txt").read_bytes()
    decisions.add(home, decisions.VOID, ["RADIO1/4"], "void RADIO1/4", "a wrong month")
    assert decisions.read(home).changed_by_hand == []
    # (what it had once is no longer what it has last)
    (home / "void.txt").write_bytes(before)
    assert decisions.read(home).changed_by_hand == ["void.txt"]


def test_a_line_of_the_journal_has_the_sums_of_what_was_written_for_it(home: pathlib.Path) -> None:
    with decisions.writing(home) as it:
        it.add(decisions.VOID, ["RADIO1/3"])
        assert [it.note("void RADIO1/3", "why").sums.keys(), it.note("looked at", "why").sums] == [{"void.txt"}, {}]
        assert it.note("by hand", "why", {"pools.txt": "0" * 64}).sums == {"pools.txt": "0" * 64}


def test_what_was_left_of_a_write_is_not_in_the_way(home: pathlib.Path) -> None:
    (home / ".void.txt.new").write_text("RADIO1/")
    decisions.add(home, decisions.VOID, ["RADIO1/3"], "void RADIO1/3", "why")
    assert sorted(it.name for it in home.iterdir()) == sorted(decisions.FILES)


def test_a_line_that_is_not_ended_is_ended_first(home: pathlib.Path) -> None:
    (home / "void.txt").write_text("RADIO1/3")
    decisions.add(home, decisions.VOID, ["RADIO1/4"], "void RADIO1/4", "why not")
    assert (home / "void.txt").read_text() == "RADIO1/3\nRADIO1/4\n"


@pytest.mark.parametrize(
    "name, content, said",
    [
        ("void.txt", "RADIO1\nRADIO1/3 wrong\n", "void.txt, line 2: 'RADIO1/3 wrong' names no returns"),
        ("pools.txt", "3 2026-03-31/2026-01-01 Spring\n", "pools.txt, line 1: the period"),
        ("amendments.txt", "# none\n99998 7\n", "amendments.txt, line 2: '99998 7' is no amendment"),
        ("amendments.txt", f"99998 7 {ORDER[:-1]}\n", "amendments.txt, line 1: "),
        ("amendments.txt", "99998 7 {\n", "amendments.txt, line 1: "),
        ("amendments.txt", "99998 7 {amount:5}\n", "amendments.txt, line 1: "),
        ("amendments.txt", f"99998 7 {ORDER}\n99998 6 {ORDER}\n", "amendments.txt, line 2: "),
        ("journal.txt", "2026-01-06T10:00:00Z\tanna\tvoid\twhy\n", "journal.txt, line 1: it is not what a command writes there"),
        ("journal.txt", "2026-01-06T10:00:00Z\tanna\tvoid\twhy\tand more\t\n", "journal.txt, line 1: "),
        ("journal.txt", "2026-13-06T10:00:00Z\tanna\tvoid\twhy\t\n", "journal.txt, line 1: "),
        ("journal.txt", "# \n2026-01-06T10:00:00Z\tanna\t\twhy\t\n", "journal.txt, line 2: "),
        ("journal.txt", "2026-01-06T10:00:00Z\tanna\tvoid\twhy\tvoid.txt 12\n", "journal.txt, line 1: "),
        ("journal.txt", b"\xff\n", "journal.txt: the byte 0xFF"),
    ],
)
def test_a_line_that_is_wrong_is_told_with_its_place(home: pathlib.Path, name: str, content: str | bytes, said: str) -> None:
    (home / name).write_bytes(content if isinstance(content, bytes) else content.encode())
    with pytest.raises(OfficeError) as raised:
        decisions.read(home)
    assert str(raised.value).startswith(f"{home}/{said}")
    before = {it: it.read_bytes() for it in home.iterdir()}
    with pytest.raises(OfficeError):
        decisions.add(home, decisions.VOID, ["RADIO1/4"], "void RADIO1/4", "why not")
    assert {it: it.read_bytes() for it in home.iterdir()} == before


@pytest.mark.parametrize("name", decisions.FILES)
def test_a_list_that_is_missing_is_no_empty_one(home: pathlib.Path, name: str) -> None:
    (home / name).unlink()
    with pytest.raises(OfficeError, match=f"has no {name}: put it back"):
        decisions.read(home)
    assert decisions.begin(home) == [name]
    decisions.read(home)


def test_what_would_be_wrong_is_not_written(home: pathlib.Path) -> None:
    before = {it: it.read_bytes() for it in home.iterdir()}
    for lines, why in ((["radio1/3"], "why"), (["RADIO1/3"], "two\nlines"), (["RADIO1/3"], " "), (["RADIO1/3"], "a\ttab")):
        with pytest.raises(OfficeError):
            decisions.add(home, decisions.VOID, lines, "void", why)
        assert {it: it.read_bytes() for it in home.iterdir()} == before


def test_the_folder_is_the_named_one_then_that_of_the_variable_then_the_installed_one(
    home: pathlib.Path, tmp_path: pathlib.Path, monkeypatch: pytest.MonkeyPatch
) -> None:
    monkeypatch.delenv(decisions.VARIABLE, raising=False)
    monkeypatch.setattr(decisions, "FOLDER", tmp_path / "nowhere")
    assert decisions.folder_of() is None
    with pytest.raises(OfficeError, match="no folder of decisions, so nobody knows which returns are void"):
        decisions.need_folder()
    monkeypatch.setattr(decisions, "FOLDER", home)
    assert decisions.need_folder() == home
    monkeypatch.setenv(decisions.VARIABLE, "elsewhere")
    assert decisions.need_folder() == pathlib.Path("elsewhere")
    assert decisions.need_folder(tmp_path) == tmp_path
    with pytest.raises(OfficeError, match="elsewhere is no folder of decisions"):
        decisions.read(decisions.need_folder())


@pytest.mark.parametrize("folder, mode", [(0o2770, 0o660), (0o700, 0o600), (0o755, 0o640)])
def test_a_file_stays_open_to_those_of_before(home: pathlib.Path, folder: int, mode: int) -> None:
    home.chmod(folder)
    (home / "void.txt").chmod(mode)
    old = os.umask(0o077)
    try:
        decisions.add(home, decisions.VOID, ["RADIO1/3"], "void RADIO1/3", "why")
        (home / "pools.txt").unlink()
        decisions.begin(home)
    finally:
        os.umask(old)
    assert [stat.S_IMODE((home / it).stat().st_mode) for it in ("void.txt", "pools.txt")] == [mode, mode]


def test_one_that_writes_keeps_others_out(home: pathlib.Path, monkeypatch: pytest.MonkeyPatch) -> None:
    monkeypatch.setattr(decisions, "PATIENCE", 0.1)
    handle = os.open(home, os.O_RDONLY)
    fcntl.flock(handle, fcntl.LOCK_EX)
    for asked in (decisions.read, decisions.begin):
        with pytest.raises(OfficeError, match="another command is writing there"):
            asked(home)
    os.close(handle)
    decisions.read(home)


def test_many_at_once_lose_no_line(home: pathlib.Path) -> None:
    script = (
        "import pathlib, sys; from society_office.decided import decisions\n"
        "for k in range(10): decisions.add(pathlib.Path(sys.argv[1]), 'void.txt', [f'R{sys.argv[2]}/{k + 1}'], 'void', 'why')\n"
    )
    words = [sys.executable, "-c", script, str(home)]
    started = [subprocess.Popen([*words, str(it)], env={**os.environ, "PYTHONPATH": str(ROOT / "office")}) for it in range(4)]
    done = threading.Event()

    def look() -> None:
        while not done.is_set():
            seen.append(len(decisions.read(home).void) - len(decisions.read(home).journal))

    seen: list[int] = []
    reader = threading.Thread(target=look)
    reader.start()
    try:
        assert [it.wait(60) for it in started] == [0] * 4
    finally:
        done.set()
        reader.join()
    found = decisions.read(home)
    assert len(found.void) == len(found.journal) == 40 and len({it.words for it in found.void}) == 40


def test_a_kill_leaves_whole_lines(home: pathlib.Path) -> None:
    script = (
        "import pathlib, sys; from society_office.decided import decisions\n"
        "print('begun', flush=True)\n"
        "for k in range(999): decisions.add(pathlib.Path(sys.argv[1]), 'void.txt', [f'RADIO/{k + 1}'], f'void RADIO/{k + 1}', 'why')\n"
    )
    for kills, after in enumerate((0.01, 0.02, 0.03, 0.05, 0.08, 0.13), 1):
        process = subprocess.Popen(
            [sys.executable, "-c", script, str(home)], env={**os.environ, "PYTHONPATH": str(ROOT / "office")}, stdout=subprocess.PIPE
        )
        assert process.stdout and process.stdout.readline() == b"begun\n"
        threading.Event().wait(after)
        process.kill()
        process.wait()
        process.stdout.close()
        found = decisions.read(home)
        assert 0 <= len(found.void) - len(found.journal) <= kills
        assert all(re.fullmatch(r"RADIO/\d+", it.words) for it in found.void)


def test_who_decides(monkeypatch: pytest.MonkeyPatch) -> None:
    monkeypatch.setattr(journal, "name_of", lambda _: "root")
    monkeypatch.setenv("SUDO_USER", "nobody")
    assert journal.who() == "nobody"
    monkeypatch.setenv("SUDO_USER", "no-such-user")
    assert journal.who() == "root"
    monkeypatch.setattr(journal, "name_of", lambda _: "anna")
    monkeypatch.setenv("SUDO_USER", "nobody")
    assert journal.who() == "anna"


def test_what_was_decided_is_shown(home: pathlib.Path) -> None:
    assert run("decisions", home) == f"decisions of {home}: 0 lines of void returns, 0 amendments, 0 names of pools\n"
    said = run("void", "RADIO1/3-4", "TV1", "--why", "a wrong month", "--decisions", home)
    assert said == f"RADIO1/3-4 TV1: never to be paid, by {home}/void.txt\n"
    assert (home / "void.txt").read_text().endswith("\nRADIO1/3-4  # a wrong month\nTV1  # a wrong month\n")
    shown = run("decisions", home).splitlines()
    assert shown[0].endswith(": 2 lines of void returns, 0 amendments, 0 names of pools") and len(shown) == 2
    assert shown[1].endswith(f"Z  {journal.who()}  void RADIO1/3-4 TV1: a wrong month")
    assert "names no returns" in run("void", "radio1", "--why", "x", "--decisions", home, status=1)


def test_the_last_lines_of_the_journal_are_shown(home: pathlib.Path) -> None:
    for name in ("RADIO1/3", "RADIO1/4", "RADIO1/5"):
        run("void", name, "--why", "month # 3", "--decisions", home)
    assert (home / "void.txt").read_text().endswith("RADIO1/4  # month  3\nRADIO1/5  # month  3\n")
    shown = run("decisions", home, "--last", 2).splitlines()[1:]
    assert [it.partition("void ")[2] for it in shown] == ["RADIO1/4: month # 3", "RADIO1/5: month # 3"]
    assert len(run("decisions", home, "--last", 0).splitlines()) == 1


def test_what_was_changed_by_hand_gets_a_line(home: pathlib.Path) -> None:
    (home / "void.txt").write_text("RADIO1/3\n")
    said = run("decisions", home, status=1, out=True)
    assert said.endswith("void.txt: changed since its last line in the journal: `society-office decisions --why ..` writes one\n")
    assert run("decisions", home, "--why", "asked by the board").endswith("void.txt by hand: asked by the board\n")
    assert len(run("decisions", home).splitlines()) == 2
    assert "nothing was changed since" in run("decisions", home, "--why", "again", status=1)
    (home / "pools.txt").unlink()
    assert run("decisions", home, "--begin").startswith(f"begun in {home}: pools.txt\n")


def test_money_is_judged_over_a_folder_alone(copy: pathlib.Path, tmp_path: pathlib.Path, monkeypatch: pytest.MonkeyPatch) -> None:
    """Without one a command that decides refuses, and one that only looks says so first."""
    (tmp_path / "order.json").write_text(ORDER)
    monkeypatch.delenv(decisions.VARIABLE)
    monkeypatch.setattr(decisions, "FOLDER", tmp_path / "nowhere")
    for words in (("propose", copy, "--amount", 5), ("rehearse", copy, tmp_path / "order.json")):
        assert run(*words, status=1).startswith("society-office: no folder of decisions, so nobody knows which returns are void: ")
    for words in (("unclaimed", copy), ("site", copy, "--into", tmp_path / "site")):
        done = CliRunner(mix_stderr=False).invoke(main, [str(it) for it in words], catch_exceptions=False)
        assert done.exit_code == 0 and done.stderr.startswith("no folder of decisions (--decisions), so nothing is known of void returns")
        assert done.stderr.endswith(f"; {copy} is less than an hour old\n")


def test_the_folder_and_the_age_of_the_copy_are_told(copy: pathlib.Path, decided: pathlib.Path) -> None:
    for hours, words in ((0.5, "less than an hour"), (1.5, "1 hour"), (47, "47 hours"), (50, "2 days")):
        os.utime(copy, (0, time.time() - 3600 * hours))
        done = CliRunner(mix_stderr=False).invoke(main, ["propose", str(copy), "--amount", "5"], catch_exceptions=False)
        counts = "0 lines of void returns, 0 amendments, 0 names of pools"
        assert done.stderr.startswith(f"decisions of {decided}: {counts}; {copy} is {words} old\n")


def test_a_list_beside_the_copy_is_told_to_be_unread(copy: pathlib.Path, decided: pathlib.Path) -> None:
    copy.with_name("void.txt").write_text("RADIO1\n")
    for words in (["propose", str(copy), "--amount", "5"], ["statement", str(copy), "UNCLAIMED"]):
        done = CliRunner(mix_stderr=False).invoke(main, words, catch_exceptions=False)
        assert f"note: {copy.with_name('void.txt')} is not read: what counts is void.txt of the folder of decisions\n" in done.stderr
    said = run("propose", copy, "--amount", 5, "--void", copy.with_name("void.txt"), status=2)
    assert "--void is no more: the list stands in the folder of decisions, as void.txt there" in said
