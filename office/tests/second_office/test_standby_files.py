"""What stands beside the book reaches the standby whole, and never in the place of what a standby in service has decided."""

import pathlib
import subprocess
import sys

import pytest
from command import Word
from conftest import ROOT
from society_office.basics.errors import OfficeError
from society_office.decided import decisions
from society_office.second_office import standby_files


@pytest.fixture
def standby(tmp_path: pathlib.Path) -> pathlib.Path:
    """The root of a standby."""
    (tmp_path / "standby").mkdir()
    return tmp_path / "standby"


def there(standby: pathlib.Path, folder: pathlib.Path) -> pathlib.Path:
    """Where a folder stands at the standby."""
    return standby / folder.relative_to("/")


def content(folder: pathlib.Path) -> dict[str, bytes]:
    """What a folder has."""
    return {str(it.relative_to(folder)): it.read_bytes() for it in folder.rglob("*") if it.is_file()}


def void(folder: pathlib.Path, name: str) -> None:
    """Decides that a return is void."""
    decisions.add(folder, decisions.VOID, [name], f"void {name}", "a wrong month")


def test_all_that_is_decided_comes(decided: pathlib.Path, standby: pathlib.Path, tmp_path: pathlib.Path) -> None:
    proxy = tmp_path / "proxy"
    proxy.mkdir()
    (proxy / "passwords").write_text("office:x\n")
    void(decided, "RADIO1/3")
    said = standby_files.bring(f"{standby}/", decided, [str(proxy)])
    assert said == f"{standby}/ has the decisions of {decided}: 1 line of void returns, 0 amendments, 0 names of pools"
    assert content(there(standby, decided)) == content(decided) and content(there(standby, proxy)) == {"passwords": b"office:x\n"}
    void(decided, "RADIO1/4")
    (decided / "orders").mkdir()
    (decided / "orders/6.json").write_text("{}")
    (proxy / "passwords").unlink()
    standby_files.bring(str(standby), decided, [str(proxy)])
    assert content(there(standby, decided)) == content(decided) and content(there(standby, proxy)) == {}
    assert [it.words for it in decisions.read(there(standby, decided)).void] == ["RADIO1/3", "RADIO1/4"]


def test_a_folder_that_was_begun_there_is_none(decided: pathlib.Path, standby: pathlib.Path) -> None:
    decisions.begin(there(standby, decided))
    void(decided, "RADIO1/3")
    standby_files.bring(str(standby), decided, [])
    assert content(there(standby, decided)) == content(decided)


@pytest.mark.parametrize("is_by_hand", [True, False])
def test_what_a_standby_has_decided_stays(decided: pathlib.Path, standby: pathlib.Path, is_by_hand: bool) -> None:
    """It is in service, and the old office, which came back, knows nothing of it."""
    void(decided, "RADIO1/3")
    standby_files.bring(str(standby), decided, [])
    if is_by_hand:
        (there(standby, decided) / "void.txt").write_text("RADIO1\n")
    else:
        void(there(standby, decided), "RADIO2/1")
    void(decided, "RADIO1/4")
    before = content(there(standby, decided))
    what = "void.txt by hand" if is_by_hand else "void RADIO2/1, by "
    with pytest.raises(OfficeError, match=f"has decided by itself: {what}") as raised:
        standby_files.bring(str(standby), decided, [])
    assert "Nothing was brought" in str(raised.value) and content(there(standby, decided)) == before


def test_what_is_wrong_here_does_not_come(decided: pathlib.Path, standby: pathlib.Path) -> None:
    void(decided, "RADIO1/3")
    standby_files.bring(str(standby), decided, [])
    before = content(there(standby, decided))
    (decided / "void.txt").unlink()
    with pytest.raises(OfficeError, match="has no void.txt"):
        standby_files.bring(str(standby), decided, [])
    assert content(there(standby, decided)) == before


def test_what_is_wrong_there_is_told(decided: pathlib.Path, standby: pathlib.Path) -> None:
    standby_files.bring(str(standby), decided, [])
    (there(standby, decided) / "void.txt").write_text("radio\n")
    with pytest.raises(OfficeError, match="can't be read, so nothing was brought"):
        standby_files.bring(str(standby), decided, [])


def test_as_a_unit_runs_it(decided: pathlib.Path, standby: pathlib.Path, tmp_path: pathlib.Path) -> None:
    """The words of the unit, with an outcome in one line."""
    command = [sys.executable, "-m", "society_office.second_office.standby_files"]
    cases: tuple[tuple[list[Word], int, str], ...] = (
        ([standby, decided], 0, f"{standby} has the decisions of "),
        ([tmp_path / "none" / "deeper", decided], 1, "society-office: rsync ended with status "),
        ([standby, tmp_path / "none"], 1, f"society-office: {tmp_path / 'none'} is no folder of decisions"),
        ([standby], 2, standby_files.USAGE),
        (["", decided], 2, standby_files.USAGE),
    )
    for words, status, line in cases:
        done = subprocess.run([*command, *map(str, words)], cwd=ROOT / "office", capture_output=True, text=True, check=False)
        assert done.returncode == status and (done.stdout + done.stderr).startswith(line), done
        assert len((done.stdout + done.stderr).splitlines()) == 1
    unit = (ROOT / "debian/units/society-standby-files.service").read_text()
    assert "society_office.second_office.standby_files " in unit and f" {decisions.FOLDER} " in unit
