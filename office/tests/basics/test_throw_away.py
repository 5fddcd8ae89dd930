"""Throw-away folders: none is left, also of a command that was killed, and none is taken away that another one has."""

import contextlib
import os
import pathlib
import subprocess
import sys
import tempfile
from collections.abc import Iterator

import pytest
from conftest import ROOT
from society_office.basics import throw_away
from society_office.basics.throw_away import PREFIX, room


@pytest.fixture(autouse=True)
def temporary(tmp_path: pathlib.Path, monkeypatch: pytest.MonkeyPatch) -> pathlib.Path:
    """The folder in which throw-away ones are made while a test runs."""
    monkeypatch.setattr(tempfile, "tempdir", str(tmp_path))
    return tmp_path


@contextlib.contextmanager
def another() -> Iterator[pathlib.Path]:
    """The folder of another command, which is killed by SIGKILL at the end."""
    script = (
        "import signal; from society_office.basics.throw_away import room\n"
        "with room() as made:\n"
        "    (made / 'within').mkdir(); (made / 'within/copy.db').write_bytes(b'a book'); print(made, flush=True); signal.pause()\n"
    )
    environment = {**os.environ, "TMPDIR": tempfile.gettempdir(), "PYTHONPATH": str(ROOT / "office")}
    with subprocess.Popen([sys.executable, "-c", script], env=environment, stdout=subprocess.PIPE, text=True) as process:
        assert process.stdout is not None
        try:
            yield pathlib.Path(process.stdout.readline().rstrip("\n"))
        finally:
            process.kill()


def test_nothing_is_left(temporary: pathlib.Path) -> None:
    with pytest.raises(KeyError), room() as made:
        assert made.name.startswith(PREFIX) and made.stat().st_mode & 0o777 == 0o700
        (made / "copy.db").touch()
        raise KeyError
    assert list(temporary.iterdir()) == []


def test_what_a_killed_command_has_left_is_taken_away(temporary: pathlib.Path) -> None:
    with another() as left, another() as also, room() as made:
        assert set(temporary.iterdir()) == {left, also, made}
    assert set(temporary.iterdir()) == {left, also}
    with room() as made:
        assert list(temporary.iterdir()) == [made]


def test_what_is_not_of_a_killed_command_stays(temporary: pathlib.Path, monkeypatch: pytest.MonkeyPatch) -> None:
    kept = {temporary / f"{PREFIX}file", temporary / f"{PREFIX}link", temporary / "society-office-other", temporary / "elsewhere"}
    (temporary / f"{PREFIX}file").touch()
    (temporary / "elsewhere").mkdir()
    (temporary / "society-office-other").mkdir()
    (temporary / f"{PREFIX}link").symlink_to(temporary / "elsewhere")
    with room():
        pass
    assert set(temporary.iterdir()) == kept
    (temporary / f"{PREFIX}another's").mkdir()
    own = os.geteuid()
    monkeypatch.setattr(os, "geteuid", lambda: own + 1)
    throw_away.clear(temporary)
    assert set(temporary.iterdir()) == {*kept, temporary / f"{PREFIX}another's"}


def test_one_that_was_taken_away_before_it_had_its_lock_is_made_anew(temporary: pathlib.Path, monkeypatch: pytest.MonkeyPatch) -> None:
    begun = list[str]()

    class Folder(tempfile.TemporaryDirectory[str]):
        """One that another command clears before anybody has its lock."""

        def __init__(self, prefix: str) -> None:
            super().__init__(prefix=prefix)
            begun.append(self.name)
            if len(begun) == 1:
                throw_away.clear(temporary)

    monkeypatch.setattr("society_office.basics.throw_away.tempfile.TemporaryDirectory", Folder)
    with room() as made:
        assert [str(made)] == begun[1:] and list(temporary.iterdir()) == [made]
    assert list(temporary.iterdir()) == []
