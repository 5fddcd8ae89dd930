"""The office of a quarter, filled through the program once for all tests."""

import contextlib
import http.client
import os
import pathlib
import shutil
import subprocess
import sys
import tempfile
from collections.abc import Iterator, Sequence

import pytest

HERE = pathlib.Path(__file__).resolve().parent
ROOT = HERE.parent.parent
# (a test may take what another one has, of any folder)
FOLDERS = sorted(it for it in HERE.iterdir() if it.is_dir() and it.name != "__pycache__")
sys.path[:0] = [str(it) for it in (HERE, HERE.parent, ROOT / "harness", *FOLDERS)]

import quarter  # noqa: E402 (the folder of the tests comes first)
import served as harness  # noqa: E402
from office_value import Office  # noqa: E402
from society_office.book import book_log  # noqa: E402
from society_office.decided import decisions  # noqa: E402
from society_office.offices import book_files  # noqa: E402


OFFICE = harness.OFFICE
TAKEN = {200, 201, 202}


def program_under_test() -> str:
    """The program: $SOCIETY_PROGRAM, else the one that is built of this checkout; where none is, nothing is tried."""
    if found := os.environ.get("SOCIETY_PROGRAM"):
        # (it is run from other folders too)
        return os.path.abspath(found)
    if not (built := harness.built_program()):
        pytest.exit("no program is built of these sources: build it by bin/society --help, or name one by $SOCIETY_PROGRAM", 2)
    return str(built)


def knows_credit(program: str) -> bool:
    """Whether a program answers `credit`."""
    asked = subprocess.run([program, "credit", "--help"], stdout=subprocess.PIPE, stderr=subprocess.STDOUT, text=True, check=False)
    return "unrecognized" not in asked.stdout


@pytest.fixture(scope="session")
def program(tmp_path_factory: pytest.TempPathFactory) -> Iterator[str]:
    """The program under test; where it does not know `credit`, credit_by_hand.py answers that in its place."""
    found = program_under_test()
    if not knows_credit(found):
        script = tmp_path_factory.mktemp("program") / "society"
        by_hand = f'exec {sys.executable} {HERE / "credit_by_hand.py"} "$@"'
        script.write_text(f'#!/bin/sh\n[ "$1" = credit ] || exec {found} "$@"\n{by_hand}\n')
        script.chmod(0o755)
        found = str(script)
    with pytest.MonkeyPatch.context() as patch:
        patch.setenv("SOCIETY_PROGRAM", found)
        yield found


@contextlib.contextmanager
def running(
    program: str, database: pathlib.Path, port: int, *words: str, office: Sequence[str] = OFFICE
) -> Iterator[subprocess.Popen[bytes]]:
    """An office over a file, which listens; whatever fails meanwhile, it is ended with the `with`."""
    with harness.Server(program, database, None, *words, port=port, office=office) as server:
        assert server.first == harness.LISTENING
        yield server.process


@contextlib.contextmanager
def served(program: str, database: pathlib.Path) -> Iterator[http.client.HTTPConnection]:
    """An office over a file, with one connection to it; the office ends with the connection."""
    with running(program, database, port := harness.free_port(), "--connections", "1") as process:
        with contextlib.closing(harness.asked_at(port, 300)) as connection:
            connection.connect()
            yield connection
        process.wait(60)


def put(connection: http.client.HTTPConnection, path: str, body: bytes) -> int:
    """Sends a body; answers the status."""
    return harness.ask(connection, "PUT", f"/v1{path}", body)[0]


def made(program: str, office: Office, folder: pathlib.Path) -> pathlib.Path:
    """A copy of the file of an office that was sent all that the value says; the office has ended."""
    with served(program, folder / "office.db") as connection:
        for path, body in office.requests():
            assert put(connection, path, body) in TAKEN, path
    return backed_up(folder / "office.db", folder / "copy.db")


def further(program: str, copy: pathlib.Path, requests: list[tuple[str, bytes]], target: pathlib.Path) -> pathlib.Path:
    """A copy of an office that goes on from another copy with further requests."""
    working = pathlib.Path(shutil.copy(copy, target.with_name("working.db")))
    with served(program, working) as connection:
        for path, body in requests:
            assert put(connection, path, body) in TAKEN, path
    backed_up(working, target)
    for it in target.parent.glob("working.db*"):
        it.unlink()
    return target


def backed_up(source: pathlib.Path, target: pathlib.Path) -> pathlib.Path:
    """A copy of an office's file, as its one file."""
    book_log.join(source, book_files.log_of(source), target)
    return target


@pytest.fixture(scope="session")
def filled(program: str, tmp_path_factory: pytest.TempPathFactory) -> pathlib.Path:
    """The file of the quarter's office, which has ended, as its one file."""
    return made(program, quarter.OFFICE, tmp_path_factory.mktemp("office"))


@pytest.fixture
def copy(filled: pathlib.Path, tmp_path: pathlib.Path) -> pathlib.Path:
    """A copy of the quarter's office of a test's own."""
    return pathlib.Path(shutil.copy(filled, tmp_path / "copy.db"))


@pytest.fixture(autouse=True)
def decided(tmp_path_factory: pytest.TempPathFactory, monkeypatch: pytest.MonkeyPatch) -> pathlib.Path:
    """The folder of decisions of a test, in which nothing is decided yet."""
    found = tmp_path_factory.mktemp("decided")
    decisions.begin(found)
    monkeypatch.setenv(decisions.VARIABLE, str(found))
    return found


@pytest.fixture
def folder(monkeypatch: pytest.MonkeyPatch) -> Iterator[pathlib.Path]:
    """A throw-away folder, in memory where there is one; the commands' own throw-away copies are made there too."""
    memory = "/dev/shm" if os.access("/dev/shm", os.W_OK) else None
    with tempfile.TemporaryDirectory(prefix="random-office-", dir=memory) as found:
        monkeypatch.setattr(tempfile, "tempdir", found)
        yield pathlib.Path(found)
