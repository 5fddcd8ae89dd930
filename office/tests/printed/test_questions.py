"""Ten questions of a day: the command and the page that the documents name for each have its answer, in the office of the documents."""

import pathlib
import re
import shlex

import pytest
from command import run
from conftest import ROOT, backed_up, put, served

# What answers each question, in what the command prints and on the page.
ANSWERS = {
    "Is this work registered, and by whom?": ("W1 of PB000000012 EXAMPLE MUSIC", ">PB000000012 EXAMPLE MUSIC</a>"),
    "Who has this ISRC?": ("I00000000295 ANNA WRITER, writer: 50 % of the PR", "ANNA WRITER"),
    "What did it earn?": ("pool 1, PR: 943 units", ">943<"),
    "Why was it rejected?": ("fault 5: the ownership shares of a right", "Fault 5: the ownership shares of a right"),
    "What does a file wait for?": ("missing, so that they wait: 3", '<td data-label="Missing">3</td>'),
    "What was a writer credited?": ("471 units in all, which is the balance", ""),
    "How did that come about?": ("the recording, 2,000 points: 1,000 * 2,000 / 2,120 = 943", ""),
    "Why went this money to nobody?": ("no file names it", "no file names it"),
    "What was played that nobody has?": ("DEXYZ2600003: 57 units, 6 plays, 360 points; RADIO1/1-3", ""),
    "Which pool has paid this return?": ("", 'paid by pool <a href="pools/1.html">1</a>'),
}
ROW = re.compile(r"^\| ([^|]+\?) \| (?:`([^`]+)`)? ?\| ([^| ]*) ?\|$", re.MULTILINE)
PLAYS = b"isrc,plays,seconds\nATABC2600001,10,200\nDEXYZ2600003,2,60\n"
ORDER = b'{"amount":1000,"cut":[["PB000000012",1]],"returns":[["RADIO1",1]]}'


def rows() -> list[tuple[str, str, str]]:
    """The rows of the table: question, command, page."""
    text = (ROOT / "docs/OFFICE.md").read_text().partition("## Ten questions of a day\n")[2].partition("\n## ")[0]
    return [(it[1], it[2] or "", it[3]) for it in ROW.finditer(text)]


@pytest.fixture
def office(program: str, tmp_path: pathlib.Path) -> pathlib.Path:
    """A folder with a copy of the office that the documents make."""
    first = (ROOT / "examples/first.cwr").read_bytes()
    over = first.replace(b"05000   00000   00000", b"05007   00000   00000")
    letters = [(f"/senders/PB000000012/transmissions/{number}", body) for number, body in ((1, first), (2, over), (4, over))]
    letters += [("/returns/RADIO1/1", PLAYS), ("/pools/1", ORDER)]
    letters.append(("/senders/PB000000034/transmissions/1", first.replace(b"PB000000012", b"PB000000034")))
    letters += [(f"/returns/RADIO1/{number}", PLAYS) for number in (2, 3)]
    with served(program, tmp_path / "office.db") as connection:
        assert [put(connection, *it) for it in letters] == [201, 201, 202, 201, 201, 201, 201, 201]
    backed_up(tmp_path / "office.db", tmp_path / "copy.db")
    return tmp_path


def test_each_question_has_an_answer(office: pathlib.Path, monkeypatch: pytest.MonkeyPatch) -> None:
    monkeypatch.chdir(office)
    assert [it[0] for it in rows()] == list(ANSWERS) and len(ANSWERS) == 10
    run("site", office / "copy.db", "--into", office / "site")
    for question, command, page in rows():
        said, shown = ANSWERS[question]
        assert bool(command) == bool(said) and bool(page) == bool(shown) and (command or page), question
        if command:
            assert said in run(*shlex.split(command)), question
        if page:
            assert shown in (office / "site" / page).read_text(), question
