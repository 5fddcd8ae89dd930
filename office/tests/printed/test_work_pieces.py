"""The pieces of the search in the pages: read as their own text says, they find what a search by hand finds."""

import json
import pathlib
import random
import re
from typing import Any

import pytest
import quarter
import works_by_hand
from command import run
from conftest import made
from desk import ANNA, HOUSE, NAMES, OTHER, file, holder, work
from office_value import Office, Pool, Return, Step
from society_office.book.copy import open_copy
from society_office.printed import work_pages, work_pieces
from society_office.printed.site import Site
from society_office.works import every_work, work_search_output
from society_office.works.work_search import Part, Thing, asked
from texts import HOSTILE, question, with_texts

PIECE = re.compile(r'taken\("([0-9a-f]{12})","([a-z0-9]+)",(.*)\);\n', re.DOTALL)
DIGITS = work_pieces.DIGITS


def works_of(text: str) -> set[int]:
    """The works of a text: runs, or six flags a digit behind a point."""
    if text.startswith("."):
        return {6 * k + bit for k, it in enumerate(text[1:]) for bit in range(6) if DIGITS.index(it) >> bit & 1}
    numbers, unit, number = [], 1, 0
    for it in map(DIGITS.index, text):
        number, unit = number + it % 32 * unit, unit * 32
        if it < 32:
            numbers.append(number)
            unit, number = 1, 0
    found, place, listed = set[int](), 0, iter(numbers)
    for it in listed:
        place += it // 2
        size = next(listed) + 2 if it % 2 else 1
        found.update(range(place, place + size))
        place += size
    return found


class Reader:
    """Reads pieces as a browser does, and counts what was fetched for one word."""

    def __init__(self, files: dict[str, str]) -> None:
        """By the names and texts of all files."""
        self.files = {it[2]: it[3] for it in map(PIECE.fullmatch, files.values()) if it}
        assert len(self.files) == len(files) and len({it[1] for it in map(PIECE.fullmatch, files.values()) if it}) == 1
        self.begin, self.fetched = self.piece("begin"), set[str]()

    def piece(self, name: str) -> Any:
        return json.loads(self.files[name])

    def beginning(self, word: str) -> set[int]:
        """The works with a word that begins so; at most two pieces are read, or one of a wide beginning."""
        if len(word) < 2:
            return set()
        begins = self.begin["begins"]
        near = [k for k, it in enumerate(begins) if it[: len(word)] == word or it < word and (k + 1 == len(begins) or word < begins[k + 1])]
        if word in self.begin["wide"]:
            return works_of(self.piece(f"b{self.begin['wide'].index(word)}"))
        assert len(near) <= 2, (word, near)
        found, last = set[int](), ""
        for k in near:
            listed = str(self.piece(str(k))).split(" ")
            for told, works in zip(listed[::2], listed[1::2]):
                last = last[: int(told[0], 17)] + told[1:]
                found |= works_of(works) if last.startswith(word) else set()
        return found

    def found(self, things: list[Thing]) -> set[int]:
        found = set(range(self.begin["works"]))
        for it in things:
            found &= self.beginning("n" + it.number) | self.every([self.having(part) for part in it.parts])
        return found

    def having(self, part: Part) -> set[int]:
        return self.beginning("n" + part.number) | self.every([self.beginning("w" + it) for it in part.words])

    def every(self, listed: list[set[int]]) -> set[int]:
        return set.intersection(*listed) if listed else set()

    def shown(self, place: int) -> list[str]:
        found: list[str] = self.piece(f"t{place // self.begin['titles']}")[place % self.begin["titles"]]
        return found


@pytest.mark.parametrize("number", range(6))
def test_pieces_find_what_a_search_by_hand_finds(program: str, folder: pathlib.Path, monkeypatch: pytest.MonkeyPatch, number: int) -> None:
    office, rng, size = with_texts(number), random.Random(f"pieces {number}"), [1, 60, 400, 2_000, 60, 400][number]
    monkeypatch.setattr(work_pieces, "LONGEST_PIECE", size)
    monkeypatch.setattr(work_pieces, "TITLES", 3)
    with open_copy(made(program, office, folder)) as copy:
        files = dict(Site(copy, None, lambda _: None).files())
    reader = Reader({name: text for name, text in files.items() if name.startswith("find/")})
    assert (size > 1 or len(reader.begin["wide"]) > 9) and reader.begin["works"] == len(works_by_hand.found(office, []))
    questions: list[list[str]] = [[], *([it] for it in HOSTILE), *(question(rng, office) for _ in range(60))]
    for words in questions:
        shown = [reader.shown(it) for it in sorted(reader.found(asked(words)))]
        assert [(it[3], it[2]) for it in shown] == works_by_hand.found(office, words), words
        assert all(f"works/{it[3]}/{it[1]}.html" in files for it in shown)


def test_works_are_written_as_runs_or_flags() -> None:
    rng = random.Random("runs")
    for every in (1, 2, 3, 50, 700):
        works = sorted(rng.sample(range(3_000), 3_000 // every))
        assert works_of(work_pieces.written(works)) == set(works)
    assert work_pieces.written(range(3_000)) == "B29C" and len(work_pieces.written(range(0, 3_000, 2))) < 520
    assert work_pieces.written([0]) == "A" and work_pieces.written([16]) == "gB" and works_of("gB") == {16}


def test_a_piece_is_no_longer_than_it_may_be(monkeypatch: pytest.MonkeyPatch) -> None:
    monkeypatch.setattr(work_pieces, "LONGEST_PIECE", 100)
    words = sorted({f"w{k % 7}{'x' * (k % 40)}{k}" for k in range(400)})
    found = list(work_pieces.blocks((it, "AAAA") for it in words))
    assert all(len(text) <= 100 + len(begun) for begun, text in found) and len(found) > 50
    assert [it[0] for it in found] == sorted(it[0] for it in found) and found[0][0] == ""


@pytest.mark.parametrize("number, name", [("W1", "W1"), ("A/1-b", "A-2F1-2Db"), (" Ü", "-20-DC"), ("", "-")])
def test_the_name_of_a_work_is_its_pages(number: str, name: str) -> None:
    assert work_pages.page_of(number) == name


def test_the_page_of_a_work(copy: pathlib.Path, tmp_path: pathlib.Path) -> None:
    run("site", copy, "--into", tmp_path / "site")
    pages = tmp_path / f"site/works/{quarter.ALPHA}"
    page = (pages / "A1.html").read_text()
    for it in ("FIRST SONG (LIVE)", "ATABC2600001, ATABC2600004", "revision 1: accepted", "ANNA WRITER", "231,428", "2,248,860"):
        assert it in page
    assert "registration: rejected, fault 20: an NWR of a work that is registered; revision 1 of file 2 stands" in page
    assert "Cure: send a REV." in page and page.count("what stands above") == 1
    assert 'revision 1: accepted</span></td><td data-label="Says"><span>what stands above' in page
    assert "FIRST SONG, T0345246801<br>ATABC2600001<br>I00000000199 ALPHA MUSIC, publisher: 50 % of the PR" in page
    late = (pages / "A4.html").read_text()
    assert "registered since: revision 0 with file 3" in late and "Not registered" not in late
    never = (pages / "A5.html").read_text()
    assert "Not registered" in never and "not registered since" in never and "<p>Nothing.</p>" in never
    waits = (tmp_path / f"site/works/{quarter.GAMMA}/G3.html").read_text()
    assert "registration: waits" in waits
    listed = (tmp_path / f"site/works/{quarter.ALPHA}.html").read_text()
    assert listed.count("<tr>") == 8 and listed.count(">rejected<") == 3 and 'href="../works/PB000000012/A4.html">TOO MUCH' in listed


def test_the_page_finds_by_the_same_letters() -> None:
    script = (pathlib.Path(work_pieces.__file__).parent / "templates/works.js").read_text()
    assert f'const DIGITS = "{DIGITS}"' in script and f'const COMMON = "{work_pieces.COMMON}"' in script


def check_each(path: pathlib.Path) -> int:
    """Each work is what a search tells of it; how many pools have credited works."""
    listed = json.loads(run("works", path, "--most", 1_000, "--format", "json"))["works"]
    with open_copy(path) as copy:
        found = [work_search_output.work_told(it) for it, _ in every_work.every_work(copy)]
    assert sorted(found, key=lambda it: (it["sender"], it["work"])) == sorted(listed, key=lambda it: (it["sender"], it["work"]))
    return sum(len(it["credited"]) for it in found)


def test_each_work_is_what_a_search_tells_of_it(copy: pathlib.Path, program: str, folder: pathlib.Path) -> None:
    assert check_each(copy) > 9
    # (two works of one number, of two senders)
    shares, returns = holder(ANNA, 5_000), [Return("RADIO1", 1, [("ATABC2600001", 1, 60), ("ATABC2600002", 3, 60)])]
    files = [file(HOUSE, 1, work("W1", "ATABC2600001", shares)), file(OTHER, 1, work("W1", "ATABC2600002", shares))]
    steps: list[Step] = [*returns, *files, Pool(1, "PR", 1_000, {HOUSE: 1, OTHER: 1}, [("RADIO1", 1)])]
    assert check_each(made(program, Office(NAMES, steps), folder)) == 2
