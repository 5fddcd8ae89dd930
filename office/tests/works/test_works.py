"""Works are found as a search by hand finds them, whatever is asked for, and what is told of each is what was sent and credited."""

import contextlib
import json
import pathlib
import random
from collections.abc import Iterator

import pytest
import quarter
import works_by_hand
from command import run
from conftest import made
from office_value import Office
from society_office.book.copy import open_copy
from society_office.works import registered_works, work_index
from society_office.works.work_search import asked, is_found, number_of, told, words_of
from texts import HOSTILE, question, with_texts

COUNT, QUESTIONS = 12, 60


@pytest.mark.parametrize(
    "text, words",
    [
        ("FIRST SONG (LIVE)", ["first", "song", "live"]),
        ("Ärger", ["arger"]),
        ("ARGER", ["arger"]),
        ("A\u0308rger", ["arger"]),
        ("smørrebrød SMØRREBRØD", ["smorrebrod", "smorrebrod"]),
        ("Straße STRASSE ẞ", ["strasse", "strasse", "ss"]),
        ("Łódź ŁÓDŹ lodz", ["lodz", "lodz", "lodz"]),
        ("Æsir Œuvre Þór Đorđe ŊĦŦ ı", ["aesir", "oeuvre", "thor", "dorde", "nht", "i"]),
        ("İstanbul", ["istanbul"]),
        ("ΕΛΛΆΣ Ελλάς", ["ελλασ", "ελλασ"]),
        ("Щука й", ["щука", "и"]),
        ("ﬁ Ⅷ ½ ＡＢ", ["fi", "viii", "1", "⁄", "2", "ab"]),
        ("R.E.M./AC-DC_x, don’t", ["r", "e", "m", "ac", "dc", "x", "don", "t"]),
        ("=1+1 I♥U", ["=", "1", "+", "1", "i", "♥", "u"]),
        ("👨\u200d👩 so\u00adft", ["👨", "👩", "soft"]),
        ("\x00a\tb\u2028c\udcff", ["a", "b", "c"]),
        ("王小明 한글", ["王小明", "".join(map(told, "한글"))]),
        (" .,;'\"*()[]{}%&?!@#/\\:_-", []),
    ],
)
def test_the_words_of_a_text(text: str, words: list[str]) -> None:
    assert words_of(text) == words


@pytest.mark.parametrize(
    "text, number",
    [
        ("AT-ABC-26-00001", "atabc2600001"),
        ("T-034.524.680-1", "t0345246801"),
        (" W 1/ä ", "w1a"),
        ("PPB000000012B/7;=x", "ppb000000012b7x"),
        ("♥ -", ""),
    ],
)
def test_the_letters_and_digits_of_a_text(text: str, number: str) -> None:
    assert number_of(text) == number


def test_what_was_made_plain_stays_so() -> None:
    wrong = [hex(it) for it in range(0x110000) if words_of(" ".join(words_of(chr(it)))) != words_of(chr(it))]
    assert wrong == []
    assert all(len(told(chr(it))) <= 18 for it in range(0x110000))


@contextlib.contextmanager
def searched(path: pathlib.Path) -> Iterator[tuple[list[registered_works.Sent], work_index.Index]]:
    """The works of a copy one after another, and its index."""
    with open_copy(path) as copy:
        yield list(registered_works.sent_works(copy)), work_index.Index(work_index.made(copy))


@pytest.mark.parametrize("number", range(COUNT))
def test_works_are_found_as_by_hand(program: str, folder: pathlib.Path, number: int) -> None:
    office, rng, some = with_texts(number), random.Random(f"questions {number}"), 0
    with searched(made(program, office, folder)) as (works, index):
        questions: list[list[str]] = [[], *([it] for it in HOSTILE), *(question(rng, office) for _ in range(QUESTIONS))]
        for words in questions:
            wanted, things = works_by_hand.found(office, words), asked(words)
            assert [it[:2] for it in index.places(index.find(things))] == wanted, words
            assert {(it.sender, it.work) for it in works if is_found(things, it.facts)} == set(wanted), words
            some += 0 < len(wanted) < len(works)
    assert some > QUESTIONS // 3


@pytest.mark.parametrize("number", range(COUNT, COUNT + 8))
def test_what_is_told_of_each_work(program: str, folder: pathlib.Path, number: int) -> None:
    office = with_texts(number)
    check_told(made(program, office, folder), office)


def check_told(path: pathlib.Path, office: Office) -> None:
    """All works of a copy, with all that is told of each."""
    listed = json.loads(run("works", path, "--most", 1_000, "--format", "json"))
    wanted = [works_by_hand.told(office, *it) for it in works_by_hand.found(office, [])]
    for it in listed["works"]:
        for one in it["versions"]:
            assert bool(one.pop("means")) == bool(one["fault"])
        revisions = [one.pop("revision") for one in it["versions"] if one["state"] == "accepted"]
        assert revisions == list(range(len(revisions)))
        assert all(one.pop("revision", 0) == 0 for one in it["versions"])
    assert listed == {"found": len(wanted), "works": wanted}


def test_the_works_of_a_quarter(copy: pathlib.Path) -> None:
    check_told(copy, quarter.OFFICE)


@pytest.mark.parametrize("words", HOSTILE)
def test_no_word_is_an_error_or_has_another_meaning(copy: pathlib.Path, words: str) -> None:
    wanted = works_by_hand.found(quarter.OFFICE, [words])
    listed = json.loads(run("works", copy, "--format", "json", "--most", 99, "--", words))
    assert [(it["sender"], it["work"]) for it in listed["works"]] == wanted and listed["found"] == len(wanted)
