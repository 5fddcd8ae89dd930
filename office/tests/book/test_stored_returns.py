"""What is odd about returns that are stored: the same plays twice, and not those that the office itself has returned."""

import pytest
from society_office.book.stored_returns import Stored, content_of, same_plays

PLAYS = content_of([("ATABC2600001", 3, 60)])


def stored(reporter: str, number: int, pool: int = 0) -> Stored:
    return Stored(reporter, number, 1, 180, PLAYS, pool)


@pytest.mark.parametrize(
    "reporter, why",
    [
        ("RADIO2", ["the same plays as RADIO2/1, paid by pool 7 in the PR"]),
        # (the units of a make-up are no plays, though a station may have reported as many)
        ("DUE3F0A9C21", []),
        ("LATE3F0A9C21", []),
        ("AMEND1", []),
    ],
)
def test_what_the_office_itself_has_returned_is_no_play(reporter: str, why: list[str]) -> None:
    paid, named = stored(reporter, 1, pool=7), stored("RADIO1", 1)
    assert [it.why for it in same_plays([named], {it.key: it for it in (paid, named)}, {7: "PR"}, "PR")] == why
