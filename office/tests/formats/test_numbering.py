"""A sender's line through its years, beside a reckoning of its own."""

import random

import pytest
from society_office.formats.numbering import PLAIN, Line, as_sent, number_in, ranges, rank_in, rank_of, segment_of

FIRST_YEAR, LAST_YEAR, MOST = 20, 24, 5


def line_of(rng: random.Random) -> tuple[Line, list[int], set[int]]:
    """A line with its front reckoned; the numbers in the order of the stated ends, as far as these go, and the years that are led past."""
    ends: dict[int, tuple[int, int]] = {}
    order, past, segment = list[int](), set[int](), PLAIN
    while rng.random() < 0.6 and segment < LAST_YEAR:
        following = rng.randint(max(segment + 1, FIRST_YEAR), LAST_YEAR)
        ends[segment] = (rng.randint(0, MOST), following)
        order += [rank_in(segment, k + 1) for k in range(ends[segment][0])]
        past |= set(range(segment + 1, following))
        segment = following
    order += [rank_in(segment, k + 1) for k in range(MOST)]
    elsewhere = [rank_in(it, k + 1) for it in range(FIRST_YEAR, LAST_YEAR + 1) for k in range(MOST) if it not in ends and it != segment]
    there = {it for it in order if rng.random() < 0.8} | {it for it in elsewhere if rng.random() < 0.1}
    front = 0
    for k, it in enumerate([0, *order]):
        if it and it not in there:
            break
        front = it
        # (where an end is reached, the line stands before the first number of the year that follows)
        if k < len(order) and segment_of(order[k]) != segment_of(it):
            front = rank_in(segment_of(order[k]), 0)
    return Line("PB000000012", front, 0, ends, sorted(there)), order, past


@pytest.mark.parametrize("seed", range(300))
def test_what_waits_and_what_for(seed: int) -> None:
    line, order, past = line_of(random.Random(seed))
    there = set(line.numbers)
    done = len([it for it in order if it <= line.front])
    later = [it for it in there if segment_of(it) > segment_of(order[-1])]
    waiting = sorted({it for it in order[done:] if it in there} | set(later))
    stops = [k for k, it in enumerate(order) if it in there and k >= done]
    # Behind the last segment that the ends lead to nothing is reached: there all that its own files wait for is missing.
    last = len(order) - MOST if later and (not stops or stops[-1] < len(order) - MOST) else stops[-1] if stops else 0
    assert line.applied == [it for it in order[:done]]
    assert line.skipped == sorted(it for it in there if segment_of(it) in past)
    assert line.waiting == waiting
    assert line.missing == [it for it in order[done:last] if it not in there]
    assert line.lacks_end == (segment_of(order[-1]) if later else None)


def test_what_waits_behind_an_end_that_is_stated_ahead() -> None:
    line = Line("PB000000012", 1, 1, {PLAIN: (3, 26)}, [1, 1_260_002])
    assert [as_sent(it) for it in line.missing] == ["2", "3", "26-0001"]
    assert line.waiting == [1_260_002] and line.skipped == [] and line.lacks_end is None


@pytest.mark.parametrize("sent, rank", [("7", 7), ("26-0001", 1_260_001), (12, 12), ("x", None), ("٣", None), ("26-1", None)])
def test_numbers(sent: str, rank: int | None) -> None:
    assert rank_of(sent) == rank and (rank is None or as_sent(rank) == str(sent))


@pytest.mark.parametrize("segment, number", [(PLAIN, 1), (PLAIN, 999_999), (0, 1), (26, 1), (26, 9_999), (99, 9_999)])
def test_a_number_of_a_segment(segment: int, number: int) -> None:
    rank = rank_in(segment, number)
    assert (segment_of(rank), number_in(rank)) == (segment, number)


def test_ranges() -> None:
    assert ranges([1, 2, 3, 7, 1_260_001, 1_260_002]) == "1 to 3, 7, 26-0001 to 26-0002"
    assert ranges([1, 3, 5, 6], 1) == "1 and 3 more"
