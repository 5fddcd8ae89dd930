"""Which registered recordings may be meant by an ISRC that no work names."""

import random

import pytest
from society_office.works.likely import Registered

U = "ATABC2600001"


@pytest.mark.parametrize(
    "isrc, how",
    [
        ("TAABC2600001", "two characters exchanged"),
        ("ATABC2060001", "two characters exchanged"),
        ("ATABC2600010", "two characters exchanged"),
        ("ATABC2500001", "another year"),
        ("ATABC9900001", "another year"),
        ("DEXYZ2600001", "another registrant"),
        ("ATABD2600001", "another registrant"),
        ("ATABC2600007", "one digit another one"),
        ("ATABC2690001", "one digit another one"),
    ],
)
def test_what_may_be_meant(isrc: str, how: str) -> None:
    assert Registered(["GBGAM9999999", isrc]).likely(U) == [(isrc, how)]


@pytest.mark.parametrize("isrc", [U, "ATABC2500002", "DEXYZ2500001", "ATABC2600022", "ATABC1000260", "ATABC2600100"])
def test_what_is_not_meant(isrc: str) -> None:
    assert Registered([isrc]).likely(U) == []


def test_the_likeliest_stand_first() -> None:
    wanted = ["ATABC2600010", "ATABC2500001", "CHXYZ2600001", "DEXYZ2600001", "ATABC2600002"]
    assert [it.isrc for it in Registered(reversed(wanted)).likely(U)] == wanted


def alike(one: str, other: str) -> bool:
    """Whether one may be meant by the other, by all their characters."""
    differ = [k for k in range(12) if one[k] != other[k]]
    if len(differ) == 2 and differ[1] == differ[0] + 1 and sorted(one) == sorted(other):
        return True
    return len(differ) == 1 or {*differ} <= {5, 6} or {*differ} <= {0, 1, 2, 3, 4}


def test_each_is_found_by_comparing_all_characters() -> None:
    rng = random.Random("likely")
    begins = [f"{land}{who}{year}" for land in ("AT", "TA") for who in ("ABC", "BAC", "AB1") for year in ("26", "62", "25")]
    listed = {f"{rng.choice(begins)}{rng.randrange(300):05d}" for _ in range(900)}
    registered = Registered(listed)
    for isrc in rng.sample(sorted(listed), 60):
        unknown = isrc[:-1] + rng.choice("0123456789")
        assert {it.isrc for it in registered.likely(unknown)} == {it for it in listed - {unknown} if alike(it, unknown)}
