"""Names of returns, written in one way on the command line, in lists of void returns, and in what is printed."""

import dataclasses
import itertools
import pathlib
import re
from collections.abc import Iterable, Sequence

from society_office.basics.errors import OfficeError
from society_office.formats.word_lists import entries_of

Return = tuple[str, int]
LAST_NUMBER = 999_999
NUMBERS = r"[1-9][0-9]{0,5}(?:-[1-9][0-9]{0,5})?"
ENTRY = re.compile(rf"([0-9A-Z]{{1,20}})(?:/({NUMBERS}(?:,{NUMBERS})*))?", re.ASCII)
FORMS = "write RADIO1, RADIO1/3 or RADIO1/3-5,8"


@dataclasses.dataclass(frozen=True)
class Entry:
    """Some returns: all of a reporter, or those of some ranges of numbers; and where that was written."""

    words: str
    where: str
    reporter: str
    ranges: tuple[tuple[int, int], ...] = ()

    def has(self, it: Return) -> bool:
        """Whether a return is one of them."""
        return it[0] == self.reporter and (not self.ranges or any(first <= it[1] <= last for first, last in self.ranges))

    @property
    def told(self) -> str:
        """It, and where it was written."""
        return f"{self.where}: {self.words}"


def entry(words: str, where: str) -> Entry:
    """What `RADIO1`, `RADIO1/3` or `RADIO1/3-5,8` names; an OfficeError that tells where anything else was written."""
    found = ENTRY.fullmatch(words)
    if not found:
        raise OfficeError(f"{where}: {words!r} names no returns: {FORMS}{hint(words)}")
    ranges = []
    for part in found[2].split(",") if found[2] else ():
        first, _, last = part.partition("-")
        if last and int(last) < int(first):
            raise OfficeError(f"{where}: {words!r} has a range that falls, {part}: {FORMS}")
        ranges.append((int(first), int(last or first)))
    return Entry(words, where, found[1], tuple(ranges))


def hint(words: str) -> str:
    """What is wrong with words that name no returns, where that can be told."""
    if re.search(r"\s", words):
        return ", without blanks, and a remark behind `#`"
    if not words.isascii() or not words.isprintable():
        return ", in capital letters, digits, `/`, `-` and `,` only"
    return ", in capital letters" if words != words.upper() else ""


def one_return(words: str) -> Return:
    """The one return that `RADIO1/3` names; an OfficeError where it is none, or names several."""
    found = ENTRY.fullmatch(words)
    if not found or not found[2] or not found[2].isdigit():
        raise OfficeError(f"{words!r} names no return: write RADIO1/3")
    return found[1], int(found[2])


def entries(words: Iterable[str], where: str) -> list[Entry]:
    """What some words name that were given one after another."""
    return [entry(it, where) for it in words]


def listed(file: pathlib.Path) -> list[Entry]:
    """The entries of a list, one in a line, with a remark behind `#`; an OfficeError with the line of what is none."""
    return [entry(words, where) for where, words in entries_of(file)]


def unmatched(given: Iterable[Entry], stored: Iterable[Return]) -> list[Entry]:
    """The entries that name no stored return."""
    there = list(stored)
    return [it for it in given if not any(it.has(one) for one in there)]


def ranges_text(numbers: Iterable[int]) -> str:
    """Numbers as they are written behind a reporter: `3-5,8`."""
    ordered = sorted(set(numbers))
    runs = [list(run) for _, run in itertools.groupby(enumerate(ordered), key=lambda it: it[1] - it[0])]
    return ",".join(str(run[0][1]) if len(run) == 1 else f"{run[0][1]}-{run[-1][1]}" for run in runs)


def names(returns: Iterable[Return]) -> list[str]:
    """Returns as entries that name just these, one for each reporter."""
    by_reporter: dict[str, list[int]] = {}
    for reporter, number in returns:
        by_reporter.setdefault(reporter, []).append(number)
    return [f"{reporter}/{ranges_text(numbers)}" for reporter, numbers in sorted(by_reporter.items())]


def names_text(returns: Iterable[Return]) -> str:
    """Returns in words."""
    return ", ".join(names(returns))


def are_listed(given: Sequence[Entry], it: Return) -> bool:
    """Whether one of the entries names a return."""
    return any(one.has(it) for one in given)
