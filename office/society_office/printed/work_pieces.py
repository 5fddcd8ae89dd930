"""The search of works without a server: what `work_search` finds, in pieces that a browser fetches as it needs them.

    find/begin.js   how many works there are, how each piece of words begins, and which beginnings are wide
    find/7.js       a piece of all words (w) and numbers (n), in the order of UTF-16, each with the works that have it
    find/b3.js      the works with a word that begins as the fourth wide beginning: one whose words stand in more than two pieces
    find/t12.js     what a list shows of the works 300 to 324

Works are counted from 0, in the order in which `society-office works` lists them. A piece calls `taken` with the stamp of the night, its
name and what it has, so that a page has it from a disk too, and never mixes those of two nights. templates/works.js reads them.
"""

import bisect
import itertools
import json
import operator
import sqlite3
from collections.abc import Iterable, Iterator, Mapping, Sequence

from society_office.works.work_search import Facts, words_of

# How long a piece of words is at most, but for one that has a single one; how many works stand in one of titles; and how many pieces are
# read for a beginning that is not wide.
LONGEST_PIECE, TITLES, MOST = 16_000, 25, 2
# Digits of 32 and what comes behind them: a digit from 32 on has a further one behind it.
DIGITS = "ABCDEFGHIJKLMNOPQRSTUVWXYZabcdefghijklmnopqrstuvwxyz0123456789-_"
# How many letters that a word has in common with the one before it are told as a number.
COMMON = "0123456789abcdefg"
# Behind all that begins alike in UTF-16: no word has this letter.
END = "\uffff"
TABLES = """
  CREATE TABLE works (row INTEGER PRIMARY KEY, title TEXT, sender TEXT, work TEXT, shown TEXT);
  CREATE TABLE tokens (token BLOB, row INTEGER);"""


def order(word: str) -> bytes:
    """What words are ordered by: their units of UTF-16, as a browser orders them."""
    return word.encode("utf-16-be")


def digits_of(number: int) -> str:
    """A number in digits, the least one first."""
    found = ""
    while number >= 32:
        found += DIGITS[32 + number % 32]
        number //= 32
    return found + DIGITS[number]


def written(works: Sequence[int]) -> str:
    """Works in their order, as runs of how many are left out before them, or a digit for six of them behind a point: the shorter one.

    A run of one is twice what is left out; of more it is one more than that, and behind it how many more than two it has."""
    runs, behind, last = list[list[int]](), 0, -2
    for it in works:
        if it != last + 1:
            runs.append([it - behind, 0])
        runs[-1][1] += 1
        behind, last = it + 1, it
    short = "".join(digits_of(2 * gap + (size > 1)) + (digits_of(size - 2) if size > 1 else "") for gap, size in runs)
    if len(short) <= behind // 6 + 2:
        return short
    flags = bytearray(behind // 6 + 1)
    for it in works:
        flags[it // 6] |= 1 << it % 6
    return "." + "".join(map(DIGITS.__getitem__, flags))


class Pieces:
    """Gathers works one after another, then makes the pieces."""

    def __init__(self, stamp: str, others: Mapping[str, str]) -> None:
        """With the stamp that all pieces have, and letters that are looked for as others. What is gathered lies in a file of its own."""
        self.stamp, self.others, self.database = stamp, others, sqlite3.connect("")
        self.database.executescript(TABLES)

    def add(self, title: str, sender: str, work: str, facts: Facts, shown: Sequence[str]) -> None:
        """Adds a work by its title now, its sender and number, with what it is found by and what a list shows of it."""
        words = (" ".join(words_of(title)), sender, work, json.dumps(shown, ensure_ascii=False))
        row = self.database.execute("INSERT INTO works (title, sender, work, shown) VALUES (?, ?, ?, ?)", words).lastrowid
        tokens = (*("n" + it for it in facts.numbers), *("w" + it for it in facts.words))
        self.database.executemany("INSERT INTO tokens VALUES (?, ?)", ((order(it), row) for it in tokens))

    def files(self) -> Iterator[tuple[str, str]]:
        """All pieces: their names and texts."""
        ordered = self.database.execute("SELECT row, shown FROM works ORDER BY title, sender, work").fetchall()
        self.database.execute("CREATE INDEX by_token ON tokens (token, row)")
        self.places = {row: place for place, (row, _) in enumerate(ordered)}
        begins = list[str]()
        for begun, text in blocks(self.tokens()):
            yield self.piece(str(len(begins)), text)
            begins.append(begun)
        wide = wide_ones(begins)
        for count, it in enumerate(wide):
            yield self.piece(f"b{count}", written(self.beginning(it)))
        for first in range(0, len(ordered), TITLES):
            shown = ",\n".join(it for _, it in ordered[first : first + TITLES])
            yield self.named(f"t{first // TITLES}", f"[{shown}]")
        begin = {"works": len(ordered), "titles": TITLES, "begins": begins, "wide": wide, "others": self.others}
        yield self.piece("begin", begin)

    def tokens(self) -> Iterator[tuple[str, str]]:
        """All words and numbers in their order, each with the works that have it."""
        rows = self.database.execute("SELECT token, row FROM tokens ORDER BY token")
        for token, listed in itertools.groupby(rows, key=operator.itemgetter(0)):
            yield token.decode("utf-16-be"), written(sorted(self.places[row] for _, row in listed))

    def beginning(self, word: str) -> list[int]:
        """The works with a word that begins so."""
        flags = bytearray(len(self.places))
        for (row,) in self.database.execute("SELECT row FROM tokens WHERE token >= ? AND token < ?", (order(word), order(word + END))):
            flags[self.places[row]] = 1
        return list(itertools.compress(range(len(flags)), flags))

    def piece(self, name: str, content: object) -> tuple[str, str]:
        """A piece by its name and what it has."""
        return self.named(name, json.dumps(content, ensure_ascii=False, separators=(",", ":")))

    def named(self, name: str, text: str) -> tuple[str, str]:
        """A piece by its name and what it has, as a script says it."""
        return f"find/{name}.js", f'taken("{self.stamp}","{name}",{text});\n'


def blocks(tokens: Iterable[tuple[str, str]]) -> Iterator[tuple[str, str]]:
    """Words in pieces, each with its beginning: the least one of its first word that stands behind all words before.

    Of each word it is told how many letters it has in common with the one before it, then its others and its works."""
    before, begun, entries, size = "", "", list[str](), 0
    for token, works in tokens:
        common = common_of(before, token)
        if entries and size + len(token) + len(works) > LONGEST_PIECE:
            yield begun, " ".join(entries)
            begun, entries, size = token[: common + 1], [], 0
        told = min(common, len(COMMON) - 1) if entries else 0
        entries.append(f"{COMMON[told]}{token[told:]} {works}")
        before, size = token, size + len(entries[-1]) + 1
    if entries:
        yield begun, " ".join(entries)


def common_of(before: str, word: str) -> int:
    """How many letters two words begin with alike."""
    return next((k for k, (one, other) in enumerate(zip(before, word)) if one != other), min(len(before), len(word)))


def wide_ones(begins: Sequence[str]) -> list[str]:
    """The beginnings of words that may stand in more pieces than are read for one, by the beginnings of the pieces."""
    ordered = [order(it) for it in begins]
    found = {it[:size] for it in begins for size in range(2, len(it) + 1)}
    return sorted((it for it in found if spanned(ordered, it) > MOST), key=order)


def spanned(ordered: Sequence[bytes], word: str) -> int:
    """How many pieces may have words with a beginning."""
    return bisect.bisect_right(ordered, order(word + END)) - max(0, bisect.bisect_right(ordered, order(word)) - 1)
