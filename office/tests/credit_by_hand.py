"""What `society credit` has to print, reckoned by hand from what an office's file holds as it was sent; nothing of the package is used.

Of the tables that the office derives only verdicts and fronts are read. As a program it takes the words of `society credit`.
"""

import csv
import json
import pathlib
import sqlite3
import sys
from collections import Counter
from collections.abc import Iterable, Iterator
from typing import Any, TextIO

from office_value import sent, way
from reckoning import NOBODY, WORLD, split

COLUMNS = "order,isrc,points,units,remainder,sender,work,revision,account,weight,part".split(",")
MOST_SENDERS, MOST_RETURNS, LARGEST_AMOUNT = 200, 1_000, 10**12
# A version of a work: the number of its file, its revision, the recordings that it names, and its lines.
Version = tuple[int, int, frozenset[str], list[bytes]]


class Refused(Exception):
    """Why an order can't be answered."""


def fields(line: bytes, first: int, last: int) -> str:
    return line[first - 1 : last].decode("latin-1").strip()


def works_of(body: bytes) -> list[list[bytes]]:
    """The registrations and revisions of a file, each with its lines, in their order."""
    found: list[list[bytes]] = []
    for raw in body.split(b"\n"):
        line = raw.rstrip(b"\r")
        if line[:3] in (b"NWR", b"REV"):
            found.append([line])
        elif found and line[:3] not in (b"HDR", b"GRH", b"GRT", b"TRL"):
            found[-1].append(line)
    return found


def account(sender: str, ipi: str, number: str) -> str:
    if ipi.strip("0"):
        return "I" + ipi.rjust(11, "0")
    return f"P{sender}{number}" if number else NOBODY


def weights(lines: list[bytes], sender: str, right: str, territory: int) -> list[tuple[str, int]]:
    """The holders of a work with their weights in a right, nobody last."""
    found: list[list[Any]] = []
    for line in lines:
        kind, writes = line[:3], line[:3] in (b"SWR", b"OWR")
        if kind in (b"SPU", b"OPU", b"SWR", b"OWR"):
            number = fields(line, 20, 28) if writes else fields(line, 22, 30)
            ipi = fields(line, 116, 126) if writes else fields(line, 88, 98)
            found.append([writes, number, account(sender, ipi, number), 0])
        elif kind in (b"SPT", b"SWT"):
            first = (29 if kind == b"SWT" else 35) + (5 if right == "MR" else 0)
            indicator, land = (44, 45) if kind == b"SWT" else (50, 51)
            if fields(line, indicator, indicator) in ("I", "E") and int(fields(line, land, land + 3) or -1) in (WORLD, territory):
                party = next(it for it in reversed(found) if it[0] == (kind == b"SWT") and it[1] == fields(line, 20, 28))
                party[3] = int(fields(line, first, first + 4) or 0) if fields(line, indicator, indicator) == "I" else 0
    listed = [(it[2], it[3]) for it in found]
    return [*listed, (NOBODY, max(10_000, sum(it[1] for it in listed)) - sum(it[1] for it in listed))]


class Book:
    """What an office's file holds."""

    def __init__(self, path: pathlib.Path) -> None:
        database = sqlite3.connect(f"{path.resolve().as_uri()}?mode=ro", uri=True)
        (self.territory,) = database.execute("SELECT territory FROM office").fetchone()
        bodies = {(sender, number): bytes(body) for sender, number, body in database.execute("SELECT * FROM transmissions")}
        ends = {(it[0], it[1]): (it[2], it[3]) for it in database.execute("SELECT sender, segment, last, next FROM segment_ends")}
        self.ways = {sender: list(way(sender, set(bodies), ends)) for sender, _ in bodies}
        self.fronts = dict(database.execute("SELECT sender, front FROM fronts"))
        self.returns = {(it[0], it[1]): bytes(it[2]) for it in database.execute("SELECT * FROM returns")}
        self.versions: dict[tuple[str, str], list[Version]] = {}
        question = "SELECT sender, number, place FROM verdicts WHERE fault = 0 ORDER BY sender, number, place"
        for sender, number, place in database.execute(question):
            lines = works_of(bodies[sender, number])[place]
            own = self.versions.setdefault((sender, lines[0].ljust(106)[81:95].rstrip(b" ").decode("latin-1")), [])
            isrcs = frozenset(fields(it, 250, 261) for it in lines if it[:3] == b"REC" and fields(it, 250, 261))
            own.append((number, len(own), isrcs, lines))
        database.close()

    def points(self, named: Iterable[tuple[str, int]]) -> dict[str, int]:
        """The points of the recordings of some returns."""
        found: Counter[str] = Counter()
        for key in named:
            text = self.returns[key].decode("latin-1").removeprefix("\xef\xbb\xbf")
            for isrc, plays, seconds in list(filter(None, csv.reader(text.splitlines())))[1:]:
                found[isrc.upper().replace("-", "")] += int(plays) * int(seconds)
        return dict(sorted(found.items()))

    def owners(self, cut: dict[str, int]) -> dict[str, list[tuple[str, str, Version]]]:
        """The works that name each recording in their version at a cut."""
        found: dict[str, list[tuple[str, str, Version]]] = {}
        for (sender, work), versions in self.versions.items():
            if there := [it for it in versions if it[0] <= cut.get(sender, -1)]:
                for isrc in there[-1][2]:
                    found.setdefault(isrc, []).append((sender, work, there[-1]))
        return found

    def rows(self, order: dict[str, Any]) -> Iterator[list[Any]]:
        """What an order credits, without the order's number."""
        cut = {sender: rank(number) for sender, number in order["cut"]}
        for sender, number in sorted(cut.items()):
            if number not in self.ways.get(sender, []):
                raise Refused(f"cut {sender} front {sent(self.fronts.get(sender, 0))}")
        for key in sorted(map(tuple, order["returns"])):
            if key not in self.returns:
                raise Refused(f"no return {key[0]} {key[1]}")
        points, owners, amount = self.points((reporter, number) for reporter, number in order["returns"]), self.owners(cut), order["amount"]
        if not points and "isrcs" not in order:
            yield ["-", 0, amount, 0, "", "", "", NOBODY, "", amount]
        whole, wanted = sum(points.values()), order.get("isrcs")
        for isrc, units in zip(points, split(amount, list(points.values())) if points else []):
            if wanted is None or isrc in wanted:
                start = [isrc, points[isrc], units, amount * points[isrc] % whole]
                if len(named := owners.get(isrc, [])) != 1:
                    yield [*start, "", "", "", NOBODY, "", units]
                    continue
                [(sender, work, version)] = named
                holders = weights(version[3], sender, order.get("kind", "PR"), self.territory)
                for (name, weight), part in zip(holders, split(units, [it[1] for it in holders])):
                    yield [*start, sender, work, version[1], name, weight, part]


def rank(number: int | str) -> int:
    return number if isinstance(number, int) else 1_000_000 + 10_000 * int(number[:2]) + int(number[3:])


def read(line: str) -> dict[str, Any]:
    """An order; Refused where it is none of the shape that the tools write, or too large."""
    try:
        order = json.loads(line)
        assert set(order) - {"kind", "isrcs"} == {"amount", "cut", "returns"} and order.get("kind", "PR") in ("PR", "MR")
        assert all(len(it) == 12 for it in order.get("isrcs", [])) and order["amount"] >= 0
    except (ValueError, AssertionError, TypeError) as error:
        raise Refused("fault 1") from error
    if order["amount"] > LARGEST_AMOUNT or len(order["cut"]) > MOST_SENDERS or len(order["returns"]) > MOST_RETURNS:
        raise Refused("fault 2")
    return dict(order)


def answer(path: pathlib.Path, lines: Iterable[str], out: TextIO, errors: TextIO) -> int:
    """Answers orders one after another; the status."""
    book, writer, status = Book(path), csv.writer(out, lineterminator="\n"), 0
    writer.writerow(COLUMNS)
    for number, line in enumerate(lines, 1):
        try:
            writer.writerows([number, *it] for it in book.rows(read(line)))
        except Refused as error:
            errors.write(f"society: order {number}: {error}\n")
            status = 1
    return status


if __name__ == "__main__":
    sys.exit(answer(pathlib.Path(sys.argv[sys.argv.index("--db") + 1]), sys.stdin, sys.stdout, sys.stderr))
