"""What the program would credit: by `society credit` with owners and weights, whether or not pools have paid; or by a throw-away copy."""

import collections
import csv
import io
import json
import pathlib
import subprocess
from collections.abc import Callable, Iterable, Iterator, Sequence
from typing import NamedTuple, TextIO

from society_office.basics.errors import OfficeError
from society_office.basics.throw_away import room
from society_office.book.copy import Copy, open_copy
from society_office.checks import faults
from society_office.closings.orders import Order
from society_office.formats.return_names import Return
from society_office.offices.program import trial_of


class Row(NamedTuple):
    """A credit: its recording with its points, its units of the amount and what decides the last ones, the owner's version, and the
    holder with its weight and its part. What nobody owns has no sender, and the weight 1."""

    isrc: str
    points: int
    units: int
    remainder: int
    sender: str
    work: str
    revision: int
    account: str
    weight: int
    part: int


class Asked(NamedTuple):
    """An order, and the recordings whose credits are asked for (None: all of them)."""

    order: Order
    isrcs: Sequence[str] | None = None

    @property
    def parts(self) -> "list[Asked]":
        """It in as many lines as its recordings take."""
        if self.isrcs is None:
            return [self]
        return [Asked(self.order, self.isrcs[first : first + MOST_NAMED]) for first in range(0, len(self.isrcs), MOST_NAMED)]

    @property
    def json(self) -> str:
        """The line that asks."""
        wanted = {} if self.isrcs is None else {"isrcs": list(self.isrcs)}
        return json.dumps({**json.loads(self.order.json), **wanted}, separators=(",", ":"))


# How an office answers to an order by which a pool is closed now.
NEW = 201
# The layout of files over which the program answers.
LAYOUT = 3
# Recordings that one line names: it has a million bytes at most, and an order takes some forty thousand.
MOST_NAMED = 50_000
# Answers orders one after another, each by its rows.
Ask = Callable[[Sequence[Asked]], Iterable[list[Row]]]


def asking(program: str, copy: Copy) -> Ask:
    """Asks the program over a throw-away copy, which it audits first; its answer is an OfficeError where that is unsound or it refuses an
    order."""

    def ask(asked: Sequence[Asked]) -> Iterator[list[Row]]:
        parts = [(place, one) for place, it in enumerate(asked) for one in it.parts]
        lines = "".join(f"{it.json}\n" for _, it in parts).encode()
        with room() as folder:
            database, out = folder / "copy.db", folder / "credits.csv"
            save_current(program, copy, database)
            with out.open("wb") as into:
                words = [program, "credit", "--db", str(database), *copy.office_words]
                done = subprocess.run(words, input=lines, stdout=into, stderr=subprocess.PIPE, check=False)
            if done.returncode:
                raise OfficeError(f"`society credit` over {copy.path}: {done.stderr.decode(errors='replace').strip()}")
            with out.open(encoding="latin-1", newline="") as text:
                rows = rows_in(text)
                first = next(rows, None)
                for place in range(len(asked)):
                    found = []
                    while first is not None and parts[first[0]][0] == place:
                        found.append(first[1])
                        first = next(rows, None)
                    yield found

    return ask


def save_current(program: str, copy: Copy, target: pathlib.Path) -> None:
    """Writes what a copy holds into a file of its own, of the layout over which the program answers."""
    if copy.layout == LAYOUT:
        copy.save(target)
        return
    with trial_of(program, copy) as trial:
        trial.end()
        with open_copy(trial.database) as raised:
            raised.save(target)


def rows_in(text: TextIO) -> Iterator[tuple[int, Row]]:
    """The rows of an answer, each with the place of its order, from 0."""
    listed = csv.reader(text)
    next(listed)
    for order, isrc, points, units, remainder, sender, work, revision, account, weight, part in listed:
        numbers = int(points), int(units), int(remainder)
        yield int(order) - 1, Row(isrc, *numbers, sender, work, int(revision or 0), account, int(weight or 1), int(part))


def closed(program: str, copy: Copy, number: int, order: Order, returned: Return, body: str) -> collections.Counter[tuple[str, str]]:
    """What a pool credits by recording and account that the program closes over a copy's files and returns, by which alone it credits, once
    a return was sent there; an OfficeError where it takes one of them not."""
    with trial_of(program, copy, before_pools=True) as trial:
        answer = trial.office.ask("PUT", f"/v1/returns/{returned[0]}/{returned[1]}", body.encode())
        if not answer.is_taken:
            raise OfficeError(f"the program refuses {returned[0]}/{returned[1]}: {faults.refusal_text('return', answer)}")
        answer = trial.office.ask("PUT", f"/v1/pools/{number}", order.json.encode())
        if answer.status != NEW:
            raise OfficeError(f"the program refuses the order of pool {number}: {faults.refusal_text('order', answer)}")
        text = trial.office.ask("GET", f"/v1/pools/{number}").body.decode("latin-1")
    found: collections.Counter[tuple[str, str]] = collections.Counter()
    for it in csv.DictReader(io.StringIO(text, newline="")):
        found[it["isrc"], it["account"]] += int(it["units"])
    return found
