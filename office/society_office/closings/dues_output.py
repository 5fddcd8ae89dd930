"""What is due and was paid, as it is printed, and make-ups and amendments as they are written."""

import csv
import dataclasses
import io
import json
import pathlib
from collections.abc import Iterator, Mapping, Sequence

from rich.console import Console

from society_office.basics.plain_text import plain
from society_office.basics.terminal import say, table
from society_office.book.copy import Copy
from society_office.closings.dues import Dues
from society_office.closings.order_output import MOST_ROWS
from society_office.closings.orders import Order
from society_office.formats.numbering import counted
from society_office.formats.return_names import Return
from society_office.printed.pages import write_text
from society_office.works.records import UNCLAIMED

COLUMNS = ["account", "name", "due", "paid", "difference", "to write off"]
OF_ACCOUNT = ["right", "ISRC", "due", "paid", "difference"]
# Where an office listens.
ADDRESS = "http://127.0.0.1:8080"
# (money that nobody has stays on UNCLAIMED when it is paid to its holders later)
TOLD = "What is to be written off was credited to nobody, and is due to others, or was paid to them since: write it off UNCLAIMED outside."


@dataclasses.dataclass(frozen=True)
class Line:
    """An account, or a recording in a right of one: what is due and was paid."""

    words: tuple[str, str]
    due: int
    paid: int

    @property
    def difference(self) -> int:
        """What is lacking, or below zero what is too much."""
        return self.due - self.paid

    @property
    def cells(self) -> list[str | int]:
        """As a row; of an account also what is to be written off: what nobody has too much."""
        own: list[str | int] = [*self.words, self.due, self.paid, self.difference]
        return own if self.words[0] in ("PR", "MR") else [*own, max(0, -self.difference) if self.words[0] == UNCLAIMED else 0]


def accounts(copy: Copy, dues: Dues, names: Mapping[str, str], pool: int | None = None) -> list[Line]:
    """A line for each account, those that lack most first; of one pool what is due by its order, and what it has credited itself."""
    found: dict[str, int] = {}
    for (_, _, account), units in (dues.difference if pool is None else dues.by_pool[pool]).items():
        found[account] = found.get(account, 0) + units
    question = "SELECT account, sum(units) FROM credits WHERE pool = ? GROUP BY account"
    paid = dict(copy.rows("SELECT account, units FROM balances") if pool is None else copy.rows(question, pool))
    listed = [Line((it, names.get(it, "")), paid.get(it, 0) + found.get(it, 0), paid.get(it, 0)) for it in {*paid, *found}]
    return sorted(listed, key=lambda it: (-it.difference, it.words))


def recordings(copy: Copy, dues: Dues, account: str, pool: int | None = None) -> list[Line]:
    """A line for each recording of an account in each right."""
    rights, paid = copy.rights(), dict[tuple[str, str], int]()
    for number, isrc, units in copy.rows("SELECT pool, isrc, sum(units) FROM credits WHERE account = ? GROUP BY pool, isrc", account):
        if pool in (None, number):
            paid[rights[number], isrc] = paid.get((rights[number], isrc), 0) + units
    found = {key[:2]: units for key, units in (dues.difference if pool is None else dues.by_pool[pool]).items() if key[2] == account}
    return [Line(it, paid.get(it, 0) + found.get(it, 0), paid.get(it, 0)) for it in sorted({*paid, *found})]


def show(out: Console, lines: Sequence[Line], columns: Sequence[str]) -> None:
    """Prints lines in which what is due and was paid differ, the first of very many."""
    differ = [it for it in lines if it.difference]
    if not differ:
        out.print("all that is due was paid, and nothing else")
        return
    out.print(table(columns, (it.cells for it in differ[:MOST_ROWS]), columns[2:]))
    if len(differ) > MOST_ROWS:
        out.print(f"and {len(differ) - MOST_ROWS:,} more: `--format csv` has every one of them")
    out.print()
    for words, listed in (
        ("lacking", [it.difference for it in differ if it.difference > 0 and it.words[0] != UNCLAIMED]),
        ("too much", [-it.difference for it in differ if it.difference < 0 and it.words[0] != UNCLAIMED]),
    ):
        if listed:
            what = "account" if columns is COLUMNS else "recording"
            out.print(f"{words}: {counted(sum(listed), 'unit')} of {counted(len(listed), what)}")
    if any(it.words[0] == UNCLAIMED and it.difference < 0 for it in differ):
        out.print(TOLD, soft_wrap=True)


def as_csv(lines: Sequence[Line], columns: Sequence[str]) -> str:
    """Lines as CSV, with a header."""
    out = io.StringIO()
    writer = csv.writer(out, lineterminator="\n")
    writer.writerow([it.replace(" ", "_").lower() for it in columns])
    # (a right and a recording are no texts of a sender)
    writer.writerows([plain(it) if isinstance(it, str) and columns is COLUMNS else it for it in one.cells] for one in lines)
    return out.getvalue()


def as_json(lines: Sequence[Line], columns: Sequence[str]) -> str:
    """Lines as JSON."""
    keys = [it.replace(" ", "_").lower() for it in columns]
    return json.dumps([dict(zip(keys, it.cells)) for it in lines], ensure_ascii=False, indent=1)


def write(folder: pathlib.Path, number: int, order: Order, returned: Return, body: str) -> None:
    """Writes a return and the order over it, and says by which two commands they are sent."""
    text, order_file = folder / f"{returned[0]}-{number}.csv", folder / f"{number}.json"
    write_text(text, body)
    write_text(order_file, order.json + "\n")
    say(f"pool {number}, {order.amount:,} units of the {order.kind}; send it by `close {order_file}`, or by these two:", error=True)
    for line in sending(text, f"returns/{returned[0]}/{number}", order_file, f"pools/{number}"):
        say(line, error=True)


def sending(text: pathlib.Path, returned: str, order: pathlib.Path, pool: str) -> Iterator[str]:
    """The commands that send a return, and where that was taken the order over it."""
    yield f"curl --noproxy '*' -fT {text} {ADDRESS}/v1/{returned} &&"
    yield f"curl --noproxy '*' -fT {order} {ADDRESS}/v1/{pool}"
