"""A batch as the files that are written of it: the payment file, the list to sign, and a page of it."""

import csv
import io
import pathlib
from collections.abc import Iterator

from rich.table import Table

from society_office.basics.plain_text import plain
from society_office.basics.terminal import table
from society_office.payments import batches, private
from society_office.payments.batches import Owing
from society_office.payments.home import Home
from society_office.payments.pain import Order, Payee
from society_office.printed import pages

COLUMNS = ["reference", "member", "name", "street", "postcode", "town", "country", "iban", "bic", "account", "units", "amount", "currency"]


def row(order: Order, it: Payee) -> list[str | int]:
    """A payment as cells of the list."""
    place = [plain(words) for words in (it.name, it.street, it.postcode, it.town, it.country)]
    amount = order.office.amount(it.units)
    return [order.reference_of(it.member), it.member, *place, it.iban, it.bic, it.seen, it.units, amount, order.office.currency]


def as_csv(order: Order) -> str:
    """The list to sign, as CSV with a header."""
    out = io.StringIO()
    writer = csv.writer(out, lineterminator="\n")
    writer.writerow(COLUMNS)
    writer.writerows(row(order, it) for it in order.payees)
    return out.getvalue()


def as_page(order: Order, file_sum: str) -> str:
    """The list to sign, as a page to be printed."""
    by_bank = sum(it.units for it in order.by_bank)
    return pages.page("batch.html", it=order, by_bank=by_bank, otherwise=order.units - by_bank, file_sum=file_sum)


def files_of(home: Home, order: Order) -> Iterator[tuple[str, bytes]]:
    """The files of a batch: the same bytes whenever they are asked for."""
    content = batches.need_file(home, order)
    if order.by_bank:
        yield f"payment-{order.number}.xml", content
    yield f"list-{order.number}.csv", as_csv(order).encode()
    yield f"list-{order.number}.html", as_page(order, home.ledger.batches[order.number].file_sum).encode()


def write(home: Home, order: Order, into: pathlib.Path) -> list[str]:
    """Writes the files of a batch into a folder, for the user and the group alone; answers their names."""
    private.make(into)
    names = []
    for name, content in files_of(home, order):
        private.write(into / name, content)
        names.append(name)
    return names


def order_table(order: Order) -> Table:
    """Who is paid, without names and accounts."""
    currency = order.office.currency
    rows = [(it.member, it.way, it.seen, it.units, order.office.amount(it.units)) for it in order.payees]
    return table(["member", "by", "account", "units", currency], rows, ["units", currency])


def owing_lines(others: list[Owing]) -> Iterator[str]:
    """Why others are not paid."""
    for it in others:
        if it.units < 0:
            yield f"{it.member} is not paid: it owes the office {-it.units:,} units"
        else:
            yield f"{it.member} is not paid: {it.units:,} units are below the least, {it.least:,}"
