"""A member's statement as a table, CSV, a page, a PDF and a workbook, and a folder with those of all."""

import concurrent.futures
import csv
import io
import pathlib
from collections.abc import Callable, Iterable, Iterator, Sequence
from typing import Any

from society_office.basics.errors import OfficeError
from society_office.basics.plain_text import plain
from society_office.basics.terminal import console, counting, say, table
from society_office.credits.statement_output import tell_older
from society_office.credits.statements import folder_of
from society_office.formats.numbering import counted
from society_office.payments import private
from society_office.payments.accounting import Account, Accounts
from society_office.printed import pages

COLUMNS = [
    *("statement", "member", "day", "what", "pool", "pool_name", "right", "account", "title", "work", "publisher", "batch", "words"),
    *("units", "amount", "currency"),
]
TOTALS = ["member", "name", "opening", "credited", "deducted", "adjusted", "payments", "closing", "currency", "closing_amount"]
# A page shows no more works than this; CSV and workbook have them all.
MOST_WORKS = 2_000
# So many PDF files are begun before the first one has to be done.
AHEAD = 32
CSV_NAME, PAGE_NAME, PDF_NAME = "statement.csv", "index.html", "statement.pdf"
Row = list[str | int]


def rows(it: Account) -> Iterator[Row]:
    """It as rows: the units of all but the last one come to those of the last one."""

    def row(day: object, what: str, units: int, **cells: object) -> Row:
        own = [plain(str(cells.get(name, ""))) for name in COLUMNS[4:13]]
        return [it.number, it.member.key, str(day), what, *own, units, it.words.amount(units), it.words.currency]

    yield row(it.first, "opening balance", it.opening)
    for one in it.earned:
        cells = {"account": one.account, "title": one.title, "work": one.work, "publisher": one.publisher}
        yield row("", "credited", one.units, pool=one.pool, pool_name=it.pools[one.pool], right=one.right, **cells)
    for pool, name, units in it.deducted:
        yield row("", "deducted", -units, pool=pool, pool_name=it.pools[pool], words=name)
    for day, why, units in it.adjusted:
        yield row(day, "adjusted", units, words=why)
    for paid in it.paid:
        yield row(paid.day, "sent back" if paid.is_return else "paid", paid.units, batch=paid.batch, words=paid.told)
    yield row(it.last, "closing balance", it.closing)


def as_csv(listed: Iterable[Row], columns: Sequence[str]) -> str:
    """Rows as CSV with a header."""
    out = io.StringIO()
    writer = csv.writer(out, lineterminator="\n")
    writer.writerow(columns)
    writer.writerows(listed)
    return out.getvalue()


def total_row(it: Account) -> Row:
    """What a statement comes to."""
    sums = [it.opening, it.credited, -it.deductions, it.adjustments, it.payments, it.closing]
    return [it.member.key, plain(it.member.name), *sums, it.words.currency, it.words.amount(it.closing)]


def as_page(it: Account) -> str:
    """It as a page."""
    most = sorted(it.earned, key=lambda one: (one.pool, -one.units))[:MOST_WORKS]
    by_pool: dict[int, int] = {}
    for one in it.earned:
        by_pool[one.pool] = by_pool.get(one.pool, 0) + one.units
    return pages.page("member.html", it=it, works=most, by_pool=by_pool)


def pdf_of(html: str) -> bytes:
    """A page as a PDF; an OfficeError where WeasyPrint is not installed."""
    try:
        import weasyprint
    except ImportError as error:
        raise OfficeError("a PDF needs WeasyPrint: `apt-get install weasyprint`") from error
    return bytes(weasyprint.HTML(string=html, base_url=str(pages.TEMPLATES)).write_pdf())


def workbook_of(sheets: dict[str, tuple[Sequence[str], Iterable[Row]]]) -> bytes:
    """Sheets as a workbook, each with its header; an OfficeError where openpyxl is not installed."""
    try:
        import openpyxl
    except ImportError as error:
        raise OfficeError("a workbook needs openpyxl: `apt-get install python3-openpyxl`") from error
    book: Any = openpyxl.Workbook(write_only=True)
    for title, (columns, listed) in sheets.items():
        sheet = book.create_sheet(title)
        sheet.freeze_panes = "A2"
        sheet.append(list(columns))
        for row in listed:
            sheet.append(row)
    out = io.BytesIO()
    book.save(out)
    return out.getvalue()


def as_workbook(it: Account) -> bytes:
    """It as a workbook: its lines, and what they come to."""
    return workbook_of({"Lines": (COLUMNS, rows(it)), "Totals": (TOTALS, [total_row(it)])})


def show(it: Account) -> None:
    """Prints it, without the person."""
    out = console()
    out.print(f"statement {it.number}: {it.member.key}, {it.first} to {it.last}")
    listed = [[one[3], *(str(one[k]) for k in (4, 6, 8, 12)), one[13], str(one[14])] for one in rows(it)]
    numbers = ["pool", "units", it.words.currency]
    out.print(table(["what", "pool", "right", "title", "words", "units", it.words.currency], listed, numbers))
    for pool in dict.fromkeys(one.pool for one in it.earned):
        out.print(it.pools[pool])


def file_of(it: Account, form: str) -> bytes:
    """It in a form."""
    made: dict[str, Callable[[], bytes]] = {
        "csv": lambda: as_csv(rows(it), COLUMNS).encode(),
        "html": lambda: as_page(it).encode(),
        "pdf": lambda: pdf_of(as_page(it)),
        "xlsx": lambda: as_workbook(it),
    }
    return made[form]()


def write_all(accounts: Accounts, into: pathlib.Path, pdf: bool, book: bool) -> int:
    """Writes the statements of all members, each into a folder of its own, and what they come to; answers how many there are."""
    private.make(into)
    totals, written = list[Row](), set[str]()
    with pages.locked(into.resolve()), counting("statements", len(accounts.keys)) as advance, Printing(pdf) as printed:
        for it in accounts.each(accounts.keys):
            totals.append(total_row(it))
            advance()
            if it.is_empty:
                continue
            written.add(folder_of(it.member.key))
            folder, page = into / folder_of(it.member.key), as_page(it)
            private.make(folder)
            private.write_quick(folder / PAGE_NAME, page.encode())
            private.write_quick(folder / CSV_NAME, as_csv(rows(it), COLUMNS).encode())
            printed(folder / PDF_NAME, page)
    private.write(into / "totals.csv", as_csv(totals, TOTALS).encode())
    if book:
        private.write(into / "totals.xlsx", workbook_of({"Totals": (TOTALS, totals)}))
    tell_older(into, written)
    say(f"{counted(len(written), 'statement')} in {into}")
    return len(written)


class Printing:
    """Makes PDF files by several processes while the `with` lasts; what it gives is called with a file and its page."""

    def __init__(self, wanted: bool) -> None:
        """Makes none where they are not wanted: then one of an earlier run, which has other sums, is taken away."""
        self.workers = concurrent.futures.ProcessPoolExecutor() if wanted else None
        self.begun: list[tuple[pathlib.Path, concurrent.futures.Future[bytes]]] = []

    def __enter__(self) -> Callable[[pathlib.Path, str], None]:
        """What begins a file."""
        return self.begin

    def begin(self, file: pathlib.Path, page: str) -> None:
        """Begins a file, and writes those that are done where too many are begun."""
        if self.workers is None:
            file.unlink(missing_ok=True)
            return
        self.begun.append((file, self.workers.submit(pdf_of, page)))
        if len(self.begun) > AHEAD:
            self.end_first()

    def end_first(self) -> None:
        """Writes the file that was begun first."""
        file, made = self.begun.pop(0)
        private.write_quick(file, made.result())

    def __exit__(self, *_: object) -> None:
        """Writes those that are left."""
        if self.workers is not None:
            try:
                while self.begun:
                    self.end_first()
            finally:
                self.workers.shutdown(cancel_futures=True)
