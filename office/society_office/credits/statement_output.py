"""A statement as a table, CSV, a page or a PDF, and a folder with those of all."""

import functools
import pathlib
import sys
from collections.abc import Iterator, Mapping, Sequence

import markupsafe
from rich.console import Console
from rich.table import Table

from society_office.basics.terminal import console, counting, say, table
from society_office.book.copy import Copy
from society_office.credits.lines import Credit, as_csv
from society_office.credits.parties import names_of, parties
from society_office.credits.spans import Span
from society_office.credits.statements import Statement, Statements, Sum, folder_of
from society_office.formats.numbering import counted
from society_office.formats.pool_names import PoolNames
from society_office.printed import pages

# A page of a statement shows no more lines, works and accounts than this; its CSV has them all.
MOST_LINES = 2_000
CSV_NAME, PDF_NAME = "statement.csv", "statement.pdf"
# Where lines are too many to be printed, so many of the greatest works and accounts are.
MOST_SUMS = 100
# By pool what is said of it beside its sums (closings/pool_ties.py).
Notes = Mapping[int, Sequence[str]]
# Statements that are named of those that an earlier run has left.
MOST_NAMED = 5


def heading(found: Statement) -> str:
    """Whose statement it is."""
    return f"{found.key} {found.name}".rstrip()


def verdict(found: Statement) -> str:
    """What the statement comes to, beside the balance."""
    part = "" if found.is_whole else f" by {found.span.words}"
    unknown = "" if found.is_named or found.balance else ", and no work names it: look whether it is right"
    if not found.sums.count and found.is_whole:
        whose = "a work of this sender" if found.is_of_publisher else "this account"
        return f"no credit: no pool has credited {whose}{unknown}"
    if not found.sums.count:
        return f"no credit{part}" + ("" if found.balance is None else f"; the balance over all pools is {found.balance:,}{unknown}")
    if found.balance is None:
        return f"{found.total:,} units in all{part}, over all accounts"
    if not found.is_whole:
        return f"{found.total:,} units in all{part}; the balance over all pools is {found.balance:,}"
    return f"{found.total:,} units in all, " + (
        "which is the balance" if found.agrees else f"BUT the balance is {found.balance:,}: they differ"
    )


def pool_table(found: Statement, names: PoolNames) -> Table:
    """The sums by pool, with the names and periods of pools where one has them."""
    columns = ["pool", "right", *(["name", "period"] if names else []), "units"]
    rows = ((*it.words, *(name_and_period(names, it.words[0]) if names else ()), it.units) for it in found.by_pool)
    return table(columns, rows, ["pool", "units"], "By pool")


def name_and_period(names: PoolNames, pool: str) -> tuple[str, str]:
    """The name and the period of a pool, empty where it has none."""
    name = names.get(int(pool))
    return (name.name, name.period) if name else ("", "")


def tables_of(found: Statement, names: PoolNames) -> Iterator[Table]:
    """It as tables: every credit, then the sums; of more credits than are held, the greatest sums alone."""
    by_account = found.is_of_publisher
    columns = ["pool", "right", "ISRC", "title", "work", "publisher", *(["account"] if by_account else []), "units"]
    rows = ((str(it.pool), *it[1:6], *([it.account] if by_account else []), it.units) for it in found.credits)
    if found.is_held:
        yield table(columns, rows, ["pool", "units"])
    yield pool_table(found, names)
    works = ((*it.words, it.units) for it in shown(found, found.by_work))
    yield table(["title", "work", "publisher", "units"], works, ["units"], f"By work{of_all(found, found.by_work)}")
    if by_account:
        named = ((it.words[0], found.accounts.get(it.words[0], ""), it.units) for it in shown(found, found.by_account))
        yield table(["account", "name", "units"], named, ["units"], f"By account{of_all(found, found.by_account)}")


def notes_of(found: Statement, notes: Notes) -> list[str]:
    """What is said of the pools that a statement has: what they correct or make up, what corrected them, and void returns."""
    return [words for it in found.by_pool for words in notes.get(int(it.words[0]), ())]


def shown(found: Statement, sums: list[Sum]) -> list[Sum]:
    """The sums that are printed."""
    return sums if found.is_held else sums[:MOST_SUMS]


def of_all(found: Statement, sums: list[Sum]) -> str:
    """What a title says where not all sums are printed."""
    left = len(sums) - len(shown(found, sums))
    return f", the greatest {MOST_SUMS:,} of {len(sums):,}" if left else ""


def show(found: Statement, names: PoolNames, notes: Notes, out: Console) -> None:
    """Prints it."""
    out.print(heading(found))
    if not found.is_held:
        out.print(f"\n{found.sums.count:,} credits, too many for a table: `--format csv` has every one of them")
    for listed in tables_of(found, names) if found.sums.count else ():
        out.print()
        out.print(listed)
    if found.sums.count:
        out.print()
    for words in notes_of(found, notes):
        out.print(words, soft_wrap=True)
    out.print(verdict(found))


def rows_of(found: Statement, lines: Sequence[Credit]) -> markupsafe.Markup:
    """The rows of lines in a page. They are made here and not by the template, as there are many, and what many have alike is made once."""

    def cell(label: str, text: str, kind: str = "") -> str:
        return f'<td{kind} data-label="{label}">{markupsafe.escape(text)}</td>'

    @functools.cache
    def texts(isrc: str, title: str, work: str, publisher: str, account: str) -> str:
        key, called = ' class="key"', found.publishers.get(publisher) or publisher
        last = cell("Account", account, key) if found.is_of_publisher else ""
        return cell("Recording", isrc, key) + cell("Title", title) + cell("Work", work, key) + cell("Publisher", called) + last

    def row(it: Credit) -> str:
        zero = "" if it.units else " zero"
        head = f'<tr><td class="number" data-label="Pool">{it.pool}</td><td data-label="Right">{it.right}</td>'
        return f'{head}{texts(*it[2:7])}<td class="number{zero}" data-label="Units">{it.units:,}</td></tr>\n'

    return markupsafe.Markup("".join(map(row, lines)))


def as_page(found: Statement, names: PoolNames, notes: Notes, taken: float, beside: str = "") -> str:
    """It as a page, with no more than so many lines; `beside` is the name of the CSV file that stands beside it."""
    return pages.page(
        "statement.html",
        it=found,
        pool_names=names,
        notes=notes_of(found, notes),
        rows=rows_of(found, found.credits[:MOST_LINES]),
        shown=min(len(found.credits), MOST_LINES),
        works=found.by_work[:MOST_LINES],
        accounts=found.by_account[:MOST_LINES],
        beside=beside,
        verdict=verdict(found),
        heading=heading(found),
        taken=taken,
    )


def write(found: Statement, names: PoolNames, notes: Notes, form: str, output: pathlib.Path | None, taken: float) -> None:
    """Writes it in a form, to a file or to standard output."""
    if form == "table" and output is None:
        show(found, names, notes, console())
    elif output is None:
        sys.stdout.write(as_page(found, names, notes, taken))
    elif form == "pdf":
        pages.write_pdf(as_page(found, names, notes, taken), output)
    else:
        pages.write_text(output, as_page(found, names, notes, taken) if form == "html" else as_table(found, names, notes))


def write_csv(statements: Statements, key: str, names: PoolNames, span: Span, output: pathlib.Path | None) -> Statement:
    """Writes every line as CSV, to a file or to standard output; answers the statement without its lines."""
    if output is None:
        return statements.write_csv(key, span, sys.stdout, names)
    with pages.new_file(output) as file:
        return statements.write_csv(key, span, file, names)


def as_table(found: Statement, names: PoolNames, notes: Notes) -> str:
    """It as the tables that are printed."""
    out = console()
    with out.capture() as captured:
        show(found, names, notes, out)
    return captured.get()


def write_one(found: Statement, names: PoolNames, notes: Notes, taken: float, into: pathlib.Path, pdf: bool) -> None:
    """Writes the folder of one of all statements."""
    folder, page = folder_of(found.key), as_page(found, names, notes, taken, CSV_NAME)
    pages.write_all(into, [(f"{folder}/index.html", page), (f"{folder}/{CSV_NAME}", as_csv(found.credits, names))])
    file = into / folder / PDF_NAME
    if pdf:
        pages.write_pdf(page, file)
    else:
        # (one of an earlier run has other sums)
        file.unlink(missing_ok=True)


def tell_older(into: pathlib.Path, written: set[str]) -> None:
    """Says which statements of an earlier run are left: those of accounts that have none now."""
    if left := sorted({it.parent.name for it in into.glob(f"*/{CSV_NAME}")} - written):
        some = ", ".join(left[:MOST_NAMED]) + (f" and {len(left) - MOST_NAMED:,} more" if len(left) > MOST_NAMED else "")
        say(f"{counted(len(left), 'statement')} of an earlier run left in {into}: {some}", error=True)


def write_each(copy: Copy, names: PoolNames, notes: Notes, span: Span, into: pathlib.Path, pdf: bool) -> int:
    """Writes the statements of all accounts and publishers; the status is 1 where one differs from its balance."""
    statements = Statements(copy)
    accounts = names_of(parties(copy))
    differ, written = 0, set[str]()
    with pages.locked(into.resolve()), counting("statements", copy.row("SELECT count(*) FROM balances")[0]) as advance:
        for found in statements.all(span, accounts):
            write_one(found, names, notes, copy.taken, into, pdf)
            if not found.agrees:
                differ += 1
                say(f"{found.key}: {verdict(found)}", error=True)
            written.add(folder_of(found.key))
            advance()
    tell_older(into, written)
    compared = ", all equal to the balances" if span.is_whole else f", by {span.words}"
    say(f"{counted(len(written), 'statement')} in {into}" + (f", {differ:,} of them differ from the balance" if differ else compared))
    return 1 if differ else 0
