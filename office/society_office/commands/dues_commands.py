"""The words of the commands about what is due: what it is, the next order of what is lacking, and an order as it should have been."""

import dataclasses
import pathlib
import sys
from collections.abc import Mapping, Sequence
from typing import Any

import click

from society_office.basics.errors import OfficeError
from society_office.basics.terminal import console, say
from society_office.book.copy import Copy
from society_office.book.own_returns import ROWLESS, amends
from society_office.book.stored_returns import stored_returns
from society_office.closings import dues_output
from society_office.closings.amendments import Changes, amended, not_amended, order_of, order_over, orders_as_due, remarks_on, without_void
from society_office.closings.credit import asking, closed
from society_office.closings.dues import Dues, need_within
from society_office.closings.orders import Order
from society_office.closings.pool_kinds import Book
from society_office.commands.command_words import COPY_HELP, PATH, POOL, PROGRAM_HELP, Amount, Command, decided, noted, with_decisions
from society_office.credits import parties
from society_office.credits.statements import ACCOUNT
from society_office.decided import decisions
from society_office.decided.decisions import Decisions
from society_office.formats.pool_names import pool_text
from society_office.formats.return_names import Return, entries
from society_office.offices.program import find_program, open_whole

FORM = click.option("--format", "form", type=click.Choice(["table", "csv", "json"]), default="table", help="How it is written.")
PROGRAM = click.option("--program", metavar="FILE", help=PROGRAM_HELP)


@click.command("dues", cls=Command, epilog=COPY_HELP, short_help="What is due, what was paid, and the next order of what is lacking.")
@click.argument("copy", type=PATH)
@click.option("--pool", type=POOL, metavar="POOL", help="Only what is due by the order of this pool, and what it has credited itself.")
@click.option("--account", metavar="ACCOUNT", help="The recordings of this account.")
@click.option("--next", "into", type=PATH, metavar="FOLDER", help="Writes the next order of what is lacking, and its return.")
@click.option("--no-set-off", "apart", is_flag=True, help="Pay what is lacking of a recording also to whom has too much of another.")
@with_decisions
@FORM
@PROGRAM
def list_dues(
    copy: pathlib.Path,
    pool: int | None,
    account: str | None,
    into: pathlib.Path | None,
    apart: bool,
    folder: pathlib.Path | None,
    form: str,
    program: str | None,
) -> None:
    """What is due by the book and by what the office has decided, what was paid, and what is lacking.

    A pool is due by its order as it was closed, or as `amend` has it, without void returns; what nobody owned at its cut is due to who
    owns it now. Paid is what all pools have credited. --next writes one order of what is lacking: send it, then take a new copy for the
    next one. It is closed over a throw-away copy first, and is not written where it pays anybody more than is due.
    """
    if into and (pool is not None or account is not None):
        raise click.UsageError("--next is over all pools and accounts")
    if account is not None and not ACCOUNT.fullmatch(account):
        raise OfficeError(f"{account} is no account (I00000000199, PPB000000012A1, UNCLAIMED)")
    with open_whole(copy) as opened:
        known, found = decided(noted(opened), folder), find_program(program)
        book = Book(opened)
        if pool is not None and not book.is_play(pool):
            raise OfficeError(f"pool {pool} is none that people have closed over plays")
        dues = Dues(opened, book, orders_as_due(book, known.amendments, known.void), asking(found, opened))
        if into:
            write_next(dues, into, found, apart)
        if account is not None:
            columns, lines = dues_output.OF_ACCOUNT, dues_output.recordings(opened, dues, account, pool)
        else:
            names = parties.names_of(parties.parties(opened))
            columns, lines = dues_output.COLUMNS, dues_output.accounts(opened, dues, names, pool)
    print_lines(lines, columns, form)


def write_next(dues: Dues, folder: pathlib.Path, program: str, apart: bool) -> None:
    """Writes the next order, once the program has closed it over a throw-away copy."""
    if (made := dues.make_up(apart)) is None:
        say("nothing is lacking that a further order can pay: nothing was written", error=True)
        return
    need_within(dues, made, program, apart)
    dues_output.write(folder, made.number, made.order, made.returned, made.body)


def print_lines(lines: Sequence[dues_output.Line], columns: Sequence[str], form: str) -> None:
    """Prints what is due and was paid."""
    if form == "csv":
        sys.stdout.write(dues_output.as_csv(lines, columns))
    elif form == "json":
        say(dues_output.as_json(lines, columns))
    else:
        dues_output.show(console(), lines, columns)


@click.command(cls=Command, epilog=COPY_HELP, short_help="An order as it should have been.")
@click.argument("copy", type=PATH)
@click.argument("pool", type=POOL)
@click.option("--amount", type=Amount(), help="The units as they should have been.")
@click.option("--kind", type=click.Choice(["PR", "MR"]), help="The right that it should have paid.")
@click.option("--cut", multiple=True, metavar="SENDER=N", help="How far a sender's files should have counted (0: not at all), or `now`.")
@click.option("--returns", multiple=True, metavar="WORDS", help="All that it should have paid, as for propose. Can be given again.")
@click.option("--was-corrected", is_flag=True, help="The pool was corrected by returns of CORRECTED: this is the order by which it is due.")
@click.option("--into", type=PATH, metavar="FOLDER", help="Adds the amendment to the list, and writes its return and its order.")
@click.option("--why", metavar="WORDS", help="With --into: why, for the journal.")
@with_decisions
@FORM
@PROGRAM
def amend(
    copy: pathlib.Path,
    pool: int,
    into: pathlib.Path | None,
    why: str | None,
    folder: pathlib.Path | None,
    form: str,
    program: str | None,
    **words: Any,
) -> None:
    """An order as it should have been, and who lacks what by it.

    What is not given is as it is due now. With --into the amendment is added to the list of amendments, and its return and its order of no
    units are written. Send both: then it is in force, and `dues` with a new copy pays what is lacking by it.
    """
    if (into is None) != (why is None):
        raise click.UsageError("--into and --why belong together")
    words["returns"] = entries(words["returns"], "--returns")
    with open_whole(copy) as opened:
        known, found, book = decided(noted(opened), folder), find_program(program), Book(opened)
        made = amendment(opened, book, known, pool, Changes(**words))
        orders = {**made.orders, pool: without_void(made.should, known.void)}
        dues = Dues(opened, book, orders, asking(found, opened))
        lines = dues_output.accounts(opened, dues, parties.names_of(parties.parties(opened)))
        if into:
            closed(found, opened, made.number, made.over, made.returned, ROWLESS)
            add_amendment(known, made, str(why))
            dues_output.write(into, made.number, made.over, made.returned, ROWLESS)
    if form == "table":
        say(f"{pool_text(known.pools, pool)} as it should have been:")
        for remark in made.remarks:
            say(f"- {remark}")
        say("")
    print_lines(lines, dues_output.COLUMNS, form)


@dataclasses.dataclass(frozen=True)
class Made:
    """An amendment: its number, its pool, the order as it should have been, the orders by which pools are due without it, the order that
    puts it in force over its return, and what it changes."""

    number: int
    pool: int
    should: Order
    orders: Mapping[int, Order]
    over: Order
    remarks: Sequence[str]

    @property
    def returned(self) -> Return:
        """The return that tells of it."""
        return amends(self.pool), self.number


def amendment(copy: Copy, book: Book, known: Decisions, pool: int, changes: Changes) -> Made:
    """The amendment of a pool; an OfficeError where it can't be amended so."""
    if not book.is_play(pool):
        raise OfficeError(f"pool {pool} is none that people have closed over plays")
    if not changes.was_corrected and (wrong := [it for of, it in not_amended(book, known.amendments) if of == pool]):
        raise OfficeError(wrong[0])
    number = book.next_number()
    before = [it for it in known.amendments if it.number != number]
    orders = orders_as_due(book, before, [], changes.was_corrected)
    should = amended(copy, orders, pool, changes, stored_returns(copy), known.void)
    pending = [it for it in known.amendments if it.number == number]
    if any((it.pool, order_of(it)) != (pool, should) for it in pending):
        raise OfficeError(f"{pending[0].where}: it is another amendment that is not in force yet: close its pool, or take it out")
    due = {it: without_void(order, known.void) for it, order in orders.items()}
    return Made(number, pool, should, due, order_over(book, number, pool, should), list(remarks_on(orders[pool], should)))


def add_amendment(known: Decisions, made: Made, why: str) -> None:
    """Adds an amendment to the list, where it is not there yet."""
    if made.number not in {it.number for it in known.amendments}:
        line = f"{made.number} {made.pool} {made.should.json}"
        decisions.add(known.folder, decisions.AMENDMENTS, [line], f"amend {made.pool}", why)


COMMANDS = (list_dues, amend)
