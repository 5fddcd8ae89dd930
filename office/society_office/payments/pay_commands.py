"""The words of the commands about payments: orders, what a bank tells of them, adjustments, and the ledger."""

import datetime
import pathlib
import sys

import click

from society_office.basics.errors import OfficeError
from society_office.basics.terminal import console, say, table
from society_office.commands.command_words import COPY_HELP, PATH, PROGRAM_HELP, Amount, Command, decided, noted
from society_office.decided.journal import one_line
from society_office.formats.numbering import counted
from society_office.offices.program import find_program, open_whole
from society_office.payments import answers, bank_lists, batches, booking, home, listing, pay_output, private, writing_off
from society_office.payments.commands import DECISIONS, KEY, WHY
from society_office.payments.home import WORDS, Desk
from society_office.payments.ledger import owed_by
from society_office.payments.owed import Entry, Kind
from society_office.payments.pain import Order
from society_office.payments.words import need_account
from society_office.works.records import UNCLAIMED

DAY = click.DateTime(["%Y-%m-%d"])
BATCH = click.IntRange(1, 999_999)
INTO = click.option("--into", type=PATH, required=True, metavar="FOLDER", help="Where the files are written, for you and your group alone.")
# What stands for the command where `pay COPY` names none.
ORDER = "order"
# Accounts without a member that are told one by one.
MOST_TOLD = 5


class Pay(click.Group):
    """A group in which `pay COPY` is `pay order COPY`."""

    def parse_args(self, ctx: click.Context, args: list[str]) -> list[str]:
        """Reads the words, with the command that is left out."""
        first = next((it for it in args if not it.startswith("-")), None)
        if first is not None and first not in self.commands:
            args = [ORDER, *args]
        return super().parse_args(ctx, args)


@click.group("pay", cls=Pay, short_help="Orders to pay what members are owed.")
def group() -> None:
    """Orders to pay what members are owed, and what the bank tells of them.

    `pay COPY` is `pay order COPY`. What a member is owed stands in the ledger: credits of pools, less deductions, with adjustments, less
    what was ordered, with what was sent back.
    """


def today() -> datetime.date:
    """The day of now."""
    return datetime.datetime.now(datetime.UTC).date()


def credits_of(copy: pathlib.Path) -> booking.Credits:
    """What the pools of a copy have credited."""
    with open_whole(copy) as opened:
        return booking.read(noted(opened))


def tell_ownerless(credits: booking.Credits, desk: Desk) -> None:
    """Says which accounts have no member, so that nobody is paid for them."""
    if lacking := booking.ownerless(credits, desk.home):
        some = ", ".join(list(lacking)[:MOST_TOLD]) + (" .." if len(lacking) > MOST_TOLD else "")
        what = f"{counted(len(lacking), 'account')} without a member, {sum(lacking.values()):,} units"
        say(f"{what}, which are not booked: {some}", error=True)


@group.command(ORDER, cls=Command, epilog=COPY_HELP, short_help="The next batch of payments.")
@click.argument("copy", type=PATH)
@INTO
@WHY
@click.option("--day", type=DAY, metavar="DAY", help="The day on which the bank is to pay (default: today).")
@click.option("--member", "only", multiple=True, metavar="MEMBER", help="Pay this member alone. Can be given again.")
@click.option("--dry-run", is_flag=True, help="Show what would be paid, and write nothing.")
@DECISIONS
def order(
    copy: pathlib.Path,
    into: pathlib.Path,
    why: str,
    day: datetime.datetime | None,
    only: tuple[str, ...],
    dry_run: bool,
    folder: pathlib.Path | None,
) -> None:
    """Books what the pools of COPY have credited, and orders to pay each member what it is owed, as the next batch.

    Nobody is paid who owes the office, or is owed less than its least. With the lines in the ledger the batch is ordered; then its files
    are written: the payment file (pain.001), and the list to sign. They are the same bytes each time: `pay again`.
    """
    one_line(why, "--why")
    if day and day.date() < today():
        raise click.UsageError("--day is past: no bank pays then")
    credits = credits_of(copy)
    with home.writing(folder) as desk:
        desk.home.need_noted()
        need_account(desk.home.words, desk.home.folder / WORDS)
        if unknown := sorted({*only} - desk.home.members.by_key.keys()):
            raise OfficeError(f"there is no member {unknown[0]}")
        if dry_run:
            show_dry(credits, desk, only)
            return
        private.make(into)
        made = ordered(credits, desk, only, day.date() if day else today(), why)
        if made is None:
            return
        console().print(pay_output.order_table(made))
        say(f"batch {made.number}: {counted(len(made.payees), 'payment')}, {made.units:,} units")
        say(f"{', '.join(pay_output.write(desk.home, made, into))} in {into}")


def ordered(credits: booking.Credits, desk: Desk, only: tuple[str, ...], day: datetime.date, why: str) -> Order | None:
    """Books the credits of a copy and gives the next batch; None where nobody is to be paid."""
    booked = booking.book(credits, desk)
    tell_ownerless(credits, desk)
    payees, others = batches.chosen(desk.home, only)
    for line in pay_output.owing_lines(others):
        say(line, error=True)
    if not payees:
        if desk.writer.sums:
            desk.note(f"pay book: {booked:,} units", why)
        last = len(desk.home.ledger.batches)
        say("nobody is to be paid" + (f"; the last batch is {last}: `pay again {last}` writes its files again" if last else ""))
        return None
    made = batches.order(desk, payees, day)
    desk.note(f"pay batch {made.number}: {counted(len(made.payees), 'payment')}, {made.units:,} units", why)
    return made


def show_dry(credits: booking.Credits, desk: Desk, only: tuple[str, ...]) -> None:
    """Shows what would be booked and paid; the ledger in memory takes the lines, and none is written."""
    entries = booking.lines_for(credits, desk.home, desk.home.decided.pools)
    desk.home.ledger.lines_of(entries, datetime.datetime.now(datetime.UTC).replace(microsecond=0))
    tell_ownerless(credits, desk)
    payees, others = batches.chosen(desk.home, only)
    for line in pay_output.owing_lines(others):
        say(line, error=True)
    show_owed(desk.home)
    say(f"{counted(len(payees), 'payment')} would be ordered, {sum(it.units for it in payees):,} units; nothing was written")


@group.command("book", cls=Command, epilog=COPY_HELP, short_help="Books what pools have credited, and pays nobody.")
@click.argument("copy", type=PATH)
@WHY
@DECISIONS
def book(copy: pathlib.Path, why: str, folder: pathlib.Path | None) -> None:
    """Writes into the ledger what the pools of COPY have credited, with the deductions of today's rules, once each."""
    one_line(why, "--why")
    credits = credits_of(copy)
    with home.writing(folder) as desk:
        desk.home.need_noted()
        units = booking.book(credits, desk)
        tell_ownerless(credits, desk)
        if desk.writer.sums:
            desk.note(f"pay book: {units:,} units", why)
        show_owed(desk.home)


@group.command("again", cls=Command, short_help="The files of a batch once more.")
@click.argument("number", type=BATCH)
@INTO
@DECISIONS
def again(number: int, into: pathlib.Path, folder: pathlib.Path | None) -> None:
    """Writes the files of a batch that was ordered once more, the same bytes. The bank takes one of them, by its reference."""
    with home.writing(folder) as desk:
        made = batches.read(desk.home, number)
        names = pay_output.write(desk.home, made, into)
    say(f"batch {number}: {', '.join(names)} in {into}, as they were ordered on {made.made.date()}")


@group.command("confirm", cls=Command, short_help="What the bank has paid.")
@click.argument("table", type=PATH, metavar="LIST", required=False)
@click.option("--batch", "number", type=BATCH, metavar="N", help="All of this batch of which the bank has told nothing else.")
@click.option("--day", type=DAY, metavar="DAY", help="With --batch: the day on which it was paid (default: today).")
@WHY
@DECISIONS
def confirm(table: pathlib.Path | None, number: int | None, day: datetime.datetime | None, why: str, folder: pathlib.Path | None) -> None:
    """Writes into the ledger what the bank has paid: by its LIST, a notification (camt.054) or a CSV with reference,amount,day,why; or all
    of a batch. What the ledger has already is left out, so that a list may come twice."""
    if (table is None) == (number is None) or (day and number is None):
        raise click.UsageError("give a LIST, or --batch N, to which --day belongs")
    with home.writing(folder) as desk:
        if number is not None:
            found = answers.of_batch(desk.home, number, day.date() if day else today())
        else:
            found = answers.of_list(desk.home, listed(desk, table, False), False)
        answer(desk, found, "confirm", why)


@group.command("returned", cls=Command, short_help="What the bank has sent back.")
@click.argument("table", type=PATH, metavar="LIST")
@WHY
@DECISIONS
def returned(table: pathlib.Path, why: str, folder: pathlib.Path | None) -> None:
    """Writes into the ledger what the bank has sent back, by its LIST, as of `pay confirm`: the member is owed it again."""
    with home.writing(folder) as desk:
        answer(desk, answers.of_list(desk.home, listed(desk, table, True), True), "returned", why)


def listed(desk: Desk, place: pathlib.Path | None, are_returns: bool) -> list[bank_lists.Told]:
    """The payments of a list; how many are of others is said."""
    assert place is not None
    try:
        content = place.read_bytes()
    except OSError as error:
        raise OfficeError(f"{place} can't be read: {error.strerror}") from error
    found, others = bank_lists.read(content, place.name, desk.home.words, are_returns)
    if others:
        say(f"{counted(others, 'payment')} of the list with references that are not the office's", error=True)
    return found


def answer(desk: Desk, found: answers.Answers, what: str, why: str) -> None:
    """Writes what a bank has told into the ledger and the journal, and says what it was."""
    one_line(why, "--why")
    units = sum(it.units for it in found.entries)
    words = f"{counted(len(found.entries), 'payment')}, {units:,} units"
    if found.entries:
        desk.book(found.entries)
        desk.note(f"pay {what}: {words}", why)
    known = f"; {found.known:,} known before" if found.known else ""
    other = "`pay returned` takes" if what == "confirm" else "`pay confirm` takes"
    others = f"; {found.others:,} that {other}" if found.others else ""
    say(f"{what}: {words}{known}{others}")


@click.command("adjust", cls=Command, context_settings={"ignore_unknown_options": True}, short_help="An advance, a recovery, a write-off.")
@KEY
@click.argument("units", type=Amount())
@click.option("--copy", type=PATH, metavar="COPY", help="With UNCLAIMED: the copy by which it is to be written off, as `dues` says.")
@click.option("--program", metavar="FILE", help=PROGRAM_HELP)
@WHY
@DECISIONS
def adjust(member: str, units: int, copy: pathlib.Path | None, program: str | None, why: str, folder: pathlib.Path | None) -> None:
    """Writes a single line into the ledger: UNITS more that MEMBER is owed, or with a minus less, and why.

    An advance that was paid by hand is less; pools set it off by themselves, since nobody is paid who owes the office. Of UNCLAIMED no more
    is written off than `dues` says.
    """
    reason = one_line(why, "--why")
    if (member == UNCLAIMED) != (copy is not None):
        raise click.UsageError(f"{UNCLAIMED} and --copy belong together")
    most = 0 if copy is None else write_off_of(copy, folder, program)
    with home.writing(folder) as desk:
        if member not in desk.home.members.by_key and member not in desk.home.ledger.owed:
            raise OfficeError(f"there is no member {member}")
        if not units:
            raise OfficeError("an adjustment has units")
        if not desk.home.ledger.lines:
            raise OfficeError("the ledger is not begun: `pay book COPY` books what pools have credited first")
        if member == UNCLAIMED:
            writing_off.need_within(units, most, desk.home.ledger)
        desk.book([Entry(Kind.ADJUSTED, today(), member, units, 0, reason)])
        desk.note(f"adjust {member} by {units:,} units", why)
        say(f"{member} is owed {desk.home.ledger.owed[member]:,} units")


def write_off_of(copy: pathlib.Path, folder: pathlib.Path | None, program: str | None) -> int:
    """What is to be written off of a copy in all."""
    with open_whole(copy) as opened:
        return writing_off.to_be_written_off(opened, decided(noted(opened), folder), find_program(program))


@click.command("ledger", cls=Command, short_help="What was credited, deducted, ordered and paid.")
@click.option("--format", "form", type=click.Choice(["table", *listing.FORMS]), default="table", help="How it is written.")
@click.option("--member", metavar="MEMBER", help="Only the lines of this member.")
@click.option("--output", type=PATH, help="The file to write, for you and your group alone; without it, standard output.")
@DECISIONS
def show_ledger(form: str, member: str | None, output: pathlib.Path | None, folder: pathlib.Path | None) -> None:
    """What members are owed, as a table; as csv each line of the ledger, as hledger a journal for hledger and ledger.

    The ledger is checked whole first: each line by itself, its sums, and the chain of its digests.
    """
    found = home.read(folder)
    if member is not None and member not in found.ledger.owed:
        raise OfficeError(f"the ledger has no line of {member}")
    if form == "table":
        show_owed(found, member)
        return
    text = listing.FORMS[form](found.ledger, member)
    if output:
        private.write(output, text.encode())
    else:
        sys.stdout.write(text)


def show_owed(found: home.Home, member: str | None = None) -> None:
    """Prints what each member is owed, and how that came about."""
    columns = ["member", "credited", "deducted", "adjusted", "ordered", "sent back", "owed"]
    rows = [it for it in listing.owed_rows(found.ledger) if member in (None, it[0])]
    if rows:
        console().print(table(columns, rows, columns[1:]))
    waiting = {it.number: sum(it.orders[one] for one in it.open) for it in found.ledger.batches.values() if it.open}
    say(f"{sum(it for it in owed_by(found.ledger).values() if it > 0):,} units are owed to members")
    for number, units in waiting.items():
        say(f"batch {number}: of {units:,} units the bank has told nothing yet")
