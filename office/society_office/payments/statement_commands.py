"""The words of the command that makes members' statements."""

import datetime
import pathlib
import sys

import click

from society_office.commands.command_words import COPY_HELP, PATH, Command, noted
from society_office.offices.program import open_whole
from society_office.payments import account_output, booking, home, private
from society_office.payments.accounting import Account, Accounts
from society_office.payments.commands import DECISIONS

DAY = click.DateTime(["%Y-%m-%d"])


@click.command("statement", cls=Command, epilog=COPY_HELP, short_help="What a member is owed, and how that came about.")
@click.argument("copy", type=PATH)
@click.argument("member", required=False)
@click.option("--from", "first", type=DAY, metavar="DAY", help="Only from this day on; what was owed before is the opening balance.")
@click.option("--to", "last", type=DAY, metavar="DAY", help="Only up to this day (default: today).")
@click.option("--format", "form", type=click.Choice(["table", "csv", "html", "pdf", "xlsx"]), default="table", help="How it is written.")
@click.option("--output", type=PATH, help="The file to write, for you and your group alone; a PDF and a workbook need one.")
@click.option("--all", "everybody", is_flag=True, help="A statement for each member, into the folder of --into.")
@click.option("--into", type=PATH, metavar="FOLDER", help="With --all: FOLDER/MEMBER/index.html and statement.csv, and totals.csv.")
@click.option("--pdf", is_flag=True, help="With --all: FOLDER/MEMBER/statement.pdf too, by several processes.")
@click.option("--workbook", is_flag=True, help="With --all: totals.xlsx too.")
@DECISIONS
def statement(
    copy: pathlib.Path,
    member: str | None,
    first: datetime.datetime | None,
    last: datetime.datetime | None,
    form: str,
    output: pathlib.Path | None,
    everybody: bool,
    into: pathlib.Path | None,
    pdf: bool,
    workbook: bool,
    folder: pathlib.Path | None,
) -> None:
    """What MEMBER is owed by the ledger, from one day to another: opening balance, credits by work and right, deductions, adjustments,
    payments, closing balance.

    The days are those of pools, adjustments and payments. What pools have credited since the last `pay` or `pay book` is not on it.
    """
    if everybody == (member is not None) or everybody != (into is not None):
        raise click.UsageError("give a MEMBER, or --all with --into FOLDER")
    if (pdf or workbook) and not everybody or everybody and (form != "table" or output):
        raise click.UsageError("--pdf and --workbook are for --all, --format and --output for one MEMBER")
    need_file(form, output)
    until = last.date() if last else datetime.datetime.now(datetime.UTC).date()
    if first and first.date() > until:
        raise click.UsageError("--from is behind --to")
    found = home.read(folder)
    with open_whole(copy) as opened:
        accounts = Accounts(opened, booking.read(noted(opened)), found, first.date() if first else None, until)
        if into is not None:
            account_output.write_all(accounts, into, pdf, workbook)
            return
        write_one(accounts.of(member or ""), form, output)


def need_file(form: str, output: pathlib.Path | None) -> None:
    """A UsageError where what is no text has no file to go to, or a table one."""
    if form in ("pdf", "xlsx") and output is None:
        raise click.UsageError("a PDF and a workbook need --output FILE")
    if form == "table" and output is not None:
        raise click.UsageError("--output needs --format csv, html, pdf or xlsx")


def write_one(made: Account, form: str, output: pathlib.Path | None) -> None:
    """Writes one statement to a file, or to standard output."""
    if form == "table":
        account_output.show(made)
    elif output:
        private.write(output, account_output.file_of(made, form))
    else:
        sys.stdout.write(account_output.file_of(made, form).decode())
