"""The words of the commands about money: what is unclaimed, and orders proposed and rehearsed."""

import pathlib
import sys

import click

from society_office.basics.errors import OfficeError
from society_office.basics.terminal import console, say
from society_office.book.copy import Copy
from society_office.closings import order_output, orders, rehearsal, rehearsal_output
from society_office.commands.command_words import COPY_HELP, PATH, POOL, PROGRAM_HELP, WRONG, Amount, Command, decided, fail, looked_up
from society_office.commands.command_words import noted, with_decisions
from society_office.credits.unclaimed import BOOKING, MAY_BE_OWNED, Unclaimed, as_json
from society_office.formats.numbering import ranges
from society_office.formats.return_names import entries
from society_office.offices.program import find_program, open_whole
from society_office.printed.pages import write_out


@click.command(cls=Command, epilog=COPY_HELP, short_help="Why money went to nobody.")
@click.argument("copy", type=PATH)
@click.option("--pool", type=POOL, metavar="POOL", help="Only this pool.")
@click.option("--format", "form", type=click.Choice(["table", "json"]), default="table", help="How it is written.")
@click.option("--settle", hidden=True, expose_value=False, callback=lambda *it: refuse_old(*it))
@with_decisions
def unclaimed(copy: pathlib.Path, pool: int | None, form: str, folder: pathlib.Path | None) -> None:
    """Why money went to nobody, by cause, and what can be done about it.

    Works and titles are those at the pool's cut. What was a conflict, or not in the cut, and has one owner now is due to its holders:
    `dues` tells what of it was not paid yet.
    """
    with open_whole(copy) as opened:
        looked_up(noted(opened), folder)
        if pool is not None:
            refuse_unknown(opened, pool)
        found = Unclaimed(opened).items(pool)
        if form == "json":
            say(as_json(found))
            return
        order_output.show_unclaimed(console(), found, opened.pools(), "`--format json` has every one of them")
        if pool is None and any(it.cause in MAY_BE_OWNED for it in found):
            say(f"\n{BOOKING}")


def refuse_unknown(copy: Copy, pool: int) -> None:
    """An OfficeError where a pool is not closed."""
    if pool not in copy.pools():
        raise OfficeError(f"pool {pool} is not closed; closed are {ranges(copy.pools(), 20) or 'none'}")


@click.command(cls=Command, epilog=COPY_HELP, short_help="An order over all that can be paid.")
@click.argument("copy", type=PATH)
@click.option("--amount", type=Amount(), required=True, help="The units of the pool.")
@click.option(
    "--kind",
    type=click.Choice(["PR", "MR"]),
    default="PR",
    help="The right that it pays: performing (PR) or mechanical (MR).",
)
@click.option("--returns", multiple=True, metavar="WORDS", help="Only these: RADIO1, RADIO1/3 or RADIO1/3-5,8. Can be given again.")
@click.option("--cut", multiple=True, metavar="SENDER=N", help="Count a sender's files up to this one only (0: none). Can be given again.")
@click.option("--no-returns", is_flag=True, help="Name no return, so that all of it goes to UNCLAIMED.")
@click.option("--no-files", is_flag=True, help="Count no file, so that all of it goes to UNCLAIMED.")
@with_decisions
@click.option("--output", type=PATH, help="The file to write; without it, standard output.")
def propose(
    copy: pathlib.Path,
    amount: int,
    kind: str,
    returns: tuple[str, ...],
    cut: tuple[str, ...],
    no_returns: bool,
    no_files: bool,
    folder: pathlib.Path | None,
    output: pathlib.Path | None,
) -> None:
    """An order over all files that are applied and all returns that no pool has paid.

    The order is written as JSON, as it is sent. What it leaves out is said on standard error: returns of the list of void ones (an entry
    a line, as `RADIO1/3  # wrong month`), and those with the same plays as another, which would be paid twice. An order that names no
    return, or counts no file, is written only where a flag asks for it.
    """
    if returns and no_returns:
        raise click.UsageError("give --returns or --no-returns, not both")
    if cut and no_files:
        raise click.UsageError("give --cut or --no-files, not both")
    wanted = orders.Wanted(entries(returns, "--returns"), cut, no_returns, no_files)
    with open_whole(copy) as opened:
        found = orders.propose(noted(opened), amount, kind, wanted, decided(opened, folder).void)
    order_output.tell_proposal(found)
    orders.refuse_empty(found.order, wanted)
    write_out(found.order.json + "\n", output)


@click.command(cls=Command, epilog=COPY_HELP, short_help="What an order would do, before it is sent.")
@click.argument("copy", type=PATH)
@click.argument("order", type=PATH)
@click.option("--pool", type=POOL, metavar="POOL", help="The pool's number (default: the next free one, or that of an own return).")
@with_decisions
@click.option("--format", "form", type=click.Choice(["table", "csv", "json"]), default="table", help="How it is written.")
@click.option("--program", metavar="FILE", help=PROGRAM_HELP)
def rehearse(
    copy: pathlib.Path, order: pathlib.Path, pool: int | None, folder: pathlib.Path | None, form: str, program: str | None
) -> None:
    """What an order would credit and what would stay unclaimed, before it is sent.

    The program itself serves a throw-away copy and closes the pool there. What is odd is noted: plays that are named or were paid before,
    void returns, a return with ten times the points of its station's others or a tenth, files and returns that are left out; and what it
    pays beyond what is due, to whom, and what is due that it leaves. A CSV has what each account is credited. The status is 1 where the
    program refuses the order.
    """
    with open_whole(copy) as opened:
        known = decided(noted(opened), folder)
        with rehearsal.rehearse(find_program(program), opened, order, pool, known) as found:
            if form == "json":
                say(rehearsal_output.as_json(found))
            elif form == "csv" and found.copy is not None:
                sys.stdout.write(rehearsal_output.as_csv(found, found.copy))
            elif form == "csv":
                fail(f"the order is refused, status {found.answer.status}: {found.refusal}")
            else:
                rehearsal_output.show(console(), found, known.pools)
            if found.copy is None:
                sys.exit(WRONG)


def refuse_old(_: click.Context, option: click.Parameter, value: object) -> None:
    """A UsageError that names the command which took the place of --settle."""
    if value is not None:
        raise click.UsageError("--settle is no more: `society-office dues COPY --next FOLDER` writes the next order of what is lacking")


@click.command(cls=Command, hidden=True, context_settings={"ignore_unknown_options": True, "allow_extra_args": True})
def correct() -> None:
    """Says which commands took its place."""
    raise OfficeError(
        "`correct` is no more: `society-office amend COPY POOL` says how an order should have been, and `society-office dues COPY` "
        "who lacks what by it"
    )


COMMANDS = (unclaimed, propose, rehearse, correct)
