"""The words of the commands that answer questions: how a credit came about, what balances are, and what bytes were sent."""

import pathlib
import sys

import click

from society_office.basics.errors import OfficeError
from society_office.basics.terminal import console
from society_office.book.soundness import need_sound
from society_office.closings.credit import asking
from society_office.commands.command_words import COPY_HELP, PATH, POOL, Command, known_of, names_known, noted
from society_office.commands.command_words import with_decisions
from society_office.credits import balances, explain_output
from society_office.credits.explaining import Explainer
from society_office.credits.lines import NO_RECORDING
from society_office.credits.statements import SENDER
from society_office.formats.fields import RECORDING
from society_office.formats.numbering import as_sent, rank_of
from society_office.formats.return_names import one_return
from society_office.offices.program import find_program, open_whole
from society_office.printed.pages import write_bytes, write_out


def write_stored(body: bytes, output: pathlib.Path | None) -> None:
    """Writes stored bytes to a file, or to standard output."""
    if output:
        write_bytes(output, body)
    else:
        sys.stdout.flush()
        sys.stdout.buffer.write(body)


@click.command(cls=Command, epilog=COPY_HELP, short_help="How an account's credits came about.")
@click.argument("copy", type=PATH)
@click.argument("account")
@click.option("--pool", type=POOL, required=True, metavar="POOL", help="The pool.")
@click.option("--isrc", metavar="ISRC", help="Only this recording.")
@click.option("--format", "form", type=click.Choice(["table", "csv", "json"]), default="table", help="How it is written.")
@click.option("--output", type=PATH, help="The file to write; without it, standard output.")
@with_decisions
def explain(
    copy: pathlib.Path,
    account: str,
    pool: int,
    isrc: str | None,
    form: str,
    output: pathlib.Path | None,
    folder: pathlib.Path | None,
) -> None:
    """How each credit of an account in a pool came about.

    The plays of its recording by station and return, the recording's part of the pool, whose work it is, the account's share, and who
    got the last units; of a make-up what was due by the pools that it makes up, and was lacking. The program itself says it, by the
    order alone; where the credits are others, that is said, with status 1.
    """
    wanted = isrc.upper().replace("-", "") if isrc and isrc != NO_RECORDING else isrc
    if wanted not in (None, NO_RECORDING) and not RECORDING.fullmatch(str(wanted).encode(errors="replace")):
        raise OfficeError(f"{isrc!r} is no ISRC: write ATABC2600001")
    with open_whole(copy) as opened:
        known = known_of(noted(opened), folder)
        names = known.pools if known else {}
        found = Explainer(opened, pool, asking(find_program(), opened), known).of(account, wanted)
    if form == "table" and output is None:
        explain_output.show(found, names, console())
        return
    write_out(explain_output.FORMS[form](found, names), output)


@click.command("balances", cls=Command, epilog=COPY_HELP, short_help="What each account has, by pool and right.")
@click.argument("copy", type=PATH)
@click.option("--format", "form", type=click.Choice(["csv", "json", "ledger"]), default="csv", help="How it is written.")
@click.option("--output", type=PATH, help="The file to write; without it, standard output.")
@with_decisions
def list_balances(copy: pathlib.Path, form: str, output: pathlib.Path | None, folder: pathlib.Path | None) -> None:
    """What each account was credited, by pool and right, so that its lines add up to its balance.

    As ledger it is a journal for ledger and hledger, with a transaction for each pool.
    """
    with open_whole(copy) as opened:
        need_sound(noted(opened), sums=True)
        text = balances.FORMS[form](balances.read(opened), names_known(opened, folder), opened)
    write_out(text, output)


@click.command(cls=Command, epilog=COPY_HELP, short_help="The bytes of a return.")
@click.argument("copy", type=PATH)
@click.argument("name", metavar="REPORTER/N")
@click.option("--output", type=PATH, help="The file to write; without it, standard output.")
def returned(copy: pathlib.Path, name: str, output: pathlib.Path | None) -> None:
    """The bytes of a return as they were sent, say RADIO1/3."""
    reporter, number = one_return(name)
    with open_whole(copy) as opened:
        row = noted(opened).row("SELECT body FROM returns WHERE reporter = ? AND number = ?", reporter, number)
    if row is None:
        raise OfficeError(f"{copy} has no return {reporter}/{number}")
    write_stored(bytes(row[0]), output)


@click.command("file", cls=Command, epilog=COPY_HELP, short_help="The bytes of a file of works.")
@click.argument("copy", type=PATH)
@click.argument("sender")
@click.argument("number", metavar="N")
@click.option("--output", type=PATH, help="The file to write; without it, standard output.")
def give_file(copy: pathlib.Path, sender: str, number: str, output: pathlib.Path | None) -> None:
    """The bytes of a sender's file as they were sent: N is its number, as 7 or 26-0001."""
    rank = rank_of(number)
    if rank is None or as_sent(rank) != number:
        raise OfficeError(f"{number!r} is no number of a file: write 7 or 26-0001")
    if not SENDER.fullmatch(sender):
        raise OfficeError(f"{sender!r} is no sender of files: write its key, as PB000000012")
    with open_whole(copy) as opened:
        row = noted(opened).row("SELECT body FROM transmissions WHERE sender = ? AND number = ?", sender, rank)
    if row is None:
        raise OfficeError(f"{copy} has no file {number} of {sender}")
    write_stored(bytes(row[0]), output)


COMMANDS = (explain, list_balances, returned, give_file)
