"""The words of the commands about members: the folder of payments, who they are, and one who has left."""

import pathlib
import sys
from collections.abc import Iterator

import click

from society_office.basics.errors import OfficeError
from society_office.basics.terminal import say
from society_office.commands.command_words import COPY_HELP, DECISIONS_HELP, PATH, WRONG, Command, noted
from society_office.decided import decisions
from society_office.decided.journal import one_line
from society_office.formats.numbering import counted
from society_office.offices.program import open_whole
from society_office.payments import booking, home, members, private, registering
from society_office.payments.home import MEMBERS, Home

DECISIONS = click.option("--decisions", "folder", type=PATH, metavar="FOLDER", help=DECISIONS_HELP)
WHY = click.option("--why", required=True, metavar="WORDS", help="Why, for the journal.")
KEY = click.argument("member")
# Accounts without a member, and members without a credit, that are told one by one.
MOST_TOLD = 20


@click.group("members", short_help="Who the members are, and whose accounts.")
def group() -> None:
    """Who the members are, which accounts are whose, and what stands on their statements.

    Their data stand in payments/ of the folder of decisions, for the treasurer's group alone.
    """


@group.command("begin", cls=Command, short_help="Makes the folder of members and payments.")
@click.option("--group", "name", metavar="GROUP", help="The treasurer's group (default: your own one).")
@DECISIONS
def begin(name: str | None, folder: pathlib.Path | None) -> None:
    """Makes payments/ in the folder of decisions, for the treasurer's group alone, and what it lacks."""
    made = home.begin(folder, name)
    place = decisions.need_folder(folder) / home.NAME
    say(f"begun in {place}: {', '.join(made)}" if made else f"{place} has all that it needs")


@group.command("check", cls=Command, epilog=COPY_HELP, short_help="What is wrong with members, deductions and the ledger.")
@click.argument("copy", type=PATH, required=False)
@DECISIONS
def check(copy: pathlib.Path | None, folder: pathlib.Path | None) -> None:
    """What is wrong with members, the office's words, deductions and the ledger, each with its line and the cure.

    With a COPY also accounts that were credited and have no member, accounts that have changed hands after they were booked, and, as
    notes, members without a credit. Status 1: something is wrong.
    """
    found = home.read(folder)
    faults = list(faults_of(found))
    notes = list[str]()
    if copy is not None and not faults:
        with open_whole(copy) as opened:
            credits = booking.read(noted(opened))
        faults += faults_beside(credits, found)
        notes = without_credit(credits, found)
    for line in faults + [f"note: {it}" for it in notes]:
        say(line)
    if faults:
        sys.exit(WRONG)
    say(f"{found.told}: nothing is wrong")


def faults_of(found: Home) -> Iterator[str]:
    """What is wrong with the files themselves."""
    yield from members.judged(found.contents[MEMBERS], str(found.folder / MEMBERS))[1]
    for part in ("words", "ledger", "members", "rules"):
        try:
            getattr(found, part)
        except OfficeError as error:
            if str(found.folder / MEMBERS) not in str(error) or "erased" in str(error):
                yield str(error)
    places = [found.folder, *sorted(it for it in found.folder.rglob("*"))]
    yield from (f"{it}: others than the treasurer's group may look into it: chmod o=,g-w" for it in private.open_to_others(places))
    if changed := found.changed_by_hand:
        yield f"{', '.join(changed)}: changed since its last line in the journal: `society-office members note --why ..` writes one"


def faults_beside(credits: booking.Credits, found: Home) -> Iterator[str]:
    """What is wrong beside what pools have credited."""
    booking.need_same(credits, found)
    lacking = booking.ownerless(credits, found)
    for account, units in list(lacking.items())[:MOST_TOLD]:
        yield f"{account}: credited {units:,} units, and no member has it: write it into {MEMBERS}, with the day from which on it is whose"
    if len(lacking) > MOST_TOLD:
        yield f"{len(lacking) - MOST_TOLD:,} more accounts without a member, with {sum(list(lacking.values())[MOST_TOLD:]):,} units"
    for pool, account, before, owner in booking.moved(credits, found):
        yield (
            f"{account}: pool {pool} was booked to {before}, and by {MEMBERS} it was {owner}'s on that day: what was booked stays, so give "
            f"it another day there, or set it right by `adjust {before}` and `adjust {owner}`"
        )


def without_credit(credits: booking.Credits, found: Home) -> list[str]:
    """The members none of whose accounts was ever credited."""
    credited = {it.account for it in credits.listed}
    idle = [it for it in found.members.by_key.values() if not any(account in credited for account, _ in it.accounts)]
    told = [f"{MEMBERS}, line {it.line}: {it.key} has no credit: look whether its accounts are right" for it in idle[:MOST_TOLD]]
    return told + ([f"{len(idle) - MOST_TOLD:,} more members without a credit"] if len(idle) > MOST_TOLD else [])


@group.command("import", cls=Command, short_help="Members out of a spreadsheet.")
@click.argument("table", type=PATH)
@WHY
@DECISIONS
def take_over(table: pathlib.Path, why: str, folder: pathlib.Path | None) -> None:
    """Takes members over from a spreadsheet's CSV, parted by commas or by `;`, whose first line has the names of columns.

    A member's row takes the place of the one that members.csv has; other members stay. Where a row is wrong, nothing is taken over.
    """
    one_line(why, "--why")
    try:
        content = table.read_bytes()
    except OSError as error:
        raise OfficeError(f"{table} can't be read: {error.strerror}") from error
    with home.writing(folder) as desk:
        found = registering.imported(desk, content, table.name)
        words = f"{counted(found.new, 'new member')}, {found.changed:,} changed, {found.same:,} as before"
        if desk.writer.sums:
            desk.note(f"members import: {words}", why)
    say(words)


@group.command("note", cls=Command, short_help="Tells the journal what was changed by hand.")
@WHY
@DECISIONS
def note(why: str, folder: pathlib.Path | None) -> None:
    """Writes into the journal that members.csv, payments.txt or deductions.txt was changed by hand, and why; they have to be right."""
    one_line(why, "--why")
    with home.writing(folder) as desk:
        if not (changed := desk.home.changed_by_hand):
            raise OfficeError(f"{desk.home.folder}: nothing was changed since the last line of the journal")
        for name in changed:
            desk.put(name, desk.home.contents[name])
        desk.note(f"{', '.join(changed)} by hand", why)
    say(f"{', '.join(changed)}: noted")


@group.command("erase", cls=Command, short_help="Takes a member who has left out.")
@KEY
@WHY
@DECISIONS
def erase(member: str, why: str, folder: pathlib.Path | None) -> None:
    """Takes the person of MEMBER out of members.csv and of all batches, once nothing is owed. What was credited and paid stays, under its
    key alone; the payment files of its batches can't be written again."""
    with home.writing(folder) as desk:
        registering.erase(desk, member, why)
        desk.note(f"members erase {member}", why)
    say(f"{member}: erased; what was credited and paid to it stays in the ledger. Backups and files of before have it still")
