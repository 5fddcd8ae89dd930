"""The words of the commands about what the office decides: what its folder has, and which returns are never to be paid."""

import pathlib

import click

from society_office.basics.errors import OfficeError
from society_office.basics.terminal import say
from society_office.closings.closing import PERSONS
from society_office.commands.command_words import DECISIONS_HELP, PATH, WRONG, Command
from society_office.decided import decisions
from society_office.decided.journal import MOMENT, one_line
from society_office.formats.return_names import entries

# Why words of void.txt can't have a mark that begins a remark of their own.
REMARK = "#"


@click.command("decisions", cls=Command, short_help="What the office has decided, by whom and why.")
@click.argument("folder", type=PATH, required=False)
@click.option("--begin", is_flag=True, help="Make the folder, or the files that it lacks.")
@click.option("--why", metavar="WORDS", help="Write into the journal that files were changed by hand, and why.")
@click.option("--persons", type=click.Choice(["1", "2"]), help="From now on a pool is closed by so many persons; with --why.")
@click.option("--last", type=click.IntRange(0, 1_000_000), default=10, show_default=True, metavar="N", help="So many lines of the journal.")
@click.pass_context
def show_decisions(
    context: click.Context, folder: pathlib.Path | None, begin: bool, why: str | None, persons: str | None, last: int
) -> None:
    """What the office has decided, and the last lines of the journal.

    FOLDER has void.txt, amendments.txt, pools.txt and journal.txt, which people read and keep in git. The first three may be changed by
    hand: --why puts that into the journal. Status 1: a file was changed since its last line there.
    """
    place = decisions.need_folder(folder)
    if begin and (made := decisions.begin(place)):
        say(f"begun in {place}: {', '.join(made)}")
    found = decisions.read(place)
    if persons is not None:
        found = set_persons(found, int(persons), why)
    elif why is not None:
        found = note_by_hand(found, why)
    say(found.words)
    for it in found.journal[-last:] if last else ():
        say(f"{it.when.strftime(MOMENT)}  {it.who}  {it.what}: {it.why}")
    if by_hand := found.changed_by_hand:
        say(f"{', '.join(by_hand)}: changed since its last line in the journal: `society-office decisions --why ..` writes one")
        context.exit(WRONG)


def set_persons(found: decisions.Decisions, count: int, why: str | None) -> decisions.Decisions:
    """Writes into the journal how many persons a pool takes from now on."""
    if why is None:
        raise click.UsageError("--persons is for good, so give --why too")
    with decisions.writing(found.folder) as it:
        it.note(next(words for words, number in PERSONS.items() if number == count), why)
        return it.had


def note_by_hand(found: decisions.Decisions, why: str) -> decisions.Decisions:
    """Writes into the journal what was changed by hand; an OfficeError where nothing was."""
    with decisions.writing(found.folder) as it:
        if not (names := it.had.changed_by_hand):
            raise OfficeError(f"{found.folder}: nothing was changed since the last line of the journal")
        it.note(f"{', '.join(names)} by hand", why, {name: it.had.sums[name] for name in names})
        return it.had


@click.command("void", cls=Command, short_help="Returns that are never to be paid.")
@click.argument("returns", nargs=-1, required=True)
@click.option("--why", required=True, metavar="WORDS", help="Why, for the list and the journal.")
@click.option("--decisions", "folder", type=PATH, metavar="FOLDER", help=DECISIONS_HELP)
def set_void(returns: tuple[str, ...], why: str, folder: pathlib.Path | None) -> None:
    """Writes into the folder of decisions that returns are never to be paid, and why.

    RETURNS are RADIO1/3 or RADIO1/3-5,8; RADIO1 is all of a station, now and later.
    """
    found = entries(returns, "RETURNS")
    reason = one_line(why, "--why").replace(REMARK, "")
    place = decisions.need_folder(folder)
    lines = [f"{it.words}  {REMARK} {reason}" for it in found]
    decisions.add(place, decisions.VOID, lines, f"void {' '.join(it.words for it in found)}", why)
    say(f"{' '.join(it.words for it in found)}: never to be paid, by {place / decisions.VOID}")


COMMANDS = (show_decisions, set_void)
