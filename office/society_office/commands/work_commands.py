"""The words of the commands that find works: by what people type, and by what stations have played that no file names."""

import pathlib

import click

from society_office.basics.terminal import say
from society_office.commands.command_words import COPY_HELP, PATH, Command, looked_up, noted, with_decisions
from society_office.credits import unknown, unknown_output
from society_office.formats.numbering import counted
from society_office.offices.program import open_whole
from society_office.printed.pages import write_out
from society_office.works import registered_works, work_index, work_search, work_search_output

# Works that are shown where nothing else is asked for.
MOST = 20


@click.command("works", cls=Command, epilog=COPY_HELP, short_help="Finds works by title, holder or number.")
@click.argument("copy", type=PATH)
@click.argument("words", nargs=-1)
@click.option("--most", type=click.IntRange(1), default=MOST, show_default=True, metavar="N", help="Show no more works than this.")
@click.option("--format", "form", type=click.Choice(list(work_search_output.FORMS)), default="table", help="How it is written.")
@click.option("--output", type=PATH, help="The file to write; without it, standard output.")
def works(copy: pathlib.Path, words: tuple[str, ...], most: int, form: str, output: pathlib.Path | None) -> None:
    """Finds works, also those that never earned, were revised or rejected, or wait: with holders, versions and credits.

    WORDS are how words of titles and of holders' names begin, or how a number does: of a sender, a work, an account, an ISWC or an ISRC.
    All of them have to be found. Accents, small or capital letters, points and hyphens make no difference. Without WORDS each work is
    found. The first search of a copy reads all its works and writes an index beside it; where it can't write that, each search does.
    """
    with open_whole(copy) as opened:
        index, note = work_index.of(noted(opened))
        if note:
            say(f"society-office: {note}", error=True)
        found = index.find(work_search.asked(words))
        shown = registered_works.told(opened, index.places(found[:most]))
    write_out(work_search_output.FORMS[form](shown, len(found)), output)
    if len(found) > most and form != "table":
        say(f"society-office: {counted(len(found) - most, 'more work')}: give `--most {len(found)}`", error=True)


@click.command("unknown", cls=Command, epilog=COPY_HELP, short_help="Plays of nobody's recording, with what may be meant.")
@click.argument("copy", type=PATH)
@click.option("--station", metavar="NAME", help="Only what this station has played.")
@click.option("--titles", type=PATH, metavar="FILE", help="A file with columns isrc and title: works are looked for by these.")
@click.option("--format", "form", type=click.Choice(list(unknown_output.FORMS)), default="table", help="How it is written.")
@click.option("--output", type=PATH, help="The file to write; without it, standard output.")
@with_decisions
def list_unknown(
    copy: pathlib.Path,
    station: str | None,
    titles: pathlib.Path | None,
    form: str,
    output: pathlib.Path | None,
    folder: pathlib.Path | None,
) -> None:
    """What stations have played that no file names: by station and by the units that went to nobody for it, with what may be meant.

    Likely are registered recordings with two characters exchanged, of another year or another registrant, or with one digit another
    one; and with --titles works by the title. A CSV of one station can be sent back to it. Void returns are no plays.
    """
    with open_whole(copy) as opened:
        known = looked_up(noted(opened), folder)
        by_isrc = unknown.titles_in(titles) if titles else {}
        found = unknown.Finder(opened, known.void if known else []).all(station, by_isrc, work_index.of(opened)[0] if titles else None)
    write_out(unknown_output.FORMS[form](found), output)


COMMANDS = (works, list_unknown)
