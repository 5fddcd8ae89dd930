"""The words of the commands about a second office: whether two are the same, sending what one lacks, and rebuilding one."""

import pathlib
import sys
from typing import Any

import click

from society_office.basics.errors import OfficeError
from society_office.basics.terminal import counting, doing, say
from society_office.book.copy import Copy, open_copy
from society_office.commands.command_words import COPY_HELP, NUMBER, PATH, PROGRAM_HELP, WRONG, noted
from society_office.offices.answered import lacks
from society_office.offices.asking import Connections, access_by_netrc
from society_office.offices.program import ANSWER, find_program, open_whole, trial_of
from society_office.second_office import following, mirroring, rebuilding
from society_office.second_office.comparing import Difference, compare, summary
from society_office.second_office.comparing_answers import ALL_WORKS, compare_answers
from society_office.second_office.resending import Tally, how_many, resend

ACCESS = (
    click.option("--netrc", "by_netrc", is_flag=True, help="The user and the password stand in ~/.netrc, as curl has it."),
    click.option("--netrc-file", type=PATH, metavar="FILE", help="They stand in this file."),
    click.option("--authority", metavar="FILE", help="The certificate to trust, where it is no public one."),
    click.option("--connections", type=click.IntRange(0, 32), default=0, metavar="N", help="So many at a time (default: 1, with https 4)."),
    click.option(
        "--wait",
        type=click.IntRange(0, 86_400),
        default=60,
        metavar="SECONDS",
        help="So long an answer is waited for, and asked for again where there is none (default: 60).",
    ),
)


def with_access(command: Any) -> Any:
    """A command with the options of an office that is asked."""
    for option in reversed(ACCESS):
        command = option(command)
    return command


def connected(
    address: str, by_netrc: bool, netrc_file: pathlib.Path | None, authority: str | None, connections: int, wait: int
) -> Connections:
    """The office at an address."""
    access: dict[str, Any] = access_by_netrc(address, netrc_file) if by_netrc or netrc_file else {}
    return Connections(address, wait, connections, authority=authority, **access)


def tell_differences(found: list[Difference], names: tuple[str, str]) -> None:
    """A line for each kind that differs, and status 1."""
    for it in found:
        say(it.line(names))
    sys.exit(WRONG)


@click.command("compare", epilog=COPY_HELP, short_help="Whether two offices are the same.")
@click.argument("copy", type=PATH)
@click.argument("other", metavar="COPY|URL")
@click.option(
    "--works",
    type=click.IntRange(min=0),
    default=ALL_WORKS,
    metavar="N",
    help="Of each file an office is asked for so many works (default: all).",
)
@with_access
def tell_differs(copy: pathlib.Path, other: str, works: int, **access: Any) -> None:
    """Whether two offices hold the same book and answer the same.

    Of two copies all rows are compared. An office at a URL is asked, and so is the program over the copy, for fronts, held numbers,
    verdicts, acknowledgements, works, credits and balances, as far as the copy knows of them: ends, returns and orders an office
    does not tell, but `resend` finds out. Of each kind that differs the first difference is told, and how many there are; then the status
    is 1.
    """
    names = (str(copy), other)
    if other.startswith(("http://", "https://")):
        with open_whole(copy) as opened, trial_of(find_program(), noted(opened)) as trial, doing(f"asking {other}"):
            count, found = compare_answers(opened, Connections(trial.office.address, 0, least=ANSWER), connected(other, **access), works)
            same = f"{copy} and {other} give the same answers to {count:,} questions"
    else:
        with open_whole(copy) as opened, open_whole(pathlib.Path(other)) as second, doing("comparing"):
            found = compare(noted(opened), noted(second))
            same = f"{copy} and {other} are the same: {summary(opened)}"
    if found:
        tell_differences(found, names)
    say(same)


@click.command("resend", epilog=COPY_HELP, short_help="Sends what a copy has to another office.")
@click.argument("copy", type=PATH)
@click.option("--to", "address", required=True, metavar="URL", help="The office that gets it, as http://127.0.0.1:8080.")
@click.option("--since-fronts", is_flag=True, help="Sends only files above its fronts, and returns that none of its pools has paid.")
@click.option("--state", type=PATH, metavar="FILE", help="Keeps there until when it has all, and what came since, for `health --standby`.")
@click.option(
    "--behind",
    type=NUMBER,
    default=15.0,
    show_default=True,
    metavar="MINUTES",
    help="With --state: status 1 where it is behind for longer.",
)
@click.option("--known", type=PATH, metavar="FOLDER", help="Makes FOLDER/URL while an office of the same society answers: for a mirror.")
@with_access
def send_again(copy: pathlib.Path, address: str, since_fronts: bool, state: pathlib.Path | None, behind: float, **words: Any) -> None:
    """Sends all that a copy has of what was sent to another office: ends, files, returns, orders.

    What it has already changes nothing, so where it was broken off run it again. It tells how much was new to the other office, how much
    it knew, and what it refused and why; then the status is 1. With --state a standby that does not answer is told, and the status is 1
    only where it has been behind for longer than --behind.
    """
    follower, known = following.begun(state, address) if state else None, words.pop("known")
    with open_copy(copy) as opened:
        try:
            found = sent_to(noted(opened), connected(address, **words), since_fronts, follower is not None, known)
        except OfficeError as error:
            if follower is None or state is None:
                raise
            say(f"society-office: {error}", error=True)
            follower.fell_behind(opened)
        else:
            for line in found.lines():
                say(line)
            if follower is None or state is None:
                sys.exit(WRONG if found.refused else 0)
            follower.caught_up(opened, found)
            follower.compared(found.beyond)
    follower.keep(state)
    say(follower.words)
    sys.exit(WRONG if follower.refused or follower.ahead or follower.minutes > behind else 0)


def sent_to(copy: Copy, office: Connections, since_fronts: bool, is_followed: bool, known: pathlib.Path | None) -> Tally:
    """What became of what was sent to an office; of one that is followed also what it has beyond the copy."""
    try:
        with mirroring.told(known, copy, office), counting("sent", how_many(copy)) as tell:
            found = resend(copy, office, since_fronts, tell)
        if is_followed and copy.layout > 1:
            found.beyond = [it.words for it in lacks(copy, office)]
        return found
    finally:
        office.close()


@click.command(epilog=COPY_HELP, short_help="Whether a book follows from what was sent.")
@click.argument("copy", type=PATH)
@click.option("--program", metavar="FILE", help=PROGRAM_HELP)
def rebuild(copy: pathlib.Path, program: str | None) -> None:
    """Whether the book of a copy follows from what was sent.

    The program begins an empty office in a temporary folder, all that the copy has is sent to it, and both are compared. A copy of layout
    1 or 2 is compared as the program takes it over.
    """
    with open_copy(copy) as opened, counting("rebuilt", how_many(noted(opened))) as tell:
        tally, found, held = rebuilding.rebuild(opened, find_program(program), tell)
    if tally.refused or found:
        for line in tally.lines():
            say(line)
        tell_differences(found, (str(copy), "the rebuilt office"))
    say(f"{copy} follows from what was sent: {held}")


COMMANDS = (tell_differs, send_again, rebuild)
