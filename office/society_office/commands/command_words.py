"""What commands have in common: words that several of them take, and how they end where something is wrong."""

import math
import pathlib
import re
import sys
from typing import Any, NoReturn

import click

from society_office.basics.terminal import say
from society_office.book.copy import Copy
from society_office.closings.orders import LAST_POOL
from society_office.decided import decisions
from society_office.decided.decisions import Decisions
from society_office.formats.pool_names import PoolNames
from society_office.printed.pages import aged


class Number(click.FloatRange):
    """A number of seconds, days or percent; none of the words `nan` and `inf`, with which nothing is ever late."""

    def convert(self, value: Any, param: click.Parameter | None, ctx: click.Context | None) -> Any:
        """The number that a word is."""
        found = super().convert(value, param, ctx)
        return found if math.isfinite(found) else self.fail(f"{value} is no number.", param, ctx)


class Amount(click.ParamType):
    """Units of money: a whole number, with commas between thousands or without; one with cents is told how to write it."""

    name = "units"

    def convert(self, value: Any, param: click.Parameter | None, ctx: click.Context | None) -> int:
        """The number that a word is."""
        words = str(value)
        if CENTS.fullmatch(words):
            cents = words.replace(".", "").replace(",", "")
            return self.fail(f"{words} has a point: an amount is whole units, in cents {cents}.", param, ctx)
        if not UNITS.fullmatch(words):
            return self.fail(f"{words!r} is no number of units: write 100000 or 100,000.", param, ctx)
        return int(words.replace(",", ""))


class Command(click.Command):
    """A command whose options are given once each, but for those that can be given again: of two amounts none is meant."""

    def parse_args(self, ctx: click.Context, args: list[str]) -> list[str]:
        """Reads the words; a UsageError where an option with a value is given twice."""
        _, _, given = self.make_parser(ctx).parse_args(list(args))
        for it in given:
            if isinstance(it, click.Option) and not it.is_flag and not it.multiple and given.count(it) > 1:
                raise click.UsageError(f"{it.opts[-1]} is given twice", ctx)
        return super().parse_args(ctx, args)


WRONG = 1
# How an amount is written, and how one that has cents.
UNITS, CENTS = re.compile(r"-?[0-9]+|-?[0-9]{1,3}(,[0-9]{3})+", re.ASCII), re.compile(r"-?[0-9,]+\.[0-9]{2}", re.ASCII)
NUMBER = Number(0, 1_000_000)
PATH = click.Path(path_type=pathlib.Path)
POOL = click.IntRange(1, LAST_POOL)
COPY_HELP = "COPY is a copy of the office's file, as the nightly backup makes it: one file, which no office has open."
DECISIONS_HELP = f"The folder of decisions (default: ${decisions.VARIABLE}, else {decisions.FOLDER})."
OLD = {"--void": decisions.VOID, "--pools": decisions.POOLS}
PROGRAM_HELP = "The program (default: `society` on the PATH)."


DECISIONS = (
    click.option("--decisions", "folder", type=PATH, metavar="FOLDER", help=DECISIONS_HELP),
    *(click.option(it, hidden=True, expose_value=False, callback=lambda *it: refuse_old(*it)) for it in OLD),
)


def fail(line: str) -> NoReturn:
    """Ends the command with a line."""
    say(f"society-office: {line}", error=True)
    sys.exit(WRONG)


def noted(copy: Copy) -> Copy:
    """The copy, after what has to be said of it was said."""
    if copy.note:
        say(f"society-office: {copy.note}", error=True)
    return copy


def with_decisions(command: Any) -> Any:
    """A command with the option --decisions, which says what took the place of lists of its own."""
    for option in reversed(DECISIONS):
        command = option(command)
    return command


def refuse_old(_: click.Context, option: click.Parameter, value: object) -> None:
    """A UsageError where a list is named that stands in the folder of decisions now."""
    if value is not None:
        raise click.UsageError(f"{option.opts[-1]} is no more: the list stands in the folder of decisions, as {OLD[option.opts[-1]]} there")


def decided(copy: Copy, named: pathlib.Path | None) -> Decisions:
    """What the office has decided, for a command that decides or judges money: it is said which folder has it, and how old the copy is.

    An OfficeError where there is no such folder.
    """
    found = decisions.read(decisions.need_folder(named))
    say(f"{found.words}; {age_told(copy)}", error=True)
    tell_unread(copy, found.folder)
    return found


def tell_unread(copy: Copy, folder: pathlib.Path | None) -> None:
    """Says where a list stands beside a copy, as it was read there before there was a folder of decisions."""
    for name in OLD.values():
        if (beside := copy.path.parent / name).exists() and not (folder and beside.parent.samefile(folder)):
            say(f"note: {beside} is not read: what counts is {name} of the folder of decisions", error=True)


def looked_up(copy: Copy, named: pathlib.Path | None) -> Decisions | None:
    """The same for a command that only looks; without a folder that is said, and it goes on."""
    if decisions.folder_of(named) is None:
        say(f"no folder of decisions (--decisions), so nothing is known of void returns and names of pools; {age_told(copy)}", error=True)
        tell_unread(copy, None)
        return None
    return decided(copy, named)


def known_of(copy: Copy, named: pathlib.Path | None) -> Decisions | None:
    """What the office has decided, for a command that only tells of it; None without a folder, of which nothing is said."""
    folder = decisions.folder_of(named)
    tell_unread(copy, folder)
    return decisions.read(folder) if folder else None


def names_known(copy: Copy, named: pathlib.Path | None) -> PoolNames:
    """The names and days of pools, for a command that tells nothing of what was decided beside them."""
    known = known_of(copy, named)
    return known.pools if known else {}


def age_told(copy: Copy) -> str:
    """How old a copy is, in words."""
    return f"{copy.path} is {aged(copy.taken)} old"
