"""The words of the command that closes pools."""

import contextlib
import pathlib
import sys
from collections.abc import Iterator
from typing import Any

import click

from society_office.basics.errors import OfficeError
from society_office.basics.terminal import console, say
from society_office.book.copy import Copy, open_copy
from society_office.closings import closing, rehearsal, rehearsal_output
from society_office.closings.closing import Plan
from society_office.closings.rehearsal import Rehearsal
from society_office.commands.command_words import PATH, PROGRAM_HELP, WRONG, Amount, Command, decided, noted, with_decisions
from society_office.commands.standby_commands import connected, with_access
from society_office.decided.decisions import Decisions
from society_office.decided.journal import MOMENT
from society_office.offices import answered
from society_office.offices.asking import Connections
from society_office.offices.program import ANSWER, find_program, open_whole, trial_of
from society_office.second_office.resending import need_same_society
from society_office.watch.health import newest

# Where an installed office has copies that its group may read.
COPIES = (pathlib.Path("/var/backups/society-staff"), pathlib.Path("/var/backups/society"))
# So many things in which the office and the copy differ are told.
MOST_TOLD = 5


@click.command(cls=Command, short_help="Closes a pool at the office, by an order.")
@click.argument("order", type=PATH)
@click.option("--copy", type=PATH, help="A copy of now (default: the newest of /var/backups/society-staff or society).")
@click.option("--office", "address", default="http://127.0.0.1:8080", show_default=True, metavar="URL", help="The office.")
@click.option("--why", metavar="WORDS", help="Why, for the journal; asked for where it is not given.")
@click.option("--amount", type=Amount(), metavar="UNITS", help="The amount once more; asked for where it is not given.")
@click.option("--dry-run", is_flag=True, help="Show what it would pay; write and send nothing.")
@click.option("--approve", is_flag=True, help="Close what another person has asked for, where a pool takes two persons.")
@click.option("--give-up", is_flag=True, help="Take back a pool that was begun, where the office has not closed it.")
@click.option("--program", metavar="FILE", help=PROGRAM_HELP)
@with_decisions
@with_access
def close(
    order: pathlib.Path,
    copy: pathlib.Path | None,
    address: str,
    folder: pathlib.Path | None,
    program: str | None,
    **words: Any,
) -> None:
    """Closes a pool at the office by an order, once it was shown what that pays and the amount was repeated.

    The order is rehearsed over a copy, which has to have all that the office has now. It gets the next free number, or its own where the
    office itself has written it. Then it is sent, the pool is read back and held against the rehearsal, and the journal tells who has
    closed it and why. Where it was broken off, run it again: it ends what was begun, and there is never a second pool.
    """
    asked = {it: words.pop(it) for it in ("why", "amount", "dry_run", "approve", "give_up")}
    office = connected(address, **words)
    try:
        with open_whole(copy or newest_copy()) as opened:
            known = decided(noted(opened), folder)
            body = order.read_bytes()
            it = closing.plan(known, opened, body)
            if asked["give_up"]:
                take_back(known, opened, office, it, asked["why"])
                return
            need_ready(known, opened, office, it)
            with with_own(find_program(program), opened, it, order.parent) as whole:
                with rehearsal.rehearse(find_program(program), whole, order, it.pool, known) as found:
                    carry_out(known, office, it, found, order, asked)
    finally:
        office.close()


@contextlib.contextmanager
def with_own(program: str, copy: Copy, it: Plan, beside: pathlib.Path) -> Iterator[Copy]:
    """The copy with the returns of the office itself that the order pays, and that are sent with it."""
    if not it.own:
        yield copy
        return
    with trial_of(program, copy) as trial:
        if refusal := closing.send_own(Connections(trial.office.address, 0, least=ANSWER), it, beside):
            raise OfficeError(refusal)
        trial.end()
        with open_copy(trial.database) as found:
            found.path, found.moment = copy.path, copy.moment
            yield found


def newest_copy() -> pathlib.Path:
    """The newest copy of an installed office."""
    for it in COPIES:
        if it.is_dir():
            return newest(it)
    raise OfficeError("name a copy with --copy")


def take_back(known: Decisions, copy: Copy, office: Connections, it: Plan, why: str | None) -> None:
    """Gives up what was begun, or closed and then lost by the office."""
    if it.begun is None and it.ended is None:
        raise OfficeError("this order was not begun, so nothing is to be given up")
    need_same_society(copy, office)
    closing.give_up(known, office, it, why or click.prompt("Why"))
    say(f"gave up {it.words}; the office has not closed it")


def need_ready(known: Decisions, copy: Copy, office: Connections, it: Plan) -> None:
    """An OfficeError where another office or book is served, or the order is not closed yet and pays what is void."""
    need_same_society(copy, office)
    is_there = answered.has_pool(office, it.pool)
    if is_there and (it.begun or it.ended):
        return
    if it.ended:
        raise OfficeError(
            f"the office has not pool {it.pool}, which {it.ended.who} closed at {it.ended.when.strftime(MOMENT)} by this very order: "
            "an older file is served. Bring back first what it has lost (docs/OPERATIONS.md, 'Restore'); where that is nowhere, "
            "--give-up takes the pool back, and the order can be closed again"
        )
    closing.refuse_void(it, known)
    if it.begun is None:
        need_copy_of_now(copy, office, it, is_there)
    if lost := next(answered.lost(copy, office), None):
        raise OfficeError(f"{copy.path} has what the office has not: {lost.words}. An older file is served, or another office")


def need_copy_of_now(copy: Copy, office: Connections, it: Plan, is_there: bool) -> None:
    """An OfficeError where the office has more than the copy, or has closed a pool under this number."""
    lacking = [f"pool {it.pool}"] if is_there else []
    lacking += [one.words for one in answered.lacks(copy, office) if one.words not in lacking]
    if lacking:
        told = "; ".join(lacking[:MOST_TOLD]) + (f" and {len(lacking) - MOST_TOLD} more" if len(lacking) > MOST_TOLD else "")
        raise OfficeError(f"the office has what {copy.path} has not: {told}. Take a copy of now: systemctl start society-backup")


def carry_out(known: Decisions, office: Connections, it: Plan, found: Rehearsal, order: pathlib.Path, asked: dict[str, Any]) -> None:
    """Closes the pool, or ends what was begun, over its rehearsal."""
    if found.copy is None:
        raise OfficeError(f"the order is refused, status {found.answer.status}: {found.refusal}")
    if it.ended:
        say(f"pool {it.pool} is closed by this very order since {it.ended.when.strftime(MOMENT)}, by {it.ended.who}; it is read back")
        tell_end(it, closing.difference(closing.credits_of(found.copy, it.pool), closing.read_back(office, it)))
        return
    if it.begun:
        say(f"begun by {it.begun.who} at {it.begun.when.strftime(MOMENT)}, and ended now: {it.words}")
        ended(known, office, it, found.copy, order, it.begun.why)
        return
    rehearsal_output.show(console(), found, known.pools)
    if asked["dry_run"]:
        return
    why = confirmed(known, it, order, asked)
    if why is None:
        return
    closing.begin(known, it, why)
    ended(known, office, it, found.copy, order, why)


def confirmed(known: Decisions, it: Plan, order: pathlib.Path, asked: dict[str, Any]) -> str | None:
    """Why it is closed, once the amount was repeated; None where a second person is waited for now."""
    second = closing.need_second(known.journal, it.body) if asked["approve"] else None
    repeated = asked["amount"] if asked["amount"] is not None else click.prompt(f"{it.words}. The amount once more")
    if str(repeated).replace(",", "").strip() != str(it.order["amount"]):
        raise OfficeError(f"the amount is {it.order['amount']:,} units, and {repeated} was said: nothing was sent")
    why = asked["why"] or (second.why if second else click.prompt("Why"))
    if second:
        return f"{why} (asked for by {second.who})"
    if closing.persons(known.journal) == 1:
        return str(why)
    closing.ask_for(known, it, order, why)
    say(f"asked for. A second person closes it: society-office close {order} --approve")
    return None


def ended(known: Decisions, office: Connections, it: Plan, copy: Copy, order: pathlib.Path, why: str) -> None:
    """Sends what was begun, reads it back, and writes what became of it: what is there as rehearsed is closed, whatever was said."""
    refusal = closing.send(office, it, order.parent)
    if refusal and not closing.is_closed_as(office, it, closing.credits_of(copy, it.pool)):
        closing.end(known.folder, "gave up", it, f"the office refuses it: {refusal}"[:500])
        raise OfficeError(f"pool {it.pool} is not closed: {refusal}")
    told = closing.difference(closing.credits_of(copy, it.pool), closing.read_back(office, it))
    closing.end(known.folder, "closed", it, f"{why} (not as rehearsed: {told})" if told else why)
    tell_end(it, told)


def tell_end(it: Plan, told: str) -> None:
    """Says that a pool is closed; where it has credited otherwise than was rehearsed, with status 1."""
    if told:
        say(f"society-office: pool {it.pool} is closed, but {told}: look who changed the order or the book", error=True)
        sys.exit(WRONG)
    say(f"closed {it.words}, just as rehearsed")


COMMANDS = (close,)
