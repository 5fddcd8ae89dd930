"""An order rehearsed: the program closes the pool over a throw-away office, and what is odd about the order is told."""

import codecs
import collections
import contextlib
import dataclasses
import json
import pathlib
from collections.abc import Iterator, Mapping, Sequence
from typing import Any

from society_office.basics.errors import OfficeError
from society_office.book.copy import Copy, open_copy
from society_office.book.stored_returns import Stored, far_ones, same_plays, stored_returns
from society_office.checks import faults
from society_office.closings.amendments import orders_as_due
from society_office.closings.credit import asking
from society_office.closings.dues import Dues
from society_office.closings.orders import pool_for
from society_office.closings.pool_kinds import Book
from society_office.decided.decisions import Decisions
from society_office.formats.numbering import as_sent, counted, rank_of
from society_office.formats.plays import BOM
from society_office.formats.return_names import Entry, Return, are_listed, names_text
from society_office.offices.program import Answer, trial_of
from society_office.works.records import UNCLAIMED, text

# Characters that are shown of what is no JSON.
MOST_SHOWN = 20
# Accounts of which it is told what they would be paid beyond what is due.
MOST_TOLD = 20
# A pool that was closed by this order before, and one that is closed by it now.
REPEATED, NEW = 200, 201


@dataclasses.dataclass(frozen=True)
class Rehearsal:
    """What the program answered to an order; and where it was taken the office as it would be then, the returns, and what is odd."""

    pool: int
    answer: Answer
    refusal: str = ""
    copy: Copy | None = None
    returns: Sequence[Stored] = ()
    notes: Sequence[str] = ()

    @property
    def is_repeated(self) -> bool:
        """Whether the pool was closed by this very order before, so that nothing would change."""
        return self.answer.status == REPEATED


@contextlib.contextmanager
def rehearse(program: str, copy: Copy, file: pathlib.Path, pool: int | None, known: Decisions) -> Iterator[Rehearsal]:
    """Sends an order to a throw-away office over the copy; what it made of it can be read while the `with` lasts."""
    copy.need_derived()
    order = file.read_bytes()
    number = pool or pool_for(copy, order)
    with trial_of(program, copy) as trial:
        answer = trial.office.ask("PUT", f"/v1/pools/{number}", order)
        trial.end()
        if answer.status not in (REPEATED, NEW):
            yield Rehearsal(number, answer, faults.refusal_text("order", answer) + form_hint(order))
            return
        with open_copy(trial.database) as then:
            given = json.loads(order)
            stored = before(stored_returns(copy), number)
            named = [stored[reporter, which] for reporter, which in sorted(given["returns"])]
            notes = [*notes_on_keys(order), *notes_on_returns(then, given, named, stored, known.void)]
            if not is_own(named):
                notes += [*notes_on_left(named, stored, known.void), *notes_on_cut(copy, given["cut"])]
            notes += notes_on_dues(then, number, known, program)
            yield Rehearsal(number, answer, "", then, named, notes)


def form_hint(order: bytes) -> str:
    """What is to be said of an order that was refused and is no JSON, or begins with what an editor puts before a text; else nothing."""
    if order.startswith((BOM, codecs.BOM_UTF16_LE, codecs.BOM_UTF16_BE)):
        return "; a byte order mark stands before it: save it as UTF-8 without one"
    try:
        json.loads(order)
    except json.JSONDecodeError as error:
        rest = text(error.doc[error.pos : error.pos + MOST_SHOWN].encode(errors="replace"))
        return f"; line {error.lineno}, character {error.colno}: {f'{rest!r} is wrong there' if rest else 'it ends too early'}"
    except (UnicodeDecodeError, RecursionError):
        return ""
    return ""


def notes_on_dues(then: Copy, pool: int, known: Decisions, program: str) -> Iterator[str]:
    """What a pool pays beyond what is due, of whom, and what is due that it leaves."""
    book = Book(then)
    try:
        dues = Dues(then, book, orders_as_due(book, known.amendments, known.void), asking(program, then))
    except OfficeError as error:
        yield f"what is due can't be told: {error}"
        return
    passed, need = beyond_dues(dues, pool), dues.need_of_all()
    for account, units in sorted(passed.items(), key=lambda it: (-it[1], it[0]))[:MOST_TOLD]:
        yield f"{units:,} units to {account} are beyond what is due"
    if len(passed) > MOST_TOLD:
        yield f"and so are units to {counted(len(passed) - MOST_TOLD, 'more account')}, {sum(passed.values()):,} units in all"
    if not passed and not book.is_play(pool) and then.pools()[pool]:
        yield "all of it is due"
    if left := [units for account, units in need.items() if units > 0 and account != UNCLAIMED]:
        yield f"{sum(left):,} units more are due to {counted(len(left), 'account')}: `society-office dues --next` writes their order"


def beyond_dues(dues: Dues, pool: int) -> dict[str, int]:
    """What a pool that is closed pays to accounts beyond what is due: of a recording, or in all."""
    own, need, found, credited = dues.by_pool[pool], dues.need_of_all(), collections.Counter[str](), collections.Counter[str]()
    is_play = dues.book.is_play(pool)
    for key, units in own.items():
        if key[2] != UNCLAIMED and units < 0:
            credited[key[2]] -= units
            found[key[2]] += -units if is_play else min(-units, max(0, -dues.difference[key]))
    if not is_play:
        for account, units in credited.items():
            found[account] = max(found[account], min(units, max(0, -need[account])))
    return dict(+found)


def notes_on_keys(order: bytes) -> Iterator[str]:
    """The keys that stand twice in an order: the program takes the last one without a word."""
    keys: list[str] = []
    json.loads(order, object_pairs_hook=lambda pairs: keys.extend(key for key, _ in pairs))
    for key, count in collections.Counter(keys).items():
        if count > 1:
            yield f"{key} stands {'twice' if count == 2 else f'{count} times'} in the order, and the last one counts: take the others out"


def before(stored: Mapping[Return, Stored], pool: int) -> dict[Return, Stored]:
    """The returns as they were before a pool was closed."""
    return {key: dataclasses.replace(it, pool=0) if it.pool == pool else it for key, it in stored.items()}


def notes_on_returns(
    then: Copy, order: Mapping[str, Any], named: Sequence[Stored], stored: Mapping[Return, Stored], void: Sequence[Entry]
) -> Iterator[str]:
    """What is odd about the returns that an order names."""
    plays, own = [it for it in named if it.is_play], [it for it in named if not it.is_play]
    if order["amount"] and not sum(it.points for it in named):
        yield "it names no return with a play: all of it goes to UNCLAIMED"
    if barred := [it.key for it in named if are_listed(void, it.key)]:
        yield f"{names_text(barred)} is void, by the list of void returns"
    for one in same_plays(plays, stored, then.rights(), order.get("kind", "PR")):
        both = "" if one.right in ("", order.get("kind", "PR")) else ": right only where it is to be paid in both"
        yield f"{one.it.name} has {one.why}{both or ': the plays would be paid twice'}"
    yield from far_ones(plays, stored, void)
    if own and plays and order["amount"]:
        yield f"{names_text(it.key for it in own)} is of the office itself, and has to be paid by an order of its own, without plays"


def is_own(named: Sequence[Stored]) -> bool:
    """Whether an order is over returns of the office itself alone, which have their cut, and leave all plays out."""
    return bool(named) and not any(it.is_play for it in named)


def notes_on_left(named: Sequence[Stored], stored: Mapping[Return, Stored], void: Sequence[Entry]) -> Iterator[str]:
    """What no pool has paid and an order does not name."""
    keys = {it.key for it in named}
    left = [it.key for it in stored.values() if it.is_play and not it.pool and it.key not in keys and not are_listed(void, it.key)]
    if left:
        yield f"not named, and paid by no pool: {names_text(left)}"


def notes_on_cut(copy: Copy, cut: Sequence[tuple[str, int | str]]) -> Iterator[str]:
    """Files that are applied and that a cut does not count, and files that wait."""
    counted = {sender: rank_of(number) or 0 for sender, number in cut}
    for line in copy.lines():
        last = line.applied[-1] if line.applied else 0
        if line.sender not in counted and last:
            yield f"the cut does not count {line.sender}, whose files are applied up to {as_sent(last)}"
        elif last and counted[line.sender] < last:
            yield f"the cut counts {line.sender} up to {as_sent(counted[line.sender])}, and its files are applied up to {as_sent(last)}"
        if line.waiting:
            yield f"{line.sender} has files that wait, which this order does not count"


def credited(copy: Copy, pool: int) -> list[tuple[str, int]]:
    """What a pool credits to each account, the greatest first."""
    question = "SELECT account, sum(units) AS units FROM credits WHERE pool = ? GROUP BY account ORDER BY units DESC, account"
    return copy.listed(question, pool)
