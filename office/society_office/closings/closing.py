"""An order closed at the office: one number is taken for it before anything is sent, and the pool is read back and compared.

The journal has a line before anything is sent, and one when the pool is closed or given up. So what was broken off is known, and calling it
again ends it under the same number: an office answers the same order again as before, so that there is never a second pool.
"""

import csv
import dataclasses
import io
import json
import pathlib
import re
from collections.abc import Sequence
from typing import Any

from society_office.basics.errors import OfficeError
from society_office.book.copy import Copy
from society_office.book.own_returns import is_numbered_down
from society_office.checks import faults
from society_office.closings.orders import pool_for
from society_office.decided import decisions
from society_office.decided.decisions import Decisions
from society_office.decided.journal import MOMENT, Decided, sum_of, who
from society_office.formats.return_names import are_listed, names_text
from society_office.offices.answered import Asked, has_pool, no_office
from society_office.offices.asking import Request
from society_office.offices.program import Answer

# Where the folder of decisions keeps the orders that were sent.
ORDERS = "orders"
STATE = re.compile(r"(closing|closed|gave up) pool ([1-9][0-9]{0,4}):.*", re.ASCII)
ASKED = "asked for a pool: "
# What the journal has where the office asks for two persons, and for one again.
PERSONS = {"a pool is closed by one person": 1, "a pool is closed by two persons": 2}
# What an office answers to what it will never take.
REFUSED = (400, 404, 409, 413, 422)

CREDITS = "SELECT isrc, account, units FROM credits WHERE pool = ? ORDER BY line"
Credit = tuple[str, str, int]


@dataclasses.dataclass(frozen=True)
class Plan:
    """An order that is to be closed: its bytes, what they say, its number, and the lines of the journal where it was begun and ended."""

    body: bytes
    order: dict[str, Any]
    pool: int
    begun: Decided | None = None
    ended: Decided | None = None

    @property
    def words(self) -> str:
        """What it comes to."""
        return f"pool {self.pool}: {self.order['amount']:,} units of the {self.order.get('kind', 'PR')}"

    @property
    def own(self) -> list[tuple[str, int]]:
        """The office's own returns in it."""
        return [(reporter, number) for reporter, number in self.order["returns"] if is_numbered_down(reporter) and number == self.pool]


def kept(pool: int) -> str:
    """Where the order of a pool is kept, in the folder of decisions."""
    return f"{ORDERS}/{pool}.json"


def order_of(body: bytes) -> dict[str, Any]:
    """What the bytes of an order say; an OfficeError where they are none."""
    try:
        found = json.loads(body)
        if not isinstance(found["amount"], int) or not all(isinstance(it, str) and isinstance(k, int) for it, k in found["returns"]):
            raise ValueError("other values")
        return dict(found)
    except (ValueError, LookupError, TypeError, RecursionError) as error:
        raise OfficeError("the file is no order: `society-office rehearse` tells what is wrong") from error


def state_of(journal: Sequence[Decided]) -> dict[int, tuple[str, Decided]]:
    """The last that the journal has of each pool: `closing`, `closed` or `gave up`, and its line."""
    return {int(it[2]): (it[1], one) for one in journal if (it := STATE.fullmatch(one.what))}


def unfinished(journal: Sequence[Decided]) -> dict[int, Decided]:
    """The pools that were begun and neither closed nor given up."""
    return {pool: one for pool, (word, one) in state_of(journal).items() if word == "closing"}


def plan(known: Decisions, copy: Copy, body: bytes) -> Plan:
    """Which pool an order closes: the one that an earlier call began for it, else its own number, else the next free one.

    An OfficeError where another one was begun and is not ended.
    """
    order, total = order_of(body), sum_of(body)
    for pool, (word, one) in state_of(known.journal).items():
        if one.sums.get(kept(pool)) == total and word != "gave up":
            return Plan(body, order, pool, one if word == "closing" else None, one if word == "closed" else None)
    for pool, one in unfinished(known.journal).items():
        raise OfficeError(
            f"pool {pool} was begun by {one.who} at {one.when.strftime(MOMENT)} by another order, and is not ended: "
            f"`society-office close {known.folder / kept(pool)}` ends it, or with --give-up takes it back"
        )
    return Plan(body, order, pool_for(copy, body))


def refuse_void(it: Plan, known: Decisions) -> None:
    """An OfficeError where an order names what is never to be paid."""
    if barred := [(reporter, number) for reporter, number in it.order["returns"] if are_listed(known.void, (reporter, number))]:
        begun = f" (--give-up first takes back pool {it.pool}, which was begun)" if it.begun else ""
        raise OfficeError(f"{names_text(barred)} is void, by {known.folder / decisions.VOID}: propose another order{begun}")


def persons(journal: Sequence[Decided]) -> int:
    """How many persons a pool takes."""
    return next((PERSONS[it.what] for it in reversed(journal) if it.what in PERSONS), 1)


def asked_by(journal: Sequence[Decided], body: bytes) -> Decided | None:
    """The last line by which somebody has asked for this very order."""
    total = sum_of(body)
    return next((it for it in reversed(journal) if it.what.startswith(ASKED) and total in it.sums.values()), None)


def need_second(journal: Sequence[Decided], body: bytes) -> Decided:
    """The line by which another person has asked for this order; an OfficeError where none has."""
    if (found := asked_by(journal, body)) is None:
        raise OfficeError("nobody has asked for this order, or it was changed since: the first person closes it without --approve")
    if found.who == who():
        raise OfficeError(f"{found.who} has asked for this order, so another person approves it")
    return found


def ask_for(known: Decisions, it: Plan, file: pathlib.Path, why: str) -> None:
    """Writes into the journal that one person asks for an order."""
    with decisions.writing(known.folder) as folder:
        refuse_changed(known, folder.had)
        words = f"{ASKED}{it.order['amount']:,} units of the {it.order.get('kind', 'PR')}"
        folder.note(words, why, {re.sub(r"[\s,]", "_", file.name): sum_of(it.body)})


def refuse_changed(known: Decisions, now: Decisions) -> None:
    """An OfficeError where something was decided since the order was rehearsed."""
    if known.sums != now.sums:
        raise OfficeError(f"{known.folder} was changed meanwhile by another command: nothing was sent; run this again")


def begin(known: Decisions, it: Plan, why: str) -> None:
    """Keeps the order, and writes into the journal that it is to be closed under its number; nothing was sent before."""
    with decisions.writing(known.folder) as folder:
        refuse_changed(known, folder.had)
        decisions.make(known.folder / ORDERS)
        folder.put(kept(it.pool), it.body)
        folder.note(f"closing {it.words}", why)


def end(folder: pathlib.Path, word: str, it: Plan, why: str) -> None:
    """Writes into the journal what became of a pool, unless another call that ended it too has written that."""
    with decisions.writing(folder) as open_folder:
        if state_of(open_folder.had.journal).get(it.pool, ("",))[0] == word:
            return
        open_folder.note(f"{word} {it.words}", why, {kept(it.pool): sum_of(it.body)})


def send(office: Asked, it: Plan, beside: pathlib.Path) -> str:
    """Sends the returns of the office itself and the order; answers why the office will never take it.

    An OfficeError where nothing is known: then it is sent again.
    """
    return send_own(office, it, beside) or refused(office, office.ask(Request("order", f"pools/{it.pool}", it.body)), "order")


def send_own(office: Asked, it: Plan, beside: pathlib.Path) -> str:
    """Sends the returns of the office itself that an order pays, and that stand beside it; answers why the office will never take one."""
    for reporter, number in it.own:
        file = beside / f"{reporter}-{number}.csv"
        if not file.is_file():
            raise OfficeError(f"{file} is not there: it has to stand beside the order, which pays return {number} of {reporter}")
        answer = office.ask(Request("return", f"returns/{reporter}/{number}", file.read_bytes()))
        if refusal := refused(office, answer, "return"):
            return refusal
    return ""


def refused(office: Asked, answer: Answer, kind: str) -> str:
    """Why an office will never take what was sent; the empty text where it has it, and an OfficeError where that is not known."""
    if answer.is_taken:
        return ""
    if answer.status in REFUSED and answer.error:
        return faults.refusal_text(kind, answer)
    raise OfficeError(f"{office.address} answers {answer.status}, as no office does: whether it was closed is not known; run this again")


def read_back(office: Asked, it: Plan) -> list[Credit]:
    """What the office has credited by the pool; an OfficeError where it does not tell that."""
    answer = office.ask(Request("pool", f"pools/{it.pool}"))
    try:
        header, *rows = csv.reader(io.StringIO(answer.body.decode()))
        if answer.status != 200 or header != ["isrc", "account", "units"]:
            raise ValueError("no credits")
        return [(isrc, account, int(units)) for isrc, account, units in rows]
    except (ValueError, UnicodeDecodeError) as error:
        raise no_office(office, answer, f"pools/{it.pool}, which is to be closed; run this again") from error


def is_closed_as(office: Asked, it: Plan, wanted: Sequence[Credit]) -> bool:
    """Whether the office has the pool, and has credited by it just this."""
    return has_pool(office, it.pool) and read_back(office, it) == list(wanted)


def credits_of(copy: Copy, pool: int) -> list[Credit]:
    """What a pool credits in a copy."""
    return [(isrc, account, units) for isrc, account, units in copy.listed(CREDITS, pool)]


def difference(wanted: Sequence[Credit], found: Sequence[Credit]) -> str:
    """The first credit that is another one than was rehearsed, in words; the empty text where there is none."""
    if list(wanted) == list(found):
        return ""
    told = [next((it for it in one if it not in other), None) for one, other in ((wanted, found), (found, wanted))]
    was, now = (f"{it[2]:,} units of {it[0]} for {it[1]}" if it else "no more" for it in told)
    return f"rehearsed were {was}, and the office has credited {now}"


def give_up(known: Decisions, office: Asked, it: Plan, why: str) -> None:
    """Writes that a pool that was begun is not to be closed; an OfficeError where it is closed."""
    if has_pool(office, it.pool):
        raise OfficeError(f"pool {it.pool} is closed, and stays so: run this without --give-up")
    end(known.folder, "gave up", it, why)
