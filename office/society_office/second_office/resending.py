"""All that a copy has of what was sent, sent to another office: ends, files, returns, then orders, so that one round is enough."""

import dataclasses
import json
from collections.abc import Callable, Iterable, Iterator

from society_office.basics.errors import OfficeError
from society_office.basics.plain_text import printable
from society_office.book.copy import Copy
from society_office.formats.numbering import Line, path_of, rank_in, segment_of, segment_text
from society_office.offices.asking import Connections, Request
from society_office.offices.program import Answer
from society_office.second_office import comparing

END, FILE, RETURN, ORDER = "end", "file", "return", "order"
NEW, CONFLICT = (201, 202), 409
# Why the other office refuses what this one has taken.
WHY = {
    (FILE, "reused"): "it has another file under this number",
    (RETURN, "reused"): "it has another return under this number",
    (END, "reused"): "it has another end of this segment",
    (ORDER, "reused"): "it has closed this pool by another order",
    (FILE, "ended"): "its end of this segment is lower",
    (END, "segment"): "it has a file above this end",
    (ORDER, "cut"): "it lacks a file that the order counts",
    (ORDER, "return"): "it lacks a return that the order names",
    (ORDER, "paid"): "another pool of it has paid a return that the order names",
}
NO_SUCH_PATH = "it takes no such path: is it the office of another society?"
# A sender in whose name an office is asked where the copy has none.
ANY_SENDER = "PB000000000"
# So many refused requests are named for each cause.
MOST_NAMED = 5


@dataclasses.dataclass
class Tally:
    """What became of what was sent: how much was new, known, and not sent since it is there, and what was refused by cause."""

    new: int = 0
    known: int = 0
    there: int = 0
    refused: dict[str, list[str]] = dataclasses.field(default_factory=dict)
    # What the other office has and the copy has not, where that was asked for.
    beyond: list[str] = dataclasses.field(default_factory=list)

    def take(self, it: Request, answer: Answer) -> None:
        """Counts an answer."""
        if answer.is_taken and answer.status in NEW:
            self.new += 1
        elif answer.is_taken:
            self.known += 1
        else:
            self.refused.setdefault(why(it, answer), []).append(it.path)

    def lines(self) -> Iterator[str]:
        """How much there was, then a line for each cause of a refusal."""
        count = sum(map(len, self.refused.values()))
        sent = self.new + self.known + count
        there = f"; {self.there:,} not sent, since it has them" if self.there else ""
        yield f"{sent:,} sent: {self.new:,} new, {self.known:,} known, {count:,} refused{there}"
        yield from self.causes()

    def causes(self) -> Iterator[str]:
        """A line for each cause of a refusal."""
        for cause, paths in self.refused.items():
            more = f" and {len(paths) - MOST_NAMED:,} more" if len(paths) > MOST_NAMED else ""
            yield f"refused, {cause}: {', '.join(paths[:MOST_NAMED])}{more}"


def why(it: Request, answer: Answer) -> str:
    """Why a request was refused."""
    if answer.status == 404:
        return NO_SUCH_PATH
    return WHY.get((it.kind, answer.error)) or f"status {answer.status}, {printable(answer.body[:80].decode(errors='replace').strip())}"


def ends(copy: Copy) -> Iterator[Request]:
    """The ends of segments. They come first, so that no file waits for one."""
    for (sender, segment), (last, following) in comparing.ends(copy):
        body = json.dumps({"last": last, "next": following}).encode()
        yield Request(END, f"senders/{sender}/segments/{segment_text(segment)}", body)


def files(copy: Copy, fronts: "Fronts") -> Iterator[Request]:
    """The files that another office lacks by its fronts, in the order of their numbers."""
    for sender, number in copy.listed("SELECT sender, number FROM transmissions ORDER BY sender, number"):
        if not fronts.has(sender, number):
            yield Request(FILE, f"senders/{sender}/{path_of(number, copy.society)}", copy.body(sender, number))


def returns(copy: Copy, paid: set[int]) -> Iterator[Request]:
    """The returns that none of these pools has paid."""
    question = "SELECT reporter, number, pool, body FROM returns LEFT JOIN pool_returns USING (reporter, number) ORDER BY reporter, number"
    for reporter, number, pool, body in copy.rows(question):
        if pool not in paid:
            yield Request(RETURN, f"returns/{reporter}/{number}", bytes(body))


def orders(copy: Copy) -> Iterator[tuple[int, Request]]:
    """The order of each pool. Once all else has come, none waits for another."""
    for (pool,), order in comparing.orders(copy):
        if order["kind"] == "PR":
            # (a program that knows no other right takes no kind)
            del order["kind"]
        yield pool, Request(ORDER, f"pools/{pool}", json.dumps(order, separators=(",", ":")).encode())


class Fronts:
    """How far another office has the files of each sender."""

    def __init__(self) -> None:
        """Nothing of anybody, as of an empty office."""
        self.ways: dict[str, set[int]] = {}
        self.fronts: dict[str, int] = {}
        self.held: dict[str, set[int]] = {}

    def ask(self, copy: Copy, office: Connections) -> None:
        """Asks for each sender of a copy; an OfficeError where what answers is no office."""
        stated: dict[str, dict[int, tuple[int, int]]] = {}
        for (sender, segment), end in comparing.ends(copy):
            stated.setdefault(sender, {})[segment] = end
        for (sender,) in copy.listed("SELECT DISTINCT sender FROM transmissions ORDER BY sender"):
            answer = office.ask(Request("front", f"senders/{sender}"))
            if answer.standing is None:
                raise OfficeError(f"{office.address} is no office: it answers {answer.status} to senders/{sender}")
            self.ways[sender] = set(Line(sender, 0, 0, stated.get(sender, {}), []).way)
            self.fronts[sender], self.held[sender] = answer.standing

    def has(self, sender: str, number: int) -> bool:
        """Whether it has this number, by its front, or as one that is held."""
        if number <= self.fronts.get(sender, 0) and segment_of(number) in self.ways[sender]:
            return True
        return number in self.held.get(sender, set())


def how_many(copy: Copy) -> int:
    """How many requests a copy comes to."""
    tables = ["transmissions", "returns", "pools", *(["segment_ends"] if copy.layout >= 3 else [])]
    return sum(int(copy.row(f"SELECT count(*) FROM {table}")[0]) for table in tables)


def empty_file(copy: Copy) -> Request:
    """An empty file, which no office takes, by a name that has the society: to an office of another one it is no path at all."""
    (sender,) = copy.row("SELECT sender FROM transmissions") or (ANY_SENDER,)
    return Request(FILE, f"senders/{sender}/{path_of(rank_in(0, 1), copy.society)}", b"")


def is_of_same_society(copy: Copy, office: Connections) -> bool:
    """Whether an office of the copy's society answers: it refuses the empty file for what it is."""
    answer = office.ask(empty_file(copy))
    return answer.status == 422 and answer.error == "file"


def need_same_society(copy: Copy, office: Connections) -> None:
    """An OfficeError where the other office is of another society: what it would take can't be taken back.

    So it is asked again where a connection broke, before anything is put over the next one.
    """
    asked = empty_file(copy)
    if office.ask(asked).status == 404:
        raise OfficeError(
            f"{office.address} takes no file of society {copy.society}: it is the office of another society, or none. Nothing was sent"
        )
    office.ask_first(Request(str(copy.society), asked.path, asked.body))


def resend(copy: Copy, office: Connections, since_fronts: bool, tell: Callable[[], None]) -> Tally:
    """Sends all that a copy has, or only what another office lacks by its fronts and by the orders that it knows.

    An OfficeError where there is no answer; sending it all again then goes on where it was broken off. `tell` is called after each answer.
    """
    tally, fronts, paid = Tally(), Fronts(), set[int]()

    def send(requests: Iterable[Request]) -> None:
        for it, answer in office.answers(requests):
            tally.take(it, answer)
            tell()

    need_same_society(copy, office)
    if since_fronts:
        fronts.ask(copy, office)
        paid = closed(copy, office, tally)
    send(ends(copy))
    send(files(copy, fronts))
    send(returns(copy, paid))
    send(it for pool, it in orders(copy) if pool not in paid)
    if since_fronts:
        tally.there = how_many(copy) - tally.new - tally.known - sum(map(len, tally.refused.values()))
    return tally


def closed(copy: Copy, office: Connections, tally: Tally) -> set[int]:
    """The pools whose orders another office has, so that it has the returns that they name. One that it can close is closed."""
    found = set[int]()
    pools = [pool for pool, _ in orders(copy)]
    for pool, (it, answer) in zip(pools, office.answers(it for _, it in orders(copy))):
        if answer.is_taken:
            tally.take(it, answer)
            found.add(pool)
    return found
