"""Whether an office that runs answers as one over a copy does: both are asked all that the copy gives cause to ask."""

import json
import urllib.parse
from collections.abc import Iterator
from typing import Any

from society_office.book.copy import Copy
from society_office.formats.numbering import as_sent
from society_office.offices.asking import Connections, Request
from society_office.offices.program import Answer
from society_office.second_office.comparing import Difference

SENDER, ACK = "sender", "acknowledgements"
# The works of which a version is one of the first so many of its file.
WORKS = """SELECT DISTINCT sender, work FROM
  (SELECT sender, work, row_number() OVER (PARTITION BY sender, number ORDER BY place) AS k FROM versions)
  WHERE k <= ? ORDER BY sender, work"""
ALL_WORKS = 1_000_000


def questions(copy: Copy, works: int) -> Iterator[Request]:
    """What is asked: fronts and held numbers, verdicts, acknowledgements, so many works of each file, credits, balances.

    It is asked as far as the copy knows of it."""
    for (sender,) in copy.rows("SELECT sender FROM fronts ORDER BY sender"):
        yield Request(SENDER, f"senders/{sender}")
    for sender, number in copy.rows("SELECT sender, number FROM transmissions ORDER BY sender, number"):
        yield Request("verdicts", f"senders/{sender}/verdicts/{as_sent(number)}")
        yield Request(ACK, f"senders/{sender}/acks/{as_sent(number)}")
    for sender, work in copy.rows(WORKS, works):
        yield Request("works", f"senders/{sender}/works/{urllib.parse.quote(work, safe='')}")
    pools = copy.pools()
    for pool in range(1, max(pools, default=0) + 2):
        # (one that is free here may be closed there)
        yield Request("credits", f"pools/{pool}")
    for account in sorted({"UNCLAIMED", *(it[0] for it in copy.rows("SELECT account FROM balances"))}):
        yield Request("balances", f"accounts/{urllib.parse.quote(account, safe='')}")


def value(kind: str, answer: Answer) -> Any:
    """What is told of an answer; None where there is nothing."""
    if answer.status == 404:
        return None
    if answer.status != 200:
        return f"status {answer.status}"
    return answer.body if kind == ACK else answer.body.decode(errors="replace")


def parts(it: Request, answer: Answer) -> Iterator[tuple[str, Any]]:
    """The kinds that an answer tells of; that of a sender tells of two."""
    if it.kind == SENDER and answer.status == 200 and isinstance(answer.json, dict):
        yield "fronts", json.dumps(answer.json.get("front"))
        yield "held numbers", json.dumps(answer.json.get("held"))
    else:
        yield it.kind, value(it.kind, answer)


def compare_answers(copy: Copy, here: Connections, there: Connections, works: int = ALL_WORKS) -> tuple[int, list[Difference]]:
    """How many questions were asked, and of each kind the first difference between the answers of two offices, the first over the copy."""
    count, found = 0, dict[str, Difference]()
    for (it, one), (_, other) in zip(here.answers(questions(copy, works)), there.answers(questions(copy, works))):
        count += 1
        if one == other:
            continue
        for (kind, a), (_, b) in zip(parts(it, one), parts(it, other)):
            if a != b:
                before = found.get(kind, Difference(kind, 0, it.path, (a, b)))
                found[kind] = Difference(kind, before.count + 1, before.place, before.values)
    return count, list(found.values())
