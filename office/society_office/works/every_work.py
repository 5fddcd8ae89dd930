"""All works of a copy, sender by sender, each with all that the copy has of it and what it is found by: for pages, which show every one."""

from collections.abc import Iterator

from society_office.book.copy import Copy
from society_office.formats.numbering import Line
from society_office.works.owners import OWNER, Owners
from society_office.works.records import UNCLAIMED, made_on, sender_names, transactions
from society_office.works.registered_works import Credited, Gathered, Place, Verdicts, Version, Work, version
from society_office.works.work_search import Facts

# What each pool credited for each work that owned a recording at its cut, and what of that went to nobody.
EARNED = f"""CREATE TEMP TABLE earned AS
  WITH played AS MATERIALIZED (
    SELECT pool, isrc, sum(units) AS units, sum(units * (account = '{UNCLAIMED}')) AS nobodys FROM credits GROUP BY pool, isrc)
  SELECT n.sender, n.work, pool, sum(units) AS units, sum(nobodys) AS nobodys
  FROM (SELECT pool, units, nobodys, {OWNER} AS owner FROM played c) JOIN temp.named n ON n.rowid = owner
  GROUP BY n.sender, n.work, pool ORDER BY n.sender, n.work, pool"""


def every_work(copy: Copy) -> Iterator[tuple[Work, Facts]]:
    """Each work with what it is found by, in the order of the senders; those of a sender in the order in which they first came."""
    copy.need_derived()
    Owners(copy)
    copy.listed("DROP TABLE IF EXISTS temp.earned")
    copy.listed(EARNED)
    copy.listed("CREATE INDEX temp.earned_by_sender ON earned (sender)")
    names = sender_names(copy)
    for line in copy.lines():
        yield from works_of(copy, line, names.get(line.sender, ""))


def works_of(copy: Copy, line: Line, name: str) -> Iterator[tuple[Work, Facts]]:
    """The works of one sender; each of its files is read once."""
    gathered, versions, verdicts = dict[str, Gathered](), dict[str, list[Version]](), Verdicts(copy, line)
    for number in line.numbers:
        body = copy.body(line.sender, number)
        day = made_on(body.partition(b"\n")[0])
        for k, sent in enumerate(transactions(body)):
            verdict = verdicts.of(number, k)
            gathered.setdefault(sent.work, Gathered()).add(line.sender, Place(number, k), sent, verdict.state)
            versions.setdefault(sent.work, []).append(version(line.sender, sent, number, day, verdict, copy.territory))
    credited = credited_for(copy, line.sender)
    for work, it in gathered.items():
        yield Work(line.sender, name, work, versions[work], credited.get(work, [])), it.facts


def credited_for(copy: Copy, sender: str) -> dict[str, list[Credited]]:
    """What each pool credited for the works of a sender."""
    rights, found = copy.rights(), dict[str, list[Credited]]()
    question = "SELECT work, pool, units, nobodys FROM temp.earned WHERE sender = ? ORDER BY rowid"
    for work, pool, units, nobodys in copy.rows(question, sender):
        found.setdefault(work, []).append(Credited(pool, rights[pool], units, nobodys))
    return found
