"""What an office has that a copy has not, and the other way, asked of an office that answers out of memory; and what a refusal is."""

import dataclasses
import json
import pathlib
from typing import cast

import pytest
from ledger import EMPTY, Order, opened
from society_office.basics.errors import OfficeError
from society_office.book.copy import Copy
from society_office.book.own_returns import ROWLESS
from society_office.closings import closing
from society_office.closings.closing import Plan
from society_office.commands import closing_commands
from society_office.offices.answered import Lack, lacks, lost
from society_office.offices.asking import Connections, Request
from society_office.offices.program import Answer
from society_office.watch import looking
from test_chains import ANNA, HOUSE, A, B, amend, prepared

PLAN = Plan(b"{}", {"amount": 5}, 6)


@dataclasses.dataclass
class Answering:
    """An office in memory: what it has of fronts, returns, pools and balances, and what else it answers to all."""

    fronts: dict[str, int]
    returns: set[str]
    pools: set[int]
    balances: dict[str, int]
    address: str = "http://127.0.0.1:1"
    held: dict[str, list[int]] = dataclasses.field(default_factory=dict)

    def ask(self, it: Request) -> Answer:
        """The answer to a request."""
        kind, _, rest = it.path.partition("/")
        if kind == "senders":
            return answer(200, {"front": self.fronts.get(rest, 0), "held": self.held.get(rest, [])})
        if kind == "returns":
            return answer(409, {"error": "reused"}) if rest in self.returns else answer(422, {"error": "csv", "fault": 1, "row": 1})
        if kind == "pools":
            return answer(200, {}) if int(rest) in self.pools else answer(404, {"error": "unknown"})
        return answer(200, {"units": self.balances.get(rest, 0)})


@dataclasses.dataclass
class Alike:
    """An office that gives one answer to all."""

    given: Answer
    address: str = "http://127.0.0.1:1"

    def ask(self, _: Request) -> Answer:
        """It."""
        return self.given


def answer(status: int, body: object) -> Answer:
    """An answer of JSON."""
    return Answer(status, json.dumps(body).encode())


def of_office() -> tuple[Copy, Answering]:
    """A copy with two returns, two pools of people and one of the office itself, and the office that has just that."""
    chain = prepared(("PR", 1_000, True, A), ("PR", 500, True, B))
    amend(chain, 1, 1_200)
    chain.ledger.send_return(("DUE00000001", 99_998), f"{ROWLESS}{A},200,1\n")
    assert chain.ledger.close(99_998, Order("PR", 200, ((HOUSE, 1),), (("DUE00000001", 99_998),))) == 201
    returns = {f"{reporter}/{number}" for reporter, number in chain.ledger.returns}
    office = Answering({HOUSE: 1}, returns, set(chain.ledger.pools), {ANNA: 1_700})
    return Copy(EMPTY, opened(chain.ledger.kept())), office


def told(copy: Copy, office: Answering) -> list[str]:
    """What the office has and the copy has not."""
    return [it.words for it in lacks(copy, office)]


def test_pools_behind_those_of_people_are_asked_for() -> None:
    copy, office = of_office()
    assert told(copy, office) == [] and list(lost(copy, office)) == []
    # (of no units, so that no balance tells of them)
    office.pools |= {3, 5}
    assert told(copy, office) == ["pool 3", "pool 5"]


def test_fronts_and_what_is_held_are_asked_for() -> None:
    copy, office = of_office()
    # (what is held below the front of the copy is passed over there)
    office.held[HOUSE] = [1, 4, 3]
    files = [f"file {it} of {HOUSE} (its front is 1 there, and 1 in the copy)" for it in (3, 4)]
    assert told(copy, office) == files and list(lost(copy, office)) == []
    office.fronts[HOUSE], office.held = 2, {}
    assert told(copy, office) == [f"file 2 of {HOUSE} (its front is 2 there, and 1 in the copy)"]
    office.fronts[HOUSE] = 0
    assert told(copy, office) == []
    assert [it.words for it in lost(copy, office)] == [f"files of {HOUSE} (its front is 0 there, and 1 in the copy)"]


def test_the_last_return_of_each_reporter_is_asked_for() -> None:
    copy, office = of_office()
    office.returns -= {"RADIO1/2"}
    assert [it.words for it in lost(copy, office)] == ["return RADIO1/2"]


def test_how_much_an_office_lacks_is_counted_whole(copy: pathlib.Path, monkeypatch: pytest.MonkeyPatch) -> None:
    lacking = [Lack("return", "RADIO1", it, f"return RADIO1/{it}") for it in range(1, 8)]
    monkeypatch.setattr(looking, "lost_money", lambda *_: lacking)
    found = looking.look_at_money(copy, of_office()[1])
    assert (found.value, found.words.count("return RADIO1/")) == (7, 5)


def test_a_balance_that_is_another_one_tells_of_a_pool() -> None:
    copy, office = of_office()
    words = [f"a pool ({ANNA} has {it:,} units there, and 1,700 in the copy)" for it in (1_701, 1_699)]
    office.balances[ANNA] = 1_701
    assert told(copy, office) == words[:1] and list(lost(copy, office)) == []
    office.balances[ANNA] = 1_699
    assert told(copy, office) == [] and [it.words for it in lost(copy, office)] == words[1:]


@pytest.mark.parametrize("count, more", [(4, ""), (5, ""), (6, " and 1 more")])
def test_how_much_more_an_office_has_is_told(count: int, more: str) -> None:
    copy, office = of_office()
    # (returns are asked for before pools)
    office.returns |= {f"RADIO1/{it}" for it in (3, 4, 5)}
    office.pools |= set(range(3, count))
    listed = ["return RADIO1/3", "return RADIO1/4", "return RADIO1/5", "pool 3", "pool 4", "pool 5"][:count]
    with pytest.raises(OfficeError) as raised:
        closing_commands.need_copy_of_now(copy, cast(Connections, office), PLAN, False)
    what = f"the office has what /dev/null has not: {'; '.join(listed[:5])}{more}"
    assert str(raised.value) == f"{what}. Take a copy of now: systemctl start society-backup"


def test_a_pool_that_is_there_already_is_told_once() -> None:
    copy, office = of_office()
    office.pools |= {3, 4}
    for pool, told_pools in ((3, "pool 3; pool 4"), (4, "pool 4; pool 3")):
        with pytest.raises(OfficeError, match=f"^the office has what /dev/null has not: {told_pools}. Take a copy of now"):
            closing_commands.need_copy_of_now(copy, cast(Connections, office), Plan(b"{}", {"amount": 5}, pool), True)


@pytest.mark.parametrize("status", closing.REFUSED)
def test_a_refusal_is_one_of_an_office(status: int) -> None:
    _, office = of_office()
    with pytest.raises(OfficeError, match=f"^http://127.0.0.1:1 answers {status}, as no office does: whether it was closed is not known"):
        closing.refused(office, Answer(status, b"<html>a page</html>"), "order")
    assert closing.refused(office, answer(status, {"error": "reused"}), "order")


@pytest.mark.parametrize("status", [500, 502, 503])
def test_what_may_be_taken_later_is_no_refusal(status: int) -> None:
    """An office that is busy has closed nothing, and closes it when it is asked again."""
    _, office = of_office()
    with pytest.raises(OfficeError, match="whether it was closed is not known; run this again$"):
        closing.refused(office, answer(status, {"error": "busy"}), "order")


def test_where_an_own_return_is_refused_its_order_is_not_sent(tmp_path: pathlib.Path) -> None:
    asked = []

    class Office(Alike):
        """One that refuses returns, and would close any pool."""

        def ask(self, it: Request) -> Answer:
            asked.append(it.path)
            return answer(409, {"error": "reused"}) if it.path.startswith("returns/") else self.given

    order = {"amount": 0, "cut": [[HOUSE, 1]], "returns": [["AMEND1", 99_998]]}
    (tmp_path / "AMEND1-99998.csv").write_text("isrc,plays,seconds\n")
    told_why = closing.send(Office(answer(201, {"state": "closed"})), Plan(json.dumps(order).encode(), order, 99_998), tmp_path)
    assert told_why and asked == ["returns/AMEND1/99998"]


HEAD = b"isrc,account,units\n"
OTHER_HEAD, TOO_FEW, NO_NUMBER = b"account,isrc,units\nX,A,5\n", HEAD + b"A,X\n", HEAD + b"A,X,five\n"


@pytest.mark.parametrize("status, body", [(404, HEAD), *((200, it) for it in (b"", OTHER_HEAD, TOO_FEW, NO_NUMBER, b"\xff"))])
def test_what_is_read_back_is_what_a_pool_has_credited(status: int, body: bytes) -> None:
    assert closing.read_back(Alike(Answer(200, HEAD + b"A,X,5\nB,Y,0\n")), PLAN) == [("A", "X", 5), ("B", "Y", 0)]
    with pytest.raises(OfficeError, match=f"^http://127.0.0.1:1 is no office: it answers {status} to pools/6, which is to be closed"):
        closing.read_back(Alike(Answer(status, body)), PLAN)
