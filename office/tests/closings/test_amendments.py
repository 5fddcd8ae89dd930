"""Orders as they should have been: which returns they name, and how the list of amendments has them."""

import dataclasses
import json

from ledger import EMPTY, opened
from society_office.book.copy import Copy
from society_office.book.own_returns import ROWLESS
from society_office.book.stored_returns import stored_returns
from society_office.closings.amendments import Changes, amended, order_of
from society_office.closings.orders import Order
from society_office.decided.decisions import Amendment
from society_office.formats.return_names import entry
from test_chains import HOUSE, A, B, C, of_ledger, prepared


def test_of_a_whole_station_what_can_be_paid_is_named() -> None:
    chain = prepared(("PR", 1_000, True, A), ("PR", 500, True, B))
    for number in (3, 4):
        chain.ledger.send_return(("RADIO1", number), f"{ROWLESS}{C},1,1\n")
    copy, was = Copy(EMPTY, opened(chain.ledger.kept())), of_ledger(chain).orders
    changes, void = Changes(returns=[entry("RADIO1", "--returns")]), [entry("RADIO1/4", "void.txt")]
    # (the second return is of another pool, and the fourth one is void)
    wanted = dataclasses.replace(was[1], returns=[("RADIO1", 1), ("RADIO1", 3)])
    assert amended(copy, was, 1, changes, stored_returns(copy), void) == wanted


def test_an_amendment_counts_files_of_years() -> None:
    order = Order("MR", 5, [(HOUSE, 1_260_002), ("PB000000034", 7)], [("RADIO1", 1)])
    assert '"cut":[["PB000000012","26-0002"],["PB000000034",7]]' in order.json
    assert order_of(Amendment(99_999, 1, json.loads(order.json), "amendments.txt")) == order
