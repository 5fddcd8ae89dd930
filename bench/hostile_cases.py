"""The cases of hostile_bodies.py: their list, and what they share."""
from collections.abc import Callable

import bodies
from bodies import MAX_BODY, get

SENDER = f"/v1/senders/{bodies.SENDER}"


def put(body: bytes, number: int = 1) -> bytes:
    assert len(body) <= MAX_BODY, len(body)
    return bodies.put_file(body, number)


def put_return(body: bytes, number: int = 1) -> bytes:
    assert len(body) <= MAX_BODY, len(body)
    return bodies.put_return(body, number)


QUESTIONS = get(f"{SENDER}/acks/1", f"{SENDER}/verdicts/1", f"{SENDER}/works/W1", SENDER)


POOL = get("/v1/pools/1", "/v1/accounts/UNCLAIMED")


# A case makes a stream.
Case = Callable[[], bytes]
CASES: list[Case] = []


def case(make: Case) -> Case:
    """Lists a case: a function that makes a stream."""
    CASES.append(make)
    return make
