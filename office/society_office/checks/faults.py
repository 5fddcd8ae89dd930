"""What faults and refusals mean and how they are cured, in the words of the office's own table."""

import contextlib
import functools
import importlib.resources
import json
from typing import TYPE_CHECKING, Any

from society_office.formats.fields import MAX_BODY

if TYPE_CHECKING:
    from society_office.offices.program import Answer

NOT_TAKEN = {
    400: "it was not understood there: where that is the port of https, write https:// before the address",
    401: "the proxy wants a user and a password, or these are wrong",
    403: "the proxy does not let this user do that",
    404: "a number, the sender or the reporter is not one that the office takes",
    413: f"it is longer than {MAX_BODY:,} bytes: spread it over more numbers",
    502: "the office does not run",
    503: "the office had no memory or no disk for it; nothing changed",
}


@functools.cache
def table() -> dict[str, dict[str, dict[str, str]]]:
    """The faults by kind and number; the page for staff has the same table."""
    place = importlib.resources.files("society_office.checks") / "faults.json"
    found: dict[str, dict[str, dict[str, str]]] = json.loads(place.read_text(encoding="utf-8"))
    return found


def means(kind: str, number: int) -> str:
    """What a fault means."""
    return table()[kind].get(str(number), {}).get("means", f"fault {number}")


def cure(kind: str, number: int) -> str:
    """How a fault is cured."""
    return table()[kind].get(str(number), {}).get("cure", "")


def words(kind: str, number: int) -> str:
    """A fault with its cure."""
    return f"{means(kind, number)}; {cure(kind, number)}"


def conflict_text(kind: str, body: dict[str, Any]) -> str:
    """Why a request stands against what is there already (409)."""
    error = body.get("error")
    if error == "reused":
        return f"another {kind} stands under this number, and stays: send this one under the next number"
    if error == "ended":
        return f"the sender stated that these numbers end with {body['last']}: send it under a number of a later year"
    if error == "cut":
        return f"{body['sender']} has all files up to {body['front']} only: wait for the missing ones, or cut it lower"
    if error == "return":
        return f"return {body['number']} of {body['reporter']} has not come: send it, or leave it out"
    if error == "paid":
        return f"return {body['number']} of {body['reporter']} is paid by pool {body['pool']}: leave it out"
    return "it stands against what is there"


def refusal_text(kind: str, answer: "Answer") -> str:
    """Why a file, a return or an order was not taken."""
    body = answer.told
    if answer.status == 422 and "fault" in body:
        at = f" at line {body['line']}" if "line" in body else f" in row {body['row']}" if "row" in body else ""
        return f"{kind} fault {body['fault']}{at}: {words(kind, body['fault'])}"
    if answer.status == 409:
        with contextlib.suppress(KeyError):
            return conflict_text(kind, body)
    if answer.status < 300:
        return f"status {answer.status} of what is no office: look at the address"
    return NOT_TAKEN.get(answer.status, f"status {answer.status}")
