"""Which works of an office are found, and what is told of each, by the office as a value; nothing of the package is used.

It goes through all works one after another, and makes texts plain in its own way: letters are taken apart, and of what is left accents
are left out.
"""

import dataclasses
import re
import unicodedata
from collections import Counter
from collections.abc import Iterator

import reckoning
from cwr import Party, Work
from office_value import PER_YEAR, PLAIN, YEARS, End, Office, sent

# Letters that are others with a stroke, or two in one.
STROKES = str.maketrans({"ø": "o", "ł": "l", "đ": "d", "ð": "d", "ħ": "h", "ŧ": "t", "ı": "i", "ŋ": "n", "æ": "ae", "œ": "oe", "þ": "th"})
# A word, or another character by itself.
WORD = re.compile(r"[^\W_]+|[^\w\s]")


def folded(text: str) -> str:
    """A text in small letters without accents."""
    apart = unicodedata.normalize("NFKD", unicodedata.normalize("NFKD", text).casefold())
    return "".join(it for it in apart if not unicodedata.combining(it)).translate(STROKES)


def parts(text: str) -> list[str]:
    """The words of a text, and its signs, which are no marks of punctuation."""
    return [it for it in WORD.findall(folded(text)) if it.isalnum() or unicodedata.category(it).startswith("S")]


def joined(text: str) -> str:
    return "".join(re.findall(r"[^\W_]+", folded(text)))


def account_of(sender: str, party: Party) -> str:
    """The account of a party; an IPI name number that is none does not count."""
    return reckoning.account(sender, party if party.ipi.isdigit() else dataclasses.replace(party, ipi=""))


def versions(office: Office) -> dict[tuple[str, str], list[tuple[int, Work]]]:
    """All that was sent of each work, by sender and number, with its file; of a file registrations come before revisions."""
    found: dict[tuple[str, str], list[tuple[int, Work]]] = {}
    for sender, number, _, works in office.files:
        for it in sorted(works, key=lambda it: it.kind):
            found.setdefault((sender, it.number), []).append((number, it))
    return found


def state(office: Office, sender: str, number: int, work: Work) -> str:
    """What became of a version."""
    if (sender, number) in office.applied:
        return "rejected" if work.fault else "accepted"
    years = way(office, sender)
    year = (number - YEARS) // PER_YEAR if number >= YEARS else PLAIN
    return "never applied" if year not in years and year < years[-1] else "waits"


def way(office: Office, sender: str) -> list[int]:
    """The years to which the ends lead that a sender has stated."""
    following = {it.segment: it.following for it in office.steps if isinstance(it, End) and it.sender == sender}
    found = [PLAIN]
    while found[-1] in following:
        found.append(following[found[-1]])
    return found


def title_now(office: Office, sender: str, sent_of: list[tuple[int, Work]]) -> str:
    """The title of the last version that was accepted, else of the last one."""
    accepted = [it for number, it in sent_of if state(office, sender, number, it) == "accepted"]
    return accepted[-1].title if accepted else sent_of[-1][1].title


def is_found(asked: list[str], sender: str, sent_of: list[tuple[int, Work]]) -> bool:
    """Whether each thing that is asked for is found in a work."""
    words, numbers = set[str](), {joined(sender)}
    for _, it in sent_of:
        names = [f"{one.first_name} {one.name}" for one in it.parties]
        words.update(parts(" ".join([it.title, *names])))
        accounts = [account_of(sender, one) for one in it.parties]
        numbers.update(joined(one) for one in (it.number, it.iswc, *it.recordings, *accounts) if one != reckoning.NOBODY)
    return all(thing_found(it, words, numbers) for it in asked)


def thing_found(thing: str, words: set[str], numbers: set[str]) -> bool:
    """Whether one thing is a number's beginning, or all of its parts are found."""

    def begins(number: str) -> bool:
        return number != "" and any(it[: len(number)] == number for it in numbers)

    def part_found(part: str) -> bool:
        return begins(joined(part)) or all(any(it[: len(word)] == word for it in words) for word in parts(part))

    return begins(joined(thing)) or all(map(part_found, thing.split()))


def found(office: Office, asked: list[str]) -> list[tuple[str, str]]:
    """The works that are found, in the order of their titles."""
    every = versions(office)
    listed = [it for it, sent_of in every.items() if is_found(asked, it[0], sent_of)]
    return sorted(listed, key=lambda it: (" ".join(parts(title_now(office, it[0], every[it]))), it))


def credited(office: Office, sender: str, number: str) -> Iterator[dict[str, object]]:
    """What each pool credited for a work, and what of that went to nobody."""
    for pool in sorted(office.pools):
        sums = Counter[str]()
        for isrc, to, units in reckoning.credits(office, pool):
            owned = reckoning.claimants(office, pool, isrc)
            if len(owned) == 1 and (owned[0][0], owned[0][1].number) == (sender, number):
                sums["all"] += units
                sums["nobody"] += units if to == reckoning.NOBODY else 0
                sums["lines"] += 1
        if sums["lines"]:
            yield {"pool": pool, "right": office.pools[pool].right, "units": sums["all"], "unclaimed": sums["nobody"]}


def told(office: Office, sender: str, number: str) -> dict[str, object]:
    """All that is told of a work."""
    sent_of = versions(office)[sender, number]
    listed = [version(office, sender, *it) for it in sent_of]
    now = [it for it in listed if it["state"] == "accepted"][-1:] or listed[-1:]
    own = {"sender": sender, "sender_name": office.names[sender], "work": number}
    rest = {name: now[0][name] for name in ("title", "iswc", "isrcs", "holders")}
    return own | rest | {"versions": listed, "credited": list(credited(office, sender, number))}


def version(office: Office, sender: str, number: int, work: Work) -> dict[str, object]:
    """A version with what became of it."""
    became = {"file": str(sent(number)), "day": "2026-01-05", "state": state(office, sender, number, work)}
    kind = {"NWR": "registration", "REV": "revision"}[work.kind]
    shares = [[units for _, units in reckoning.holders(office, sender, work, right)] for right in ("PR", "MR")]
    holders = [
        {
            "account": account_of(sender, it),
            "name": f"{it.first_name} {it.name}".strip(),
            "side": "writer" if it.is_writer else "publisher",
            "pr": pr,
            "mr": mr,
        }
        for it, pr, mr in zip(work.parties, *shares)
    ]
    fault = work.fault if became["state"] == "rejected" else 0
    isrcs = list(dict.fromkeys(work.recordings))
    return became | {"kind": kind, "fault": fault, "title": work.title, "iswc": work.iswc, "isrcs": isrcs, "holders": holders}
