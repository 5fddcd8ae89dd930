"""Offices whose titles and names have letters of many kinds, and what people may ask for in them."""

import dataclasses
import random

import random_office
import works_by_hand
from cwr import Party, Work
from office_value import File, Office

TITLES = (
    "Ärger Łódź smørrebrød STRASSE Straße R.E.M. O'NEIL L'AMOUR ♥ ½ ﬁN İz =1+1 AND OR NOT NEAR ΕΛΛΆΣ Щука Naïve Þór 99 9to5 *** \"A\""
).split()
NAMES = "ÖDÖN Żółć Müller MULLER Đorđe Æsir NEAR AND Smith-Jones d'Arc Ångström".split()
HOSTILE = [
    "",
    " ",
    "*",
    '"',
    '""',
    "'",
    "NEAR(",
    "NEAR(a b, 2)",
    "AND",
    "OR",
    "NOT",
    "a AND NOT b",
    "w*",
    "w61",
    "token:a",
    "^a",
    "-a",
    "a-b",
    "{a b}: c",
    "\\",
    "%",
    "_",
    "a' OR 1=1 --",
    "🎵",
    "♥",
    "e\u0301",
    "\u0301",
    "\u200d",
    "a\x00b",
    "\udcff",
    "x" * 10_000,
    "é" * 10_000,
    "王" * 10_000,
    "a " * 5_000,
    "﷽",
]


def with_texts(number: int) -> Office:
    """A random office whose titles and names have letters of many kinds."""
    rng, office = random.Random(f"texts {number}"), random_office.office(number)

    def party(it: Party) -> Party:
        first_name = rng.choice(["", *NAMES]) if it.is_writer else ""
        return dataclasses.replace(it, name=f"{rng.choice(NAMES)} {it.name}"[:30], first_name=first_name)

    def work(it: Work) -> Work:
        title = " ".join(rng.choices(TITLES, k=rng.randint(1, 4)))
        return dataclasses.replace(it, title=title, parties=tuple(map(party, it.parties)))

    steps = [it._replace(works=[work(one) for one in it.works]) if isinstance(it, File) else it for it in office.steps]
    return Office(office.names, steps)


def question(rng: random.Random, office: Office) -> list[str]:
    """Things to ask for: beginnings of words and numbers of works, as people type them, and others."""
    every = works_by_hand.versions(office)
    (sender, number), sent_of = rng.choice(sorted(every.items(), key=lambda it: it[0]))
    _, work = rng.choice(sent_of)
    accounts = [works_by_hand.account_of(sender, it) for it in work.parties]
    isrcs = [f"{it[:2]}-{it[2:5]}-{it[5:7]}-{it[7:]}" for it in work.recordings]
    names = [f"{it.first_name} {it.name}" for it in work.parties]
    texts = [work.title, work.title, *names, number, sender, work.iswc, *accounts, *work.recordings, *isrcs]
    found = []
    for _ in range(rng.choice([1, 1, 1, 2, 2, 3])):
        text = rng.choice([it for it in texts if it])
        text = rng.choice([text, text.lower(), text.upper(), works_by_hand.folded(text), rng.choice(text.split())])
        begun = text[rng.choice([0, 0, 0, 1]) : rng.choice([1, 2, 3, 5, 8, 99, 99])]
        found.append(begun)
    return found + [rng.choice(HOSTILE)[:50]] * (rng.random() < 0.1)
