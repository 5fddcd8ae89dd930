"""Small random offices, each the same for the same number.

They have years and ends, gaps and files of years that are skipped, rejected works, revisions between the cuts, conflicts, shares that
nobody collects, pools of both rights, plays sent twice, and recordings that nobody has.
"""

import dataclasses
import random

from cwr import Party, Row, Work
from office_value import PLAIN, End, File, Key, Office, Pool, Return, Step, rank
from office_value import Row as Play

SENDERS = ["PB000000012", "PB000000034", "AA000000056", "PB000000078"]
# Parties that several senders name: a name and an IPI name number, also one that is short and one of zeros.
SHARED = [("ALPHA", "00000000199"), ("BETA", "301"), ("GAMMA", "00000000295"), ("DELTA", "00000000477"), ("ZERO", "00000000000")]
WORKS = {f"W{k}" for k in range(1, 7)}
RECORDINGS = [f"ATABC26000{k:02d}" for k in range(10)]
UNKNOWN = ["ZZZZZ2600001", "ZZZZZ2600002"]
AMOUNTS = [0, 7, 12, 1_000, 1_001, 40_001, 55_555, 1_000_003, 7_777_777, 1_000_000_007, 1_000_000_000_000]
MOST_SHARES = 10_006
NOTHING = ("00000", "00000", "00000")
WRONG_ISWC, RIGHT_ISWC = "T0345246802", "T0345246801"
TOO_MUCH = ("05007", "00000", "00000")


def shares(rng: random.Random, count: int) -> list[int]:
    """Shares of one right for some parties, which come to no more than a right may."""
    whole = rng.choice([10_000, 10_000, 10_000, MOST_SHARES, 6_667, 3])
    if count == 3 and rng.random() < 0.3:
        return [3_333, 3_333, 3_334]
    marks = sorted(rng.randint(0, whole) for _ in range(count - 1)) if count else []
    found = [last - first for first, last in zip([0, *marks], [*marks, whole])][:count]
    return [min(it, 10_000) for it in found]


def territories(rng: random.Random, own: tuple[str, str, str]) -> tuple[Row, ...]:
    """Territory rows of a party; the last one that counts has these shares, or it collects nothing."""
    other = ("00100", "00200", "00300")
    return rng.choice(
        [
            *[(Row(own),)] * 5,
            (Row(own, "I", "40"),),
            (Row(other), Row(own)),
            (Row(other, "E", "40"), Row(own)),
            (Row(own), Row(other, "I", "276")),
            (Row(own), Row(other, "E", "40")),
            (Row(own, "I", "276"),),
            (),
        ]
    )


def parties(rng: random.Random) -> tuple[Party, ...]:
    """The parties of a work, publishers first; two may have one number, and some have none."""
    count = rng.choice([0, 1, 2, 2, 3, 3, 4])
    by_right = [shares(rng, count) for _ in range(3)]
    found = []
    for k in range(count):
        name, ipi = rng.choice(SHARED) if rng.random() < 0.6 else (f"OWN {k}", "")
        number = rng.choice(["P1", "P1", f"N{k}", "B/7", "" if not ipi or rng.random() < 0.5 else "Q"])
        own = tuple(f"{by_right[right][k]:05d}" for right in range(3))
        found.append(Party(rng.choice(["SPU", "OPU", "SWR", "OWR"]), number, name, ipi, NOTHING, territories(rng, own)))  # type: ignore
    return tuple(sorted(found, key=lambda it: it.is_writer))


@dataclasses.dataclass
class Sender:
    """A sender while its files are made: the works that it has registered so far."""

    key: str
    registered: set[str] = dataclasses.field(default_factory=set)

    def work(self, rng: random.Random, kind: str) -> Work:
        """A registration or a revision, with the fault that it has to get."""
        fitting = sorted(self.registered if kind == "REV" else WORKS - self.registered)
        number = rng.choice(fitting if fitting and rng.random() < 0.85 else sorted(WORKS))
        fault, iswc, listed = 0, rng.choice(["", RIGHT_ISWC]), parties(rng)
        wrong = rng.random()
        if wrong < 0.04:
            fault, iswc = 3, WRONG_ISWC
        elif wrong < 0.08:
            fault = 5
            listed = tuple(Party("SWR", f"A{k}", "TOO MUCH", "", TOO_MUCH, (Row(NOTHING),)) for k in range(2))
        elif kind == "NWR":
            fault = 20 if number in self.registered else 0
        else:
            fault = 0 if number in self.registered else 21
        if not fault:
            self.registered.add(number)
        isrcs = tuple(rng.sample(RECORDINGS, rng.choice([0, 1, 1, 2, 2])))
        return Work(kind, number, f"{self.key} {number} {rng.randint(1, 99)}", isrcs, listed, fault, iswc)

    def file(self, rng: random.Random, segment: int, number: int) -> File:
        """The next file."""
        works = [self.work(rng, "NWR") for _ in range(rng.randint(0, 4))]
        works += [self.work(rng, "REV") for _ in range(rng.randint(0 if works else 1, 2))]
        name = f"transmissions/{number}" if segment == PLAIN else f"files/CW{segment:02d}{number:04d}RA_900.V22"
        return File(self.key, rank(segment, number), name, works)


def line(rng: random.Random, key: str) -> list[Step]:
    """The files and ends of a sender, in the order of its line; one of them may be missing."""
    sender, found, segment = Sender(key), list[Step](), PLAIN
    for following in (26, 27, None):
        count = rng.choice([0, 1, 2, 2, 3])
        found += [sender.file(rng, segment, number) for number in range(1, count + 1)]
        if following is None or rng.random() < 0.5:
            break
        found.append(End(key, segment, count, following))
        segment = following
    if segment != PLAIN and rng.random() < 0.3:
        found.append(Sender(key).file(rng, 25, 1))
    if len(found) > 1 and rng.random() < 0.2:
        found.pop(rng.randrange(len(found)))
    return found


def plays(rng: random.Random) -> list[Play]:
    """The rows of a return."""

    def isrc() -> str:
        found = rng.choice(RECORDINGS) if rng.random() < 0.9 else rng.choice(UNKNOWN)
        return rng.choice([found, found, found.lower(), f"{found[:2]}-{found[2:5]}-{found[5:7]}-{found[7:]}"])

    many = rng.random() < 0.05
    return [
        (isrc(), rng.randint(1, 1_000_000 if many else 50), rng.randint(1, 10_000 if many else 400))
        for _ in range(rng.choice([0, 1, 3, 5, 8, 8]))
    ]


def returns(rng: random.Random) -> list[Step]:
    """The returns of the stations, some with the plays of the one before."""
    found = []
    for reporter in ("RADIO1", "TV1"):
        before: list[Play] = []
        for number in range(1, rng.randint(3, 7)):
            before = rng.sample(before, len(before)) if rng.random() < 0.15 else plays(rng)
            found.append(Return(reporter, number, before))
    return list(found)


def cut(rng: random.Random, so_far: Office) -> dict[str, int]:
    """A cut over what is applied: most senders up to their front, some up to an earlier file, some not at all."""
    found = {}
    for sender, front in so_far.fronts().items():
        way = rng.random()
        if way < 0.15:
            continue
        numbers = sorted(number for key, number in so_far.applied if key == sender)
        found[sender] = rng.choice(numbers) if way < 0.3 else front
    return found


def pool(rng: random.Random, number: int, so_far: Office) -> Pool:
    """An order over what has come."""
    paid = {it for one in so_far.pools.values() for it in one.returns}
    free: list[Key] = [it for it in so_far.returns if it not in paid]
    named = rng.sample(free, min(len(free), rng.choice([0, 1, 1, 2, 2, 3])))
    return Pool(number, rng.choice(["PR", "PR", "MR"]), rng.choice(AMOUNTS), cut(rng, so_far), named)


def office(number: int) -> Office:
    """The random office of a number."""
    rng = random.Random(number)
    senders = rng.sample(SENDERS, rng.randint(2, len(SENDERS)))
    coming = [it for key in senders for it in line(rng, key)] + returns(rng)
    rng.shuffle(coming)
    names = {key: f"SENDER {key[-2:]}" for key in senders}
    closed, steps = 0, list[Step]()
    for it in coming:
        steps.append(it)
        if len(steps) > len(coming) * 2 // 3 and rng.random() < 0.25:
            closed += rng.choice([1, 1, 2])
            steps.append(pool(rng, closed, Office(names, steps)))
    return Office(names, [*steps, pool(rng, closed + 1, Office(names, steps))])
