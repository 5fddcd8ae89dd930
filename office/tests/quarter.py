"""A quarter of an office as a value: five publishers, three stations, four pools, names by year, a conflict, a gap, rejected works."""

from cwr import Party, Row, Work
from office_value import PLAIN, End, File, Office, Pool, Return

HALF, WHOLE, NONE = ("05000", "05000", "05000"), ("10000", "10000", "10000"), ("00000", "00000", "00000")
ALPHA, BETA, GAMMA, DELTA, EPSILON = "PB000000012", "PB000000034", "PB000000056", "PB000000078", "PB000000090"
NAMES = {ALPHA: "ALPHA MUSIC", BETA: "BETA VERLAG", GAMMA: "GAMMA SONGS", DELTA: "DELTA & SONS", EPSILON: "EPSILON"}
PR_HALF, MR_ONLY = ("05000", "00000", "00000"), ("05000", "10000", "10000")


def publisher(number: str, name: str, ipi: str, shares: tuple[str, str, str] = MR_ONLY) -> Party:
    return Party("SPU", number, name, ipi, ("05000", "10000", "10000"), (Row(shares),))


def writer(number: str, last: str, first: str, ipi: str = "", shares: tuple[str, str, str] = PR_HALF) -> Party:
    return Party("SWR", number, last, ipi, ("05000", "00000", "00000"), (Row(shares),), first)


ALPHA_HOUSE = publisher("P1", "ALPHA MUSIC", "00000000199")
BETA_HOUSE = publisher("H", "BETA VERLAG", "301")
ANNA = writer("A1", "WRITER", "ANNA", "00000000295")
BORIS = writer("B/7", "COMPOSER", "BORIS")
# What an SPT of the world says is taken back for the office's own territory.
NOT_HERE = Party("SPU", "P2", "FAR AWAY MUSIC", "00000000477", NONE, (Row(HALF), Row(NONE, "E", "40")))
# Collects in a territory that the office does not count, so nobody collects this share.
ELSEWHERE = Party("SWR", "W9", "ÄRGER", "00000000555", NONE, (Row(HALF, "I", "276"),), "ÖDÖN")
THIRDS = tuple(
    Party("OWR", f"T{k}", f"THIRD {k}", "", NONE, (Row((share, "00000", "00000")),)) for k, share in enumerate(("03333", "03333", "03334"))
)

OVERSHARED = Party("SWR", "A1", "WRITER", "00000000295", ("05007", "00000", "00000"), (Row(PR_HALF),), "ANNA")
# Three faults at once: a share above the whole, an IPI name number that is none, and too much of the mechanical right.
THREE_FAULTS = Party("SWR", "A2", "FAULTS", "12X", ("10001", "00000", "00000"), (Row(("00000", "00100", "00000")),), "THREE")


def nwr(number: str, title: str, isrcs: str, *parties: Party, fault: int = 0, iswc: str = "") -> Work:
    return Work("NWR", number, title, tuple(isrcs.split()), parties, fault, iswc)


def rev(number: str, title: str, isrcs: str, *parties: Party, fault: int = 0) -> Work:
    return Work("REV", number, title, tuple(isrcs.split()), parties, fault)


# What each sender sends: its number as the tables keep it, the request's path behind the sender, and the works.
FILES = [
    (
        ALPHA,
        1,
        "transmissions/1",
        [
            nwr("A1", "FIRST SONG", "ATABC2600001", ALPHA_HOUSE, ANNA, iswc="T0345246801"),
            nwr("A2", "=SECOND <SONG>", "ATABC2600002 ATABC2600003", ALPHA_HOUSE, BORIS),
            nwr("A3", "SHARED CLAIM", "ATABC2600010", ALPHA_HOUSE, ANNA),
            nwr("A4", "TOO MUCH", "ATABC2600020", ALPHA_HOUSE, OVERSHARED, fault=5),
        ],
    ),
    (
        ALPHA,
        2,
        "transmissions/2",
        [
            nwr("A5", "THREE FAULTS", "ATABC2600021", ALPHA_HOUSE, THREE_FAULTS, fault=4),
            nwr("A6", "WRONG ISWC", "ATABC2600022", ALPHA_HOUSE, ANNA, fault=3, iswc="T0345246802"),
            rev(
                "A1",
                "FIRST SONG (LIVE)",
                "ATABC2600001 ATABC2600004",
                publisher("P1", "ALPHA MUSIC", "199", ("00000", "10000", "10000")),
                writer("A1", "WRITER", "ANNA", "295", ("10000", "00000", "00000")),
            ),
        ],
    ),
    (
        ALPHA,
        3,
        "transmissions/3",
        [
            nwr("A1", "FIRST SONG", "ATABC2600001", ALPHA_HOUSE, ANNA, fault=20),
            nwr("A4", "TOO MUCH", "ATABC2600020", ALPHA_HOUSE, ANNA),
            rev("A9", "NEVER SENT", "ATABC2600030", ALPHA_HOUSE, fault=21),
        ],
    ),
    (BETA, 1, "transmissions/1", [nwr("1", "BETA ONE", "DEBET2600001", BETA_HOUSE, BORIS)]),
    (BETA, 1_260_001, "files/CW260001BE_900.V22", [nwr("2", "BETA TWO", "DEBET2600002", BETA_HOUSE, *THIRDS[:1])]),
    (BETA, 1_260_002, "files/cw260002be_900.v21", [rev("1", "BETA ONE, CHANGED", "DEBET2600003", BETA_HOUSE, ANNA)]),
    (BETA, 1_250_001, "files/CW250001BE_900.V22", [nwr("3", "SKIPPED YEAR", "DEBET2600005", BETA_HOUSE, ANNA)]),
    (GAMMA, 1, "transmissions/1", [nwr("G1", "GAMMA SONG", "GBGAM2600001", NOT_HERE, ANNA)]),
    (GAMMA, 3, "transmissions/3", [nwr("G3", "WAITS FOR TWO", "GBGAM2600003", NOT_HERE, BORIS)]),
    (
        DELTA,
        1,
        "transmissions/1",
        [nwr("D1", "CLAIMED TOO", "ATABC2600010", publisher("P1", "DELTA & SONS", "00000000700"), ANNA)],
    ),
    (
        EPSILON,
        1,
        "transmissions/1",
        [
            nwr("E1", "HALF IS NOBODY'S", "FREPS2600001", ELSEWHERE, ANNA),
            nwr("E2", "THREE THIRDS", "FREPS2600002", *THIRDS),
            nwr("E3", "NO HOLDER", "FREPS2600003"),
            nwr("E5", "A NAMELESS WRITER", "FREPS2600005", Party("SWR", "", "NAMELESS", "", NONE, (Row(PR_HALF),)), ANNA),
        ],
    ),
]
# What comes after the first pools are closed: the conflict is settled, and a work is registered too late.
LATER = [
    (
        DELTA,
        2,
        "transmissions/2",
        [rev("D1", "CLAIMED NO MORE", "GBDEL2600099", publisher("P1", "DELTA & SONS", "00000000700"), ANNA)],
    ),
    (EPSILON, 2, "transmissions/2", [nwr("E4", "CAME LATE", "FREPS2600004", *THIRDS)]),
]
RETURNS = {
    ("RADIO1", 1): [
        ("ATABC2600001", 10, 200),
        ("ATABC2600002", 3, 180),
        ("ATABC2600010", 7, 240),
        ("ZZZZZ2600001", 2, 61),
    ],
    ("RADIO1", 2): [
        ("at-abc-26-00001", 4, 201),
        ("DEBET2600001", 5, 77),
        ("FREPS2600001", 1, 333),
        ("FREPS2600003", 2, 50),
    ],
    ("RADIO1", 3): [("ATABC2600004", 4, 199), ("ATABC2600010", 2, 241)],
    ("RADIO1", 4): [("ATABC2600004", 4, 199), ("ATABC2600010", 2, 241)],
    ("RADIO2", 1): [
        ("FREPS2600001", 9, 123),
        ("FREPS2600002", 4, 222),
        ("GBGAM2600001", 6, 150),
        ("GBGAM2600003", 1, 99),
        ("ATABC2600020", 8, 88),
        ("FREPS2600005", 2, 301),
    ],
    ("RADIO2", 2): [("DEBET2600003", 3, 140), ("FREPS2600004", 5, 131), ("ATABC2600022", 2, 200)],
    ("TV1", 1): [("ATABC2600003", 11, 30), ("ATABC2600001", 1, 29)],
    ("TV1", 2): [("ATABC2600003", 99, 9_999)],
}
VOID = "# sent by mistake\nTV1/2  # a wrong month\n"
FIRST_CUT = {ALPHA: 2, BETA: 1, GAMMA: 1, DELTA: 1, EPSILON: 1}
LAST_CUT = {ALPHA: 3, BETA: 1_260_002, GAMMA: 1, DELTA: 2, EPSILON: 1}
POOLS = [
    Pool(1, "PR", 1_000_003, FIRST_CUT, [("RADIO1", 1), ("RADIO2", 1)]),
    Pool(2, "MR", 40_001, FIRST_CUT, [("RADIO1", 2)]),
    Pool(3, "PR", 7_777_777, LAST_CUT, [("RADIO1", 3), ("RADIO2", 2)]),
    Pool(5, "PR", 12, FIRST_CUT, []),
]
OFFICE = Office(
    NAMES,
    [
        *(File(*it) for it in FILES),
        End(BETA, PLAIN, 1, 26),
        *(Return(reporter, number, rows) for (reporter, number), rows in RETURNS.items()),
        *POOLS[:2],
        *(File(*it) for it in LATER),
        *POOLS[2:],
    ],
)
