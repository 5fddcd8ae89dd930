"""Random changes of files of works and of returns: fields written over, lines moved, bytes and letters put in."""

import random
from collections.abc import Callable

import quarter
from office_value import return_body
from society_office.formats import fields

WORDS = [
    b"HDR",
    b"GRH",
    b"GRT",
    b"TRL",
    b"NWR",
    b"REV",
    b"SPU",
    b"OPU",
    b"SWR",
    b"OWR",
    b"SPT",
    b"SWT",
    b"PWR",
    b"REC",
    b"AGR",
    b"ALT",
    b"XX_",
]
LETTERS = [b" ", b"0", b"9", b"A", b"z", b"\xc4", "Ä".encode(), b"\x7f", b"\x00", b"\t", b"\r", b"\n", b"-", b'"', b","]
VALUES = [
    b"00000",
    b"05007",
    b"10000",
    b"10001",
    b"10006",
    b"0500 ",
    b"     ",
    b"I",
    b"E",
    b"2136",
    b"  40",
    b"0040",
    b"276",
    b"T0345246801",
    b"T0345246802",
]
PLACES = [
    fields.SENDER,
    *(it for it, _ in fields.TIMES),
    fields.GROUP_KIND,
    fields.GROUP_ID,
    *fields.TRAILER,
    *fields.SEQUENCES,
    fields.TITLE,
    fields.WORK_NUMBER,
    fields.ISWC,
    fields.PWR_PUBLISHER,
    fields.PWR_WRITER,
    fields.ISRC,
    *(place for it in (fields.PUBLISHER, fields.WRITER) for place in (it.number, it.ipi, *it.owns)),
    *(place for it in fields.ROWS.values() for place in (it.number, it.indicator, it.code, *it.collects)),
]
ISRCS = [b"ATABC2600001", b"at-abc-26-00001", b"AT-ABC2600001", b"A1ABC2600001", b"", b" ATABC2600001", b"Total"]
NUMBERS = [
    b"1",
    b"0",
    b"-1",
    b"0010",
    b"1000000",
    b"1000001",
    b"10000",
    b"10001",
    b"12345678",
    b"3:00",
    b"1.5",
    b"1,000",
    b'"7"',
    b"",
    b" 7",
    b"1E+05",
]


def written_over(rng: random.Random, line: bytes) -> bytes:
    """A line with one of its fields written over."""
    place = rng.choice(PLACES)
    value = rng.choice([*VALUES, rng.randbytes(3), b" " * 60, b"%d" % rng.randint(0, 10**8)])[: place.last - place.first + 1]
    filled = line.ljust(place.first - 1)
    return filled[: place.first - 1] + value.ljust(place.last - place.first + 1) + filled[place.last :]


def line_changed(rng: random.Random, line: bytes) -> bytes:
    """A line that is changed in one way."""
    at = rng.randint(0, len(line))
    ways: list[Callable[[], bytes]] = [
        lambda: written_over(rng, line),
        lambda: written_over(rng, line),
        lambda: rng.choice(WORDS) + line[3:],
        lambda: line[:at] + rng.choice(LETTERS) + line[at:],
        lambda: line[:at] + rng.choice(LETTERS) + line[at + 1 :],
        lambda: line[:at],
        lambda: line + b"X" * rng.choice([1, 100, 2_000]),
    ]
    return rng.choice(ways)()


def file(rng: random.Random, body: bytes) -> bytes:
    """A file of works that is changed in one to three ways."""
    lines = body.split(b"\r\n")
    for _ in range(rng.choice([1, 1, 1, 2, 3])):
        at, other = rng.randrange(len(lines)), rng.randrange(len(lines))
        way = rng.random()
        if way < 0.7:
            lines[at] = line_changed(rng, lines[at])
        elif way < 0.78 and len(lines) > 1:
            del lines[at]
        elif way < 0.86:
            lines.insert(at, lines[other])
        elif way < 0.92:
            lines[at], lines[other] = lines[other], lines[at]
        else:
            lines.insert(at, rng.choice([b"", b"  ", b"X", b"SPU", b"Z" * 2_001]))
    found = rng.choice([b"\r\n", b"\r\n", b"\n"]).join(lines)
    return found[: rng.randrange(len(found) + 1)] if rng.random() < 0.05 else found


def a_return(rng: random.Random) -> bytes:
    """A return that is changed in one to three ways."""
    lines = return_body(rng.choice(list(quarter.RETURNS.values()))).split(b"\n")[:-1]
    for _ in range(rng.choice([1, 1, 1, 2])):
        at = rng.randrange(len(lines))
        way = rng.random()
        if way < 0.5:
            cells = [
                rng.choice(it)
                for it in ((ISRCS, NUMBERS, NUMBERS) if rng.random() < 0.6 else (ISRCS[:2], NUMBERS[:1], [b"0010", b"10000"]))
            ]
            lines[at] = b",".join(cells[: rng.choice([3, 3, 3, 3, 3, 2])] + [b""] * rng.choice([0, 0, 0, 0, 1]))
        elif way < 0.75:
            place = rng.randint(0, len(lines[at]))
            lines[at] = lines[at][:place] + rng.choice(LETTERS) + lines[at][place + rng.choice([0, 1]) :]
        else:
            lines.insert(at, rng.choice([b"", b"", b"\r", b"\r", b",,", b'""', b"sep=,", b"isrc,plays,seconds", lines[-1], lines[-1]]))
    if rng.random() < 0.02:
        lines += [b"ATABC2600001,1,1"] * 10_000
    mark = b"\xef\xbb\xbf" if rng.random() < 0.1 else b""
    return mark + rng.choice([b"\n", b"\n", b"\r\n", b"\r"]).join(lines) + rng.choice([b"\n", b""])
