"""The greatest transmission and the return of the most rows, over `replay` and over a file, where each answer is the one that the rules
give.

The transmission is of works to its last byte, and each row of the return is of a recording of its own, which a pool then pays. Titles,
shares and numbers differ from work to work, and some are rejected or contested, so that a line left out or taken twice changes an answer.
"""
import json
import pathlib
from collections.abc import Iterator

from bodies import CSV_HEADER, FIRST_LINES, MAX_BODY, SENDER, get, isrc, put_file, put_pool, put_return, work_lines
from program import Other, Server, answer, applied, replayed, told, trial

MOST_ROWS, AMOUNT, NOBODY = 10_000, 1_000_000_000_000, b"UNCLAIMED"
HOLDERS = b"I00000000199", b"I00000000295"
WRONG_ISWC, REGISTERED_BEFORE = 3, 20


# The transmission.
def number_of(k: int) -> bytes:
    """The k-th work's number: each 25th has the one of the work before it."""
    return b"W%d" % (k - (k % 25 == 24))


def recording_of(k: int) -> int:
    """The k-th work's recording: each 50th has the one of the work before it."""
    return k - (k % 50 == 49)


def shares_of(k: int) -> tuple[int, int]:
    """The performing shares that its publisher and its writer collect."""
    return k * 7 % 5_001, k * 13 % 5_001


def lines_of(place: int) -> bytes:
    """The lines of a work, at a place of its group, which is its number too: each tenth has a wrong ISWC."""
    lines = [bytearray(it) for it in work_lines(place, recording_of(place), lambda _: number_of(place)).splitlines()]
    lines[0][19:79] = (b"SONG %d" % place).ljust(60)
    lines[0][105:106] = b"2" if place % 10 == 0 else b"1"
    publisher, writer = shares_of(place)
    lines[2][34:39], lines[4][28:33] = b"%05d" % publisher, b"%05d" % writer
    return b"\r\n".join(lines) + b"\r\n"


def transmission() -> tuple[bytes, int]:
    """A body of the greatest size, and how many works it has: the last work's last line is filled up with blanks."""
    begin, works = b"\r\n".join(FIRST_LINES[:2]) + b"\r\n", list[bytes]()
    ends = b"GRT00001%08d%08d\r\nTRL00001%08d%08d\r\n"
    left = MAX_BODY - len(begin) - len(ends % (0, 0, 0, 0))
    while len(lines := lines_of(len(works))) <= left:
        works.append(lines)
        left -= len(lines)
    works[-1] = works[-1][:-2] + b" " * left + b"\r\n"
    count, records = len(works), sum(it.count(b"\n") for it in works)
    return begin + b"".join(works) + ends % (count, records + 2, count, records + 4), count


def verdicts(count: int) -> list[dict[str, int]]:
    """Of each work its fault, or its ordinal where it is accepted."""
    found, accepted = [], set()
    for k in range(count):
        fault = WRONG_ISWC if k % 10 == 0 else REGISTERED_BEFORE if number_of(k) in accepted else 0
        if not fault:
            accepted.add(number_of(k))
        found.append({"fault": fault} if fault else {"ordinal": len(accepted), "revision": 0})
    return found


def acknowledgement_of(found: list[dict[str, int]]) -> bytes:
    """The acknowledgement file of these verdicts."""
    lines = [b"HDRSO000000900" + b"EXAMPLE SOCIETY".ljust(45) + b"01.102026010600000020260106".ljust(42), b"GRHACK0000102.200000000000  "]
    for k, it in enumerate(found):
        number = b"000000012%011d" % it["ordinal"] if "ordinal" in it else b""
        line = b"ACK%08d000000002026010510150000001%08dNWR" % (k, k) + (b"SONG %d" % k).ljust(60) + number_of(k).ljust(20)
        lines.append(line + number.ljust(20) + b"20260106" + (b"AS" if number else b"RJ"))
    count = len(found)
    lines += [b"GRT00001%08d%08d" % (count, count + 2), b"TRL00001%08d%08d" % (count, count + 4)]
    return b"".join(it + b"\r\n" for it in lines)


def work(k: int, ordinal: int) -> bytes:
    """What is answered of a work."""
    weights = [*shares_of(k), 10_000 - sum(shares_of(k))]
    holders = [{"account": it.decode(), "weight": weight} for it, weight in zip([*HOLDERS, NOBODY], weights, strict=True)]
    members = {"holders": holders, "isrcs": [isrc(recording_of(k)).decode()], "iswc": "T-034.524.680-1", "number": number_of(k).decode()}
    return compact({**members, "ordinal": ordinal, "revision": 0, "title": f"SONG {k}", "transmission": 1})


def compact(value: object) -> bytes:
    return json.dumps(value, separators=(",", ":")).encode()


# The return, and the pool that pays it.
def plays_of(k: int) -> tuple[int, int]:
    """The plays and seconds of the k-th recording, up to the most of each."""
    return k * 7 % MOST_ROWS * 100 + 100, k % MOST_ROWS + 1


def returned(rows: int) -> bytes:
    """A return's body, of recordings out of order; each third ISRC is written with hyphens, in quotes."""
    body = [CSV_HEADER]
    for row in range(rows):
        k = row * 7_919 % rows
        written = isrc(k) if row % 3 else b'"%s-%s-%s-%s"' % (isrc(k)[:2], isrc(k)[2:5], isrc(k)[5:7], isrc(k)[7:])
        body.append(b"%s,%d,%d\n" % (written, *plays_of(k)))
    return b"".join(body)


def split(amount: int, weights: list[int]) -> list[int]:
    """An amount by weights: the units that are left go to the greatest remainders, the earlier first."""
    whole = sum(weights)
    parts = [amount * it // whole for it in weights]
    for k in sorted(range(len(weights)), key=lambda k: (-(amount * weights[k] % whole), k))[: amount - sum(parts)]:
        parts[k] += 1
    return parts


def credited(found: list[dict[str, int]]) -> Iterator[tuple[bytes, bytes, int]]:
    """The lines of the pool: recording, account, units."""
    owners: dict[int, list[int]] = {}
    for k, it in enumerate(found):
        if "ordinal" in it:
            owners.setdefault(recording_of(k), []).append(k)
    points = [plays * seconds for plays, seconds in map(plays_of, range(MOST_ROWS))]
    for k, part in enumerate(split(AMOUNT, points)):
        names, weights = [NOBODY], [1]
        if len(own := owners.get(k, [])) == 1:
            names, weights = [*HOLDERS, NOBODY], [*shares_of(own[0]), 10_000 - sum(shares_of(own[0]))]
        yield from ((isrc(k), name, units) for name, units in zip(names, split(part, weights), strict=True))


# The streams.
def put_all() -> tuple[bytes, bytes, list[dict[str, int]]]:
    """The requests that put and close, each body then also again and with another last byte, and the answers to them."""
    body, count = transmission()
    told("the greatest body", (len(body), count > 1_000), (MAX_BODY, True))
    rows, pool = returned(MOST_ROWS), put_pool(7, AMOUNT, [[SENDER, 1]], [["RADIO1", 1]])
    asked = [put_file(body, 1), put_return(rows, 1), put_return(returned(MOST_ROWS + 1), 2), pool, put_file(body, 1), put_return(rows, 1)]
    asked += [put_file(body[:-1] + b" ", 1), put_return(rows[:-1] + b"0", 1)]
    stored, fault = b'{"state":"stored"}', b'{"error":"csv","fault":6,"row":%d}' % (MOST_ROWS + 2)
    wanted = [applied(1), answer(b"201 Created", stored), answer(b"422 Unprocessable Entity", fault)]
    wanted += [answer(b"201 Created", b'{"pool":7,"state":"closed"}'), answer(b"200 OK", b'{"front":1,"state":"applied"}')]
    wanted += [answer(b"200 OK", stored), *[answer(b"409 Conflict", b'{"error":"reused"}')] * 2]
    return b"".join(asked), b"".join(wanted), verdicts(count)


def ask_all(found: list[dict[str, int]]) -> tuple[bytes, bytes]:
    """The questions about what was put, and the answers to them."""
    last = max(k for k, it in enumerate(found) if "ordinal" in it)
    lines, path = list(credited(found)), f"/v1/senders/{SENDER}"
    told("the pool's units", sum(units for _, _, units in lines), AMOUNT)
    table = b"isrc,account,units\n" + b"".join(b"%s,%s,%d\n" % it for it in lines)
    answers = {
        path: answer(b"200 OK", b'{"front":1,"held":[]}'),
        f"{path}/verdicts/1": answer(b"200 OK", compact(found)),
        f"{path}/acks/1": answer(b"200 OK", acknowledgement_of(found), "application/octet-stream"),
        f"{path}/works/{number_of(last).decode()}": answer(b"200 OK", work(last, found[last]["ordinal"])),
        "/v1/pools/7": answer(b"200 OK", table, "text/csv"),
    }
    for name in (*HOLDERS, NOBODY):
        balance = {"account": name.decode(), "units": sum(units for _, to, units in lines if to == name)}
        answers[f"/v1/accounts/{name.decode()}"] = answer(b"200 OK", compact(balance))
    return get(*answers), b"".join(answers.values())


def same(row: str, seen: bytes, wanted: bytes) -> None:
    """All bytes have to be those wanted; what is told of are those about the first other one."""
    if seen != wanted:
        first = next((it for it, both in enumerate(zip(seen, wanted)) if both[0] != both[1]), min(len(seen), len(wanted)))
        near = slice(max(first - 60, 0), first + 60)
        raise Other(
            f"{row}: {len(seen)} bytes, of {len(wanted)} wanted; at {first} there is {seen[near]!r}, and wanted is {wanted[near]!r}"
        )


# A body of a byte too many, and what is answered to it.
TOO_LONG = put_file(b" " * (MAX_BODY + 1), 2)
REFUSED = (
    b'HTTP/1.1 413 Payload Too Large\r\nContent-Type: application/json\r\nContent-Length: 16\r\nConnection: close\r\n\r\n{"error":"size"}'
)


@trial
def the_greatest_bodies_are_answered(program: pathlib.Path, folder: pathlib.Path) -> None:
    puts, taken, found = put_all()
    questions, answers = ask_all(found)
    same("replay", replayed(program, folder, puts + questions + TOO_LONG), taken + answers + REFUSED)
    with Server(program, folder, "office.db", connections=3) as server:
        # (nothing is read before all is sent, so what has long answers is asked by itself)
        same("puts over a file", server.sent(puts), taken)
        same("questions over a file", server.sent(questions), answers)
        same("a byte too many over a file", server.sent(TOO_LONG), REFUSED)
        told("a normal end", server.ended().status, 0)
    with Server(program, folder, "office.db", existing=True) as server:
        same("opened again", server.sent(questions), answers)
