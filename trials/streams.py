"""Streams over tables in memory: rows of requests, large bodies and long streams, and streams that break off."""
import os
import pathlib
import tty

import bodies
from bodies import CSV_HEADER, FIRST, NO_WORKS, REVISION, get, put_file, put_pool, put_return
from served import OFFICE, Ended
from program import BAD, ROW_NAMES, ROWS, acknowledgement, answer, applied, replayed, run, told, trial


@trial
def rows_over_bytes(program: pathlib.Path, folder: pathlib.Path) -> None:
    """The rows of crates/test_desk, which are served over the plain store there: all of which there are files."""
    told("rows", sorted(ROW_NAMES), sorted(str(it.relative_to(ROWS).with_suffix("")) for it in ROWS.rglob("*.http")))
    for row in ROW_NAMES:
        ended = run(program, folder, ["replay", *OFFICE], (ROWS / f"{row}.http").read_bytes())
        told(row, ended.out + ended.err, (ROWS / f"{row}.answers").read_bytes())


def transaction(sequence: int) -> bytes:
    """The records of the first file's transaction under this sequence number."""
    return b"".join(b"%s%08d%s\r\n" % (it[:3], sequence, it[11:]) for it in bodies.FIRST_LINES[2:-3])


def thousand_transactions() -> bytes:
    """A transmission with one group of 1,000 transactions."""
    front = b"\r\n".join(bodies.FIRST_LINES[:2]) + b"\r\n"
    ends = b"GRT000010000100000007002\r\nTRL000010000100000007004\r\n"
    return front + b"".join(map(transaction, range(1_000))) + ends


def two_hundred_groups() -> bytes:
    """A transmission with 200 groups of one transaction each."""
    groups = (b"GRHNWR%05d02.200000000000\r\n%sGRT%05d0000000100000009\r\n" % (it, transaction(0), it) for it in range(1, 201))
    return bodies.FIRST_LINES[0] + b"\r\n" + b"".join(groups) + b"TRL002000000020000001802\r\n"


def check_counts(row: str, text: bytes, counts: dict[bytes, int]) -> None:
    """Each of these texts has to stand there so often."""
    told(row, {part: text.count(part) for part in counts}, counts)


@trial
def large_bodies(program: pathlib.Path, folder: pathlib.Path) -> None:
    """Large bodies are applied, and their acknowledgement is there."""
    told("the body's bytes", len(thousand_transactions()), 880_168)
    bodies = {
        "greatest_body": FIRST.ljust(1_048_576, b"\n"),
        "one_thousand_transactions": thousand_transactions(),
        "groups_by_the_hundred": two_hundred_groups(),
    }
    applied = b'{"front":1,"state":"applied"}HTTP/1.1 200 OK\r\n'
    for row, body in bodies.items():
        out = replayed(program, folder, put_file(body) + acknowledgement(1))
        check_counts(row, out, {b"HTTP/1.1 201 Created\r\n": 1, applied: 1, b"HTTP/1.1 ": 2})


@trial
def three_hundred_numbers(program: pathlib.Path, folder: pathlib.Path) -> None:
    puts = (put_file(FIRST if it == 1 else REVISION, it) + acknowledgement(it) for it in range(1, 301))
    out = replayed(program, folder, b"".join(puts))
    counts = {b"HTTP/1.1 201 Created\r\n": 300, b"HTTP/1.1 200 OK\r\n": 300, b"20260106AS\r\n": 300, b"HTTP/1.1 ": 600}
    check_counts("numbers", out, counts)


@trial
def run_of_one_hundred_thousand_puts(program: pathlib.Path, folder: pathlib.Path) -> None:
    numbers = range(1, 100_001)
    out = replayed(program, folder, b"".join(put_file(NO_WORKS, it) for it in numbers))
    told("each is applied", out == b"".join(map(applied, numbers)), True)


@trial
def fronts_to_three_hundred(program: pathlib.Path, folder: pathlib.Path) -> None:
    numbers = range(1, 301)
    stream = b"".join(put_file(FIRST if it == 1 else REVISION, it) for it in numbers)
    out = replayed(program, folder, stream + get("/v1/senders/PB000000012/verdicts/300"))
    last = answer(b"200 OK", b'[{"ordinal":1,"revision":299}]')
    told("over the tables", out, b"".join(map(applied, numbers)) + last)


@trial
def returns_of_the_most_rows(program: pathlib.Path, folder: pathlib.Path) -> None:
    """A return of the most rows, and one of a row more: each of one play of one second."""
    row, most = b"ATABC2600001,1,1\n", 10_000
    stream = put_return(CSV_HEADER + most * row, 1) + put_return(CSV_HEADER + (most + 1) * row, 2)
    stream += put_pool(1, 1_000_000_000_000, [], [["RADIO1", 1]]) + get("/v1/accounts/UNCLAIMED")
    paid = [
        (b"201 Created", b'{"state":"stored"}'),
        (b"422 Unprocessable Entity", b'{"error":"csv","fault":6,"row":10002}'),
        (b"201 Created", b'{"pool":1,"state":"closed"}'),
        (b"200 OK", b'{"account":"UNCLAIMED","units":1000000000000}'),
    ]
    told("returns", replayed(program, folder, stream), b"".join(answer(*it) for it in paid))


# Streams that end, or break off.
def broken_behind(stream: bytes) -> int:
    """A stream to read from that gives these bytes, and then an error: the near end of a terminal whose far end is closed."""
    near, far = os.openpty()
    tty.setraw(far)
    told("a terminal takes the bytes", os.write(far, stream), len(stream))
    os.close(far)
    return near


def broken_off(program: pathlib.Path, folder: pathlib.Path, stream: bytes) -> Ended:
    """A run over a stream that gives these bytes, and then an error."""
    near = broken_behind(stream)
    try:
        return run(program, folder, ["replay", *OFFICE], stdin=near)
    finally:
        os.close(near)


TOO_LARGE = (
    b'HTTP/1.1 413 Payload Too Large\r\nContent-Type: application/json\r\nContent-Length: 16\r\nConnection: close\r\n\r\n{"error":"size"}'
)

# A stream, whether its reader fails behind it, what is written for it, the status, and what is written on standard error.
ENDINGS = [
    (
        b"GET /v1/senders/PB000000012 HTTP/1.1\r\nConnection: Close\r\nContent-Length: 0\r\n\r\nGET /v1/senders/PB000000012 HTTP/1.1\r\nContent-Length: 0\r\n\r\n",
        False,
        b'HTTP/1.1 200 OK\r\nContent-Type: application/json\r\nContent-Length: 21\r\nConnection: close\r\n\r\n{"front":0,"held":[]}',
        0,
        b"",
    ),
    (b"POST / HTTP/1.1\r\n\r\n", False, BAD, 0, b""),
    (b"GET / HTTP/1.1\r\nContent-Length: 999999999999999999999999999999\r\n\r\n", False, TOO_LARGE, 0, b""),
    (b"GARBAGE\r\n\r\n", True, BAD, 0, b""),
    (b"PUT /v1 HTTP/1.1\r\nContent-Length: x\r\n\r\n", True, BAD, 0, b""),
    (b"PUT /v1 HTTP/1.1\r\nContent-Length: 1048577\r\n\r\n", True, TOO_LARGE, 0, b""),
    (
        b"PUT /v1/senders/PB000000012/transmissions/1 HTTP/1.1\r\nHost: office\r\nContent-Length: 114\r\n\r\nHDRPB000000012EXAMPLE MUSIC                                01.102026010510150020260106\r\nTRL000000000000000000002\r\nGET /v1",
        True,
        b'HTTP/1.1 201 Created\r\nContent-Type: application/json\r\nContent-Length: 29\r\n\r\n{"front":1,"state":"applied"}',
        1,
        b"society: read fault after 1 requests\n",
    ),
]


@trial
def ends_of_streams(program: pathlib.Path, folder: pathlib.Path) -> None:
    """Bytes that are no request and bodies that are too large are answered as well where the reader fails behind them; a request that asks
    to close is the last; and what came whole before a failing read is answered and kept."""
    for stream, fails, out, status, err in ENDINGS:
        ended = broken_off(program, folder, stream) if fails else run(program, folder, ["replay", *OFFICE], stream)
        told(stream, ended, Ended(out, err, status))


@trial
def broken_streams(program: pathlib.Path, folder: pathlib.Path) -> None:
    told("a broken reader", broken_off(program, folder, b""), Ended(b"", b"society: read fault after 0 requests\n", 1))
    with open("/dev/full", "wb") as full:
        ended = run(program, folder, ["replay", *OFFICE], acknowledgement(1) + acknowledgement(2), stdout=full)
    told("a broken writer", (ended.err, ended.status), (b"society: write fault after 2 requests\n", 1))
