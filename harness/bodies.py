"""Requests and bodies as bytes: what trials/ and bench/ send to an office."""
import json
import re
from collections.abc import Callable, Iterable, Sequence

from served import ROOT

MAX_BODY = 1_048_576
SENDER = "PB000000012"
FIRST = (ROOT / "examples/first.cwr").read_bytes()
FIRST_LINES = FIRST.split(b"\r\n")
CSV_HEADER = b"isrc,plays,seconds\n"
STATUS = re.compile(rb"HTTP/1\.1 (\d\d\d) ")
# Senders or reporters, each with a number, as an order names them.
Named = Sequence[Sequence[object]]


# Requests.
def request(method: str, path: str, body: bytes | None = None) -> bytes:
    """A request's bytes; a length is given where there is a body, even an empty one."""
    length = "" if body is None else f"Content-Length: {len(body)}\r\n"
    return f"{method} {path} HTTP/1.1\r\n{length}\r\n".encode() + (body or b"")


def get(*paths: str) -> bytes:
    return b"".join(request("GET", path) for path in paths)


def put_file(body: bytes, number: int = 1, sender: str = SENDER) -> bytes:
    return request("PUT", f"/v1/senders/{sender}/transmissions/{number}", body)


def put_named(body: bytes, name: str, sender: str = SENDER) -> bytes:
    """The put of a file that is named by year."""
    return request("PUT", f"/v1/senders/{sender}/files/{name}", body)


def state_end(segment: str, last: int, following: int, sender: str = SENDER) -> bytes:
    """States that a sender's numbers of a segment end with the last, and which year comes then."""
    return request("PUT", f"/v1/senders/{sender}/segments/{segment}", b'{"last":%d,"next":%d}' % (last, following))


def put_return(body: bytes, number: int = 1, reporter: str = "RADIO1") -> bytes:
    return request("PUT", f"/v1/returns/{reporter}/{number}", body)


def put_pool(pool: int, amount: int, cut: Named, returns: Named) -> bytes:
    """An order that closes a pool: cut and returns are lists of [key, number]."""
    return request("PUT", f"/v1/pools/{pool}", order_body(amount, cut, returns))


# Bodies.
def order_body(amount: int, cut: Named, returns: Named) -> bytes:
    return json.dumps({"amount": amount, "cut": cut, "returns": returns}, separators=(",", ":")).encode()


def changed(file: bytes, line: int, position: int, field: bytes) -> bytes:
    """A file with a field written over what stands at a position of a line, both counted from 1."""
    lines = file.split(b"\r\n")
    old = lines[line - 1]
    lines[line - 1] = old[: position - 1] + field + old[position - 1 + len(field) :]
    return b"\r\n".join(lines)


def revised() -> bytes:
    """examples/first.cwr as a revision that gives the writer both shares whole."""
    file = changed(changed(FIRST, 2, 4, b"REV"), 3, 1, b"REV")
    for line, position, share in (4, 116, b"00000"), (5, 35, b"00000"), (6, 130, b"10000"), (7, 29, b"10000"):
        file = changed(file, line, position, share)
    return file


REVISION = revised()
NO_WORKS = FIRST_LINES[0] + b"\r\nTRL000000000000000000002\r\n"


def isrc(k: int) -> bytes:
    """The k-th recording's number."""
    return b"ATABC%07d" % k


def plain_number(k: int) -> bytes:
    """The k-th work's number."""
    return b"W%d" % k


def work_lines(place: int, k: int, number: Callable[[int], bytes] = plain_number) -> bytes:
    """The lines of the k-th work, at a place of its group, counted from 0: examples/first.cwr's with a number and a recording of its
    own."""
    lines = [bytearray(it) for it in FIRST_LINES[2:-3]]
    for it in lines:
        it[3:11] = b"%08d" % place
    lines[0][81:95] = number(k).ljust(14)
    lines[-1][249:261] = isrc(k)
    return b"\r\n".join(lines) + b"\r\n"


def works_file(first: int, count: int, sender: str = SENDER, number: Callable[[int], bytes] = plain_number) -> bytes:
    """A file of works, from the first one on; `number` gives the number of the k-th work."""
    lines = b"".join(work_lines(place, first + place, number) for place in range(count))
    records = lines.count(b"\n")
    ends = b"GRT00001%08d%08d\r\nTRL00001%08d%08d\r\n" % (count, records + 2, count, records + 4)
    return b"\r\n".join([b"HDR" + sender.encode() + FIRST_LINES[0][14:], FIRST_LINES[1], lines]) + ends


def plays_of(number: int, recordings: Iterable[int]) -> bytes:
    """A return's body: a row for each of these recordings, with plays and seconds that depend on the return's number."""
    rows = ((isrc(k), (k * 7 + number) % 1_000 + 1, (k + number * 13) % 300 + 60) for k in recordings)
    return CSV_HEADER + b"".join(b"%s,%d,%d\n" % it for it in rows)


def plays(number: int, count: int, first: int = 0) -> bytes:
    """The same of the recordings from the first one on."""
    return plays_of(number, range(first, first + count))
