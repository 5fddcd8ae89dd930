"""Files of works line by line, as short as each may be, as many as there is room for in a body."""
from collections.abc import Callable

from bodies import CSV_HEADER, FIRST_LINES, MAX_BODY

HDR = FIRST_LINES[0] + b"\r\n"


def filled(front: bytes, line: Callable[[int], bytes], back: bytes = b"", room: int = MAX_BODY) -> tuple[bytes, int]:
    """The front, as many lines as there is room for, and the back; line(k) gives the k-th one."""
    parts, left, k = [], room - len(front) - len(back), 0
    while len(text := line(k)) <= left:
        parts.append(text)
        left -= len(text)
        k += 1
    return front + b"".join(parts) + back, k


# The lines of one group of NWR or REV, by their numbers.
def record(kind: bytes, transaction: int, place: int, rest: bytes = b"") -> bytes:
    return b"%s%08d%08d%s" % (kind, transaction, place, rest)


def work(transaction: int, number: bytes, kind: bytes = b"NWR", title: bytes = b"T") -> bytes:
    return record(kind, transaction, 0, title.ljust(62) + number.ljust(14)).rstrip() + b"\n"


def spu(place: int, number: bytes, transaction: int = 0) -> bytes:
    return record(b"SPU", transaction, place, b"01" + number).rstrip() + b"\n"


def row(kind: bytes, place: int, number: bytes, transaction: int = 0) -> bytes:
    return record(kind, transaction, place, number).rstrip() + b"\n"


def pwr(place: int, publisher: bytes, writer: bytes = b"") -> bytes:
    return record(b"PWR", 0, place, publisher.ljust(82) + writer).rstrip() + b"\n"


def rec(place: int, isrc: bytes, transaction: int = 0) -> bytes:
    return record(b"REC", transaction, place, b" " * 230 + isrc) + b"\n"


def one_group(lines: bytes, transactions: int, kind: bytes = b"NWR") -> bytes:
    """A transmission of one group with these lines."""
    count = lines.count(b"\n")
    return (
        HDR
        + b"GRH%s0000102.200000000000\n" % kind
        + lines
        + b"GRT00001%08d%08d\n" % (transactions, count + 2)
        + b"TRL00001%08d%08d\n" % (transactions, count + 4)
    )


ROOM = MAX_BODY - len(one_group(b"", 0))
W1 = work(0, b"W1")


def one_work(line: Callable[[int], bytes], head: bytes = W1, back: bytes = b"") -> bytes:
    """One transaction, its first line and as many further ones as there is room for."""
    lines, _ = filled(head, line, back, ROOM)
    return one_group(lines, 1)


def name(k: int) -> bytes:
    """The k-th IP number, as short as it may be."""
    digits, text = b"0123456789ABCDEFGHIJKLMNOPQRSTUVWXYZ", b""
    while True:
        k, digit = divmod(k, 36)
        text = digits[digit : digit + 1] + text
        if k == 0:
            return text


def isrc(k: int) -> bytes:
    return b"ATABC26%05d" % k


def returns_of(count: int) -> bytes:
    return CSV_HEADER + b"".join(b"%s,1,1\n" % isrc(k) for k in range(count))


def parties_and_recordings(recordings: int, parties: int) -> bytes:
    lines = W1 + b"".join(rec(k + 1, isrc(k)) for k in range(recordings))
    lines += b"".join(spu(recordings + k + 1, name(k)) for k in range(parties))
    return one_group(lines, 1)
