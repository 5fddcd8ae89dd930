"""How open places are read that the bytes of requests show; docs/RULES.md, 'Where a rule leaves a choice', says what senders meet of it.

A row has a name, the requests, the statuses of their answers in order, and how the last body ends. Each row is asked of an office to which
nothing has come.
"""
import pathlib
import re

from bodies import FIRST, FIRST_LINES, REVISION, STATUS, changed, get, put_file, put_named, put_pool, put_return, request, state_end
from program import replayed, told, trial

KEY = "/v1/senders/PB000000012"
SENDER = get(KEY)
GREATEST = 8_192


def head(*fields: str, line: str = f"GET {KEY} HTTP/1.1", end: str = "\r\n") -> bytes:
    """A head of these lines."""
    return (end.join([line, *fields]) + end * 2).encode("latin-1")


def asked(target: str) -> bytes:
    return head(line=f"GET {target} HTTP/1.1")


def empty_put(path: str) -> bytes:
    """A put that says nothing of a body."""
    return head(line=f"PUT {path} HTTP/1.1")


def order(text: str) -> bytes:
    return request("PUT", "/v1/pools/7", text.encode("latin-1"))


def end(segment: str, text: bytes) -> bytes:
    return request("PUT", f"{KEY}/segments/{segment}", text)


def numbered(kind: bytes, transaction: int, record: int, rest: bytes = b"") -> bytes:
    return b"%s%08d%08d%s" % (kind, transaction, record, rest)


def file(*lines: bytes) -> bytes:
    """A file of these lines behind the header."""
    return b"".join(it + b"\r\n" for it in (FIRST_LINES[0], *lines))


def trailer(groups: int, transactions: int, records: int) -> bytes:
    return b"TRL%05d%08d%08d" % (groups, transactions, records)


def group_header(kind: bytes, number: int = 1) -> bytes:
    return b"GRH%s%05d02.200000000000" % (kind, number)


def group_trailer(transactions: int, records: int, number: int = 1) -> bytes:
    return b"GRT%05d%08d%08d" % (number, transactions, records)


def empty_group(kind: bytes) -> bytes:
    return file(group_header(kind), group_trailer(0, 2), trailer(1, 0, 4))


def verdicts_of(*files: bytes) -> bytes:
    """Puts of the files in order, and the verdicts of the last one."""
    puts = b"".join(put_file(it, number) for number, it in enumerate(files, 1))
    return puts + get(f"{KEY}/verdicts/{len(files)}")


def work_of(body: bytes, work: str = "W1") -> bytes:
    return put_file(body) + get(f"{KEY}/works/{work}")


def registration(*records: bytes) -> bytes:
    """A file of one registration of these records, numbered in this order."""
    lines = (numbered(it[:3], 0, at, it[19:]) for at, it in enumerate(records))
    count = len(records)
    return file(FIRST_LINES[1], *lines, group_trailer(1, count + 2), trailer(1, 1, count + 4))


# The first file with its NWR twice in one group.
SONG = FIRST_LINES[2:-3]
TWICE = file(FIRST_LINES[1], *SONG, *(it[:3] + b"00000001" + it[11:] for it in SONG), group_trailer(2, 16), trailer(1, 2, 18))
# A REV as second record of a registration and as one that would begin a transaction, and such an NWR in a group of revisions.
MIXED = [
    file(group_header(first), numbered(first, 0, 0, SONG[0][19:]), numbered(second, 0, record), group_trailer(1, 4), trailer(1, 1, 6))
    for first, second, record in ((b"NWR", b"REV", 1), (b"NWR", b"REV", 0), (b"REV", b"NWR", 0))
]
ANNA = (6, 116, b" " * 11)
NOBODY = changed(changed(changed(changed(FIRST, *ANNA), 6, 20, b" " * 9), 7, 20, b" " * 9), 8, 102, b" " * 9)
OF_NOBODY = b'{"account":"UNCLAIMED","weight":5000},{"account":"UNCLAIMED","weight":0}]'


def shown(title: bytes = b"FIRST SONG", isrcs: bytes = b'"ATABC2600001"') -> bytes:
    """How the answer ends that shows the first file's work."""
    iswc = b'"iswc":"T-034.524.680-1","number":"W1","ordinal":1,"revision":0'
    return b',"isrcs":[%s],%s,"title":"%s","transmission":1}' % (isrcs, iswc, title)


EMPTY = b'{"front":0,"held":[]}'
UNKNOWN, REFUSED, TOO_LARGE = b'{"error":"unknown"}', b'{"error":"request"}', b'{"error":"size"}'
ACCEPTED, APPLIED = b'[{"ordinal":1,"revision":0}]', b'{"front":1,"state":"applied"}'
CLOSED = b'{"pool":7,"state":"closed"}'
HEADER = b"isrc,plays,seconds\n"
PLAYS = HEADER + b"ATABC2600001,1,1\n"
UNITS = b"isrc,account,units\n-,UNCLAIMED,1\n"


def fault(kind: str, number: int, place: str = "") -> bytes:
    return b'{"error":"%s","fault":%d%s}' % (kind.encode(), number, place.encode())


def file_fault(number: int, line: int) -> bytes:
    return fault("file", number, f',"line":{line}')


def return_fault(number: int, row: int) -> bytes:
    return fault("csv", number, f',"row":{row}')


def filled(before: int) -> bytes:
    """A head of the greatest size, with empty lines before it."""
    return b"\r\n" * before + head("X: " + "x" * (GREATEST - 2 * before - len(head("X: "))))


HEADS = [
    ("empty lines before a head are of it", filled(2), "200", EMPTY),
    ("and count", b"\r\n" + filled(2), "400", REFUSED),
    ("an empty line after the last request", SENDER + b"\r\n", "200 400", REFUSED),
    ("a line feed alone ends a line", head("Host: x", end="\n"), "200", EMPTY),
    ("a byte from 0x80", head("X: \x80\xff"), "200", EMPTY),
    ("a control byte", head("X: \x01"), "400", REFUSED),
    ("a folded line", head("X: a", " b"), "400", REFUSED),
    ("a blank before a colon", head("X : a"), "400", REFUSED),
    ("version 0.9", b"GET /\r\n\r\n", "400", REFUSED),
    ("version 2.0", head(line="GET / HTTP/2.0"), "400", REFUSED),
    ("another method", head(line=f"POST {KEY} HTTP/1.1"), "400", REFUSED),
    ("HEAD of what is there, and nothing is read after it", head(line=f"HEAD {KEY} HTTP/1.1") + SENDER, "400", REFUSED),
    ("a method in small letters", head(line=f"get {KEY} HTTP/1.1"), "400", REFUSED),
    ("no Host is asked for, Expect is passed over", head("Expect: 100-continue"), "200", EMPTY),
    ("zeros before a length", head("Content-Length: " + "0" * 40), "200", EMPTY),
    ("a length past all numbers", head("Content-Length: " + "9" * 40), "413", TOO_LARGE),
    ("a length with a sign", head("Content-Length: +0"), "400", REFUSED),
    ("a list of lengths", head("Content-Length: 0, 0"), "400", REFUSED),
    ("a blank length", head("Content-Length:  "), "400", REFUSED),
    ("two equal lengths", head("Content-Length: 0", "Content-Length: 0"), "400", REFUSED),
    ("a put without length, of a file", empty_put(f"{KEY}/transmissions/1"), "422", file_fault(1, 1)),
    ("of a return", empty_put("/v1/returns/RADIO1/1"), "422", return_fault(1, 1)),
    ("of an order", empty_put("/v1/pools/7"), "422", fault("order", 1)),
    ("of an end", empty_put(f"{KEY}/segments/plain"), "422", fault("segment", 1)),
    ("an empty Transfer-Encoding", head("Transfer-Encoding:"), "400", REFUSED),
    ("also of version 1.0", head("Transfer-Encoding: identity", line=f"GET {KEY} HTTP/1.0"), "400", REFUSED),
    ("another method before too large a body", head("Content-Length: 1048577", line="POST / HTTP/1.1"), "400", REFUSED),
    ("two lengths before it", head("Content-Length: 1048577", "Content-Length: 1048577"), "400", REFUSED),
    ("an encoding before it", head("Transfer-Encoding: chunked", "Content-Length: 1048577"), "400", REFUSED),
    ("too large a body of a get, before the path", head("Content-Length: 1048577", line="GET /x HTTP/1.1"), "413", TOO_LARGE),
    ("an unknown path once the body is whole", head("Content-Length: 3", line="PUT /x HTTP/1.1") + b"abc" + SENDER, "404 200", EMPTY),
    ("a body cut short before the path", head("Content-Length: 3", line="PUT /x HTTP/1.1") + b"ab", "400", REFUSED),
    (
        "close in any case, in any Connection field; nothing is read after it",
        head("Connection: x", "Connection: CLOSE") + b"x",
        "200",
        EMPTY,
    ),
    ("close among others ends it", head("Connection: keep-alive ,\tClose,") + b"x", "200", EMPTY),
    ("a longer word keeps it", head("Connection: closed, x-close, clos") + SENDER, "200 200", EMPTY),
    ("version 1.0 ends it, also with keep-alive", head("Connection: keep-alive", line=f"GET {KEY} HTTP/1.0") + SENDER, "200", EMPTY),
]

PATHS = [
    ("a parameter is decoded", asked("/v1/senders/PB00000001%32"), "200", EMPTY),
    ("once", asked("/v1/senders/PB00000001%2532"), "404", UNKNOWN),
    ("an escaped slash stays in its parameter", work_of(changed(FIRST, 3, 82, b"W/1"), "W%2F1"), "201 200", b'"transmission":1}'),
    ("a percent sign that begins no escape stays", work_of(changed(FIRST, 3, 82, b"W%Z"), "W%Z"), "201 200", b'"transmission":1}'),
    ("a plus sign stays", work_of(changed(FIRST, 3, 82, b"W+1"), "W+1"), "201 200", b'"transmission":1}'),
    ("the rest of a path is not decoded", asked("/%761/senders/PB000000012"), "404", UNKNOWN),
    *(
        (f"unknown: {it}", asked(it), "404", UNKNOWN)
        for it in (f"http://x{KEY}", "*", f"/{KEY}", f"{KEY}/", "/v1/senders//acks/1", f"{KEY}?", f"{KEY}#x")
    ),
    ("a put where there is a get alone", empty_put(KEY), "404", UNKNOWN),
    ("blanks behind a work number are taken away", work_of(FIRST, "W1%20%20"), "201 200", b'"transmission":1}'),
    ("also past its 14 characters", work_of(FIRST, "W1" + "%20" * 20), "201 200", b'"transmission":1}'),
    ("blanks alone", work_of(FIRST, "%20"), "201 404", UNKNOWN),
]

FILES = [
    *(
        (f"an empty group of type {it.decode()}", put_file(empty_group(it)), "201", APPLIED)
        for it in (b"GRT", b"HDR", b"GRH", b"TRL", b"NWR")
    ),
    (
        "an empty group is not acknowledged",
        put_file(empty_group(b"NWR")) + get(f"{KEY}/acks/1"),
        "201 200",
        b"\r\nTRL000000000000000000002\r\n",
    ),
    ("a last line of 2,000 bytes, with a CR alone behind it", put_file(file() + trailer(0, 0, 2).ljust(2_000) + b"\r"), "201", APPLIED),
    ("one of 2,001 bytes", put_file(file() + trailer(0, 0, 2).ljust(2_001)), "422", file_fault(12, 2)),
    ("a CR alone behind the last line end is a line", put_file(FIRST + b"\r"), "201", APPLIED),
    ("two are a line that is not blank", put_file(FIRST + b"\r\r"), "422", file_fault(11, 12)),
    ("so is a tab", put_file(FIRST + b"\t"), "422", file_fault(11, 12)),
    ("a REV in a group of NWR is a record of the NWR before it", verdicts_of(MIXED[0]), "201 200", b"}]"),
    ("and is numbered so", put_file(MIXED[1]), "422", file_fault(7, 4)),
    ("the other way round", put_file(MIXED[2]), "422", file_fault(7, 4)),
    ("a repeat is known before a fault is looked for", put_file(FIRST) + put_file(b"") + put_file(FIRST), "201 409 200", APPLIED),
    ("year 0", put_file(changed(FIRST, 1, 65, b"00000101")), "422", file_fault(3, 1)),
]

WORKS = [
    ("a blank IP # is one as any other", verdicts_of(NOBODY), "201 200", ACCEPTED),
    ("its account is UNCLAIMED, which then stands twice", work_of(NOBODY), "201 200", OF_NOBODY + shown()),
    ("a publisher may stand behind the PWR that names it", verdicts_of(registration(SONG[0], SONG[5], *SONG[1:5])), "201 200", ACCEPTED),
    ("but has to stand there", verdicts_of(registration(SONG[0], SONG[5], *SONG[3:5])), "201 200", b'[{"fault":7}]'),
    ("a work number with a blank inside", work_of(changed(FIRST, 3, 82, b"W 1"), "W%201"), "201 200", b'"transmission":1}'),
    ("an IPI name number with a blank inside", verdicts_of(changed(FIRST, 4, 88, b"0000 000199")), "201 200", b'[{"fault":9}]'),
    ("a share of four digits and a blank", verdicts_of(changed(FIRST, 4, 116, b"0500 ")), "201 200", b'[{"fault":4}]'),
    ("an ISRC in small letters", verdicts_of(changed(FIRST, 9, 250, b"atabc2600001")), "201 200", b'[{"fault":10}]'),
    (
        "a share of a row that does not count",
        verdicts_of(changed(changed(FIRST, 5, 51, b"0276"), 5, 35, b"10001")),
        "201 200",
        b'[{"fault":4}]',
    ),
    ("'before' is also within one file", verdicts_of(TWICE), "201 200", b'[{"ordinal":1,"revision":0},{"fault":20}]'),
    ("a blank ISRC is left out", work_of(changed(FIRST, 9, 250, b" " * 12)), "201 200", shown(isrcs=b"")),
    ("a title is escaped, and then JSON", work_of(changed(FIRST, 3, 20, b'A"\\\xc4%')), "201 200", shown(b'A\\"\\\\%C4%25 SONG')),
]

RETURNS = [
    ("line ends alone", put_return(b"\r\n\n"), "422", return_fault(1, 1)),
    ("a byte order mark alone", put_return(b"\xef\xbb\xbf"), "422", return_fault(1, 1)),
    ("a mark, empty lines, CR", put_return(b"\xef\xbb\xbf" + PLAYS.replace(b"\n", b"\r") + b"\r\r"), "201", b'{"state":"stored"}'),
    ("an empty line is no row", put_return(HEADER + b"\n\nAT,1,1\n"), "422", return_fault(3, 2)),
    ("a line of one blank is one", put_return(HEADER + b" \n"), "422", return_fault(2, 2)),
    ("quotes are taken off", put_return(b'"isrc",plays,seconds\n"ATABC2600001","1",1'), "201", b'{"state":"stored"}'),
    ("one that is not closed goes to the end", put_return(HEADER + b'"ATABC2600001,1,1\nATABC2600001,1,1\n'), "422", return_fault(2, 2)),
    ("hyphens and small letters", put_return(HEADER + b"at-abc-26-00001,1,1\n"), "201", b'{"state":"stored"}'),
    ("zeros before a number", put_return(HEADER + b"ATABC2600001,0000001,00001\n"), "201", b'{"state":"stored"}'),
]

NOTHING = '"cut":[],"returns":[]}'
ORDERS = [
    ("of equal keys the last counts", order('{"amount":5,"amount":1,' + NOTHING) + get("/v1/pools/7"), "201 200", UNITS),
    ("also where the first was right", order('{"amount":1,"amount":"1",' + NOTHING), "422", fault("order", 1)),
    *(
        (f"{it} is no whole number", order(f'{{"amount":{it},{NOTHING}'), "422", fault("order", 1))
        for it in ("1e3", "1.0", "-0", "18446744073709551616")
    ),
    *(
        (f"{it} is out of range", order(f'{{"amount":{it},{NOTHING}'), "422", fault("order", 2))
        for it in ("1000000000001", "18446744073709551615")
    ),
    ("a sender that is none", order('{"amount":1,"cut":[["pb000000012",0]],"returns":[]}'), "422", fault("order", 1)),
    ("a fault before a pool that is known", put_pool(7, 1, [], []) + order("{}"), "201 422", fault("order", 1)),
    ("white space around", order(' \t\r\n{"amount":1,' + NOTHING + "\n"), "201", CLOSED),
    ("anything else behind", order('{"amount":1,' + NOTHING + "x"), "422", fault("order", 1)),
    ("half a surrogate", order('{"amount":1,"kind":"\\ud800",' + NOTHING), "422", fault("order", 1)),
    ("bytes that are not UTF-8", order('{"amount":1,"kind":"\xff",' + NOTHING), "422", fault("order", 1)),
    ("a control byte in a text", order('{"amount":1,"kind":"\x01",' + NOTHING), "422", fault("order", 1)),
    ("the kind PR is none", put_pool(7, 1, [], []) + order('{"amount":1,"kind":"PR",' + NOTHING), "201 200", CLOSED),
    *(
        (f"a cut at {it}", order(f'{{"amount":1,"cut":[["PB000000012",{it}]],"returns":[]}}'), "422", fault("order", 1))
        for it in ('"26-1"', '"026-0001"', '"1"')
    ),
    *(
        (f"a cut at {it}", order(f'{{"amount":1,"cut":[["PB000000012",{it}]],"returns":[]}}'), "422", fault("order", 2))
        for it in ('"26-0000"', "1260001")
    ),
]

BY_YEAR = state_end("plain", 0, 26) + put_named(FIRST, "CW260001EXA_900.V22")
YEARS = [
    ("an end of a sender of whom nothing has come", state_end("plain", 0, 0), "201", b'{"front":"00-0000","state":"ended"}'),
    (
        "of equal keys of an end the last counts",
        end("plain", b'{"last":1,"last":0,"next":0}'),
        "201",
        b'{"front":"00-0000","state":"ended"}',
    ),
    *(
        (f"an end with {it.decode()}", end("plain", b'{"last":%s,"next":26}' % it), "422", fault("segment", 1))
        for it in (b"1.0", b"-0", b"1e3", b"18446744073709551616")
    ),
    ("out of range goes before not later", end("26", b'{"last":10000,"next":26}'), "422", fault("segment", 2)),
    ("99 can't be ended by 100", end("99", b'{"last":1,"next":100}'), "422", fault("segment", 2)),
    ("nor by 99", end("99", b'{"last":1,"next":99}'), "422", fault("segment", 3)),
    ("plain with capitals", end("PLAIN", b'{"last":1,"next":26}'), "404", UNKNOWN),
    ("plain with an escape", end("pl%61in", b'{"last":0,"next":26}'), "201", b'{"front":"26-0000","state":"ended"}'),
    (
        "a name in small letters, with an escape",
        state_end("plain", 0, 26) + put_named(FIRST, "cw260001%65xa_900.v21"),
        "201 201",
        b'{"front":"26-0001","state":"applied"}',
    ),
    ("a number of a year is a text in a work", BY_YEAR + get(f"{KEY}/works/W1"), "201 201 200", b'"transmission":"26-0001"}'),
    (
        "and as the front of a refused cut",
        BY_YEAR + order('{"amount":1,"cut":[["PB000000012","26-0002"]],"returns":[]}'),
        "201 201 409",
        b'{"error":"cut","front":"26-0001","sender":"PB000000012"}',
    ),
    ("and where it is above an end", BY_YEAR + state_end("26", 0, 27), "201 201 409", b'{"error":"segment","number":"26-0001"}'),
    (
        "but a stated last number is a number",
        BY_YEAR + state_end("26", 1, 27) + put_named(REVISION, "CW260002EXA_900.V22"),
        "201 201 201 409",
        b'{"error":"ended","last":1}',
    ),
]


@trial
def open_places(program: pathlib.Path, folder: pathlib.Path) -> None:
    """What is answered in each of them, and that `replay` ends with 0 after every answer."""
    for name, stream, statuses, ending in HEADS + PATHS + FILES + WORKS + RETURNS + ORDERS + YEARS:
        out = replayed(program, folder, stream)
        told(name, b" ".join(STATUS.findall(out)).decode(), statuses)
        told(name, out[-len(ending) :], ending)


@trial
def territories_are_one(program: pathlib.Path, folder: pathlib.Path) -> None:
    """The four ways to write a territory give one weight, also against one that does not count."""
    weights = re.compile(rb'"weight":(\d+)')
    for field, wanted in (b"40  ", b"5000"), (b" 40 ", b"5000"), (b"040 ", b"5000"), (b"0040", b"5000"), (b"0276", b"0"):
        told(field, weights.findall(replayed(program, folder, work_of(changed(FIRST, 5, 51, field))))[0], wanted)
