"""The sizes that are promised: each is answered as a small one is."""
import pathlib
import measured
from chosen import numbers as chosen_numbers
from bodies import (
    CSV_HEADER,
    FIRST,
    MAX_BODY,
    NO_WORKS,
    SENDER,
    changed,
    get,
    isrc,
    put_file,
    put_named,
    put_pool,
    put_return,
    state_end,
    works_file,
)
from lines import parties_and_recordings, returns_of
from program import Server, answer, applied, replayed, told, trial


def key(number: int) -> str:
    """The key of a sender."""
    return "PB%09d" % number


def file_of(sender: str, body: bytes = NO_WORKS) -> bytes:
    """A file that names another sender."""
    return changed(body, 1, 4, sender.encode())


def last_of(answers: bytes) -> bytes:
    """The body of the last answer."""
    return answers.rpartition(b"\r\n\r\n")[2]


def stream_of(program: pathlib.Path, folder: pathlib.Path, requests: list[bytes], restart: bytes) -> tuple[bytes, bytes]:
    """What is answered over a file, which is closed and opened again before the last requests."""
    with Server(program, folder, "office.db") as server:
        out = server.sent(b"".join(requests))
        told("a normal end", server.ended().status, 0)
    with Server(program, folder, "office.db", existing=True) as server:
        again = server.sent(restart)
        told("a normal end", server.ended().status, 0)
    return out, again


FRONT = get(f"/v1/senders/{SENDER}")


@trial
def a_gap_before_two_thousand_files(program: pathlib.Path, folder: pathlib.Path) -> None:
    """All that waited is applied with the file that fills the gap, and is found again."""
    waiting = [put_file(works_file(number, 1), number) for number in range(2, 2_002)]
    out, again = stream_of(program, folder, [*waiting, put_file(works_file(1, 1), 1), FRONT], FRONT)
    told("the front", last_of(out), b'{"front":2001,"held":[]}')
    told("held before", out.count(b'{"front":0,"state":"held"}'), 2_000)
    told("opened again", last_of(again), last_of(out))


@trial
def a_gap_before_a_whole_year(program: pathlib.Path, folder: pathlib.Path) -> None:
    """The last 9,998 numbers of a year wait for its first, which waits for the year before."""
    waiting = [put_named(NO_WORKS, f"CW26{number:04d}EXA_900.V22") for number in range(1, 10_000)]
    out, again = stream_of(program, folder, [put_file(FIRST, 1), *waiting, state_end("plain", 1, 26), FRONT], FRONT)
    told("the front", last_of(out), b'{"front":"26-9999","held":[]}')
    told("opened again", last_of(again), last_of(out))


@trial
def each_year_ended(program: pathlib.Path, folder: pathlib.Path) -> None:
    """A sender that stated the end of each year goes on from the first to the last."""
    ends = [state_end("plain", 1, 0), *(state_end(f"{year:02d}", 1, year + 1) for year in range(99))]
    files = [put_named(NO_WORKS, f"CW{year:02d}0001EXA_900.V22") for year in range(100)]
    out, again = stream_of(program, folder, [*ends, *reversed(files), put_file(FIRST, 1), FRONT], FRONT)
    told("the front", last_of(out), b'{"front":"99-0001","held":[]}')
    told("opened again", last_of(again), last_of(out))


@trial
def an_order_of_the_greatest_size(program: pathlib.Path, folder: pathlib.Path) -> None:
    """A pool over 200 senders and 1,000 returns, of which each pays a recording of its own; one sender or return more is at fault."""
    senders = [key(number) for number in range(1, 201)]
    files = [put_file(works_file(number, 1, sender), 1, sender) for number, sender in enumerate(senders, 1)]
    returns = [put_return(CSV_HEADER + b"%s,1,100\n" % isrc(number % 200 + 1), number) for number in range(1, 1_001)]
    cut, paid = [[it, 1] for it in senders], [["RADIO1", number] for number in range(1, 1_001)]
    table = get("/v1/pools/7")
    out, again = stream_of(
        program,
        folder,
        [*files, *returns, put_pool(7, 1_000_000, [*cut, [key(201), 1]], paid), put_pool(7, 1_000_000, cut, [*paid, ["RADIO2", 1]])]
        + [put_pool(7, 1_000_000, cut, paid), table],
        table,
    )
    told("one more", out.count(b'{"error":"order","fault":3}'), 2)
    told("closed", out.count(b'{"pool":7,"state":"closed"}'), 1)
    lines = last_of(out).splitlines()
    told("its lines", (lines[0], len(lines)), (b"isrc,account,units", 601))
    told("its units", sum(int(it.rpartition(b",")[2]) for it in lines[1:]), 1_000_000)
    told("opened again", last_of(again), last_of(out))


@trial
def the_longest_bodies(program: pathlib.Path, folder: pathlib.Path) -> None:
    """A transmission of 1,048,576 bytes and a return of 10,000 rows come over a connection, and are there when the file is opened again."""
    body = FIRST.ljust(MAX_BODY, b"\n")
    requests = [
        put_file(body, 1),
        put_return(CSV_HEADER + 10_000 * b"ATABC2600001,1,1\n", 1),
        put_pool(1, 1_000, [[SENDER, 1]], [["RADIO1", 1]]),
    ]
    asked = get(f"/v1/senders/{SENDER}/works/W1", "/v1/pools/1")
    out, again = stream_of(program, folder, [*requests, asked], put_file(body, 1) + asked)
    taken = applied(1) + answer(b"201 Created", b'{"state":"stored"}') + answer(b"201 Created", b'{"pool":1,"state":"closed"}')
    told("taken", out[: len(taken)], taken)
    table = b"isrc,account,units\nATABC2600001,I00000000199,500\nATABC2600001,I00000000295,500\nATABC2600001,UNCLAIMED,0\n"
    told("the pool", last_of(out), table)
    known = answer(b"200 OK", b'{"front":1,"state":"applied"}')
    told("opened again", again, known + out[len(taken) :])


def file_of_works(program: pathlib.Path, folder: pathlib.Path, numbers: list[bytes]) -> pathlib.Path:
    """An office's file with works of these numbers."""
    path, per = folder / f"{numbers[-1].decode()}.db", 1_000
    parts = [numbers[first : first + per] for first in range(0, len(numbers), per)]
    files = [put_file(works_file(1, len(part), number=lambda k: part[k - 1]), place) for place, part in enumerate(parts, 1)]
    with Server(program, folder, path.name) as server:
        told("applied", server.sent(b"".join(files)).count(b'"state":"applied"'), len(parts))
        told("a normal end", server.ended().status, 0)
    return path


@trial
def numbers_that_a_sender_chooses(program: pathlib.Path, folder: pathlib.Path) -> None:
    """65,000 work numbers that would begin at one group of a hashed table take a start no longer than others do, in one of ten pairs of
    starts: other work of the machine can't make each first one slow."""
    count = 65_000
    chosen = file_of_works(program, folder, chosen_numbers(count, 13))
    others = file_of_works(program, folder, [b"W%011d" % (it * 8_191) for it in range(1, count + 1)])
    pairs = ((measured.audited(program, chosen)[0], measured.audited(program, others)[0]) for _ in range(10))
    told("as soon as others", any(first <= 1.3 * second for first, second in pairs), True)


def memory_of_a_closing(program: pathlib.Path, folder: pathlib.Path, recordings: int) -> float:
    """The most memory, in MB, of an office in a file that closes a pool over one work with so many recordings and 8,000 parties."""
    asked = (
        put_file(parties_and_recordings(recordings, 8_000)),
        put_return(returns_of(recordings)),
        put_pool(1, 10**12, [[SENDER, 1]], [["RADIO1", 1]]),
    )
    with Server(program, folder, f"{recordings}.db", connections=2) as server:
        told("closed", server.sent(b"".join(asked)).count(b"201 Created"), 3)
        return measured.peak_memory(server.process.pid)


@trial
def a_pool_of_many_credits(program: pathlib.Path, folder: pathlib.Path) -> None:
    """Closing a pool of 480,000 credits takes little more memory than one of 160,000 does."""
    few, many = memory_of_a_closing(program, folder, 20), memory_of_a_closing(program, folder, 60)
    told("little more", many < few + 10, True)


# Small rows: a name, the requests, and the bodies of the answers wanted.
def verdict_of(body: bytes) -> bytes:
    return put_file(body, 1) + get(f"/v1/senders/{SENDER}/verdicts/1")


ISWC_WRONG = changed(FIRST, 3, 96, b"T0345246802")
SMALL = [
    ("a wrong ISWC", verdict_of(ISWC_WRONG), b'[{"fault":3}]'),
    ("a wrong ISWC and a blank title", verdict_of(changed(ISWC_WRONG, 3, 20, b" " * 60)), b'[{"fault":1}]'),
    ("a wrong ISWC and a blank work number", verdict_of(changed(ISWC_WRONG, 3, 82, b" " * 14)), b'[{"fault":2}]'),
]


@trial
def the_least_fault_is_told(program: pathlib.Path, folder: pathlib.Path) -> None:
    for row, requests, wanted in SMALL:
        told(row, last_of(replayed(program, folder, requests)), wanted)


@trial
def two_hundred_and_one_senders(program: pathlib.Path, folder: pathlib.Path) -> None:
    """Each has a front of its own, and its own file alone."""
    senders = [key(number) for number in range(1, 202)]
    files = b"".join(put_file(works_file(1, 1, it), 1, it) for it in senders)
    out = replayed(program, folder, files + b"".join(get(f"/v1/senders/{it}/works/W1") for it in senders))
    told("applied", out.count(applied(1)), 201)
    told("works", out.count(b'"number":"W1","ordinal":1,"revision":0'), 201)
