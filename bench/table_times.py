#!/usr/bin/python3
"""Measures puts, questions and pools of ordinary shapes, many of each, through `society replay`.

Reported are, of the run with the least processor time (user and system), its processor seconds, microseconds of them a request, the
peak memory of the program in MB, the bytes in and out, and how many answers of each status came. Works are those of
examples/first.cwr, each under a number and a recording of its own.
"""
from collections.abc import Callable
import common
import measured
from measured import Sized
from bodies import FIRST, MAX_BODY, SENDER, get, plays, put_file, put_pool, put_return, request, work_lines, works_file

PATH = f"/v1/senders/{SENDER}"


def new_files(count: int) -> Sized:
    return b"".join(put_file(FIRST, n + 1) for n in range(count)), count


def one_file_again(count: int) -> Sized:
    return put_file(FIRST) * count, count


def files_of_works(works: int, count: int) -> Sized:
    return b"".join(put_file(works_file(n * works, works), n + 1) for n in range(count)), count


def full_files_acknowledged(count: int) -> Sized:
    works = (MAX_BODY - len(works_file(0, 0))) // len(work_lines(0, 0))
    pairs = [put_file(works_file(n * works, works), n + 1) + get(f"{PATH}/acks/{n + 1}") for n in range(count)]
    return b"".join(pairs), 2 * count


def held_ones_let_go(count: int) -> Sized:
    return b"".join(put_file(works_file(n, 1), n) for n in range(count + 1, 0, -1)), count + 1


def a_year_let_go(count: int) -> Sized:
    """Held files of a year, downwards, and the statement that leads to the year."""
    files = [request("PUT", f"{PATH}/files/CW26{n:04d}EXA_900.V22", works_file(n, 1)) for n in range(count, 0, -1)]
    return b"".join(files) + request("PUT", f"{PATH}/segments/plain", b'{"last":0,"next":26}'), count + 1


def questions(path: str, count: int) -> Sized:
    order = put_pool(1, 100_000, [[SENDER, 1]], [["RADIO1", 1]])
    return put_file(works_file(0, 1)) + put_return(plays(1, 1)) + order + get(path) * count, count + 3


def returns(count: int) -> Sized:
    return b"".join(put_return(plays(n + 1, 10_000), n + 1) for n in range(count)), count


def a_pool(senders: int, works: int, count: int, size: int) -> Sized:
    """A pool over senders with as many works each, and over returns of as many rows."""
    keys = [f"PB{k:09d}" for k in range(senders)]
    files = [put_file(works_file(k * works, works, it), 1, it) for k, it in enumerate(keys)]
    played = [put_return(plays(n + 1, size, n * size % (senders * works)), n + 1) for n in range(count)]
    order = put_pool(1, 10**12, [[it, 1] for it in keys], [["RADIO1", n + 1] for n in range(count)])
    return b"".join(files + played) + order + get("/v1/pools/1", "/v1/accounts/I00000000199"), senders + count + 3


CASES: dict[str, Callable[[], Sized]] = {
    "20,000 new files of 1,048 bytes": lambda: new_files(20_000),
    "100,000 new files of 1,048 bytes": lambda: new_files(100_000),
    "the same file 300,000 times": lambda: one_file_again(300_000),
    "5,000 files of 20 works": lambda: files_of_works(20, 5_000),
    "40 full files, each with its acknowledgement": lambda: full_files_acknowledged(40),
    "10,000 held files let go": lambda: held_ones_let_go(10_000),
    "9,999 held files of a year let go by a statement": lambda: a_year_let_go(9_999),
    "questions: a balance": lambda: questions("/v1/accounts/I00000000199", 300_000),
    "questions: a sender": lambda: questions(PATH, 300_000),
    "questions: a work": lambda: questions(f"{PATH}/works/W0", 300_000),
    "questions: verdicts": lambda: questions(f"{PATH}/verdicts/1", 300_000),
    "10 returns of 10,000 rows": lambda: returns(10),
    "a pool: 20 senders of 500 works, 100 returns of 10,000 rows": lambda: a_pool(20, 500, 100, 10_000),
    "a pool: 200 senders of 5 works, 1,000 returns of 10 rows": lambda: a_pool(200, 5, 1_000, 10),
}


def main() -> None:
    options = common.parser(__doc__)
    options.add_argument("--runs", type=int, default=3, help="runs of each case (default: 3)")
    common.add_cases(options, CASES)
    given = options.parse_args()
    print("| Case | Seconds | Microseconds a request | Peak MB | Bytes in | Bytes out | Answers |\n|---|---|---|---|---|---|---|")
    for name in (it for it in CASES if given.case in it):
        stream, count = CASES[name]()
        run = measured.least_of(given.program, stream, given.runs)
        times = f"{run.processor:.2f} | {run.processor * 1_000_000 / count:.1f} | {run.peak:.1f}"
        print(f"| {name} | {times} | {len(stream):,} | {run.written:,} | {measured.listed(run.statuses)} |", flush=True)


if __name__ == "__main__":
    main()
