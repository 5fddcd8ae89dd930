#!/usr/bin/python3
"""Measures how the time of streams and of starts grows with their size: each at two sizes, with the exponent.

An exponent of 1 is time that grows as the size does, 2 as its square. Streams go through `society replay`, over tables in memory; of
each size the run with the least processor time (user and system) counts. A start is `society serve --db` over a file that was filled
before: reported are its processor seconds, its peak memory until it listens, and what the process then holds, beside what the one held
that filled the file. Works are those of examples/first.cwr, each under a number and a recording of its own.
"""
import math
import pathlib
import random
import tempfile
from collections.abc import Callable, Iterable, Iterator, Sequence

import common
import measured
import served
from bodies import REVISION, FIRST, SENDER, get, plays, put_file, put_pool, put_return, works_file
from measured import Server, Sized

PATH = f"/v1/senders/{SENDER}"


def sender(k: int) -> str:
    return f"PB{k:09d}"


def revisions_of_one_work(count: int) -> Sized:
    return put_file(FIRST) + b"".join(put_file(REVISION, n + 2) for n in range(count)), count


def in_turn(count: int, senders: int) -> Iterator[tuple[str, int, bytes]]:
    """The path and the body of files of one work that senders send in turn, their works in no order."""
    works = list(range(count))
    random.Random(7).shuffle(works)
    for n in range(count):
        name = sender(n % senders)
        yield name, n // senders + 1, works_file(works[n], 1, name)


def works_of_many_senders(count: int) -> Sized:
    return b"".join(put_file(body, number, name) for name, number, body in in_turn(count, 40)), count


def one_long_line(count: int) -> Sized:
    return b"".join(put_file(body, number, name) for name, number, body in in_turn(count, 1)), count


def held_ones_downwards(count: int) -> Sized:
    return b"".join(put_file(works_file(n, 1), n) for n in range(count, 0, -1)), count


def repeats(count: int) -> Sized:
    return put_file(FIRST) * count, count


def full_files(count: int) -> Sized:
    return b"".join(put_file(works_file(n * 850, 850), n + 1) for n in range(count)), count * 850


def returns(count: int) -> Sized:
    return b"".join(put_return(plays(n + 1, 100), n + 1) for n in range(count)), count


def pools(count: int) -> Sized:
    files = put_file(works_file(0, 20))
    played = b"".join(put_return(plays(n + 1, 20), n + 1) for n in range(count))
    orders = b"".join(put_pool(n + 1, 100_000, [[SENDER, 1]], [["RADIO1", n + 1]]) for n in range(count))
    return files + played + orders, count


def questions(count: int) -> Sized:
    paths = PATH, f"{PATH}/works/W0", f"{PATH}/verdicts/1", "/v1/accounts/I00000000199"
    return put_file(works_file(0, 1)) + get(*paths) * (count // 4), count


def tiny_requests(count: int) -> Sized:
    return get("/") * count, count


# Each stream with the greater of its sizes at a scale of 1.
STREAMS = {
    "revisions of one work": (revisions_of_one_work, 20_000),
    "works of 40 senders": (works_of_many_senders, 40_000),
    "one long line": (one_long_line, 40_000),
    "held ones downwards": (held_ones_downwards, 20_000),
    "repeats": (repeats, 200_000),
    "full files of 850 works": (full_files, 40),
    "returns of 100 rows": (returns, 10_000),
    "pools of one return": (pools, 2_000),
    "questions": (questions, 200_000),
    "tiny requests": (tiny_requests, 1_000_000),
}

STARTS: dict[str, tuple[Callable[[int], Iterator[tuple[str, int, bytes]]], int]] = {
    "start: files of one work of 100 senders": (lambda count: in_turn(count, 100), 20_000),
    "start: files of one work of one sender": (lambda count: in_turn(count, 1), 20_000),
}


def exponent(sizes: Sequence[int], seconds: Sequence[float]) -> str:
    """How the seconds grow with the sizes; none where the lesser is too short to tell, or as great as the other."""
    if seconds[0] < 0.02 or sizes[0] == sizes[1]:
        return "-"
    return f"{math.log(seconds[1] / seconds[0]) / math.log(sizes[1] / sizes[0]):.2f}"


def held_memory(pid: int) -> float:
    """The memory that a process holds, in MB."""
    lines = pathlib.Path(f"/proc/{pid}/status").read_text().splitlines()
    return int(next(it for it in lines if it.startswith("VmRSS")).split()[1]) / 1_000


def started(program: str, files: Iterable[tuple[str, int, bytes]]) -> tuple[float, float, float, float]:
    """Of a start over a file of these: its processor seconds, its peak, and the memory held before and after."""
    with tempfile.TemporaryDirectory() as folder:
        path = f"{folder}/office.db"
        with Server(program, path) as server:
            connection = server.connection()
            for name, number, body in files:
                status, text = served.ask(connection, "PUT", f"/v1/senders/{name}/transmissions/{number}", body)
                assert status == 201, (name, number, status, text)
            before = held_memory(server.process.pid)
        with Server(program, path) as server:
            pid = server.process.pid
            return server.processor, measured.peak_memory(pid), before, held_memory(pid)


def main() -> None:
    options = common.parser(__doc__)
    options.add_argument("--scale", type=float, default=0.1, help="size of all, 1 being some minutes (default: 0.1)")
    options.add_argument("--runs", type=int, default=2, help="runs of each size of a stream (default: 2)")
    common.add_cases(options, [*STREAMS, *STARTS])
    given = options.parse_args()
    print("| Stream | Size | Seconds | Peak MB | Size | Seconds | Peak MB | Exponent |\n|---|---|---|---|---|---|---|---|")
    for name, (stream_of, most) in STREAMS.items():
        if given.case not in name:
            continue
        runs, sizes = [], []
        for part in 3, 1:
            stream, count = stream_of(max(3, int(most * given.scale) // part))
            sizes.append(count)
            runs.append(measured.least_of(given.program, stream, given.runs, 20))
        cells = [f"{size:,} | {run.processor:.2f} | {run.peak:.1f}" for size, run in zip(sizes, runs)]
        print(f"| {name} | {' | '.join(cells)} | {exponent(sizes, [it.processor for it in runs])} |", flush=True)
    for name, (files_of, most) in STARTS.items():
        if given.case not in name:
            continue
        sizes = [max(3, int(most * given.scale) // part) for part in (3, 1)]
        starts = [started(given.program, files_of(size)) for size in sizes]
        cells = [
            f"{size:,} | {seconds:.2f} | {peak:.1f} (held {before:.1f}, then {after:.1f})"
            for size, (seconds, peak, before, after) in zip(sizes, starts)
        ]
        print(f"| {name} | {' | '.join(cells)} | {exponent(sizes, [it[0] for it in starts])} |", flush=True)


if __name__ == "__main__":
    main()
