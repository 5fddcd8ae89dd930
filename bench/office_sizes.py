#!/usr/bin/python3
"""Measures offices of many works in a file: the file's size, starts, puts, a pool over all works, and memory.

An office is filled over one kept connection: by small files of one work each, or by files of 800 works, of as many senders as are
needed. Reported are, at each step on the way, the works, the bytes of the database with its log, puts and works a second of processor
(user and system) since the step before, the seconds that passed, and the peak memory of the server; at the end a start over the file, a
return of 10,000 rows, a pool over all works and that return, a pool over returns in which each work is played, the reading of both
tables, and the start after that. On a disk each put waits for two flushes; in a folder in memory (`--folder`) it does not.
"""
import http.client
import pathlib
import tempfile
import time
from collections.abc import Callable

import common
import measured
import served
from bodies import order_body, plain_number, plays, works_file
from measured import Server

PER_FILE = 800
# Numbers of transmissions go to 999,999; a sender of these offices sends no more files than this.
FILES_PER_SENDER = 100_000
ROWS = 10_000
NEW_LINE = b"\n"


def ordered(k: int) -> bytes:
    """Work numbers that ascend as texts."""
    return b"W%08d" % k


def shuffled(k: int) -> bytes:
    """Work numbers in no order, each once."""
    return b"W%010d" % (k * 2_654_435_761 % 2**32)


# The works, how many of them a file has, and their numbers; plain ones ascend as numbers only: W10 comes before W9 as text.
CASES = {
    "100,000 works by files of 800, numbers in order": (100_000, PER_FILE, ordered),
    "100,000 works by files of 800, plain numbers": (100_000, PER_FILE, plain_number),
    "100,000 works by files of 800, numbers in no order": (100_000, PER_FILE, shuffled),
    "100,000 works by files of one, plain numbers": (100_000, 1, plain_number),
    "300,000 works by files of 800, plain numbers": (300_000, PER_FILE, plain_number),
    "300,000 works by files of 800, numbers in no order": (300_000, PER_FILE, shuffled),
    "300,000 works by files of one, numbers in order": (300_000, 1, ordered),
    "1,000,000 works by files of 800, numbers in order": (1_000_000, PER_FILE, ordered),
    "1,000,000 works by files of 800, plain numbers": (1_000_000, PER_FILE, plain_number),
}


def sender_of(file: int) -> tuple[str, int]:
    """The sender of the k-th file, from 0, and its number there."""
    return f"PB{file // FILES_PER_SENDER + 1:09d}", file % FILES_PER_SENDER + 1


def size_of(path: pathlib.Path) -> int:
    """The bytes of a database and of its log."""
    return sum(it.stat().st_size for it in path.parent.glob(path.name + "*"))


class Meter:
    """What a server used since it was last asked."""

    def __init__(self, server: Server) -> None:
        self.server, self.passed, self.processor = server, time.monotonic(), server.processor

    def since(self) -> tuple[float, float]:
        """Processor seconds and the seconds that passed."""
        passed, processor = time.monotonic(), measured.processor_seconds(self.server.process.pid)
        found = processor - self.processor, passed - self.passed
        self.passed, self.processor = passed, processor
        return found


def fill(server: Server, path: pathlib.Path, works: int, per_file: int, number_of: Callable[[int], bytes], steps: int) -> int:
    """Sends files until all works are there, and reports each step."""
    connection, meter, pid = server.connection(), Meter(server), server.process.pid
    files = -(-works // per_file)
    for file in range(files):
        sender, number = sender_of(file)
        count = min(per_file, works - file * per_file)
        where = f"/v1/senders/{sender}/transmissions/{number}"
        status, text = served.ask(connection, "PUT", where, works_file(file * per_file, count, sender, number_of))
        assert status == 201, (where, status, text)
        if (file + 1) * steps // files > file * steps // files:
            processor, passed = meter.since()
            sent, there = files / steps, min(works, (file + 1) * per_file)
            rates = (
                f"{sent / processor:,.0f} puts and {sent * per_file / processor:,.0f} works a second of processor, {passed:.0f} s passed"
            )
            print(f"  {there:,} works: {size_of(path) / 1e6:,.0f} MB, {rates}, memory {measured.peak_memory(pid):,.0f} MB", flush=True)
    connection.close()
    return files


def report_start(server: Server, path: pathlib.Path) -> None:
    memory = measured.peak_memory(server.process.pid)
    times = f"{server.processor:.1f} s of processor, {server.seconds:.1f} s passed"
    print(f"  a start: {times}, memory {memory:,.0f} MB, {size_of(path) / 1e6:,.0f} MB", flush=True)


def report(server: Server, meter: Meter, name: str) -> None:
    """Reports what the last requests used."""
    processor, passed = meter.since()
    memory = measured.peak_memory(server.process.pid)
    print(f"  {name}: {processor:.2f} s of processor, {passed:.2f} s passed, memory {memory:,.0f} MB", flush=True)


def taken(connection: http.client.HTTPConnection, where: str, body: bytes) -> None:
    status, text = served.ask(connection, "PUT", where, body)
    assert status == 201, (where, status, text)


def close_pools(server: Server, files: int, works: int, number_of: Callable[[int], bytes]) -> None:
    """Closes a pool over all works and a return of 10,000 rows, and one over returns in which each work is played, and reads their
    tables."""
    connection, meter = server.connection(), Meter(server)
    last_sender, last = sender_of(files - 1)
    senders = [sender_of(it * FILES_PER_SENDER)[0] for it in range(-(-files // FILES_PER_SENDER))]
    cut = [[it, last if it == last_sender else FILES_PER_SENDER] for it in senders]
    taken(connection, "/v1/returns/RADIO1/1", plays(1, ROWS, works - ROWS))
    report(server, meter, "a return of 10,000 rows")
    taken(connection, "/v1/pools/1", order_body(10**9, cut, [["RADIO1", 1]]))
    report(server, meter, "a pool over all works and that return")
    returns = works // ROWS
    for n in range(returns):
        taken(connection, f"/v1/returns/RADIO2/{n + 1}", plays(n, ROWS, n * ROWS))
    report(server, meter, f"{returns} returns of 10,000 rows, each work in one")
    taken(connection, "/v1/pools/2", order_body(10**12, cut, [["RADIO2", n + 1] for n in range(returns)]))
    report(server, meter, "a pool over all works and these returns")
    for pool in 1, 2:
        status, text = served.ask(connection, "GET", f"/v1/pools/{pool}")
        assert status == 200, status
        report(server, meter, f"reading the table of pool {pool}, {text.count(NEW_LINE) - 1:,} credits")
    for where in f"/v1/senders/{senders[0]}/works/{number_of(0).decode()}", "/v1/accounts/I00000000199":
        status, _ = served.ask(connection, "GET", where)
        assert status == 200, (where, status)
    report(server, meter, "a work and a balance")
    connection.close()


def measure(program: str, path: pathlib.Path, works: int, per_file: int, number_of: Callable[[int], bytes], steps: int) -> None:
    with Server(program, path) as server:
        files = fill(server, path, works, per_file, number_of, steps)
    with Server(program, path) as server:
        report_start(server, path)
        close_pools(server, files, works, number_of)
    with Server(program, path) as server:
        report_start(server, path)


def main() -> None:
    options = common.parser(__doc__)
    options.add_argument("--steps", type=int, default=5, help="how often the filling is reported (default: 5)")
    options.add_argument("--folder", type=pathlib.Path, help="where the databases are made (default: the system's folder for such files)")
    common.add_cases(options, CASES)
    given = options.parse_args()
    for name in (it for it in CASES if given.case in it):
        print(name, flush=True)
        with tempfile.TemporaryDirectory(dir=given.folder) as folder:
            measure(given.program, pathlib.Path(folder) / "office.db", *CASES[name], given.steps)


if __name__ == "__main__":
    main()
