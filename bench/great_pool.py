#!/usr/bin/python3
"""Closes the pool of the most credits that a sender's file of 1 MiB can bring about: one work with 200 recordings and 31,000 parties.

It is closed in an office's file, and the file is audited. Printed are the seconds and the most memory of both, and how long the file and
its log become. Then the same is done where no file may become as long, as on a full disk: the answer has to be 503, twice, then all as
before, and the file sound, with no such pool; where there is room again the pool is closed. Status 1 where one answer is another, or where
closing takes more than 300 MB.
"""
import os
import pathlib
import shlex

import sys
import tempfile
import threading
import time

import common
import bodies
import measured
from bodies import SENDER
from served import ask
from lines import parties_and_recordings, returns_of

RECORDINGS, PARTIES = 200, 31_000
AMOUNT, POOL = 10**12, "/v1/pools/1"
ORDER = bodies.order_body(AMOUNT, [[SENDER, 1]], [["RADIO1", 1]])
MOST_MEMORY = 300
# Where no file may be longer, in bytes: the log of the pool's rows alone is.
SMALL = 64 * 1_000_000


def on_a_small_disk(folder: str, program: str) -> pathlib.Path:
    """A program that is this one, but gets an error where it makes a file longer than SMALL, as on a full disk."""
    path = pathlib.Path(folder) / "limited"
    path.write_text(f"#!/bin/sh\ntrap '' XFSZ\nexec prlimit --fsize={SMALL} {shlex.quote(program)} \"$@\"\n", encoding="utf-8")
    path.chmod(0o700)
    return path


def wanted(row: str, seen: object, value: object) -> None:
    if seen != value:
        sys.exit(f"{row}: {seen!r}, and not {value!r}")


def size(path: pathlib.Path | str) -> int:
    return os.path.getsize(path) if os.path.exists(path) else 0


class Longest(threading.Thread):
    """How long a file becomes, looked at all the time until it is told to end."""

    def __init__(self, path: str) -> None:
        super().__init__(daemon=True)
        self.path, self.most, self.over = path, 0, threading.Event()

    def run(self) -> None:
        while not self.over.wait(0.05):
            self.most = max(self.most, size(self.path))


def closed(program: str | pathlib.Path, office: pathlib.Path, status: int) -> tuple[float, float, int]:
    """Asks an office to close the pool: the seconds, the most memory in MB, and how long the log became."""
    with measured.Server(program, office) as server:
        connection, log = server.connection(), Longest(f"{office}-wal")
        log.start()
        begun = time.monotonic()
        wanted("the pool", ask(connection, "PUT", POOL, ORDER)[0], status)
        seconds = time.monotonic() - begun
        log.over.set()
        log.join()
        return seconds, measured.peak_memory(server.process.pid), log.most


def audited(program: str, office: pathlib.Path) -> tuple[float, float]:
    """Audits a file, which has to be sound: the seconds and the most memory in MB."""
    begun = time.monotonic()
    peak = measured.audited(program, office)[1]
    return time.monotonic() - begun, peak


def main() -> None:
    program = common.parser(__doc__).parse_args().program
    with tempfile.TemporaryDirectory() as folder:
        office = pathlib.Path(folder) / "office.db"
        file = f"/v1/senders/{SENDER}/transmissions/1", parties_and_recordings(RECORDINGS, PARTIES)
        measured.filled(program, office, [file, ("/v1/returns/RADIO1/1", returns_of(RECORDINGS))])
        limited = on_a_small_disk(folder, program)
        for _ in range(2):
            closed(limited, office, 503)
        with measured.Server(limited, office) as server:
            wanted("the pool on a full disk", ask(server.connection(), "GET", POOL)[0], 404)
        audited(program, office)
        print(f"where no file may be longer than {SMALL // 1_000_000} MB: 503, and the book as before", flush=True)
        seconds, memory, log = closed(program, office, 201)
        print(f"closed in {seconds:.1f} s, {memory:.0f} MB; the log became {log / 1e6:.0f} MB long", flush=True)
        seconds, peak = audited(program, office)
        print(
            f"audited in {seconds:.1f} s, {peak:.0f} MB; file {size(office) / 1e6:.0f} MB, log {size(f'{office}-wal') / 1e6:.0f} MB",
            flush=True,
        )
    sys.exit(memory > MOST_MEMORY)


if __name__ == "__main__":
    main()
