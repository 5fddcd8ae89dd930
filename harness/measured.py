"""Runs of the program that are measured: seconds of processor, and memory."""
import collections
import dataclasses
import os
import pathlib
import subprocess
import sys
import tempfile
import threading
import time
from collections.abc import Iterable, Iterator
from typing import IO

import served
from bodies import SENDER, STATUS, get, works_file
from served import OFFICE, Path


@dataclasses.dataclass
class Run:
    """A measured run of `society replay`."""

    processor: float  # seconds, user and system
    passed: float  # seconds
    peak: float  # memory in use at most, in MB
    written: int  # bytes of all answers
    statuses: dict[str, int]  # how many answers of each status


# A stream of requests, and how many of them, or of what it has, count.
Sized = tuple[bytes, int]
# The last request of each measured stream; the program then waits for more, so that its memory can be read.
LAST = get("/v1/senders/PB999999999")
LAST_ANSWER = b'{"front":0,"held":[]}'


def used_by(process: subprocess.Popen[bytes]) -> tuple[float, float]:
    """The processor seconds of a process and its peak memory in MB, once it has ended, as it has to, with status 0."""
    _, status, used = os.wait4(process.pid, 0)
    process.returncode = os.waitstatus_to_exitcode(status)
    assert process.returncode == 0, process.returncode
    return used.ru_utime + used.ru_stime, used.ru_maxrss / 1_000


def read_to(source: IO[bytes], end: bytes) -> bytearray:
    """What is read up to this end."""
    text = bytearray()
    while not text.endswith(end):
        part: bytes = source.read1(1 << 20)  # type: ignore[attr-defined]
        assert part, "the program ended"
        text += part
    return text


def measured(program: Path, stream: bytes) -> Run:
    """One run over a stream."""
    process = served.begun_replay(program)
    into, out = served.pipes(process)
    begun = time.monotonic()
    sender = threading.Thread(target=lambda: into.write(stream + LAST) and into.flush())
    sender.start()
    text = read_to(out, LAST_ANSWER)
    passed = time.monotonic() - begun
    sender.join()
    peak = peak_memory(process.pid)
    into.close()
    counts = collections.Counter(it.decode() for it in STATUS.findall(text))
    return Run(used_by(process)[0], passed, peak, len(text), dict(sorted(counts.items())))


def least_of(program: Path, stream: bytes, runs: int, limit: float = float("inf")) -> Run:
    """The run of the least processor seconds; no further run after one that took longer than the limit, in seconds."""
    least: Run = measured(program, stream)
    for _ in range(runs - 1):
        if least.processor > limit:
            break
        least = min(least, measured(program, stream), key=lambda it: it.processor)
    return least


def listed(statuses: dict[str, int]) -> str:
    return ", ".join(f"{count} x {status}" for status, count in statuses.items())


def peak_memory(pid: int) -> float:
    """The most memory that a process has had in use, in MB."""
    lines = pathlib.Path(f"/proc/{pid}/status").read_text().splitlines()
    return int(next(it for it in lines if it.startswith("VmHWM")).split()[1]) / 1_000


def processor_seconds(pid: int) -> float:
    """The seconds of processor, user and system, that a process has used."""
    fields = pathlib.Path(f"/proc/{pid}/stat").read_text().rpartition(")")[2].split()
    return (int(fields[11]) + int(fields[12])) / os.sysconf("SC_CLK_TCK")


class Server(served.Server):
    """`society serve` over a database file, on a port, else a free one, once it listens; killed at the end of a `with`."""

    def __init__(self, program: Path, database: Path, port: int | None = None) -> None:
        begun = time.monotonic()
        super().__init__(program, database, 1_000_000, port=port)
        if self.first != served.LISTENING:
            sys.exit(f"not started: {self.first!r}, status {self.process.wait()}")
        self.seconds, self.processor = time.monotonic() - begun, processor_seconds(self.process.pid)
        self.drain()

    def __enter__(self) -> "Server":
        return self


def files(count: int, works: int) -> Iterator[tuple[str, bytes]]:
    """Files of as many works each, with the path of each."""
    for n in range(count):
        yield f"/v1/senders/{SENDER}/transmissions/{n + 1}", works_file(n * works, works)


def filled(program: Path, path: Path, requests: Iterable[tuple[str, bytes]]) -> int:
    """Sends requests to a file's office; answers the bytes of their bodies."""
    with Server(program, path) as server:
        return served.put_all(server.connection(), requests, [201])


def opened(program: Path, path: Path) -> tuple[float, float, float]:
    """Of an opening: its processor seconds, the seconds that passed, and the peak memory in MB."""
    with Server(program, path) as server:
        return server.processor, server.seconds, peak_memory(server.process.pid)


def audited(program: Path, path: Path) -> tuple[float, float]:
    """The processor seconds of an audit that finds a file sound, and its peak memory in MB."""
    process = subprocess.Popen([program, "audit", "--db", path, *OFFICE], stdout=subprocess.DEVNULL)
    return used_by(process)


def new_database() -> pathlib.Path:
    """A path of a file that is not there yet, in a folder of its own that stays."""
    return pathlib.Path(tempfile.mkdtemp()) / "office.db"
