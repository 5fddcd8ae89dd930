#!/usr/bin/python3
"""Makes what a machine that stops leaves of an office's file and log, and holds that none of it is told as a damaged log.

The program's writes are traced (strace), to a young office and to one whose log was begun anew several times. At random moments
of the trace what was flushed stands; of each sector that was written since, the new bytes stand, or the old ones, or garbage; the file is
as long as before or as after. Each pair of files is audited: it is sound, as an office of the requests up to that moment or the one after.
"""
import pathlib
import random
import re
from collections.abc import Iterable, Iterator

import subprocess
import sys
import tempfile

import common
import bodies
import served
from bodies import works_file


# The name of a file, what is done to it, where, and with which bytes.
Call = tuple[str, str, int, bytes]
SECTOR = 512
CALL = re.compile(r"^(?:\d+ +)?(openat|pwrite64|ftruncate|fsync|fdatasync|close)\((.*)\) += (-?\d+)")
TEXT = re.compile(r'"((?:\\x[0-9a-f]{2})*)"')
# What an audit may say of such a pair: nothing was begun yet, or it is sound.
WELL = {b"sound\n", b"society: database empty\n"}


def put_all(program: str, folder: pathlib.Path, count: int, connections: int) -> Iterator[Call]:
    """Puts files of works, some over a connection of their own each, with the program traced."""
    trace = folder / "trace"
    traced = [
        "strace",
        "-f",
        "-xx",
        "-s",
        "4000000",
        "-e",
        "trace=openat,pwrite64,ftruncate,fsync,fdatasync,close",
        "-o",
        str(trace),
        program,
    ]
    for first in range(connections):
        port = served.free_port()
        words = served.serve_words("office.db", port)
        with subprocess.Popen([*traced, *words], cwd=folder, stdout=subprocess.PIPE) as process:
            assert process.stdout and process.stdout.readline()
            stream = b"".join(
                bodies.put_file(works_file(number, 1 + number % 5), number) for number in range(first * count + 1, (first + 1) * count + 1)
            )
            served.sent(port, stream)
            process.wait()
        yield from calls_of(trace)


def calls_of(trace: pathlib.Path) -> Iterator[Call]:
    """The calls on the office's two files, in order: the file's name, the call, and its numbers and bytes."""
    names: dict[int, str] = {}
    for line in trace.read_text().splitlines():
        found = CALL.match(line)
        if not found or int(found[3]) < 0:
            continue
        call, words, result = found[1], found[2], int(found[3])
        if call == "openat":
            names[result] = pathlib.Path(bytes_in(words).decode()).name
            continue
        handle = int(words.split(",")[0])
        name = names.get(handle, "")
        if call == "close":
            names.pop(handle, None)
        elif name in ("office.db", "office.db-wal"):
            if call == "pwrite64":
                yield name, "write", int(words.rsplit(",", 1)[1]), bytes_in(words)
            elif call == "ftruncate":
                yield name, "cut", int(words.rsplit(",", 1)[1]), b""
            else:
                yield name, "flush", 0, b""


def bytes_in(words: str) -> bytes:
    """The bytes that the words of a call have."""
    found = TEXT.search(words)
    assert found, words
    return bytes.fromhex(found[1].replace("\\x", ""))


class File:
    """A file as it surely is, and what was done to it since it was flushed."""

    def __init__(self) -> None:
        self.sure = b""
        self.since: list[tuple[str, int, bytes]] = []

    def do(self, call: str, place: int, content: bytes) -> None:
        """Takes a call down."""
        if call == "flush":
            self.sure, self.since = self.seen(), []
        else:
            self.since.append((call, place, content))

    def seen(self) -> bytes:
        """What a program that reads it sees."""
        return done_to(self.sure, self.since)

    def left(self, chance: random.Random) -> bytes:
        """What a machine that stops leaves of it."""
        kept = [it for it in self.since if it[0] == "write" or chance.random() < 0.5]
        held = bytearray(done_to(self.sure, kept))
        for call, place, content in kept:
            for start in range(place - place % SECTOR, place + len(content), SECTOR) if call == "write" else ():
                kind = chance.random()
                if kind < 0.3:
                    first, last = max(start, place), min(start + SECTOR, place + len(content), len(held))
                    old = self.sure[first:last]
                    held[first:last] = old + bytes(max(last - first, 0) - len(old))
                elif kind < 0.5:
                    first, last = max(start, place), min(start + SECTOR, place + len(content), len(held))
                    held[first:last] = chance.randbytes(max(last - first, 0))
        if kept and chance.random() < 0.3:
            del held[max(len(self.sure), chance.randrange(len(held) + 1)) :]
        return bytes(held)


def done_to(content: bytes, calls: Iterable[tuple[str, int, bytes]]) -> bytes:
    """Some bytes after calls."""
    held = bytearray(content)
    for call, place, written in calls:
        if call == "cut":
            del held[place:]
            held.extend(bytes(place - len(held)))
        else:
            held.extend(bytes(max(0, place - len(held))))
            held[place : place + len(written)] = written
    return bytes(held)


def audited(program: str, folder: pathlib.Path, files: dict[str, bytes]) -> bytes:
    """What an audit says of two files."""
    for name, content in files.items():
        (folder / name).write_bytes(content)
    ended = served.audit(program, "office.db", folder)
    return ended.out + ended.err


def main() -> None:
    """Runs the trial."""
    options = common.parser(__doc__)
    options.add_argument("--images", type=int, default=1_000, help="how many pairs of files are audited (default: 1,000)")
    options.add_argument("--seed", type=int, default=1, help="what the random moments and sectors come of (default: 1)")
    chosen = options.parse_args()
    chance = random.Random(chosen.seed)
    with tempfile.TemporaryDirectory() as room:
        folder = pathlib.Path(room)
        calls = [*put_all(chosen.program, folder, 12, 1), *put_all(chosen.program, folder, 40, 3)]
        told: dict[bytes, int] = {}
        for number in range(chosen.images):
            stop = chance.randrange(1, len(calls) + 1)
            files = {"office.db": File(), "office.db-wal": File()}
            for name, call, place, content in calls[:stop]:
                files[name].do(call, place, content)
            said = audited(chosen.program, folder, {name: it.left(chance) for name, it in files.items()})
            told[said] = told.get(said, 0) + 1
            if said not in WELL:
                print(f"image {number}, after call {stop} of {len(calls)}: {said!r}", flush=True)
        print(f"{chosen.images} images of {len(calls)} calls:", {said.decode().strip(): count for said, count in told.items()})
        sys.exit(0 if set(told) <= WELL else 1)


if __name__ == "__main__":
    main()
