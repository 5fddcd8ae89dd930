#!/usr/bin/python3
"""Measures society-office over a large office: seconds and peak memory of each command.

The program makes the office: works in files of 800 of some senders, each with a publisher and a writer, a recording and a title of its
own, and of every twentieth work half is nobody's; pools over as many returns, each with a row for every tenth work. `dues` is measured also
where some pools are amended, of which the program is asked for every credit. The status is 1 where a command fails.
"""
import argparse
import dataclasses
import json
import os
import pathlib
import subprocess
import sys
import tempfile
import time

OFFICE = pathlib.Path(__file__).resolve().parent.parent
ROOT = OFFICE.parent
sys.path.insert(0, str(OFFICE))

from society_office.decided import decisions  # noqa: E402 (the folder of the checkout comes first)
from society_office.formats import fields, plays  # noqa: E402 (the folder of the checkout comes first)
from society_office.book.copy import open_copy  # noqa: E402
from society_office.book.own_returns import ROWLESS, amends  # noqa: E402
from society_office.closings.amendments import order_over  # noqa: E402
from society_office.closings.pool_kinds import Book  # noqa: E402
from society_office.offices.program import Office, find_program, trial_office  # noqa: E402

FIRST_LINES = (ROOT / "examples/first.cwr").read_bytes().split(b"\r\n")
WORDS = ["--society", "900", "--territory", "40", "--name", "EXAMPLE SOCIETY"]
PER_FILE, WRITERS, PER_RECORDING, EVERY = 800, 5_000, 997, 10


def sender_of(k: int) -> str:
    return f"PB{k + 1:09d}"


def isrc(k: int) -> str:
    return f"ATABC{k:07d}"


def writer(k: int) -> str:
    return f"{1_000_000 + k % WRITERS:011d}"


def publisher(sender: int) -> str:
    return f"{500 + sender:011d}"


def put(line: bytearray, place: fields.Field, value: bytes) -> None:
    """Writes a field over."""
    line[place.first - 1 : place.last] = value.ljust(place.last - place.first + 1)


def work_lines(place: int, k: int, sender: int) -> bytes:
    """The lines of the k-th work, at a place of its file."""
    work, house, rows, person, share, *others, recording = (bytearray(it) for it in FIRST_LINES[2:-3])
    lines = [work, house, rows, person, share, *others, recording]
    for it in lines:
        put(it, fields.SEQUENCES[0], b"%08d" % place)
    put(work, fields.TITLE, b"SONG NUMBER %d" % k)
    put(work, fields.WORK_NUMBER, b"W%d" % k)
    put(house, fields.PUBLISHER.ipi, publisher(sender).encode())
    put(person, fields.WRITER.ipi, writer(k).encode())
    put(person, fields.WRITER.name, b"WRITER %d" % (k % WRITERS))
    if k % 200 < 10:
        put(share, fields.ROWS[b"SWT"].collects.pr, b"00000")
    put(recording, fields.ISRC, isrc(k).encode())
    return b"\r\n".join(lines) + b"\r\n"


def file_of(first: int, count: int, sender: int) -> bytes:
    """A file of works, from the first one on."""
    lines = b"".join(work_lines(place, first + place, sender) for place in range(count))
    records = lines.count(b"\n")
    ends = b"GRT00001%08d%08d\r\nTRL00001%08d%08d\r\n" % (count, records + 2, count, records + 4)
    return b"\r\n".join([b"HDR" + sender_of(sender).encode() + FIRST_LINES[0][14:], FIRST_LINES[1], lines]) + ends


def make(path: pathlib.Path, works: int, pools: int, senders: int) -> None:
    """Has the program write the file of an office."""
    with trial_office(find_program(), WORDS) as trial:
        cut = add_works(trial.office, works, senders)
        for pool in range(1, pools + 1):
            add_pool(trial.office, pool, works, cut)
        trial.end()
        with open_copy(trial.database) as copy:
            copy.save(path)


def sent(office: Office, path: str, body: bytes) -> None:
    """Sends a body, which has to be taken."""
    answer = office.ask("PUT", f"/v1/{path}", body)
    if answer.status != 201:
        sys.exit(f"{path}: status {answer.status}, {answer.body.decode(errors='replace')}")


def add_works(office: Office, works: int, senders: int) -> dict[str, int]:
    """Sends all works; answers how many files each sender has."""
    numbers: dict[str, int] = {}
    for file, first in enumerate(range(0, works, PER_FILE)):
        sender = file % senders
        key = sender_of(sender)
        numbers[key] = numbers.get(key, 0) + 1
        sent(office, f"senders/{key}/transmissions/{numbers[key]}", file_of(first, min(PER_FILE, works - first), sender))
    return numbers


def add_pool(office: Office, pool: int, works: int, cut: dict[str, int]) -> None:
    """Sends a return, and closes a pool over it."""
    played = range(pool % EVERY, works, EVERY)
    body = b"isrc,plays,seconds\n" + b"".join(b"%s,%d,%d\n" % (isrc(k).encode(), k % 1_000 + 1, k % 300 + 60) for k in played)
    reporter = f"RADIO{pool % 5}"
    sent(office, f"returns/{reporter}/{pool}", body)
    order = {"amount": PER_RECORDING * len(played), "cut": list(cut.items()), "returns": [[reporter, pool]]}
    sent(office, f"pools/{pool}", json.dumps(order).encode())


def amend(path: pathlib.Path, target: pathlib.Path, folder: pathlib.Path, count: int) -> None:
    """Writes a copy in which the first pools are amended to a unit more, and the folder of decisions with the list of these amendments."""
    with open_copy(path) as copy:
        book = Book(copy)
    should = {pool: dataclasses.replace(it, amount=it.amount + 1) for pool, it in list(book.orders.items())[:count]}
    numbers = dict(zip(should, range(book.next_number(), 0, -1)))
    with trial_office(find_program(), WORDS, path) as trial:
        for pool, number in numbers.items():
            sent(trial.office, f"returns/{amends(pool)}/{number}", ROWLESS.encode())
            sent(trial.office, f"pools/{number}", order_over(book, number, pool, should[pool]).json.encode())
        trial.end()
        with open_copy(trial.database) as copy:
            copy.save(target)
    decisions.begin(folder)
    decisions.add(folder, decisions.AMENDMENTS, [f"{numbers[it]} {it} {should[it].json}" for it in should], "amend", "to be measured")


def measured(*words: str) -> None:
    """Runs the command and reports its seconds and its peak memory."""
    begun = time.monotonic()
    command = [sys.executable, str(OFFICE / "society-office"), *words]
    with tempfile.TemporaryFile() as out, subprocess.Popen(command, stdout=out, stderr=subprocess.STDOUT) as process:
        # The usage of this one process, not of all that have ended.
        _, status, used = os.wait4(process.pid, 0)
        process.returncode = status
        passed = time.monotonic() - begun
        size = out.seek(0, 2)
        out.seek(max(0, size - 200))
        last = out.read().decode(errors="replace").strip().splitlines()[-1:]
    what = " ".join(it if len(it) < 40 else "COPY" for it in words)
    print(
        f"{what}: {passed:.1f} s passed, {used.ru_utime + used.ru_stime:.1f} s of processor, {used.ru_maxrss / 1_000:,.0f} MB; {last}",
        flush=True,
    )
    if status:
        sys.exit(f"{what}: status {os.waitstatus_to_exitcode(status)}")


def main() -> None:
    options = argparse.ArgumentParser(description=__doc__, formatter_class=argparse.RawDescriptionHelpFormatter)
    options.add_argument("--works", type=int, default=100_000)
    options.add_argument("--pools", type=int, default=100)
    options.add_argument("--senders", type=int, default=50, help="publishers, of as many works each (default: 50)")
    options.add_argument("--amended", type=int, default=10, help="pools that are amended (default: 10)")
    options.add_argument("--file", type=pathlib.Path, help="keep the office in this file; it is used again where it is there")
    options.add_argument("--all", action="store_true", help="also a rebuilt office, and the statements of everybody")
    given = options.parse_args()
    if given.works > EVERY * plays.MOST_ROWS:
        sys.exit(f"a return has {plays.MOST_ROWS:,} rows at most: measure {EVERY * plays.MOST_ROWS:,} works, or fewer")
    with tempfile.TemporaryDirectory() as folder:
        path = given.file or pathlib.Path(folder) / "large-office-of-a-hundred-thousand.db"
        if not path.exists():
            make(path, given.works, given.pools, given.senders)
        print(f"{given.works:,} works, {given.pools:,} pools: {os.path.getsize(path) / 1e6:,.0f} MB")
        copy, some = str(path.resolve()), min(3, given.senders - 1)
        decisions.begin(pathlib.Path(folder) / "decided")
        os.environ.setdefault(decisions.VARIABLE, f"{folder}/decided")
        measured("statement", copy, f"I{writer(17)}", "--format", "csv")
        measured("statement", copy, f"I{writer(17)}", "--format", "html", "--output", f"{folder}/writer.html")
        measured("statement", copy, f"I{publisher(some)}", "--format", "csv", "--output", f"{folder}/publisher.csv")
        for key in (sender_of(some), "UNCLAIMED"):
            measured("statement", copy, key)
            measured("statement", copy, key, "--format", "csv", "--output", f"{folder}/{key}.csv")
        measured("statement", copy, "UNCLAIMED", "--format", "html", "--output", f"{folder}/unclaimed.html")
        measured("explain", copy, f"I{writer(17)}", "--pool", "7" if given.pools >= 7 else "1", "--format", "csv")
        measured("balances", copy, "--output", f"{folder}/balances.csv")
        measured("parties", copy, "--output", f"{folder}/parties.csv")
        for words in (["song", "77"], ["song", "77"], ["song", "--most", "1000", "--format", "json"]):
            measured("works", copy, *words)
        measured("unclaimed", copy, "--pool", "1", "--format", "json")
        measured("unclaimed", copy)
        measured("propose", copy, "--amount", "100000", "--no-returns")
        measured("why", copy, sender_of(some))
        measured("site", copy, "--into", f"{folder}/site")
        measured("dues", copy)
        amend(path, then := pathlib.Path(folder) / "large-office-with-amendments.db", pathlib.Path(folder) / "amended", given.amended)
        measured("dues", f"{then}", "--next", f"{folder}/next", "--decisions", f"{folder}/amended")
        if given.all:
            measured("rebuild", copy)
            measured("compare", copy, copy)
            measured("statement", copy, "--all", "--into", f"{folder}/statements")


if __name__ == "__main__":
    main()
