#!/usr/bin/python3
"""Changes bits of an office's file, one at a time, and looks whether each is found: in a file with page sums and in one without.

An office is filled and its file joined with its log, some 5 MB; out of it come a file with sums and one without. In each, bits are changed
at places by chance, and in the one with sums also every bit of the header. A file in which a bit was changed is audited. Where it is
found sound, the office is served and asked for all that it can be asked for, and sent again all that it was sent: every answer has to be
that of the file without a change. Printed is how many changes were refused as damaged, how many otherwise, how many left every answer as
it was, and how many did not. Status 1 where in the file with sums one changed an answer, or was refused otherwise, but for the first byte:
without it a file is no database (`society: database store`).
"""
import collections
import contextlib
import hashlib
import pathlib
import random
import socket
from collections.abc import Callable, Iterable, Iterator

import sys
import tempfile
import threading

import common
import bodies
import measured
from measured import Server
import served
from society_office.book import book_log, page_sums

SENDERS, FILES, WORKS, POOLS = 5, 16, 50, 5
HEADER_BITS = 100 * 8
DAMAGED, OTHERWISE, SAME, CHANGED = "refused as damaged", "refused otherwise", "every answer as it was", "AN ANSWER CHANGED"


def sender(k: int) -> str:
    return f"PB{k + 12:09d}"


def all_puts() -> Iterator[tuple[str, bytes]]:
    """What fills the office: files of several senders, returns, and pools over the whole lines."""
    for k in range(SENDERS):
        for n in range(FILES):
            yield f"/v1/senders/{sender(k)}/transmissions/{n + 1}", bodies.works_file((k * FILES + n) * WORKS, WORKS, sender(k))
    for n in range(1, POOLS + 1):
        yield f"/v1/returns/RADIO1/{n}", bodies.plays(n, 40, n * 100)
        yield f"/v1/pools/{n}", bodies.order_body(1_000_000, [[sender(k), FILES] for k in range(SENDERS)], [["RADIO1", n]])


def requests() -> bytes:
    """Every question that the office can be asked, and every put again, which a right file knows."""
    paths = []
    for k in range(SENDERS):
        where = f"/v1/senders/{sender(k)}"
        paths += [where, *(f"{where}/{it}/{n}" for it in ("verdicts", "acks") for n in range(1, FILES + 2))]
        paths += [f"{where}/works/W{n}" for n in range(k * FILES * WORKS, (k + 1) * FILES * WORKS)]
    paths += [f"/v1/pools/{n}" for n in range(1, POOLS + 2)]
    paths += [f"/v1/accounts/{it}" for it in ("I00000000199", "I00000000295", "UNCLAIMED")]
    return bodies.get(*paths) + b"".join(bodies.request("PUT", where, body) for where, body in all_puts())


def answers(server: Server, stream: bytes) -> str:
    """What is written to all requests on one connection, in short."""
    with served.connected(server.port) as it:

        def send() -> None:
            with contextlib.suppress(OSError):
                it.sendall(stream)
                it.shutdown(socket.SHUT_WR)

        sending = threading.Thread(target=send)
        sending.start()
        found = served.read_all(it)
        sending.join()
    return hashlib.sha256(found).hexdigest()


def asked(program: str, path: pathlib.Path, stream: bytes) -> str:
    """What the office of a file answers, which is gone then."""
    with Server(program, path) as server:
        return answers(server, stream)


def outcome(program: str, path: pathlib.Path, stream: bytes, right: str) -> str:
    """What becomes of a file."""
    ended = served.audit(program, path)
    if ended.status:
        return DAMAGED if ended.err == b"society: database damaged\n" else f"{OTHERWISE} ({ended.err.decode().strip()})"
    return SAME if asked(program, path, stream) == right else CHANGED


def made(program: str, folder: pathlib.Path) -> tuple[pathlib.Path, pathlib.Path]:
    """The file of the office with sums, and the one without."""
    office, one, summed, plain = (folder / f"{it}.db" for it in ("office", "one", "with sums", "without sums"))
    measured.filled(program, office, all_puts())
    book_log.join(office, office.with_name("office.db-wal"), one)
    page_sums.write_with_sums(one, summed)
    page_sums.copy_tables(one, plain)
    return summed, plain


def changed(content: bytes, place: int) -> bytearray:
    """Bytes of which a bit is another one."""
    found = bytearray(content)
    found[place // 8] ^= 1 << place % 8
    return found


def tried(
    program: str, source: pathlib.Path, stream: bytes, name: str, places: Callable[[int], Iterable[int]], folder: pathlib.Path
) -> bool:
    """Prints what became of each change; whether all were refused as damaged, or left every answer as it was."""
    content, path = source.read_bytes(), folder / "changed.db"
    path.write_bytes(content)
    right = asked(program, path, stream)
    counts, is_right = collections.Counter[str](), True
    for place in places(len(content) * 8):
        for it in folder.glob("changed.db*"):
            it.unlink()
        path.write_bytes(changed(content, place))
        found = outcome(program, path, stream, right)
        counts[found] += 1
        is_right &= found in (DAMAGED, SAME) or found.startswith(OTHERWISE) and place < 8
        if found == CHANGED:
            print(f"  {source.stem}: byte {place // 8:,}, bit {place % 8}: {found}", flush=True)
    print(
        f"{source.stem}, {name}, {len(content) / 1_000_000:.1f} MB: {', '.join(f'{n} {it}' for it, n in counts.most_common())}", flush=True
    )
    return is_right


def main() -> None:
    options = common.parser(__doc__)
    options.add_argument("--changes", type=int, default=200, help="changed bits of each file (default: 200)")
    options.add_argument("--seed", type=int, default=1, help="what the places come of (default: 1)")
    given = options.parse_args()
    stream = requests()

    def by_chance(bits: int) -> list[int]:
        return random.Random(given.seed).sample(range(bits), given.changes)

    with tempfile.TemporaryDirectory() as name:
        folder = pathlib.Path(name)
        summed, plain = made(given.program, folder)
        right = tried(given.program, summed, stream, "bits by chance", by_chance, folder)
        right &= tried(given.program, summed, stream, "bits of the header", lambda _: range(HEADER_BITS), folder)
        tried(given.program, plain, stream, "bits by chance", by_chance, folder)
    sys.exit(not right)


if __name__ == "__main__":
    main()
