"""What the trials share: their list, runs of the built program and what they have to write, and a server over a file of their folder."""
import contextlib
import os
import pathlib
import re
import subprocess
import sys
import time
from collections.abc import Callable, Sequence
from typing import Any

ROOT = pathlib.Path(__file__).resolve().parent.parent
# (what reads and changes an office's file stands with the tools of the office)
sys.path += [str(ROOT / "harness"), str(ROOT / "office")]

import served  # noqa: E402 (the folders come first)
from bodies import SENDER, get  # noqa: E402
from served import LIMIT, OFFICE, Ended, office_of  # noqa: E402

# The rows over bytes: requests, and the answers that an office to which nothing has come gives to them.
ROWS = ROOT / "crates/test_desk/data/rows"
ROW_NAMES = re.findall(r"^serve-row (\S+) -> ", ROWS.with_suffix(".cases").read_text(), re.M)
# How many bytes before the first that differs a message has.
CONTEXT = 100
# A trial is given a program, and an empty folder to run it in.
Trial = Callable[[pathlib.Path, pathlib.Path], None]
TRIALS: list[Trial] = []


class Other(Exception):
    """What is seen is not what is wanted."""


def trial(function: Trial) -> Trial:
    """Adds a trial."""
    TRIALS.append(function)
    return function


def told(row: object, seen: object, wanted: object) -> None:
    """What a row sees has to be what it wants; of bytes that are not the message has those from a little before the first that differs."""
    if seen != wanted:
        if isinstance(seen, bytes) and isinstance(wanted, bytes):
            start = max(0, len(os.path.commonprefix([seen, wanted])) - CONTEXT)
            row = f"{row}: behind {start} bytes as wanted" if start else row
            seen, wanted = seen[start:], wanted[start:]
        raise Other(f"{row}: there is {seen!r:.2000}, and wanted is {wanted!r:.2000}")


def run(
    program: pathlib.Path,
    folder: pathlib.Path,
    words: Sequence[str | bytes],
    given: bytes = get(f"/v1/senders/{SENDER}/acks/1"),
    **streams: Any,
) -> Ended:
    """A run in a folder with these arguments, which reads what is given; `streams` are other streams in place of those."""
    return served.run(program, words, given, folder, **streams)


def audited(program: pathlib.Path, path: pathlib.Path, society: int = 900) -> Ended:
    """What an audit of a file says, from within its folder."""
    return served.audit(program, path.name, path.parent, office_of(society))


def replayed(program: pathlib.Path, folder: pathlib.Path, stream: bytes) -> bytes:
    """What is written for a stream of requests; nothing of it may go wrong."""
    ended = run(program, folder, ["replay", *OFFICE], stream)
    told("the end of a stream", (ended.err, ended.status), (b"", 0))
    return ended.out


def run_row(program: pathlib.Path, folder: pathlib.Path, row: str) -> Ended:
    """A run with the arguments of a row, where they stand parted by `|`."""
    return run(program, folder, [it.encode() for it in row.split("|")] if row else [])


class Server(served.Server):
    """`society serve` over a database of the folder, on a free port."""

    def __init__(
        self,
        program: pathlib.Path,
        folder: pathlib.Path,
        path: str,
        connections: int = 1,
        existing: bool = False,
        society: int = 900,
        closed: str = "",
        patience: int | None = None,
        **limits: Any,
    ) -> None:
        """`closed` are standard streams that a shell closes first, as `1>&-`; `limits` go to the process."""
        others = ["--existing"] * existing + ([] if patience is None else ["--patience", str(patience)])
        how: dict[str, Any] = {"office": office_of(society), "folder": folder, "closed": closed, "errors": subprocess.PIPE, **limits}
        super().__init__(program, path, connections, *others, **how)

    def wait(self) -> None:
        """Waits until it listens, by a peer that sends nothing, which is a connection too."""
        for _ in range(20 * LIMIT):
            with contextlib.suppress(ConnectionRefusedError):
                return told("a peer without a request", self.sent(b""), b"")
            time.sleep(0.05)
        raise Other("it does not listen")

    def __enter__(self) -> "Server":
        return self


def answered(program: pathlib.Path, folder: pathlib.Path, path: str, stream: bytes) -> bytes:
    """What is answered to requests over a database, by a program that is killed then: the file's log stays beside it."""
    with Server(program, folder, path, connections=2) as server:
        return server.sent(stream)


# Requests and answers.
# What is answered to bytes that are no request.
BAD = b'HTTP/1.1 400 Bad Request\r\nContent-Type: application/json\r\nContent-Length: 19\r\nConnection: close\r\n\r\n{"error":"request"}'


def acknowledgement(number: int) -> bytes:
    return get(f"/v1/senders/PB000000012/acks/{number}")


def answer(status: bytes, body: bytes, kind: str = "application/json") -> bytes:
    return b"HTTP/1.1 %s\r\nContent-Type: %s\r\nContent-Length: %d\r\n\r\n%s" % (status, kind.encode(), len(body), body)


def applied(front: int) -> bytes:
    return answer(b"201 Created", b'{"front":%d,"state":"applied"}' % front)


# Offices in files.
DAY, DAY_ANSWERS = (ROOT / "examples/day.http").read_bytes(), (ROOT / "examples/day.answers").read_bytes()
EMPTY_DATABASE = Ended(b"", b"society: database empty\n", 1)
SERVED_ONE = Ended(b"listening\nconnection 1: 0 requests\n", b"", 0)
ANOTHER_OFFICE = Ended(b"", b"society: database of another office\n", 1)


def held_by(folder: pathlib.Path) -> dict[str, bytes]:
    """What each file of a folder holds."""
    return {it.name: it.read_bytes() for it in folder.iterdir()}


def served_one(program: pathlib.Path, folder: pathlib.Path, path: str, existing: bool, society: int) -> Ended:
    """What is written where one peer comes without a request."""
    server = Server(program, folder, path, existing=existing, society=society)
    if server.first:
        told("a peer without a request", server.sent(b""), b"")
    return server.ended()
