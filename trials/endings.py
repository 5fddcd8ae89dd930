"""How connections and the program end: what a peer reads last, what is printed, and what is done where the system refuses."""
import contextlib
import errno
import pathlib
from typing import Any

import re
import resource
import select
import socket
import struct
import time

from bodies import FIRST, NO_WORKS, SENDER, get, put_file, put_pool, put_return, request, works_file
from served import LIMIT, OFFICE, Ended, asked_at, connected, read_all, serve_words
from leaving import CLOSED_AT_A_CUT, change, left_by
from program import BAD, Other, Server, acknowledgement, answer, answered, applied, audited, run, told, trial

# What is answered to a body that is too long, at the end of its connection.
TOO_LONG = (
    b'HTTP/1.1 413 Payload Too Large\r\nContent-Type: application/json\r\nContent-Length: 16\r\nConnection: close\r\n\r\n{"error":"size"}'
)
LONG_BODY = b"x" * (2 << 20)
PATH = f"/v1/senders/{SENDER}/transmissions/1"
# The most seconds between the end of a connection and the next one: two, with room for a machine that has other work.
PARTING = 20


def is_next_served(server: Server, row: object, number: int = 1) -> None:
    """Another peer is served, and soon."""
    begun = time.monotonic()
    told(row, server.sent(put_file(FIRST, number)), applied(number))
    told((row, "soon"), time.monotonic() - begun < PARTING, True)


@trial
def a_refusal_of_a_long_body_is_read(program: pathlib.Path, folder: pathlib.Path) -> None:
    """A client that sends 2 MiB before it reads gets its 413, each time."""
    with Server(program, folder, "office.db", connections=50) as server:
        for number in range(50):
            peer = asked_at(server.port, LIMIT)
            peer.request("PUT", PATH, LONG_BODY)
            response = peer.getresponse()
            told(number, (response.status, response.read()), (413, b'{"error":"size"}'))
            peer.close()
        told("its end", server.ended().status, 0)


# What a peer sends before it reads, and all that it reads then.
LAST_ANSWERS = [
    ("413", request("PUT", PATH, LONG_BODY), TOO_LONG),
    ("400", b"GARBAGE\r\n\r\n" + LONG_BODY, BAD),
    (
        "close",
        acknowledgement(1)[:-2] + b"Connection: close\r\n\r\n" + LONG_BODY,
        b'HTTP/1.1 404 Not Found\r\nContent-Type: application/json\r\nContent-Length: 19\r\nConnection: close\r\n\r\n{"error":"unknown"}',
    ),
]


@trial
def the_last_answer_is_read(program: pathlib.Path, folder: pathlib.Path) -> None:
    """By a peer that sends all that it has before it reads, and keeps its sending half open."""
    with Server(program, folder, "office.db", connections=len(LAST_ANSWERS)) as server:
        for row, sent, wanted in LAST_ANSWERS:
            with connected(server.port) as peer:
                peer.sendall(sent)
                told(row, read_all(peer), wanted)
        told("its end", server.ended().status, 0)


@trial
def a_peer_that_goes_on_sending(program: pathlib.Path, folder: pathlib.Path) -> None:
    """After its last answer it is let go, though it sends on or keeps its connection open; the next one is served soon."""
    with Server(program, folder, "office.db", connections=4) as server:
        with connected(server.port) as peer, contextlib.suppress(OSError):
            peer.sendall(b"GARBAGE\r\n\r\n")
            for _ in range(40):
                peer.sendall(LONG_BODY)
        is_next_served(server, "a peer that sent on")
        with connected(server.port) as peer:
            peer.sendall(b"GARBAGE\r\n\r\n")
            told("a peer that waits", read_all(peer), BAD)
            is_next_served(server, "the one after a peer that waits", 2)
        told("its end", server.ended().status, 0)


@trial
def a_peer_that_resets(program: pathlib.Path, folder: pathlib.Path) -> None:
    """Its connection breaks off, which its line tells; the next one is served."""
    with Server(program, folder, "office.db", connections=2) as server:
        peer = connected(server.port)
        peer.sendall(put_file(FIRST, 1)[:1_000])
        time.sleep(0.3)
        # Closed so, it sends a reset.
        peer.setsockopt(socket.SOL_SOCKET, socket.SO_LINGER, struct.pack("ii", 1, 0))
        peer.close()
        is_next_served(server, "the one after it")
        lines = b"listening\nconnection 1: read fault after 0 requests\nconnection 2: 1 requests\n"
        told("the lines", server.ended(), Ended(lines, b"", 0))


@trial
def a_peer_that_does_not_read(program: pathlib.Path, folder: pathlib.Path) -> None:
    """Where the system takes no more of what is written, its line tells so, with the requests before; the next one is served."""
    with Server(program, folder, "office.db", connections=2) as server:
        with connected(server.port) as peer:
            peer.sendall(put_file(works_file(1, 900), 1))
            told("its first answer", peer.recv(len(applied(1)), socket.MSG_WAITALL), applied(1))
            # (each acknowledgement is longer than this takes)
            peer.setsockopt(socket.SOL_SOCKET, socket.SO_RCVBUF, 4_096)
            peer.sendall(50 * acknowledgement(1))
            time.sleep(0.5)
            peer.setsockopt(socket.SOL_SOCKET, socket.SO_LINGER, struct.pack("ii", 1, 0))
        is_next_served(server, "the one after it", 2)
        told(
            "its line", re.sub(rb"after \d+", b"after N", server.ended().out.splitlines()[1]), b"connection 1: write fault after N requests"
        )


@trial
def slow_and_silent_peers(program: pathlib.Path, folder: pathlib.Path) -> None:
    """A slow peer is answered; a silent one is let go after half a minute, and the next one is served."""
    asked = put_file(FIRST, 1)
    with Server(program, folder, "office.db", connections=3) as server:
        with connected(server.port) as peer:
            peer.sendall(asked[:10])
            time.sleep(1.5)
            peer.sendall(asked[10:])
            peer.shutdown(socket.SHUT_WR)
            told("a slow peer", read_all(peer), applied(1))
        with connected(server.port) as silent:
            silent.sendall(b"GET /v1")
            begun = time.monotonic()
            told("the one after a silent peer", server.sent(get(f"/v1/senders/{SENDER}")), answer(b"200 OK", b'{"front":1,"held":[]}'))
            told("not before its time", time.monotonic() - begun > 28, True)
        told("its line", server.ended().out.splitlines()[2], b"connection 2: read fault after 0 requests")


@trial
def a_peer_that_uses_up_the_patience(program: pathlib.Path, folder: pathlib.Path) -> None:
    """One of a byte each half second is let go once it has kept the office waiting for so long in all, and the put behind it is
    answered."""
    asked = put_file(FIRST, 1)
    with Server(program, folder, "office.db", connections=2, patience=4) as server:
        with connected(server.port) as slow:
            begun = time.monotonic()
            with connected(server.port) as waiting:
                waiting.sendall(asked)
                waiting.shutdown(socket.SHUT_WR)
                for place in range(40):
                    with contextlib.suppress(OSError):
                        slow.sendall(asked[place : place + 1])
                    if select.select([waiting], [], [], 0.5)[0]:
                        break
                told("the put behind it", read_all(waiting), applied(1))
            told("after the patience", 3 < time.monotonic() - begun < 12, True)
        told("its line", server.ended().out.splitlines()[1], b"connection 1: read fault after 0 requests")


@trial
def a_slow_line_with_patience(program: pathlib.Path, folder: pathlib.Path) -> None:
    """A body that comes in pieces, with pauses that are shorter than the patience in all, is taken."""
    asked = put_file(FIRST, 1)
    with Server(program, folder, "office.db", patience=30) as server:
        with connected(server.port) as peer:
            for place in range(0, len(asked), len(asked) // 5 + 1):
                peer.sendall(asked[place : place + len(asked) // 5 + 1])
                time.sleep(0.3)
            peer.shutdown(socket.SHUT_WR)
            told("a slow line", read_all(peer), applied(1))


@trial
def this_machine_alone(program: pathlib.Path, folder: pathlib.Path) -> None:
    """Only 127.0.0.1 is listened at."""
    with Server(program, folder, "office.db") as server:
        with socket.socket() as peer:
            told("127.0.0.2", peer.connect_ex(("127.0.0.2", server.port)), errno.ECONNREFUSED)
        told("127.0.0.1", server.sent(b""), b"")


@trial
def a_port_that_is_taken_leaves_the_file(program: pathlib.Path, folder: pathlib.Path) -> None:
    """The database is opened before the port: its fault is told first, and it keeps its bytes where the port is taken."""
    left = left_by(program, folder, "left.db", CLOSED_AT_A_CUT)
    held = left.read_bytes()
    with socket.create_server(("127.0.0.1", 0)) as taken:
        port = taken.getsockname()[1]
        words = serve_words("left.db", port)
        told("a taken port", run(program, folder, words), Ended(b"", f"society: cannot listen at port {port}\n".encode(), 1))
        told("its bytes", left.read_bytes() == held, True)
        change(left, "DELETE FROM versions")
        told("a damaged file", run(program, folder, words), Ended(b"", b"society: database damaged\n", 1))


# Which standard streams a shell closes before it starts the program.
CLOSED = ["0<&-", "1>&-", "2>&-", "0<&- 1>&-", "1>&- 2>&-", "0<&- 1>&- 2>&-"]
ASKED = put_file(FIRST, 1) + get(f"/v1/senders/{SENDER}")
GOT = applied(1) + answer(b"200 OK", b'{"front":1,"held":[]}')


@trial
def without_standard_streams(program: pathlib.Path, folder: pathlib.Path) -> None:
    """A peer reads its answers and nothing else, and the file holds the book."""
    for number, closed in enumerate(CLOSED):
        with Server(program, folder, f"{number}.db", connections=2, closed=closed) as server:
            server.wait()
            told(closed, server.sent(ASKED), GOT)
            server.process.wait(LIMIT)
        told((closed, "audited"), audited(program, folder / f"{number}.db"), Ended(b"sound\n", b"", 0))


def limited(kind: int, limit: int, later: int = 0) -> dict[str, Any]:
    """What sets a limit of the system for the program, which may be raised later; where a file would grow past one it is told of that, and
    not ended."""
    return {"preexec_fn": lambda: resource.setrlimit(kind, (limit, max(limit, later))), "restore_signals": False}


# Descriptors with which connections are accepted.
ENOUGH = 64


def without_descriptors(program: pathlib.Path, folder: pathlib.Path, connections: int) -> Server:
    """A server that has none left for a connection."""
    for limit in range(4, 20):
        server = Server(program, folder, "office.db", connections=connections, **limited(resource.RLIMIT_NOFILE, limit, ENOUGH))
        if server.first:
            return server
        with server:
            told("its status", server.ended().status, 1)
    raise Other("it does not listen")


@trial
def a_connection_that_cannot_be_accepted(program: pathlib.Path, folder: pathlib.Path) -> None:
    """With no descriptor left for a connection it ends after half a minute; the file holds the book."""
    with without_descriptors(program, folder, 2) as server:
        begun = time.monotonic()
        told("no descriptor is left", server.ended(), Ended(b"listening\n", b"society: cannot accept\n", 1))
        told("not before its time", time.monotonic() - begun > 20, True)
    told("audited", audited(program, folder / "office.db"), Ended(b"sound\n", b"", 0))


@trial
def a_connection_that_is_accepted_later(program: pathlib.Path, folder: pathlib.Path) -> None:
    """Where a descriptor is there again soon the peer that has waited is served, and nobody is told of it."""
    with without_descriptors(program, folder, 1) as server:
        with connected(server.port) as peer:
            peer.sendall(put_file(FIRST, 1))
            peer.shutdown(socket.SHUT_WR)
            time.sleep(1)
            resource.prlimit(server.process.pid, resource.RLIMIT_NOFILE, (ENOUGH, ENOUGH))
            told("the peer", read_all(peer), applied(1))
        told("its end", server.ended(), Ended(b"listening\nconnection 1: 1 requests\n", b"", 0))


@trial
def a_log_that_cannot_be_copied(program: pathlib.Path, folder: pathlib.Path) -> None:
    """Where the file can't grow the log stays, which one line says; both hold the book."""
    with Server(program, folder, "office.db") as server:
        server.sent(put_file(works_file(1, 400), 1))
        told("a normal end", server.ended().status, 0)
    size = (folder / "office.db").stat().st_size
    with Server(program, folder, "office.db", **limited(resource.RLIMIT_FSIZE, size)) as server:
        told("one more", server.sent(put_file(works_file(401, 100), 2)), applied(2))
        told("its end", server.ended(), Ended(b"listening\nconnection 1: 1 requests\n", b"society: log not copied\n", 0))
    with Server(program, folder, "office.db", existing=True) as server:
        told("opened again", server.sent(get(f"/v1/senders/{SENDER}")), answer(b"200 OK", b'{"front":2,"held":[]}'))


# Puts of all kinds behind a first file: a file, a return, and a pool that is cut at the first file.
PUT_ALL = put_file(NO_WORKS, 2) + put_return(b"isrc,plays,seconds\nATABC2600001,10,200\n") + put_pool(7, 1_000, [[SENDER, 1]], [])
BUSY = answer(b"503 Service Unavailable", b'{"error":"busy"}')
NEW = applied(2) + answer(b"201 Created", b'{"state":"stored"}') + answer(b"201 Created", b'{"pool":7,"state":"closed"}')
AGAIN = (
    answer(b"200 OK", b'{"front":2,"state":"applied"}')
    + answer(b"200 OK", b'{"state":"stored"}')
    + answer(b"200 OK", b'{"pool":7,"state":"closed"}')
)


@trial
def puts_after_a_fault_of_the_disk(program: pathlib.Path, folder: pathlib.Path) -> None:
    """While its log can't be written, each put is told that the office is busy and is kept nowhere. The same process takes them once the
    disk works again, and after it is killed the file holds just what was accepted."""
    with Server(program, folder, "office.db", connections=5, **limited(resource.RLIMIT_FSIZE, ENOUGH << 20, ENOUGH << 20)) as server:
        told("before it", server.sent(put_file(FIRST, 1)), applied(1))
        resource.prlimit(server.process.pid, resource.RLIMIT_FSIZE, (4096, ENOUGH << 20))
        told("while the disk fails", server.sent(PUT_ALL), BUSY * 3)
        told("and again", server.sent(PUT_ALL), BUSY * 3)
        resource.prlimit(server.process.pid, resource.RLIMIT_FSIZE, (ENOUGH << 20, ENOUGH << 20))
        told("once it works", server.sent(PUT_ALL), NEW)
    told("after a kill", answered(program, folder, "office.db", PUT_ALL), AGAIN)
    told("audited", audited(program, folder / "office.db"), Ended(b"sound\n", b"", 0))


@trial
def memory_that_is_refused(program: pathlib.Path, folder: pathlib.Path) -> None:
    """An opening for which there is no memory says so, and leaves the file."""
    left = left_by(program, folder, "left.db", CLOSED_AT_A_CUT)
    held, words = left.read_bytes(), ["audit", "--db", "left.db", *OFFICE]
    seen = {run(program, folder, words, **limited(resource.RLIMIT_AS, it << 16)).err for it in range(40, 300, 8)}
    told("memory is refused", b"society: database memory\n" in seen, True)
    told("its bytes", left.read_bytes() == held, True)
