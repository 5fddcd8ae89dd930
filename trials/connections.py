"""Connections over TCP that share one book: what each peer gets, and the lines that are printed."""
import pathlib
import socket

from bodies import FIRST, NO_WORKS, put_file
from served import Ended, connected, read_all
from program import BAD, Server, acknowledgement, answer, applied, told, trial

UNKNOWN = b'HTTP/1.1 404 Not Found\r\nContent-Type: application/json\r\nContent-Length: 19\r\nConnection: close\r\n\r\n{"error":"unknown"}'
ACK_FRONT = b"HDRSO000000900EXAMPLE SOCIETY".ljust(59) + b"01.102026010600000020260106".ljust(42) + b"\r\n"
NO_WORKS_ACK = ACK_FRONT + b"TRL000000000000000000002\r\n"
FIRST_ACK = (
    ACK_FRONT
    + b"GRHACK0000102.200000000000  \r\n"
    + b"ACK0000000000000000202601051015000000100000000NWRFIRST SONG".ljust(109)
    + b"W1                  0000000120000000000120260106AS\r\n"
    + b"GRT000010000000100000003\r\nTRL000010000000100000005\r\n"
)


def both(number: int, body: bytes, ack: bytes) -> tuple[bytes, bytes]:
    """A put and the request of its acknowledgement, and the answers to them."""
    return put_file(body, number) + acknowledgement(number), applied(number) + answer(b"200 OK", ack, "application/octet-stream")


# A name, what each peer sends and gets, in the order in which they come, and the requests of each connection that are counted.
# Connections share one book, and a body that breaks off ends its connection alone.
PEERS = [
    ("one_connection", [both(1, FIRST, FIRST_ACK)], [2]),
    (
        "connections_share_one_book",
        [(put_file(FIRST, 1), applied(1)), (b"", b""), both(2, NO_WORKS, NO_WORKS_ACK)],
        [1, 0, 2],
    ),
    ("a_connection_that_breaks_off", [(put_file(FIRST, 1)[:1_000], BAD), (put_file(FIRST, 1), applied(1))], [0, 1]),
]


def peer_of(server: Server, stream: bytes, sends_on: bool = False) -> socket.socket:
    """A connection that has sent these bytes, and sends no more but where it is told to."""
    peer = connected(server.port)
    peer.sendall(stream)
    if not sends_on:
        peer.shutdown(socket.SHUT_WR)
    return peer


def got_by(peer: socket.socket) -> bytes:
    """All that a peer gets until its connection ends."""
    with peer:
        return read_all(peer)


def printed(counts: list[int]) -> Ended:
    """What is printed where so many requests of each connection are served."""
    lines = (b"connection %d: %d requests\n" % it for it in enumerate(counts, 1))
    return Ended(b"listening\n" + b"".join(lines), b"", 0)


@trial
def peers_that_come_one_after_another(program: pathlib.Path, folder: pathlib.Path) -> None:
    for name, peers, counts in PEERS:
        with Server(program, folder, f"{name}.db", connections=len(peers)) as server:
            there = [peer_of(server, sent) for sent, _ in peers]
            told(name, [got_by(it) for it in there], [got for _, got in peers])
            told(name, server.ended(), printed(counts))


@trial
def a_peer_that_is_gone(program: pathlib.Path, folder: pathlib.Path) -> None:
    """A peer that is gone before it is answered."""
    with Server(program, folder, "office.db", connections=2) as server:
        peer_of(server, b"GET /v1", sends_on=True).close()
        told("the one after it", got_by(peer_of(server, put_file(FIRST, 1))), applied(1))
        ended = server.ended()
        told("the line of the first", ended.out.startswith(b"listening\nconnection 1: "), True)
        told("the line of the other", ended.out.endswith(b"connection 2: 1 requests\n"), True)


@trial
def a_peer_that_waits(program: pathlib.Path, folder: pathlib.Path) -> None:
    """A peer that waits for its answer with its sending half open gets it, and the end: nothing is read behind a request that is whole."""
    asked = acknowledgement(1)[:-2] + b"Connection: close\r\n\r\n"
    with Server(program, folder, "office.db") as server:
        told("the peer", got_by(peer_of(server, asked, sends_on=True)), UNKNOWN)
        told("its line", server.ended(), printed([1]))
