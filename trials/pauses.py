"""A process that is stopped and goes on again: no peer is cut off, and nobody's answer is lost."""
import os
import pathlib
import signal
import socket
import time

from bodies import FIRST, SENDER, get, put_file, works_file
from served import Ended, connected, read_all
from program import Server, acknowledgement, answer, applied, told, trial

FRONT = get(f"/v1/senders/{SENDER}")
ASKED = put_file(FIRST, 1)
HEAD = ASKED.index(b"\r\n\r\n")


def paused(server: Server) -> None:
    """Stops the program as a backup does, and lets it go on."""
    time.sleep(0.3)
    os.kill(server.process.pid, signal.SIGSTOP)
    time.sleep(0.3)
    os.kill(server.process.pid, signal.SIGCONT)


def received(peer: socket.socket, wanted: bytes) -> bytes:
    """So many bytes as are wanted."""
    return peer.recv(len(wanted), socket.MSG_WAITALL)


# A name, and how much of a put has come where the program is stopped.
PLACES = [("before a byte", 0), ("in a head", 20), ("between head and body", HEAD + 4), ("in a body", HEAD + 400)]


@trial
def paused_while_a_request_comes(program: pathlib.Path, folder: pathlib.Path) -> None:
    for row, came in PLACES:
        with Server(program, folder, f"{came}.db") as server, connected(server.port) as peer:
            peer.sendall(ASKED[:came])
            paused(server)
            peer.sendall(ASKED[came:])
            told(row, received(peer, applied(1)), applied(1))
            paused(server)
            peer.sendall(FRONT)
            wanted = answer(b"200 OK", b'{"front":1,"held":[]}')
            told((row, "the next request"), received(peer, wanted), wanted)
            peer.close()
            told((row, "its line"), server.ended(), Ended(b"listening\nconnection 1: 2 requests\n", b"", 0))


@trial
def paused_while_it_waits_for_a_peer(program: pathlib.Path, folder: pathlib.Path) -> None:
    with Server(program, folder, "office.db") as server:
        paused(server)
        told("the peer that comes then", server.sent(ASKED), applied(1))


@trial
def paused_while_an_answer_is_written(program: pathlib.Path, folder: pathlib.Path) -> None:
    """The peer reads nothing until the program has gone on; then it gets each answer, whole."""
    asked = 200
    with Server(program, folder, "office.db", connections=2) as server:
        server.sent(put_file(works_file(1, 900), 1))
        with connected(server.port) as peer:
            peer.sendall(acknowledgement(1))
            first = peer.recv(1 << 20)
            while len(first) < (whole := first.index(b"\r\n\r\n") + 4 + int(first.split(b"Content-Length: ")[1].split(b"\r")[0])):
                first += peer.recv(1 << 20)
            told("one answer", len(first), whole)
            peer.sendall(asked * acknowledgement(1))
            for _ in range(3):
                paused(server)
            peer.shutdown(socket.SHUT_WR)
            told("all others", read_all(peer) == asked * first, True)
        told("its line", server.ended().out.splitlines()[2], b"connection 2: %d requests" % (asked + 1))
