"""The one way in which trials/, bench/ and the tests of society-office start a program and ask it."""
import collections
import contextlib
import dataclasses
import http.client
import os
import pathlib
import socket
import subprocess
import sys
import threading
from collections.abc import Iterable, Sequence
from typing import IO, Any

ROOT = pathlib.Path(__file__).resolve().parent.parent
OFFICE = ["--society", "900", "--territory", "40", "--name", "EXAMPLE SOCIETY"]
# The most seconds that one run may take.
LIMIT = 60
LISTENING = b"listening\n"
# A program by its path, and a file.
Path = str | os.PathLike[str]


def office_of(society: int) -> list[str]:
    """The options of an office of another society."""
    return ["--society", str(society), *OFFICE[2:]]


def built_program() -> pathlib.Path | None:
    """The program that bin/society runs; none where it would have to be built."""
    asked = subprocess.run([ROOT / "bin/program"], stdout=subprocess.PIPE, text=True, check=False)
    return pathlib.Path(found) if (found := asked.stdout.strip()) else None


def program_at_hand() -> pathlib.Path:
    """The program that bin/society runs; where it would have to be built, release/society as it is, which a line then says."""
    if found := built_program():
        return found
    if not (ROOT / "release/society").exists():
        sys.exit("there is no program: `bin/society --help` builds one")
    print("no program is built of these sources: release/society is taken as it is", file=sys.stderr, flush=True)
    return ROOT / "release/society"


@dataclasses.dataclass
class Ended:
    """What a run wrote on standard output and on standard error, and its status."""

    out: bytes
    err: bytes
    status: int


def run(program: Path, words: Sequence[str | bytes], given: bytes = b"", folder: Path | None = None, **streams: Any) -> Ended:
    """A run with these arguments, which reads what is given; `streams` are other streams in place of those."""
    streams = {"input": given, **streams} if "stdin" not in streams else streams
    how: dict[str, Any] = {"stdout": subprocess.PIPE, "stderr": subprocess.PIPE, **streams}
    # Its own name is told in its help, whatever its file is called.
    ran = subprocess.run(["society", *words], executable=program, cwd=folder, timeout=LIMIT, check=False, **how)
    return Ended(ran.stdout, ran.stderr, ran.returncode)


def audit(program: Path, database: Path, folder: Path | None = None, office: Sequence[str] = OFFICE) -> Ended:
    """What an audit of a file says."""
    return run(program, ["audit", "--db", str(database), *office], folder=folder)


def begun_replay(program: Path, office: Sequence[str] = OFFICE) -> subprocess.Popen[bytes]:
    """`society replay`, which is asked over its standard input as long as that is open."""
    return subprocess.Popen([program, "replay", *office], stdin=subprocess.PIPE, stdout=subprocess.PIPE)


def pipes(process: subprocess.Popen[bytes]) -> tuple[IO[bytes], IO[bytes]]:
    """The standard input and the standard output of a process that has both."""
    assert process.stdin and process.stdout
    return process.stdin, process.stdout


def replay(program: Path, stream: bytes) -> bytes:
    """What `society replay` writes for a stream of requests."""
    return subprocess.run([program, "replay", *OFFICE], input=stream, stdout=subprocess.PIPE, check=True).stdout


def free_port() -> int:
    """A port of this machine that nobody listens on."""
    with socket.socket() as it:
        it.bind(("127.0.0.1", 0))
        return int(it.getsockname()[1])


def serve_words(database: Path, port: int, connections: int | None = 1, *others: str, office: Sequence[str] = OFFICE) -> list[str]:
    """The arguments of an office that serves a file; how many connections it serves stands among the others, where that is None."""
    count = [] if connections is None else ["--connections", str(connections)]
    return ["serve", "--db", str(database), "--port", str(port), *count, *others, *office]


def connected(port: int, seconds: float = LIMIT) -> socket.socket:
    """A connection to a port of this machine."""
    return socket.create_connection(("127.0.0.1", port), seconds)


def read_all(peer: socket.socket) -> bytes:
    """All that a peer gets until its connection ends."""
    return b"".join(iter(lambda: peer.recv(1 << 16), b""))


def sent(port: int, stream: bytes, seconds: float = LIMIT) -> bytes:
    """What is answered to the bytes of a connection that sends no more."""
    with connected(port, seconds) as peer:
        peer.sendall(stream)
        peer.shutdown(socket.SHUT_WR)
        return read_all(peer)


def asked_at(address: str | int, seconds: float = 600) -> http.client.HTTPConnection:
    """A connection of HTTP to a port of this machine, or to an address; it is made with the first request."""
    place = f"127.0.0.1:{address}" if isinstance(address, int) else address.removeprefix("http://")
    return http.client.HTTPConnection(place, timeout=seconds)


def ask(
    connection: http.client.HTTPConnection, method: str, path: str, body: bytes | None = None, headers: dict[str, str] | None = None
) -> tuple[int, bytes]:
    """The status and the body of the answer to a request over a kept connection."""
    connection.request(method, path, body=body, headers=headers or {})
    answer = connection.getresponse()
    return answer.status, answer.read()


def ask_once(
    address: str | int, method: str, path: str, body: bytes | None = None, headers: dict[str, str] | None = None, seconds: float = 600
) -> tuple[int, bytes]:
    """The same over a connection of its own."""
    with contextlib.closing(asked_at(address, seconds)) as it:
        return ask(it, method, path, body, headers)


class Server:
    """`society serve` over a database, on a port, else a free one; killed at the end of a `with`."""

    def __init__(
        self,
        program: Path,
        database: Path,
        connections: int | None = 1,
        *others: str,
        port: int | None = None,
        office: Sequence[str] = OFFICE,
        folder: Path | None = None,
        closed: str = "",
        errors: int | None = None,
        **limits: Any,
    ) -> None:
        """`closed` are standard streams that a shell closes first, as `1>&-`; `errors` is where standard error goes; `limits` go to the
        process."""
        self.port = port or free_port()
        words = serve_words(database, self.port, connections, *others, office=office)
        started: dict[str, Any] = {"args": ["society", *words], "executable": program}
        if closed:
            started = {"args": ["sh", "-c", f'exec "$0" "$@" {closed}', program, *words]}
        self.process: subprocess.Popen[bytes] = subprocess.Popen(
            **started, cwd=folder, stdin=subprocess.DEVNULL, stdout=subprocess.PIPE, stderr=errors, **limits
        )
        # (empty where it does not start, or can't print)
        self.first = self.out.readline()

    @property
    def out(self) -> IO[bytes]:
        """Its standard output, on which it prints a line for each connection."""
        assert self.process.stdout
        return self.process.stdout

    def drain(self) -> None:
        """Has its lines read and forgotten from now on: it waits once the pipe is full."""
        threading.Thread(target=collections.deque[bytes], args=(self.out, 0), daemon=True).start()

    def sent(self, stream: bytes) -> bytes:
        """What is answered to the bytes of a connection that sends no more."""
        return sent(self.port, stream)

    def connection(self, seconds: float = 600) -> http.client.HTTPConnection:
        return asked_at(self.port, seconds)

    def ended(self) -> Ended:
        """What is written until the program ends by itself."""
        out, err = self.process.communicate(timeout=LIMIT)
        return Ended(self.first + out, err or b"", self.process.returncode)

    def kill(self) -> None:
        """Kills the program where it has not ended."""
        self.process.kill()
        self.process.wait()

    def __enter__(self) -> "Server":
        return self

    def __exit__(self, *_: object) -> None:
        self.kill()
        for it in (self.process.stdout, self.process.stderr):
            if it:
                with contextlib.suppress(OSError, ValueError):
                    it.close()


def put_all(connection: http.client.HTTPConnection, requests: Iterable[tuple[str, bytes]], wanted: Sequence[int]) -> int:
    """Puts each body, whose answer has to have one of these statuses; gives the bytes of all bodies."""
    total = 0
    for path, body in requests:
        status, text = ask(connection, "PUT", path, body)
        assert status in wanted, (path, status, text)
        total += len(body)
    return total
