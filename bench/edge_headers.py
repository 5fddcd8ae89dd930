"""What examples/nginx.conf writes of requests, says beside the answer and hands on: cases of edge_limits.py."""
import concurrent.futures
import contextlib
import http.client
import os
import pathlib
import re
import socket
import threading
import time
from collections.abc import Iterator
from typing import Any

from edge_asking import FIRST_SENDER as OWN
from edge_asking import OFFICE, PATHS, asked, connected, head_of, status_of
from edge_asking import OTHER_SENDER as OTHER
from proxy import Proxy

# A line of the system's log on a request that was refused, and its status.
REFUSED = re.compile(rb'nginx: 127\.0\.0\.[0-9]+ - \S+ ".*" ([0-9]{3}) \S+ \S+$')
TYPES = {
    "/desk/index.html": "text/html",
    "/desk/desk.css": "text/css",
    "/desk/desk.js": "text/javascript",
    "/desk/faults.json": "application/json",
    "/site/index.html": "text/html",
    "/site/office.css": "text/css",
    "/site/balances.csv": "text/csv",
    "/site/some.pdf": "application/pdf",
    "/site/some.other": "application/octet-stream",
    "/statements/index.html": "text/html",
    "/statements/statement.csv": "text/csv",
}


# What is written of requests.
@contextlib.contextmanager
def system_log(proxy: Proxy) -> Iterator[list[bytes]]:
    """The lines that the system's log is told meanwhile; the list is full at the end."""
    lines: list[bytes] = []
    with socket.socket(socket.AF_UNIX, socket.SOCK_DGRAM) as listening:
        proxy.system_log.unlink(missing_ok=True)
        listening.bind(str(proxy.system_log))
        proxy.system_log.chmod(0o666)
        thread = threading.Thread(target=lambda: lines.extend(iter(lambda: listening.recv(1 << 16), b"end")))
        thread.start()
        try:
            yield lines
        finally:
            with socket.socket(socket.AF_UNIX, socket.SOCK_DGRAM) as last:
                last.sendto(b"end", str(proxy.system_log))
            thread.join()


def plainly(proxy: Proxy, text: bytes, source: str) -> int:
    """The status of what is sent without TLS."""
    with socket.create_connection(("127.0.0.1", proxy.port), timeout=20, source_address=(source, 0)) as peer:
        peer.sendall(text)
        return int(peer.recv(1 << 10).split()[1])


def refusals(proxy: Proxy, source: str) -> Iterator[int]:
    """The statuses of requests that are refused, each for a cause of its own."""
    long, crowd = "A" * 6_000, "127.0.0.30"
    yield from (asked(proxy, None, "GET", path, source=source)[0] for path in (PATHS[OWN], f"/{long}", "/v1", "/mirror"))
    yield asked(proxy, OWN, "GET", PATHS[OWN], source=source, password="guess")[0]
    yield from (asked(proxy, user, "GET", PATHS[OTHER], source=source)[0] for user in (OWN, long[:4_000], "two words"))
    yield asked(proxy, OFFICE, "GET", "/desk/none", source=source)[0]
    yield asked(proxy, OWN, "PUT", f"/v1/senders/{OWN}/transmissions/8", bytes(1_048_577), source=source)[0]
    yield asked(proxy, OWN, "NO METHOD", PATHS[OWN], source=source)[0]
    yield plainly(proxy, b"GET / HTTP/1.0\r\n\r\n", source)
    with concurrent.futures.ThreadPoolExecutor(60) as threads:
        found = list(threads.map(lambda _: status_of(proxy, OFFICE, crowd), range(60)))
    yield from (it for it in found if it != 200)


def refused_fill_no_disk(proxy: Proxy) -> bool:
    """What is refused leaves no line in a file, but a short one in the system's log; what is answered leaves a short one in access.log."""
    access, known = proxy.home / "access.log", b"127.0.0.31 - office ["
    before = len(access.read_bytes())
    with system_log(proxy) as told:
        statuses = list(refusals(proxy, "127.0.0.29"))
        status_of(proxy, OFFICE, "127.0.0.31")
        asked(proxy, OFFICE, "GET", "/v1/senders/" + "A" * 6_000, source="127.0.0.31")
        time.sleep(0.5)
    kept = access.read_bytes()[before:].splitlines()
    refused = [it for it in map(REFUSED.search, told) if it]
    is_told = sorted(int(it[1]) for it in refused) == sorted(statuses) and 503 in statuses
    is_kept = sum(it.startswith(known) for it in kept) == 2 and all(b'" 200 ' in it or it.startswith(known) for it in kept)
    is_short = all(len(it) < 400 for it in [*kept, *(it[0] for it in refused)])
    return is_told and is_kept and is_short and not (proxy.home / "error.log").read_bytes()


# What is said beside the answer, and what is handed on.
def answer_of(proxy: Proxy, user: str | None, path: str, **how: Any) -> http.client.HTTPResponse:
    """The answer's head, read to its end."""
    with connected(proxy.port, proxy, source="127.0.0.25") as peer:
        peer.sendall(head_of(user, "GET", path, **how))
        answer = http.client.HTTPResponse(peer)
        answer.begin()
        answer.read()
        return answer


def all_have(proxy: Proxy, name: str, wanted: str) -> bool:
    """Whether answers of every kind have a header: of the page, of the office, and what is refused."""
    asking = [(OFFICE, "/desk/", 200), (OFFICE, PATHS[OFFICE], 200), (OFFICE, "/none", 404), (OWN, "/desk/", 403), (None, "/desk/", 401)]
    found = [(answer_of(proxy, user, path), status) for user, path, status in asking]
    return all(answer.status == status and answer.headers.get(name) == wanted for answer, status in found)


def no_frame(proxy: Proxy) -> bool:
    """No other page may put one of these into a frame."""
    return all_have(proxy, "X-Frame-Options", "DENY")


def no_guessed_type(proxy: Proxy) -> bool:
    """A browser takes the type that is told."""
    return all_have(proxy, "X-Content-Type-Options", "nosniff")


def not_kept(proxy: Proxy) -> bool:
    """A browser keeps nothing."""
    return all_have(proxy, "Cache-Control", "no-store")


def no_version(proxy: Proxy) -> bool:
    """The server's version is not told."""
    return all_have(proxy, "Server", "nginx")


def handed_on(proxy: Proxy, seconds: float = 0) -> tuple[int, list[bytes]]:
    """The status of a request to the trial office, for which something else stands that answers after so many seconds, and what came
    there."""
    heads = []

    def office() -> None:
        with socket.create_server(("127.0.0.1", proxy.trial_office_port)) as listening:
            peer, _ = listening.accept()
            with peer:
                heads.append(peer.recv(1 << 16))
                time.sleep(seconds)
                peer.sendall(b"HTTP/1.1 200 OK\r\nContent-Length: 0\r\n\r\n")

    thread = threading.Thread(target=office, daemon=True)
    thread.start()
    time.sleep(0.3)
    status = asked(proxy, OFFICE, "GET", PATHS[OFFICE], port=proxy.trial_port)[0]
    thread.join(20)
    return status, heads


def no_password_handed_on(proxy: Proxy) -> bool:
    """The office gets the request without the password."""
    status, heads = handed_on(proxy)
    return status == 200 and len(heads) == 1 and b"authorization" not in heads[0].lower()


def long_answer(proxy: Proxy) -> bool:
    """An answer that takes long, as to a great pool or behind a backup, is waited for."""
    return handed_on(proxy, 11)[0] == 200


def reached_from_here_alone(proxy: Proxy) -> bool:
    """Another machine reaches it where `listen` is changed, and the port that hands puts on, which asks for no password, never."""
    own = {os.readlink(it) for it in pathlib.Path(f"/proc/{proxy.process.pid}/fd").iterdir()}
    rows = [it.split() for name in ("tcp", "tcp6") for it in pathlib.Path(f"/proc/net/{name}").read_text().splitlines()]
    return [it[1].split(":")[0] for it in rows if it[3] == "0A" and f"socket:[{it[9]}]" in own] == ["0100007F"] * 3


def mirror_is_no_page(proxy: Proxy) -> bool:
    """What hands puts on is asked for by nobody."""
    return asked(proxy, OFFICE, "GET", "/mirror", source="127.0.0.32")[0] == 404


def newest_tls(proxy: Proxy) -> bool:
    with connected(proxy.port, proxy) as peer:
        return peer.version() == "TLSv1.3"


def types(proxy: Proxy) -> bool:
    """Each kind of file is told as what it is, or a browser shows pages without their style."""
    own = {path: answer_of(proxy, OWN if path.startswith("/statements/") else OFFICE, path) for path in TYPES}
    return {path: it.headers.get("Content-Type") for path, it in own.items()} == TYPES and {it.status for it in own.values()} == {200}


def types_line(kind: str) -> str:
    return f"        {kind};\n"
