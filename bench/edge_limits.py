"""The limits of examples/nginx.conf, a case for each: what it is to hold, and the line of the file without which the case has to fail.

Each case asks from addresses of its own (127.0.0.2 and on), so that no limit by address meets two of them.
"""
import concurrent.futures
import contextlib
from collections.abc import Callable, Sequence

import os
import pathlib
import resource
import socket
import ssl

import time

from edge_asking import FIRST_SENDER as OWN
from edge_asking import OFFICE, PATHS, READER, asked, connected, head_of, status_of
from edge_asking import OTHER_SENDER as OTHER
from edge_headers import long_answer, mirror_is_no_page, newest_tls, no_frame, no_guessed_type, no_password_handed_on, no_version, not_kept
from edge_headers import reached_from_here_alone, refused_fill_no_disk, types, types_line
from proxy import Proxy

# Half-open connections for each processor here: a worker has room for 512, and 1,024 files, where nothing is said.
HALF_OPEN_EACH = 1_500
HALF_HELLO = b"\x16\x03\x01\x02\x00\x01"


def statuses_of(proxy: Proxy, source: str, users: Sequence[str] = (OWN, OTHER, OFFICE, READER)) -> tuple[set[int], float]:
    """The statuses of a request of each user, twice, and the seconds of the slowest."""
    found, slowest = set(), 0.0
    for user in [*users, *users]:
        begun = time.monotonic()
        found.add(asked(proxy, user, "GET", PATHS[user], source=source, timeout=20)[0])
        slowest = max(slowest, time.monotonic() - begun)
    return found, slowest


def is_served(proxy: Proxy, source: str) -> bool:
    found, slowest = statuses_of(proxy, source)
    return found == {200} and slowest < 2


# Silent and half-open connections.
def half_open(proxy: Proxy, kind: int, source: str) -> socket.socket:
    """A connection on which nothing, half a greeting of TLS, or half a head is sent."""
    if kind == 2:
        greeted = connected(proxy.port, proxy, source=source)
        greeted.sendall(b"GET /desk/ HTTP/1.1\r\nHost: local")
        return greeted
    peer = socket.create_connection(("127.0.0.1", proxy.port), timeout=20, source_address=(source, 0))
    if kind == 1:
        peer.sendall(HALF_HELLO)
    return peer


def three_hundred(proxy: Proxy) -> bool:
    """150 silent connections and 300 half-open ones: everybody else is served at once."""
    begun = time.monotonic()
    with contextlib.ExitStack() as stack:
        for number in range(450):
            stack.enter_context(half_open(proxy, number % 3, "127.0.0.2"))
        # (where nothing more is accepted this takes until the first ones are ended)
        holds = time.monotonic() - begun < 4 and is_served(proxy, "127.0.0.3")
    return holds


def thousands(proxy: Proxy) -> bool:
    """More half-open connections than nginx has room for by itself, and than a process may have files open by itself."""
    most = resource.getrlimit(resource.RLIMIT_NOFILE)[1]
    resource.setrlimit(resource.RLIMIT_NOFILE, (most, most))
    begun = time.monotonic()
    with contextlib.ExitStack() as stack:
        for _ in range(min(HALF_OPEN_EACH * (os.cpu_count() or 1), most - 500)):
            stack.enter_context(half_open(proxy, 1, "127.0.0.4"))
        # (as above)
        holds = time.monotonic() - begun < 4 and is_served(proxy, "127.0.0.5")
    return holds


def workers(proxy: Proxy) -> bool:
    """A worker for each processor."""
    names = pathlib.Path(f"/proc/{proxy.process.pid}/task/{proxy.process.pid}/children").read_text().split()
    return len(names) == len(os.sched_getaffinity(0))


def ends_within(peer: socket.socket, least: float, most: float) -> bool:
    """Whether the other side ends a connection between so many seconds from now."""
    begun = time.monotonic()
    peer.settimeout(most)
    with contextlib.suppress(ConnectionError, ssl.SSLError):
        try:
            while peer.recv(1 << 16):
                pass
        except TimeoutError:
            return False
    return least <= time.monotonic() - begun <= most


def half_head(proxy: Proxy) -> bool:
    """A silent client, and one that sends half a head, are ended after five seconds."""
    with concurrent.futures.ThreadPoolExecutor() as threads:
        peers = [half_open(proxy, kind, "127.0.0.6") for kind in range(3)]
        return all(threads.map(lambda it: ends_within(it, 3, 8), peers))


def half_body(proxy: Proxy) -> bool:
    """Half a body is ended after ten seconds."""
    with held(proxy, OWN, "127.0.0.7") as peer:
        return ends_within(peer, 8, 14)


def kept_alive(proxy: Proxy) -> bool:
    """A connection on which nothing more is asked is ended after ten seconds."""
    with connected(proxy.port, proxy, source="127.0.0.8") as peer:
        peer.sendall(head_of(OWN, "GET", PATHS[OWN], close=False))
        peer.recv(1 << 16)
        return ends_within(peer, 7, 14)


def not_read(proxy: Proxy) -> bool:
    """A long answer that nobody reads is given up after ten seconds."""
    with connected(proxy.port, proxy, buffer=1 << 12, source="127.0.0.9") as peer:
        peer.sendall(head_of(OFFICE, "GET", "/v1/pools/9"))
        length = len(peer.recv(1 << 10))
        time.sleep(13)
        with contextlib.suppress(OSError):
            while part := peer.recv(1 << 16):
                length += len(part)
    return length < len(proxy.long_pool)


# Limits by address and by user.
def held(proxy: Proxy, user: str, source: str, behind: str = "") -> ssl.SSLSocket:
    """A request of which half has come: it counts as a connection of its address and its user."""
    peer = connected(proxy.port, proxy, source=source)
    path = f"/v1/senders/{user}/transmissions/7" if user != OFFICE else "/v1/pools/77"
    peer.sendall(head_of(user, "PUT", path, length=100, behind=behind) + b"half")
    return peer


def eight_of_address(proxy: Proxy) -> bool:
    """A ninth connection of an address is refused, whoever the users are."""
    with contextlib.ExitStack() as stack:
        for user in [OWN] * 4 + [OTHER] * 4:
            stack.enter_context(held(proxy, user, "127.0.0.10"))
        time.sleep(0.3)
        found = status_of(proxy, OFFICE, "127.0.0.10"), status_of(proxy, OFFICE, "127.0.0.11")
    return found == (503, 200)


def eight_of_user(proxy: Proxy) -> bool:
    """A ninth connection of a user is refused, wherever it comes from."""
    with contextlib.ExitStack() as stack:
        for source in ["127.0.0.12"] * 4 + ["127.0.0.13"] * 4:
            stack.enter_context(held(proxy, OTHER, source))
        time.sleep(0.3)
        found = status_of(proxy, OTHER, "127.0.0.14"), status_of(proxy, OFFICE, "127.0.0.14")
    return found == (503, 200)


def eight_however_spelled(proxy: Proxy) -> bool:
    """So is one whose name and password are spelled otherwise: nginx passes over what stands behind the `=`."""
    with contextlib.ExitStack() as stack:
        for number in range(8):
            stack.enter_context(held(proxy, OTHER, f"127.0.0.{26 + number % 2}", behind=f"={number}" + "A" * 300 * (number % 2)))
        time.sleep(0.3)
        found = status_of(proxy, OTHER, "127.0.0.28"), status_of(proxy, OFFICE, "127.0.0.28")
    return found == (503, 200)


def guesses_of_user(proxy: Proxy) -> bool:
    """Who guesses a user's password takes no connection of the user's own."""
    with concurrent.futures.ThreadPoolExecutor(8) as threads:
        guesses = [threads.submit(status_of, proxy, OTHER, f"127.0.0.{15 + it % 2}", password="guess") for it in range(8)]
        time.sleep(0.5)
        found = status_of(proxy, OTHER, "127.0.0.17")
        return (found, {it.result() for it in guesses}) == (200, {401})


def seconds_of(proxy: Proxy, count: int, users: list[str], sources: list[str]) -> float:
    """How long so many requests take, over six connections, users and addresses in turn."""

    def ask(number: int) -> int:
        return status_of(proxy, users[number % len(users)], sources[number % len(sources)])

    begun = time.monotonic()
    with concurrent.futures.ThreadPoolExecutor(6) as threads:
        assert set(threads.map(ask, range(count))) == {200}
    return time.monotonic() - begun


def twenty_of_address(proxy: Proxy) -> bool:
    """An address is answered 20 times a second, whoever the users are."""
    return seconds_of(proxy, 60, [OWN, OTHER, OFFICE, READER], ["127.0.0.18"]) > 2.8


def twenty_of_user(proxy: Proxy) -> bool:
    """A user is answered 20 times a second, wherever it asks from."""
    return seconds_of(proxy, 60, [OWN], [f"127.0.0.{it}" for it in (19, 20, 21, 22)]) > 2.8


def four_guesses(proxy: Proxy) -> bool:
    """An address can try four passwords a second, and not more at once than it may have connections."""
    begun = time.monotonic()
    with concurrent.futures.ThreadPoolExecutor(8) as threads:
        found = set(threads.map(lambda _: status_of(proxy, OFFICE, "127.0.0.23", password="guess"), range(16)))
    return found == {401} and time.monotonic() - begun > 3.8


def long_body(proxy: Proxy) -> bool:
    """A byte more than the office takes is refused before it is sent."""
    path = f"/v1/senders/{OWN}/transmissions/2"
    with connected(proxy.port, proxy, source="127.0.0.24") as peer:
        peer.sendall(head_of(OWN, "PUT", path, length=1_048_577))
        return peer.recv(1 << 10).startswith(b"HTTP/1.1 413 ")


Case = Callable[[Proxy], bool]
# Each case, with the lines that it needs: one of them taken away (or put in another's place), it fails.
CASES: dict[Case, list[tuple[str, str]]] = {
    three_hundred: [("worker_connections 8192", "worker_connections 64")],
    thousands: [("    worker_connections 8192;\n", ""), ("worker_rlimit_nofile 16384;\n", "")],
    workers: [("worker_processes auto;\n", "")],
    half_head: [("        client_header_timeout 5s;\n", "")],
    half_body: [("        client_body_timeout 10s;\n", "")],
    kept_alive: [("        keepalive_timeout 10s;\n", "")],
    not_read: [("        send_timeout 10s;\n", "")],
    eight_of_address: [("        limit_conn peers 8;\n", "")],
    eight_of_user: [("        limit_conn peers_of_user 8;\n", "")],
    eight_however_spelled: [(r"(?<credentials>[^=\s]{1,180})[^=\s]", r"(?<credentials>\S+)")],
    guesses_of_user: [("limit_conn_zone $caller", "limit_conn_zone $remote_user")],
    twenty_of_address: [("        limit_req zone=requests burst=40;\n", "")],
    twenty_of_user: [("        limit_req zone=requests_of_user burst=40;\n", "")],
    four_guesses: [("    auth_delay 2s;\n", "")],
    refused_fill_no_disk: [
        (" short if=$is_let_through", " short"),
        ("error_log syslog:server=unix:/dev/log,nohostname,tag=nginx;\n", "error_log error.log;\n"),
        ("{0,200}", "*"),
        (r"(?<name>\S{1,40})", r"(?<name>\S+)"),
    ],
    long_body: [("client_max_body_size 1048576", "client_max_body_size 2m")],
    no_frame: [("        add_header X-Frame-Options DENY always;\n", "")],
    no_guessed_type: [("        add_header X-Content-Type-Options nosniff always;\n", "")],
    not_kept: [("        add_header Cache-Control no-store always;\n", ""), ("no-store always", "no-store")],
    no_version: [("        server_tokens off;\n", "")],
    no_password_handed_on: [('            proxy_set_header Authorization "";\n', "")],
    long_answer: [("proxy_read_timeout 60s;", f"proxy_read_timeout {it}s;") for it in (1, 10)],
    reached_from_here_alone: [(f"listen 127.0.0.1:{it}", f"listen {it}") for it in ("8443 ssl", "8444 ssl", "8445")],
    mirror_is_no_page: [("            internal;\n            if", "            if")],
    newest_tls: [("        ssl_protocols TLSv1.2 TLSv1.3;\n", "")],
    types: [
        (types_line(it), "") for it in ("text/html html", "text/css css", "text/csv csv", "text/javascript js", "application/json json")
    ]
    + [(types_line("application/pdf pdf"), ""), ("    default_type application/octet-stream;\n", "")],
}
# Those that wait for a time to pass: tried beside each other.
SLOW: set[Case] = {half_head, half_body, kept_alive, not_read, long_answer}


def tried(proxy: Proxy, cases: list[Case]) -> dict[str, bool]:
    """Which of these cases hold, by their names."""

    def holds(case: Case) -> bool:
        return case(proxy)

    slow = [it for it in cases if it in SLOW]
    with concurrent.futures.ThreadPoolExecutor(len(slow) or 1) as threads:
        found = dict(zip(slow, threads.map(holds, slow)))
    found |= {it: it(proxy) for it in cases if it not in SLOW}
    return {it.__name__: found[it] for it in cases}
