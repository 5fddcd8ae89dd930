#!/usr/bin/python3
"""Tries what examples/nginx.conf lets through: who may ask for which path, however it is written, and a long answer to a slow reader.

nginx runs with the example, only its ports changed, before the program over a new database; where this is root, nginx runs as the
user www-data. Each path is asked for by nobody, a sender, a station, the user `reader` and the user `office`, with its target byte
for byte as it stands here: with `..`, `%2e%2e`, `//`, `%2F`, as an absolute target and in other disguises. Then a pool of 4 MB is
read slowly, and has to come whole while others are answered. Then each limit and each header is tried (edge_limits.py), among them
300 silent and half-open connections. With `--planted` these cases are tried without their lines, where each of them has to fail. Ends with
status 1 where anything differs.
"""
import concurrent.futures
import json
import os
import pathlib
import sys
import tempfile
import time
from collections.abc import Callable, Iterator, Sequence

import common
import served
import edge_limits
from bodies import CSV_HEADER, FIRST, MAX_BODY, changed, isrc, order_body
from measured import Server
from edge_asking import FIRST_SENDER as OWN
from edge_asking import OFFICE, OTHER_SENDER as OTHER, READER, asked, connected, head_of
from proxy import Proxy

STATION, NOBODY = "station-RADIO1", None
# A reporter whose code has the form of a sender's, and the other way round.
LIKE_A_SENDER = "station-RADIOSENDER"
USERS = [OWN, OTHER, OFFICE, READER, STATION, LIKE_A_SENDER]
HIDDEN = "Beta Verlag, whom no other publisher may see"
RETURN = CSV_HEADER + b"ATABC2600001,10,180\n"
WRONG: list[str] = []

# Who asks, how, for what, and the status. Those of the office itself are 200, 201, 404 for no such path, and 422.
ROWS = [
    (OWN, "GET", f"/v1/senders/{OWN}", 200),
    (OWN, "GET", f"/v1/senders/{OWN}/acks/1", 200),
    (OWN, "GET", f"/v1/senders/{OWN}/verdicts/1", 200),
    (OWN, "GET", f"/v1/senders/{OWN}/works/W1", 200),
    (OWN, "GET", f"/v1/senders/{OWN}/works/W%2F1", 404),
    (OWN, "PUT", f"/v1/senders/{OWN}/transmissions/2", 422),
    (OWN, "PUT", f"/v1/senders/{OWN}/files/CW260001EXA_900.V22", 422),
    (OWN, "PUT", f"/v1/senders/{OWN}/segments/plain", 422),
    (OWN, "GET", f"/v1/senders/{OWN[:-1]}", 403),
    (OWN, "GET", f"/v1/senders/{OWN}1", 403),
    (OWN, "GET", f"/v1/senders/%50B{OWN[2:]}", 403),
    (OWN, "GET", f"/v1/senders/{OTHER}", 403),
    (OWN, "GET", f"/v1/senders/{OTHER}/acks/1", 403),
    (OWN, "PUT", f"/v1/senders/{OTHER}/transmissions/1", 403),
    (OWN, "PUT", "/v1/returns/RADIO1/1", 403),
    (OWN, "PUT", f"/v1/returns/{OWN}/1", 403),
    (OWN, "GET", "/v1/pools/1", 403),
    (OWN, "PUT", "/v1/pools/2", 403),
    (OWN, "GET", "/v1/accounts/I00000000199", 403),
    (OWN, "GET", "/desk/", 403),
    (OWN, "GET", "/desk/senders.json", 403),
    (OWN, "GET", "/", 403),
    (STATION, "PUT", "/v1/returns/RADIO1/1", 201),
    (STATION, "PUT", "/v1/returns/RADIO1/1", 200),
    (STATION, "PUT", "/v1/returns/RADIO2/1", 403),
    (STATION, "PUT", "/v1/returns/RADIO1/1/../../RADIO2/1", 403),
    (STATION, "PUT", "/v1/returns/RADIO11/1", 403),
    (STATION, "GET", f"/v1/senders/{OWN}", 403),
    (STATION, "GET", "/v1/pools/1", 403),
    (STATION, "GET", "/desk/senders.json", 403),
    (LIKE_A_SENDER, "PUT", "/v1/returns/RADIOSENDER/1", 201),
    (LIKE_A_SENDER, "GET", "/v1/senders/RADIOSENDER", 403),
    (LIKE_A_SENDER, "PUT", "/v1/senders/RADIOSENDER/transmissions/1", 403),
    (READER, "GET", f"/v1/senders/{OWN}", 200),
    (READER, "GET", "/v1/accounts/I00000000199", 200),
    (READER, "GET", "/v1/pools/1", 404),
    (READER, "GET", "/desk/senders.json", 200),
    (READER, "GET", "/desk/index.html", 200),
    (READER, "PUT", f"/v1/senders/{OWN}/transmissions/2", 403),
    (READER, "PUT", "/v1/returns/RADIO1/2", 403),
    (READER, "PUT", "/v1/pools/1", 403),
    (READER, "POST", "/v1/pools/1", 403),
    (OFFICE, "GET", f"/v1/senders/{OTHER}", 200),
    (OFFICE, "PUT", "/v1/returns/RADIO2/1", 201),
    (OFFICE, "GET", "/v1/accounts/I00000000199", 200),
    (OFFICE, "PUT", "/v1/pools/1", 422),
    (OFFICE, "GET", "/desk/", 200),
    (OFFICE, "GET", "/desk/senders.json", 200),
    (OFFICE, "GET", "/desk/none", 404),
    (OFFICE, "GET", "/", 404),
    (NOBODY, "GET", f"/v1/senders/{OWN}", 401),
    (NOBODY, "PUT", f"/v1/senders/{OWN}/transmissions/2", 401),
    (NOBODY, "PUT", "/v1/returns/RADIO1/1", 401),
    (NOBODY, "GET", "/v1/pools/1", 401),
    (NOBODY, "GET", "/desk/senders.json", 401),
]


def disguises(path: str) -> Iterator[str]:
    """A path that is not one's own, written as if it were, or as if it were none."""
    own = f"/v1/senders/{OWN}"
    letter = f"/%{ord(path[1]):02x}{path[2:]}"
    yield from (own + "/.." * 3 + path, own + "/%2e%2e" * 3 + path, own + "/%2E%2E" * 3 + path, own + "/.%2e" * 3 + path)
    yield from (own + "/..%2F..%2F..%2f" + path[1:], f"{own}/works/" + "..%2F" * 4 + path[1:], own + "/works/../../../.." + path)
    yield from (own + "//../..//.." + path, own + "/./../../.." + path, f"{own}%2F..%2F..%2F..{path}", own + "\\..\\..\\.." + path)
    yield from ("/" + path, path.replace("/", "//"), "/" + path[1:].replace("/", "%2F"), letter, "/." + path, path + "/.", path + "//")
    yield from (f"{path}?{own}", f"{path}#{own}", f"{own}?/../../..{path}", f"{own}#/../../..{path}", f"{path};{own}")
    yield from (f"https://localhost{path}", f"http://127.0.0.1:8080{path}", f"https://localhost{own}/../../..{path}", f"//localhost{path}")
    yield from (f"{own} {path}", f"{path} {own}", f"{own}\t{path}", f"{own}/%0a/../../../..{path}", f"{own}/%20/../../../..{path}")
    yield from (
        path.upper(),
        path[1:],
        "*",
        f"{own}/..;/..;/..{path}",
        f"{own}/%252e%252e/%252e%252e/%252e%252e{path}",
        f"{own}/%00/../../../..{path}",
    )


def check(what: str, found: object, wanted: object) -> None:
    if found != wanted:
        WRONG.append(what)
        print(f"{what}: WRONG\n  found  {found}\n  wanted {wanted}", flush=True)


def try_rows(proxy: Proxy) -> None:
    for user, method, target, status in ROWS:
        body = RETURN if method == "PUT" and "/returns/" in target else b"none"
        check(f"{user} {method} {target}", asked(proxy, user, method, target, body)[0], status)
    check("a wrong password", asked(proxy, OFFICE, "GET", "/desk/senders.json", password="guess")[0], 401)
    check("a name in capitals", asked(proxy, "OFFICE", "GET", "/desk/senders.json")[0], 403)
    check("a body that is too long", asked(proxy, OWN, "PUT", f"/v1/senders/{OWN}/transmissions/2", bytes(MAX_BODY + 1))[0], 413)
    check("no trial office", asked(proxy, OWN, "GET", f"/v1/senders/{OWN}", port=proxy.trial_port)[0], 502)
    check("another's path at the trial office", asked(proxy, OWN, "GET", f"/v1/senders/{OTHER}", port=proxy.trial_port)[0], 403)
    print(f"{len(ROWS) + 5} requests by name", flush=True)


def disguised(wanted: dict[str, bytes]) -> Iterator[tuple[str | None, str, bytes]]:
    """Who asks for what in disguise, and the text that must not be in the answer."""
    for path, secret in wanted.items():
        assert secret, path
        yield from ((user, target, secret) for target in disguises(path) for user in (NOBODY, OWN, STATION))


def hidden_files(proxy: Proxy) -> Iterator[tuple[str | None, str, bytes]]:
    """The same of files of the proxy's own folder."""
    for name in "passwords", "office.key", "nginx.conf", "access.log":
        content = (proxy.home / name).read_bytes()[:60]
        for way in (
            "/desk/../",
            "/desk../",
            "/desk/%2e%2e/",
            "/desk/..%2F",
            "/desk//../",
            "/",
            "/desk/x/../../",
            f"/v1/senders/{OWN}/../../../",
        ):
            yield from ((user, way + name, content) for user in (NOBODY, OWN, STATION, READER, OFFICE))


def try_disguises(proxy: Proxy) -> None:
    """No user gets what only others may have; nobody gets the passwords or the key."""
    paths = "/desk/senders.json", f"/v1/senders/{OTHER}/works/W1", "/v1/accounts/I00000000199"
    asking = [*disguised({path: asked(proxy, OFFICE, "GET", path)[1] for path in paths}), *hidden_files(proxy)]

    def try_one(number: int) -> None:
        user, target, secret = asking[number]
        status, body = asked(proxy, user, "GET", target, source=f"127.0.1.{number % 6 + 1}")
        check(f"{user} GET {target}: {status}", secret in body or HIDDEN.encode() in body, False)

    # (each 401 comes after two seconds)
    with concurrent.futures.ThreadPoolExecutor(36) as threads:
        list(threads.map(try_one, range(len(asking))))
    print(f"{len(asking)} requests in disguise", flush=True)


def close_long_pool(server: Server) -> bytes:
    """Closes a pool of 160,000 recordings that nobody has, over 16 returns."""
    connection = server.connection()
    for number in range(1, 17):
        rows = b"".join(b"%s,1,%d\n" % (isrc(k), k % 300 + 1) for k in range(10_000 * number, 10_000 * (number + 1)))
        status, text = served.ask(connection, "PUT", f"/v1/returns/RADIO9/{number}", CSV_HEADER + rows)
        assert status == 201, text
    order = order_body(10**11, [], [["RADIO9", it] for it in range(1, 17)])
    status, text = served.ask(connection, "PUT", "/v1/pools/9", order)
    assert status == 201, text
    table = served.ask(connection, "GET", "/v1/pools/9")[1]
    connection.close()
    return table


def try_slow_reader(proxy: Proxy, table: bytes) -> None:
    with connected(proxy.port, proxy, buffer=1 << 14) as peer:
        peer.sendall(head_of(OFFICE, "GET", "/v1/pools/9"))
        begun, text = time.monotonic(), peer.recv(1 << 14)
        others: list[float] = []
        while part := peer.recv(1 << 14):
            text += part
            time.sleep(0.02)
            if len(text) // 500_000 > len(others):
                asked_at = time.monotonic()
                check("another is answered meanwhile", asked(proxy, OWN, "GET", f"/v1/senders/{OWN}")[0], 200)
                others.append(time.monotonic() - asked_at)
    body = text.partition(b"\r\n\r\n")[2]
    check("a long pool to a slow reader", (len(body), body == table), (len(table), True))
    print(
        f"a pool of {len(body):,} bytes read in {time.monotonic() - begun:.1f} s; {len(others)} others answered meanwhile, "
        f"the slowest after {max(others):.2f} s",
        flush=True,
    )


def try_limits(proxy: Proxy, cases: list[edge_limits.Case]) -> None:
    for name, holds in edge_limits.tried(proxy, cases).items():
        check(f"limit: {name}", holds, True)
    print(f"{len(cases)} limits and headers", flush=True)


def try_planted(cases: list[edge_limits.Case], started: Callable[[list[tuple[str, str]]], Proxy]) -> None:
    """Each case fails where one of its lines is taken away, or another is put in its place."""
    for case in cases:
        for change in edge_limits.CASES[case]:
            proxy = started([change])
            try:
                fails = not edge_limits.tried(proxy, [case])[case.__name__]
            except (AssertionError, OSError):
                fails = True
            finally:
                proxy.close()
            check(f"{case.__name__} without {change[0].strip()}", fails, True)
            print(f"{case.__name__} fails without: {change[0].strip()}" if fails else "", flush=True)


def add_works(server: Server) -> None:
    connection = server.connection()
    for sender in OWN, OTHER:
        status, text = served.ask(connection, "PUT", f"/v1/senders/{sender}/transmissions/1", changed(FIRST, 1, 4, sender.encode()))
        assert status == 201, text
    connection.close()


def main() -> None:
    options = common.parser(__doc__)
    options.add_argument("--planted", action="store_true", help="try the limits without their lines")
    common.add_cases(options, [it.__name__ for it in edge_limits.CASES])
    given = options.parse_args()
    account = "www-data" if os.geteuid() == 0 else None
    cases = [it for it in edge_limits.CASES if given.case in it.__name__]
    with tempfile.TemporaryDirectory(ignore_cleanup_errors=True) as folder, Server(given.program, f"{folder}/office.db") as server:
        add_works(server)
        table = close_long_pool(server)

        def started(changes: Sequence[tuple[str, str]] = ()) -> Proxy:
            home = pathlib.Path(tempfile.mkdtemp(dir=folder))
            pathlib.Path(folder).chmod(0o755)
            proxy = Proxy(home, server.port, USERS, [[OTHER, HIDDEN]], account, changes=changes)
            proxy.long_pool = table
            return proxy

        if given.planted:
            try_planted(cases, started)
        else:
            proxy = started()
            try:
                if not given.case:
                    try_rows(proxy)
                    try_disguises(proxy)
                    try_slow_reader(proxy, table)
                try_limits(proxy, cases)
            finally:
                proxy.close()
    print(json.dumps({"wrong": WRONG}) if WRONG else "all as wanted")
    sys.exit(1 if WRONG else 0)


if __name__ == "__main__":
    main()
