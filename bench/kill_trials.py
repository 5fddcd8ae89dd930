#!/usr/bin/python3
"""Kills `society serve --db` at random moments under load, starts it again and asks for what was answered.

One peer sends files of works (in order, after gaps, again), returns and orders that close pools, and keeps of each request the
status of its answer. After each start the last 200 requests that were answered are sent again, and 200 others: they must be answered
200, since they are there; after the last start all of them. The request that was cut off may be there or not. The database is a new
file in a folder of its own where none is named; it stays.
"""
import http.client
import random
import subprocess
import sys

import common
import measured
import served
from bodies import order_body, plays, works_file
from measured import Server

# Of each sender the numbers that wait to be sent; how many there are of each kind, and of the files of each sender.
Fronts = dict[str, list[int]]
Counts = dict[str, int]
ADDED = (201, 202)
SAMPLE = 200
SENDERS = [f"PB{k:09d}" for k in range(1, 6)]


def next_request(chance: random.Random, fronts: Fronts, counts: Counts) -> tuple[str, bytes]:
    """A path and a body that was not sent yet: mostly the next file of a sender, sometimes one after a gap, a return or an order."""
    kind = chance.random()
    if kind < 0.1:
        counts["return"] += 1
        return f"/v1/returns/RADIO1/{counts['return']}", plays(counts["return"], 20)
    if kind < 0.11 and counts["return"] > counts["paid"]:
        counts["paid"], counts["pool"] = counts["paid"] + 1, counts["pool"] + 1
        return f"/v1/pools/{counts['pool']}", order_body(100_000, [], [["RADIO1", counts["paid"]]])
    sender = chance.choice(SENDERS)
    waiting = fronts.setdefault(sender, [])
    if not waiting:
        first = counts[sender]
        waiting.extend(range(first + 1, first + 9))
        counts[sender] += 8
        if chance.random() < 0.3:
            waiting.reverse()
    number = waiting.pop(0)
    return f"/v1/senders/{sender}/transmissions/{number}", works_file(number, 1 + number % 3, sender)


def load(server: Server, chance: random.Random, fronts: Fronts, counts: Counts, answered: list[tuple[str, bytes]]) -> tuple[str, bytes]:
    """Sends requests until the server is gone; answers the one that was cut off."""
    connection = server.connection()
    while True:
        path, body = next_request(chance, fronts, counts)
        try:
            status, _ = served.ask(connection, "PUT", path, body)
        except (OSError, http.client.HTTPException):
            return path, body
        if status not in ADDED:
            sys.exit(f"{path}: {status}")
        answered.append((path, body))


def sample(chance: random.Random, answered: list[tuple[str, bytes]]) -> list[tuple[str, bytes]]:
    """The last requests and as many others."""
    return answered[-SAMPLE:] + chance.sample(answered[:-SAMPLE], min(SAMPLE, len(answered[:-SAMPLE])))


def checked(server: Server, requests: list[tuple[str, bytes]]) -> int:
    """How many requests are there: each is sent again and answered 200."""
    connection = server.connection()
    for path, body in requests:
        status, _ = served.ask(connection, "PUT", path, body)
        if status != 200:
            sys.exit(f"lost: {path} is answered {status}")
    connection.close()
    return len(requests)


def is_kept(server: Server, path: str, body: bytes) -> bool:
    """Sends the request that was cut off again; whether it is there. Else it is added now."""
    connection = server.connection()
    status, _ = served.ask(connection, "PUT", path, body)
    connection.close()
    if status not in (200, *ADDED):
        sys.exit(f"cut off: {path} is answered {status}")
    return status == 200


def main() -> None:
    options = common.parser(__doc__)
    options.add_argument("--kills", type=int, default=20, help="how often it is killed (default: 20)")
    options.add_argument("--seed", type=int, default=1, help="what the random moments and requests come of (default: 1)")
    options.add_argument("--longest", type=float, default=0.4, help="most seconds of load before a kill (default: 0.4)")
    options.add_argument("file", nargs="?", help="the database (default: a new one)")
    given = options.parse_args()
    path = given.file or measured.new_database()
    print(f"database: {path}")
    chance, answered, kept = random.Random(given.seed), list[tuple[str, bytes]](), 0
    fronts: Fronts = {}
    counts = {"return": 0, "paid": 0, "pool": 0} | {it: 0 for it in SENDERS}
    for kill in range(given.kills):
        with Server(given.program, path) as server:
            there = checked(server, sample(chance, answered))
            print(f"start {kill + 1}: {server.seconds:.2f} s, {there} of {len(answered)} answered requests asked for", flush=True)
            killing = f"import os, time; time.sleep({chance.uniform(0.005, given.longest)}); os.kill({server.process.pid}, 9)"
            killer = subprocess.Popen([sys.executable, "-c", killing])
            cut = load(server, chance, fronts, counts, answered)
            killer.wait()
        with Server(given.program, path) as server:
            kept += is_kept(server, *cut)
            answered.append(cut)
    with Server(given.program, path) as server:
        there = checked(server, answered)
        print(f"{given.kills} kills, {there} requests there, {kept} of those cut off were kept; last start {server.seconds:.2f} s")


if __name__ == "__main__":
    main()
