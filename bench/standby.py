#!/usr/bin/python3
"""Tries a standby: an office behind examples/nginx.conf, whose puts are mirrored to a second office, in random rounds and case by case.

In a round all that a random office is sent (office/tests/random_office.py: files, ends, returns, orders) is put by its users through the
proxy. Between nginx and the standby a tenth of the puts is lost and a tenth comes late; the standby is killed, stays away for a while, is
halted, and slow, in every eighth round away till all was put. In every third it stands behind a proxy of its own, with TLS and a password.
Whoever puts must notice nothing. Then society-backup copies the office, and `society-office resend` sends the copy, with the same trouble;
it is run again where it ended without an answer. Both files have to be the same then, row for row, and to answer the same. Besides: what
the mirror may never bring, a standby that hangs or answers nonsense, one of another society, a number with two contents, of which `compare`
has to say just that, and a year with void returns, a restore, and the standby in service (standby_year.py). With `--planted` the cases are
tried without their lines of the configuration, where each of them has to fail. Ends with status 1 where anything differs.
"""
import contextlib
import json
import pathlib
import random
import sys
import tempfile
import threading

import common
import random_office
from office_value import Office
from measured import Server
from standby_cases import CASES
from standby_machines import AT_ONCE, TAKEN, USERS, WRONG, Machines, User, check, copied, office_tool, user_of


def until_ended(machines: Machines, rng: random.Random, ended: threading.Event) -> None:
    """Trouble for the standby while something goes on."""
    while not ended.wait(0.05):
        machines.standby.trouble(rng)


def resent(machines: Machines, copy: pathlib.Path, kind: int, rng: random.Random, *words: str) -> tuple[int, int, list[str]]:
    """What resending says in the end, while the standby has its trouble, and how often it was run."""
    ended = threading.Event()
    troubles = threading.Thread(target=until_ended, args=(machines, rng, ended))
    troubles.start()
    try:
        for count in range(1, 6):
            status, lines = office_tool(machines, "resend", copy, "--to", *machines.access(kind), "--wait", "10", *words)
            if status == 0 or "no answer" not in " ".join(lines):
                break
    finally:
        ended.set()
        troubles.join()
    return count, status, lines


def put_all(machines: Machines, value: Office, kind: int, rng: random.Random, is_away: bool) -> float:
    """All is put through the proxy, with trouble for the standby where it is not away; the seconds of the slowest."""
    users, slowest = {it: User(machines.proxies[kind], it) for it in USERS}, 0.0
    for path, body in value.requests():
        if rng.random() < 0.3 and not is_away:
            threading.Thread(target=machines.standby.trouble, args=(random.Random(rng.random()),)).start()
        status, seconds = users[user_of(path)].put(path, body)
        check(f"PUT {path}", status in TAKEN)
        slowest = max(slowest, seconds)
    check("nobody waits", slowest < AT_ONCE)
    for it in users.values():
        it.connection.close()
    return slowest


def one_round(machines: Machines, number: int) -> None:
    """Puts, resends and compares."""
    rng, kind, value = random.Random(number), int(number % 3 == 2), random_office.office(5_000 + number)
    is_away, way, standby = number % 8 == 5, machines.ways[kind], machines.standby
    way.rng, way.lost, way.late = random.Random(number), 0.1, 0.1
    with tempfile.TemporaryDirectory(dir=machines.folder, ignore_cleanup_errors=True) as room:
        folder = pathlib.Path(room)
        standby.begin(folder / "standby.db")
        with contextlib.ExitStack() as stack:
            stack.callback(standby.end)
            stack.enter_context(Server(machines.program, folder / "office.db", machines.office_port))
            if is_away:
                standby.end()
            slowest = put_all(machines, value, kind, rng, is_away)
            if is_away:
                standby.begin(folder / "standby.db")
            copy = copied(machines, folder / "office.db", f"{folder.name}/copies")
            count, status, lines = resent(machines, copy, kind, rng, *(["--since-fronts"] if number % 2 else []))
            check(f"round {number}: resent", (status, " 0 refused" in " ".join(lines)), (0, True))
            way.lost = way.late = standby.delay = 0
            status, answers = office_tool(machines, "compare", copy, *machines.access(kind))
            check(f"round {number}: answers", (status, "give the same answers" in " ".join(answers)), (0, True))
            other = copied(machines, folder / "standby.db", f"{folder.name}/others")
            status, rows = office_tool(machines, "compare", copy, other)
            check(f"round {number}: rows", (status, "are the same" in " ".join(rows)), (0, True))
    behind = ("its own proxy" if kind else "no proxy") + (", away till all was put" if is_away else "")
    print(
        f"{number}: behind {behind}; put in {slowest:.2f} s at most; {standby.kills} kills, {standby.halts} halts; resent {count} times, "
        f"{lines[-1]}; {rows[-1].partition(' are ')[2] or rows}",
        flush=True,
    )


def try_planted(program: str, folder: pathlib.Path, word: str) -> None:
    """Each case with a word in its name fails where one of its lines is another."""
    for case, changes in CASES.items():
        for number, change in enumerate(changes if word in case.__name__ else []):
            home = folder / f"{case.__name__}-{number}"
            home.mkdir()
            machines = Machines(program, home, [change])
            try:
                check(f"{case.__name__} without {change[0].strip()}", case(machines), False)
            finally:
                machines.close()
            print(f"{case.__name__}: tried without {change[0].strip()!r}", flush=True)


def main() -> None:
    options = common.parser(__doc__)
    options.add_argument("--rounds", type=int, default=50)
    options.add_argument("--first", type=int, default=0, help="the number of the first round")
    options.add_argument("--case", default="", help="only the cases with this in their names")
    options.add_argument("--planted", action="store_true", help="try the cases without their lines")
    given = options.parse_args()
    with tempfile.TemporaryDirectory(ignore_cleanup_errors=True) as room:
        folder = pathlib.Path(room)
        folder.chmod(0o755)
        if given.planted:
            try_planted(given.program, folder, given.case)
        else:
            machines = Machines(given.program, folder)
            try:
                for case in (it for it in CASES if given.case in it.__name__):
                    check(str(case.__doc__), case(machines))
                    print(f"tried: {case.__doc__}", flush=True)
                for number in range(given.first, given.first + given.rounds):
                    one_round(machines, number)
            finally:
                machines.close()
    print(json.dumps({"wrong": WRONG}) if WRONG else f"all as wanted, {given.rounds} rounds" if not given.planted else "all as wanted")
    sys.exit(1 if WRONG else 0)


if __name__ == "__main__":
    main()
