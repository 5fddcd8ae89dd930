#!/usr/bin/python3
"""Kills `society-office close` at random moments, before an office that hangs, breaks off, or answers 404, 409, 503, a page or garbage.

In each round a return comes, or the office itself writes one, a copy is made, and an order over it is closed: a first call is killed, half
of them at any moment and half about the moment at which the order is put, while the office answers oddly; further ones may be killed, or
meet an odd answer; the last one meets none. Each call has to end with a plain line, and the last one with the pool closed. Then the office
has this one pool more, which credits what was rehearsed, the journal has it begun and closed, once, and of the killed ones no throw-away
office goes on. Ends with status 1 where anything differs.
"""
import contextlib
import http.server
import json
import os
import pathlib
import random
import signal
import sys
import tempfile
import threading
import time
from typing import NoReturn

import common
import served
from bodies import SENDER, order_body, plays, works_file
from measured import Server
import odd_office
from society_office.book import book_log
from society_office.closings.closing import state_of, unfinished
from society_office.commands.cli import main as society_office
from society_office.decided import decisions
from society_office.offices import book_files

WRONG: list[str] = []
MODES = [f"{mode}{after}" for mode in odd_office.MODES for after in ("", " after")] + ["forgets"]
# So many calls that may be killed or oddly answered stand before the last one of a round.
MOST_CALLS = 3
# Each so manieth order is one of the office itself.
OWN = 4
# Seconds about the put of an order within which a call is killed.
ABOUT = 0.05


def check(what: str, found: object, wanted: object = True) -> None:
    if found != wanted:
        WRONG.append(what)
        print(f"{what}: WRONG, {found!r} and not {wanted!r}", flush=True)


class Way(odd_office.Odd):
    """The way to the office, in a process of its own: how it answers, and whom it kills at an order, stands in a file."""

    file = pathlib.Path()

    def do_PUT(self) -> None:
        kind = type(self)
        told = json.loads(kind.file.read_text())
        kind.mode, kind.left = told["mode"], 1_000
        if told["kill"] and "/pools/" in self.path:
            timer = threading.Timer(told["after"], killed, [told["kill"]])
            timer.start()
            time.sleep(told["before"])
        with contextlib.suppress(OSError):
            super().do_PUT()

    def do_GET(self) -> None:
        type(self).mode = json.loads(type(self).file.read_text())["mode"]
        with contextlib.suppress(OSError):
            super().do_GET()


class Proxy(http.server.ThreadingHTTPServer):
    """Serves the way, whoever breaks off."""

    def handle_error(self, *_: object) -> None:
        pass


def killed(process: int) -> None:
    """Kills a process, if it is still there."""
    with contextlib.suppress(ProcessLookupError):
        os.kill(process, signal.SIGKILL)


class Trial:
    """An office, the way to it, and a folder of decisions, in a folder of its own."""

    def __init__(self, program: str, folder: pathlib.Path, chance: random.Random) -> None:
        self.program, self.folder, self.chance = program, folder, chance
        self.control, self.decided, self.typical = folder / "control", folder / "decided", 1.0
        self.database, self.copy, self.order = folder / "office.db", folder / "copy.db", folder / "order.json"
        decisions.begin(self.decided)
        self.tell("")
        self.server = Server(program, self.database)
        self.way, self.port = self.begin_way()
        self.put(f"/v1/senders/{SENDER}/transmissions/1", works_file(1, 3))
        # Pools that pay plays, and those of the office itself; and how calls have ended.
        self.closed, self.outcomes = [0, 0], dict[tuple[str, str], int]()

    def begin_way(self) -> tuple[int, int]:
        """Starts the process of the way; its id and its port."""
        port = served.free_port()
        child = os.fork()
        if child == 0:
            Way.file, Way.office, Way.seconds = self.control, f"http://127.0.0.1:{self.server.port}", 0.3
            Proxy(("127.0.0.1", port), Way).serve_forever()
        return child, port

    def tell(self, mode: str, kill: int = 0, before: float = 0.0, after: float = 0.0) -> None:
        """How the way answers from now on."""
        made = self.control.with_suffix(".new")
        made.write_text(json.dumps({"mode": mode, "kill": kill, "before": before, "after": after}))
        made.rename(self.control)

    def put(self, path: str, body: bytes) -> None:
        with contextlib.closing(self.server.connection()) as it:
            status, text = served.ask(it, "PUT", path, body)
        assert status == 201, (path, status, text)

    def get(self, path: str) -> tuple[int, bytes]:
        with contextlib.closing(self.server.connection()) as it:
            return served.ask(it, "GET", path)

    def write_order(self, number: int, paid: list[str | int]) -> None:
        self.order.write_bytes(order_body(1_000 + number, [[SENDER, 1]], [paid]))

    def begin(self, mode: str, about: bool) -> int:
        """Starts a call, in a process group of its own; its id. One that is to be killed about the put waits until the way knows it."""
        ready, go = os.pipe()
        child = os.fork()
        if child == 0:
            os.close(go)
            os.setsid()
            os.read(ready, 1)
            self.run()
        os.close(ready)
        self.tell(mode, child if about else 0, self.chance.uniform(0, ABOUT), self.chance.uniform(0, 2 * ABOUT))
        os.close(go)
        return child

    def run(self) -> NoReturn:
        """The call itself, in its own process; it does not return."""
        out = os.open(self.folder / "printed", os.O_WRONLY | os.O_CREAT | os.O_TRUNC)
        for it in (1, 2):
            os.dup2(out, it)
        os.dup2(os.open(os.devnull, os.O_RDONLY), 0)
        amount = json.loads(self.order.read_bytes())["amount"]
        words = ["close", self.order, "--copy", self.copy, "--office", f"http://127.0.0.1:{self.port}", "--program", self.program]
        words += ["--wait", "0", "--decisions", self.decided, "--amount", amount, "--why", "asked by the board"]
        status: int | str = 99
        try:
            sys.stdout, sys.stderr = open(1, "w", closefd=False), open(2, "w", closefd=False)
            society_office([str(it) for it in words], prog_name="society-office")
        except SystemExit as ended:
            status = ended.code or 0
        finally:
            for stream in (sys.stdout, sys.stderr):
                stream.flush()
            os._exit(status if isinstance(status, int) else 1)

    def call(self, mode: str = "", moment: float | None = None, about: bool = False) -> tuple[int, str]:
        """One call; its status, negative where it was killed, and what it printed. It leaves no throw-away office."""
        begun = time.monotonic()
        child = self.begin(mode, about)
        timer = threading.Timer(moment, killed, [child]) if moment is not None else None
        if timer:
            timer.start()
        _, status = os.waitpid(child, 0)
        if timer:
            timer.cancel()
            timer.join()
        status = os.waitstatus_to_exitcode(status)
        if status >= 0 and not mode:
            self.typical = time.monotonic() - begun
        self.end_group(child, status)
        return status, (self.folder / "printed").read_text() if status >= 0 else ""

    def end_group(self, child: int, status: int) -> None:
        """Whatever a call has started ends with it."""
        for _ in range(100):
            left = [it for it in pathlib.Path("/proc").glob("[0-9]*/stat") if group_of(it) == child]
            if not left:
                return
            time.sleep(0.02)
        check(f"a call of status {status} has left processes", [(it.parent / "cmdline").read_text() for it in left], [])
        with contextlib.suppress(ProcessLookupError):
            os.killpg(child, signal.SIGKILL)

    def close(self) -> None:
        killed(self.way)
        os.waitpid(self.way, 0)
        self.server.kill()


def group_of(stat: pathlib.Path) -> int:
    """The process group of a process; 0 where it is gone, or only waited for."""
    with contextlib.suppress(OSError):
        state, _, group = stat.read_text().rpartition(")")[2].split()[:3]
        return 0 if state == "Z" else int(group)
    return 0


def tried(trial: Trial, number: int) -> bool:
    """The calls of a round before the last one; whether one was killed."""
    is_killed = False
    for call in range(trial.chance.randint(1, MOST_CALLS)):
        mode = trial.chance.choice(["", *MODES])
        about = trial.chance.random() < 0.5
        moment = None if about or (call and trial.chance.random() < 0.5) else trial.chance.uniform(0, 1.1 * trial.typical)
        status, said = trial.call(mode, moment, about)
        is_killed = is_killed or status == -signal.SIGKILL
        key = ("killed" if status < 0 else f"status {status}", mode or "as it is")
        trial.outcomes[key] = trial.outcomes.get(key, 0) + 1
        if status >= 0:
            plain(f"round {number}, {mode or 'as it is'}", status, said)
    return is_killed


def plain(what: str, status: int, said: str) -> None:
    """A call that was not killed ends with a plain line."""
    last = said.splitlines()[-1] if said else ""
    is_plain = last.startswith("closed pool") if status == 0 else last != ""
    check(f"{what}: {last}", status in (0, 1) and "Traceback" not in said and is_plain)


def play_order(trial: Trial, number: int) -> int:
    """A return of a station that came; the number of the pool that pays it."""
    trial.put(f"/v1/returns/RADIO1/{number}", plays(number, 3, 1))
    trial.write_order(number, ["RADIO1", number])
    return trial.closed[0] + 1


def own_order(trial: Trial, number: int) -> int:
    """An order of the office itself, whose return stands beside it and is sent with it; its number goes down."""
    pool = 99_999 - trial.closed[1]
    (trial.folder / f"AMEND1-{pool}.csv").write_bytes(plays(number, 3, 1))
    trial.write_order(number, ["AMEND1", pool])
    return pool


def round_of(trial: Trial, number: int) -> bool:
    """One order, closed at last; whether a call was killed."""
    is_own = number % OWN == 0
    pool = (own_order if is_own else play_order)(trial, number)
    book_log.join(trial.database, book_files.log_of(trial.database), trial.copy)
    is_killed = tried(trial, number)
    status, said = trial.call()
    check(f"round {number}: the last call", (status, f"pool {pool}" in said), (0, True))
    if status:
        print(said)
    trial.closed[is_own] += 1
    status, text = trial.get(f"/v1/pools/{pool}")
    units = sum(int(it.rsplit(b",", 1)[1]) for it in text.splitlines()[1:]) if status == 200 else None
    check(f"round {number}: what was credited", units, 1_000 + number)
    others = [trial.get(f"/v1/pools/{it}")[0] for it in (trial.closed[0] + 1, 99_999 - trial.closed[1])]
    check(f"round {number}: no second pool", others, [404, 404])
    journal = decisions.read(trial.decided).journal
    check(f"round {number}: the journal", [it.what for it in journal].count(f"closed pool {pool}: {1_000 + number:,} units of the PR"), 1)
    check(f"round {number}: it is ended", (unfinished(journal), state_of(journal)[pool][0]), ({}, "closed"))
    return is_killed


def main() -> None:
    options = common.parser(__doc__)
    options.add_argument("--kills", type=int, default=200, help="how many rounds with a kill there are (default: 200)")
    options.add_argument("--seed", type=int, default=1, help="what the random moments and answers come of (default: 1)")
    given = options.parse_args()
    with tempfile.TemporaryDirectory() as folder:
        trial = Trial(given.program, pathlib.Path(folder), random.Random(given.seed))
        kills = number = 0
        try:
            while kills < given.kills and len(WRONG) < 20:
                number += 1
                kills += round_of(trial, number)
                if number % 10 == 0:
                    print(f"{number} rounds, {kills} with kills, a call takes {trial.typical:.1f} s", flush=True)
        finally:
            trial.close()
    for (status, mode), count in sorted(trial.outcomes.items()):
        print(f"  {count:4} {status:9} {mode}")
    print(f"{number} pools closed, {kills} of them with kills; wrong: " + (", ".join(WRONG) or "nothing"))
    sys.exit(1 if WRONG else 0)


if __name__ == "__main__":
    main()
