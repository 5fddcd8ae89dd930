"""A year at two offices, by the documents: what is void is never proposed, rehearsed without a word or paid, also after a restore of an
older copy and after the standby has come into service; each pool that was closed has its line in the journal, with who and why."""
import contextlib

import json
import os
import pathlib
import subprocess

import tempfile
from collections.abc import Callable, Iterable

from bodies import order_body, plays, works_file
from served import ROOT, ask_once
from society_office.basics.errors import OfficeError
from society_office.decided import decisions, journal
from society_office.second_office import standby_files
from standby_machines import Machines, User

SENDER, STATION, AMOUNT = "PB000000012", "RADIO1", 1_000


class Root:
    """An office as one of two machines has it: its address, its file, its decisions, and its copies."""

    def __init__(
        self, machines: Machines, name: str, folder: pathlib.Path, database: pathlib.Path, port: int, decided: pathlib.Path
    ) -> None:
        self.machines, self.name, self.home, self.database = machines, name, folder / name, database
        self.address, self.decided, self.wrong = f"http://127.0.0.1:{port}", decided, list[str]()
        self.home.mkdir()

    def check(self, what: str, found: object, wanted: object = True) -> None:
        if found != wanted:
            self.wrong.append(f"{self.name}, {what}: {found!r} and not {wanted!r}")

    def tool(self, *words: object) -> tuple[int, str]:
        """The status and what a command prints."""
        environment = {**os.environ, "SOCIETY_PROGRAM": str(self.machines.program), "SOCIETY_DECISIONS": str(self.decided)}
        done = subprocess.run([ROOT / "office/society-office", *map(str, words)], capture_output=True, text=True, env=environment)
        return done.returncode, done.stdout + done.stderr

    def copy(self) -> pathlib.Path:
        """A copy of now."""
        words = ["--db", str(self.database), "--to", str(self.home / "copies"), "--keep", "1", "--program", self.machines.program]
        subprocess.run([str(ROOT / "debian/bin/society-backup"), *words], check=True, capture_output=True)
        (found,) = (self.home / "copies").glob("office-*.db")
        return found

    def asked(self, path: str) -> tuple[int, bytes]:
        return ask_once(self.address, "GET", path, seconds=60)

    def close(self, copy: pathlib.Path, order: pathlib.Path, amount: int = AMOUNT) -> tuple[int, str]:
        words = ["--copy", copy, "--office", self.address, "--amount", amount, "--why", f"asked by the board of {self.name}"]
        return self.tool("close", order, *words)

    def proposed(self, copy: pathlib.Path, numbers: list[int]) -> pathlib.Path:
        """What is proposed, as a file, of these returns that are neither paid nor void."""
        order = self.home / "order.json"
        order.unlink(missing_ok=True)
        status, said = self.tool("propose", copy, "--amount", AMOUNT, "--output", order)
        returns = json.loads(order.read_bytes())["returns"] if status == 0 else []
        self.check("proposed", [number for _, number in returns], numbers)
        self.check("the folder that was read is told", f"decisions of {self.decided}: " in said)
        return order

    def try_void(self, numbers: Iterable[int], others: list[int]) -> None:
        """Tries to have each void return paid; the others are what is proposed."""
        copy = self.copy()
        self.proposed(copy, others)
        for number in numbers:
            wrong = self.home / "wrong.json"
            wrong.write_bytes(order_body(AMOUNT, [[SENDER, 1]], [[STATION, it] for it in sorted([*others, number])]))
            self.check(f"{number} is rehearsed with a word", f"{STATION}/{number} is void" in self.tool("rehearse", copy, wrong)[1])
            status, said = self.close(copy, wrong)
            self.check(f"{number} is not paid", (status, f"{STATION}/{number} is void" in said), (1, True))

    def close_pool(self, pool: int, numbers: list[int]) -> bytes:
        """Closes what is proposed; the order."""
        copy = self.copy()
        order = self.proposed(copy, numbers)
        status, said = self.close(copy, order)
        self.check(f"pool {pool} is closed", (status, f"closed pool {pool}: " in said, self.asked(f"/v1/pools/{pool}")[0]), (0, True, 200))
        return order.read_bytes()

    def journal(self) -> list[tuple[str, str, str]]:
        return [(it.what.partition(":")[0], it.who, it.why) for it in decisions.read(self.decided).journal]


class Year:
    """Both machines, and how what comes is put."""

    def __init__(self, machines: Machines, folder: pathlib.Path, user: Callable[[str], User]) -> None:
        decided, there = folder / "decisions", folder / "other"
        there.mkdir()
        decisions.begin(decided)
        self.machines, self.folder, self.user, self.target = machines, folder, user, there
        self.office = Root(machines, "office", folder, folder / "office.db", machines.office_port, decided)
        self.standby = Root(machines, "standby", folder, folder / "standby.db", machines.standby.port, there / decided.relative_to("/"))
        self.station, self.sender = user(f"station-{STATION}"), user(SENDER)

    def put(self, who: User, path: str, body: bytes) -> None:
        self.office.check(f"PUT {path}", who.put(path, body)[0], 201)

    def quarter(self, first: int, void: int) -> None:
        """Two returns come, and one of them is void; the standby's files are brought."""
        for number in (first, first + 1):
            self.put(self.station, f"/returns/{STATION}/{number}", plays(number, 3, 1))
        status, said = self.office.tool("void", f"{STATION}/{void}", "--why", "a wrong month")
        self.office.check("void", (status, said), (0, f"{STATION}/{void}: never to be paid, by {self.office.decided}/void.txt\n"))
        self.bring()
        self.office.try_void(range(void, 0, -2), [first])

    def bring(self) -> None:
        standby_files.bring(str(self.target), self.office.decided, [])


def resent(year: Year, source: Root, target: Root) -> None:
    """A copy of one office sent to the other one."""
    status, said = year.office.tool("resend", source.copy(), "--to", target.address)
    year.office.check(f"resent from {source.name}", (status, " 0 refused" in said), (0, True))


def of_the_year(
    machines: Machines,
    folder: pathlib.Path,
    over: Callable[[pathlib.Path], contextlib.AbstractContextManager[None]],
    user: Callable[[str], User],
) -> list[str]:
    """What is not as it has to be; `over` serves the office again where it was ended, and `user` gives a user of the proxy."""
    year = Year(machines, folder, user)
    office, standby = year.office, year.standby
    year.put(year.sender, f"/senders/{SENDER}/transmissions/1", works_file(1, 3, SENDER))
    year.quarter(1, void=2)
    office.close_pool(1, [1])
    kept = pathlib.Path(tempfile.mkdtemp(dir=folder)) / "kept.db"
    kept.write_bytes(office.copy().read_bytes())
    year.quarter(3, void=4)
    second = office.close_pool(2, [3])
    year.bring()
    # (`close` puts at the office itself, past the proxy, so that its pools reach the standby by resending)
    resent(year, office, standby)
    with over(kept):
        restored(year, second)
    year.quarter(5, void=6)
    resent(year, office, standby)
    in_service(year)
    return office.wrong + standby.wrong


def restored(year: Year, second: bytes) -> None:
    """The office over an older copy: what is void stays so, and what it has lost is told, and brought back from the standby."""
    office = year.office
    office.check("the pool is lost", office.asked("/v1/pools/2")[0], 404)
    office.check("the older copy is served", office.asked("/v1/pools/1")[0], 200)
    office.try_void([2], [])
    again = office.home / "again.json"
    again.write_bytes(second)
    status, said = office.close(office.copy(), again)
    office.check("a pool that was lost is told", (status, "the office has not pool 2, which " in said), (1, True))
    resent(year, year.standby, office)
    status, said = office.close(office.copy(), again)
    office.check("it is back", (status, "pool 2 is closed by this very order since" in said), (0, True))
    office.try_void([2, 4], [])


def in_service(year: Year) -> None:
    """The standby in service: it pays nothing void, its journal goes on, and the old office writes nothing over it."""
    office, standby = year.office, year.standby
    standby.try_void([2, 4, 6], [5])
    standby.close_pool(3, [5])
    found = standby.journal()
    for pool, name in ((1, "office"), (2, "office"), (3, "standby")):
        lines = [it for it in found if it[0] == f"closed pool {pool}"]
        wanted = [(f"closed pool {pool}", journal.who(), f"asked by the board of {name}")]
        standby.check(f"the journal of pool {pool}", lines, wanted)
    before = {it: it.read_bytes() for it in standby.decided.rglob("*") if it.is_file()}
    try:
        year.bring()
        standby.wrong.append("the old office has written over what the standby has decided")
    except OfficeError as error:
        standby.check("that is told", "has decided by itself: closing pool 3" in str(error))
    standby.check("it stays", {it: it.read_bytes() for it in standby.decided.rglob("*") if it.is_file()}, before)
    office.check("the standby has no pool more", standby.asked("/v1/pools/4")[0], 404)
