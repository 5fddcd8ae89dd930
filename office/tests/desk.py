"""Staff at an office that the program serves: they take copies, run commands over them, and send what those have written."""

import json
import pathlib
from collections import Counter

from command import run
from conftest import made, put, served
from cwr import Party, Row, Work
from office_value import File, Office, Step

HOUSE, OTHER = "PB000000012", "PB000000034"
NAMES = {HOUSE: "HOUSE MUSIC", OTHER: "OTHER MUSIC"}
# Accounts of holders.
ANNA, BORIS, CLARA = "I00000000101", "I00000000102", "I00000000103"
# A request: the path behind /v1, and the body.
Letter = tuple[str, bytes]


def holder(account: str, pr: int, mr: int = 0) -> Party:
    """A writer who collects these shares."""
    shares = (f"{pr:05d}", f"{mr:05d}", "00000")
    return Party("SWR", account[-3:], f"WRITER {account[-3:]}", account[1:], ("00000", "00000", "00000"), (Row(shares),))


def work(number: str, isrcs: str, *holders: Party, kind: str = "NWR") -> Work:
    return Work(kind, number, f"SONG {number}", tuple(isrcs.split()), holders)


def file(sender: str, number: int, *works: Work) -> File:
    return File(sender, number, f"transmissions/{number}", list(works))


class Desk:
    """An office, and a folder for what is written."""

    def __init__(self, program: str, folder: pathlib.Path, *steps: Step) -> None:
        self.program, self.folder, self.office, self.count = program, folder, Office(NAMES, list(steps)), 0
        (folder / "first").mkdir()
        self.live = made(program, self.office, folder / "first")

    def send(self, *letters: Letter) -> list[int]:
        """Sends requests one after another, whatever becomes of each; their statuses."""
        with served(self.program, self.live) as connection:
            return [put(connection, path, body) for path, body in letters]

    def steps(self, *steps: Step) -> None:
        """What others send, which is taken."""
        self.office = self.office.with_steps(*steps)
        assert all(it in (200, 201, 202) for it in self.send(*(self.office.request(it) for it in steps)))

    def run(self, *words: object, status: int = 0, out: bool = False) -> str:
        """What a command prints that reads the file as it is now."""
        command, *rest = words
        return run(command, self.live, *rest, status=status, out=out)

    def written(self, *words: object, option: str = "--next", status: int = 0) -> list[Letter]:
        """What a command writes: the return and its order, as they are sent."""
        self.count += 1
        into = self.folder / f"written{self.count}"
        self.said = self.run(*words, option, into, *([] if option == "--next" else ["--why", "a test"]), status=status)
        orders = sorted(into.glob("*.json"))
        found = list[Letter]()
        for it in orders:
            [text] = into.glob(f"*-{it.stem}.csv")
            found += [(f"/returns/{text.stem.replace('-', '/')}", text.read_bytes()), (f"/pools/{it.stem}", it.read_bytes())]
        return found

    def due(self) -> list[Letter]:
        """The next order of what is lacking."""
        return self.written("dues")

    def amended(self, pool: int, *words: object, status: int = 0) -> list[Letter]:
        """The amendment of a pool."""
        return self.written("amend", pool, *words, option="--into", status=status)

    def amend(self, pool: int, *words: object) -> None:
        """Amends a pool, and sends that."""
        assert self.send(*self.amended(pool, *words)) == [201, 201]

    def balances(self) -> dict[str, int]:
        """What accounts were credited, nobody aside."""
        found = Counter[str]()
        for line in self.run("balances").splitlines()[1:]:
            cells = line.split(",")
            found[cells[0]] += int(cells[-1]) if cells[-1].isdigit() else int(cells[3])
        del found["UNCLAIMED"]
        return dict(+found)

    def accounts(self, *words: object) -> dict[str, tuple[int, int]]:
        """What is due and was paid by account."""
        listed = json.loads(self.run("dues", *words, "--format", "json"))
        return {it["account"]: (it["due"], it["paid"]) for it in listed}

    def settled(self, most: int = 20) -> list[int]:
        """Pays what is lacking as far as it can be, order by order; the numbers of the pools."""
        found = list[int]()
        while letters := self.due():
            assert self.send(*letters) == [201, 201] and len(found) < most
            assert self.send(*letters) == [200, 200]
            found.append(int(letters[1][0].rpartition("/")[2]))
        return found
