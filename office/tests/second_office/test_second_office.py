"""Two offices that got the same, in any order and as often as one likes, are the same; what breaks that is told."""

import contextlib
import dataclasses
import http.client
import http.server
import pathlib
import random
import re
import shutil
import threading
from collections.abc import Iterator

import pytest
import quarter
import random_office
from click.testing import CliRunner
from command import run
from conftest import backed_up, made, put, running, served
from office_value import End, Office, Pool, Return, Step, rank
from served import ask_once
from society_office.book.copy import open_copy
from society_office.book.page_sums import changed
from society_office.commands.cli import main
from society_office.offices.asking import Connections, Request
from society_office.offices.program import free_port
from society_office.second_office import comparing, rebuilding, resending
from test_copy import DERIVED, in_log

OTHERS = ["--society", "901", "--territory", "40", "--name", "OTHER"]

ROUNDS = range(8)

REFUSED = {404, 409}

FIRST = quarter.OFFICE.files[0]


@contextlib.contextmanager
def standing(program: str, database: pathlib.Path, port: int = 0) -> Iterator[str]:
    """The address of an office over a file, which goes on until the `with` ends."""
    port = port or free_port()
    with running(program, database, port, "--connections", "1000"):
        yield f"http://127.0.0.1:{port}"


class Restarted:
    """An office that is killed and started again, once so many answers have come."""

    def __init__(self, program: str, database: pathlib.Path, after: int) -> None:
        self.program, self.database, self.after, self.port = program, database, after, free_port()
        self.stack = contextlib.ExitStack()
        self.start()

    def start(self) -> None:
        self.stack.enter_context(running(self.program, self.database, self.port, "--connections", "1000"))

    def tell(self) -> None:
        self.after -= 1
        if self.after == 0:
            self.stack.close()
            self.start()


def shuffled(program: str, office: Office, rng: random.Random, folder: pathlib.Path, part: float = 1.0) -> pathlib.Path:
    """The file of an office that got a part of the requests, each twice and in no order, and the orders at the end once more."""
    requests = [it for it in office.requests() if rng.random() < part] * 2
    rng.shuffle(requests)
    with served(program, folder / "mixed.db") as connection:
        for path, body in requests + [it for it in requests if it[0].startswith("/pools/")]:
            assert put(connection, path, body) in {200, 201, 202, *REFUSED}, path
    return folder / "mixed.db"


@pytest.mark.parametrize("number", ROUNDS)
def test_the_order_of_arrival_is_free(number: int, program: str, folder: pathlib.Path) -> None:
    office, rng = random_office.office(number), random.Random(number)
    copy = made(program, office, folder)
    assert f"{copy} and {folder / 'mixed.db'} are the same: " in run("compare", copy, shuffled(program, office, rng, folder))


@pytest.mark.parametrize("number", ROUNDS)
def test_a_standby_that_lost_much_and_is_killed_gets_all(number: int, program: str, folder: pathlib.Path) -> None:
    office, rng = random_office.office(100 + number), random.Random(number)
    copy, standby = made(program, office, folder), shuffled(program, office, rng, folder, 0.5)
    with open_copy(copy) as opened:
        count = resending.how_many(opened)
        server = Restarted(program, standby, rng.randint(1, count))
        with server.stack:
            connections = Connections(f"http://127.0.0.1:{server.port}", 20, rng.choice([1, 3]))
            found = resending.resend(opened, connections, number % 2 == 1, server.tell)
            connections.close()
            assert not found.refused and found.new + found.known + found.there == count
            address = f"http://127.0.0.1:{server.port}"
            assert f"{count} sent: 0 new, {count} known, 0 refused\n" == run("resend", copy, "--to", address)
            assert f"{copy} and {address} give the same answers to " in run("compare", copy, address)
    assert "are the same" in run("compare", copy, backed_up(standby, folder / "standby.db"))


def test_only_what_is_new_is_sent(program: str, tmp_path: pathlib.Path) -> None:
    steps = quarter.OFFICE.steps
    copy = made(program, quarter.OFFICE, tmp_path)
    with standing(program, tmp_path / "standby.db") as address:
        assert f"{len(steps)} sent: {len(steps)} new, 0 known, 0 refused\n" == run("resend", copy, "--to", address)
        said = run("resend", copy, "--to", address, "--since-fronts")
        pools, paid = len(quarter.OFFICE.pools), {it for pool in quarter.OFFICE.pools.values() for it in pool.returns}
        ends = sum(isinstance(it, End) for it in steps)
        sent = pools + len(quarter.OFFICE.returns) - len(paid) + ends
        assert said == f"{sent} sent: 0 new, {sent} known, 0 refused; {len(steps) - sent} not sent, since it has them\n"


def test_a_file_of_a_year_that_is_passed_over_is_sent(program: str, folder: pathlib.Path) -> None:
    late, passed = (FIRST._replace(number=rank(year, 1), path=f"files/CW{year}0001RA_900.V22") for year in (27, 26))
    office = Office(quarter.NAMES, [FIRST, End(FIRST.sender, -1, 1, 27), late])
    copy = made(program, office.with_steps(passed), folder)
    (folder / "standby").mkdir()
    made(program, office, folder / "standby")
    with standing(program, folder / "standby/office.db") as address:
        said = run("resend", copy, "--to", address, "--since-fronts")
        assert said == "2 sent: 1 new, 1 known, 0 refused; 2 not sent, since it has them\n"
        assert "the same answers" in run("compare", copy, address)


def two_offices(program: str, folder: pathlib.Path, steps: list[Step], one: Step, other: Step) -> tuple[pathlib.Path, pathlib.Path]:
    """The copies of two offices that got the same, but for one step each."""
    found = []
    for name, it in (("one", one), ("other", other)):
        (folder / name).mkdir()
        found.append(made(program, Office(quarter.NAMES, [*steps, it]), folder / name))
    return found[0], found[1]


RENAMED = FIRST._replace(works=[dataclasses.replace(FIRST.works[0], title="ANOTHER TITLE"), *FIRST.works[1:]])

PLAYS, OTHER_PLAYS = Return("TV5", 1, [("ATABC2600001", 1, 1)]), Return("TV5", 1, [("ATABC2600001", 1, 2)])

TWO = [
    ([], FIRST, RENAMED, "files", f"{FIRST.sender} {FIRST.number}", "it has another file under this number"),
    ([], PLAYS, OTHER_PLAYS, "returns", "TV5/1", "it has another return under this number"),
    ([FIRST], End(FIRST.sender, -1, 1, 26), End(FIRST.sender, -1, 1, 27), "ends", FIRST.sender, "it has another end of this segment"),
    ([], Pool(3, "PR", 0, {}, []), Pool(3, "MR", 0, {}, []), "orders", "pool 3", "it has closed this pool by another order"),
]


@pytest.mark.parametrize("steps, one, other, kind, place, why", TWO)
def test_a_number_with_two_contents_is_told_and_nothing_else(
    steps: list[Step], one: Step, other: Step, kind: str, place: str, why: str, program: str, folder: pathlib.Path
) -> None:
    copy, second = two_offices(program, folder, steps, one, other)
    said = run("compare", copy, second, status=1, out=True).splitlines()
    assert [it.split(":")[0] for it in said] == [kind, "fronts"][: len(said)] and len(said) == (2 if kind == "ends" else 1)
    has = {"ends": ("(1, 26)", "(1, 27)"), "orders": ("{'kind': 'PR', ", "{'kind': 'MR', ")}.get(kind, ("", ""))
    assert said[0].startswith(f"{kind}: 1 difference; first {place}")
    assert f": {copy} has {has[0]}" in said[0] and f"; {second} has {has[1]}" in said[0]
    with standing(program, second.with_name("office.db")) as address:
        told = run("resend", copy, "--to", address, status=1, out=True).splitlines()
    assert told[0].endswith("1 refused") and told[1].startswith(f"refused, {why}: ") and len(told) == 2


# What is changed in a copy by hand, and the kind of which that is told.
CHANGES = {
    "UPDATE office SET name = 'OTHER'": "office",
    "UPDATE segment_ends SET next = next + 1 WHERE segment = -1": "ends",
    "DELETE FROM segment_ends WHERE segment = -1": "ends",
    "UPDATE returns SET body = CAST(body || x'0a' AS BLOB) WHERE number = 1": "returns",
    "UPDATE pool_returns SET pool = 1 WHERE pool = 2": "orders",
    "UPDATE pool_cuts SET number = 1 WHERE pool = 1 AND number > 1": "orders",
    "DELETE FROM mechanical_pools": "orders",
    "UPDATE fronts SET works = works + 1": "fronts",
    "UPDATE verdicts SET fault = 5, ordinal = 0, revision = 0 WHERE fault = 0": "verdicts",
    "UPDATE verdicts SET revision = 9 WHERE fault = 0": "verdicts",
    "UPDATE versions SET ordinal = ordinal + 1": "works",
    "UPDATE recordings SET isrc = 'ZZZZZ2699999' WHERE rowid = 1": "recordings",
    "DELETE FROM recordings WHERE rowid = 1": "recordings",
    "UPDATE credits SET account = 'UNCLAIMED' WHERE account <> 'UNCLAIMED'": "credits",
    "UPDATE balances SET account = 'I00000009999' WHERE account = 'UNCLAIMED'": "balances",
}


@pytest.mark.parametrize("statement", CHANGES)
def test_each_kind_is_compared(statement: str, copy: pathlib.Path) -> None:
    other = pathlib.Path(shutil.copy(copy, copy.with_name("other.db")))
    with changed(other) as database:
        assert database.execute(statement).rowcount
    with open_copy(copy) as one, open_copy(other) as second:
        found, back = comparing.compare(one, second), comparing.compare(second, one)
    own = [it for it in found if it.kind == CHANGES[statement]]
    assert own and {it.kind for it in found} <= {CHANGES[statement], "held numbers"}
    assert [(it.kind, it.count, it.place, it.values[::-1]) for it in back] == [(it.kind, it.count, it.place, it.values) for it in found]


def test_each_difference_is_counted_and_the_first_one_told() -> None:
    rows = [((k,), k) for k in range(5)]
    other = [rows[1], ((2,), 7), rows[4], ((5,), 5)]
    assert list(comparing.unequal(iter(rows), iter(other))) == [((0,), (0, None)), ((2,), (2, 7)), ((3,), (3, None)), ((5,), (None, 5))]
    (found,) = comparing.differences("numbers", str, rows, other)
    assert found.line(("one", "other")) == "numbers: 4 differences; first 0: one has 0; other has none"
    assert not list(comparing.differences("numbers", str, rows, rows))
    assert comparing.where_they_differ("a" * 100 + "b" * 200, "a" * 100) == (".." + "a" * 30 + "b" * 90 + "..", ".." + "a" * 30)


def test_an_office_that_answers_otherwise(program: str, folder: pathlib.Path) -> None:
    copy, second = two_offices(program, folder, [], FIRST, RENAMED)
    with standing(program, second.with_name("office.db")) as address:
        said = run("compare", copy, address, status=1, out=True)
        assert [it.split(":")[0] for it in said.splitlines()] == ["acknowledgements", "works"] and "ANOTHER TITLE" in said
        assert f"first senders/{FIRST.sender}/acks/{FIRST.number}: {copy} has " in said
        connections = Connections(address, 0)
        assert connections.ask(Request("order", "pools/1", b'{"amount":0,"cut":[],"returns":[]}')).status == 201
        connections.close()
        said = run("compare", copy, address, status=1, out=True)
        assert f"credits: 1 difference; first pools/1: {copy} has none; {address} has isrc,account,units" in said
    with standing(program, folder / "empty.db") as address:
        said = run("compare", copy, address, status=1, out=True)
        assert [it.split(":")[0] for it in said.splitlines()] == ["fronts", "verdicts", "acknowledgements", "works"]
        assert f"fronts: 1 difference; first senders/{FIRST.sender}: {copy} has 1; {address} has 0" in said


@pytest.mark.parametrize("layout", [1, 2, 3])
def test_rebuilding(layout: int, program: str, tmp_path: pathlib.Path, monkeypatch: pytest.MonkeyPatch) -> None:
    monkeypatch.setenv("SOCIETY_PROGRAM", program)
    # (a file that was taken over has neither ends nor mechanical pools)
    older = [it for it in quarter.OFFICE.steps if layout == 3 or not isinstance(it, End | Pool) and getattr(it, "number", 1) < 1_000_000]
    copy = made(program, Office(quarter.NAMES, [*older, Pool(70, "PR", 999, {}, [("RADIO1", 1)])] if layout < 3 else older), tmp_path)
    if layout < 3:
        with changed(copy) as database:
            database.executescript(f"DROP TABLE mechanical_pools; DROP TABLE segment_ends; {DERIVED if layout == 1 else ''}")
            database.execute("UPDATE office SET layout = ?", (layout,))
    before = copy.read_bytes()
    said = run("rebuild", copy)
    assert re.fullmatch(rf"{copy} follows from what was sent: \d+ files?, \d+ returns, \d+ pools?, \d+ credits?\n", said), said
    if layout == 3:
        with changed(copy) as database:
            database.execute("UPDATE versions SET ordinal = ordinal + 100 WHERE work = 'E1'")
        said = run("rebuild", copy, status=1, out=True)
        assert "0 refused" in said and re.search(rf"works: .* {copy} has ordinal 10\d, .*; the rebuilt office has ordinal \d, ", said), said
    else:
        assert copy.read_bytes() == before


def test_few_works_of_each_file(copy: pathlib.Path, program: str) -> None:
    with open_copy(copy) as opened:
        works = {it[:2] for it in opened.rows("SELECT sender, work FROM versions")}
        first = set(
            opened.rows(
                "SELECT sender, work FROM versions JOIN (SELECT sender, number, min(place) AS place FROM versions "
                "GROUP BY sender, number) USING (sender, number, place)"
            )
        )
    other = pathlib.Path(shutil.copy(copy, copy.with_name("other.db")))
    with standing(program, other) as address:
        counts = [int(run("compare", copy, address, *words).split()[-2]) for words in ((), ("--works", 1), ("--works", 0))]
    assert [it - counts[2] for it in counts] == [len(works), len(first), 0] and 0 < len(first) < len(works)


def test_what_was_refused_is_told_where_nothing_differs(copy: pathlib.Path, monkeypatch: pytest.MonkeyPatch) -> None:
    assert "there is no program at none" in run("rebuild", copy, "--program", "none", status=1)
    monkeypatch.setattr(rebuilding, "rebuild", lambda *_: (resending.Tally(refused={"why": ["pools/1"]}), [], "nothing"))
    assert run("rebuild", copy, status=1, out=True) == "1 sent: 0 new, 0 known, 1 refused\nrefused, why: pools/1\n"


def told(*words: object) -> tuple[str, str]:
    """What the command prints on standard output, and on standard error."""
    ended = CliRunner(mix_stderr=False).invoke(main, [str(it) for it in words], catch_exceptions=False)
    assert ended.exit_code == 0, (ended.stdout, ended.stderr)
    return ended.stdout, ended.stderr


def test_what_is_noted_of_a_copy(program: str, folder: pathlib.Path) -> None:
    copy, pair = made(program, Office(quarter.NAMES, [FIRST, PLAYS]), folder), folder / "pair.db"
    working = pathlib.Path(shutil.copy(copy, folder / "working.db"))
    with changed(working) as database:
        database.execute("UPDATE fronts SET works = works + 1")
    in_log(working, "UPDATE fronts SET works = works - 1", folder)
    noted = f"society-office: {pair} and pair.db-wal were read as one\n"
    assert told("compare", copy, pair) == (f"{copy} and {pair} are the same: 1 file, 1 return, 0 pools, 0 credits\n", noted)
    assert told("compare", pair, copy)[1] == told("rebuild", pair)[1] == noted
    with standing(program, folder / "standby.db") as address:
        assert told("resend", pair, "--to", address) == ("2 sent: 2 new, 0 known, 0 refused\n", noted)
    older = pathlib.Path(shutil.copy(copy, folder / "older.db"))
    with changed(older) as database:
        database.executescript(f"DROP TABLE mechanical_pools; DROP TABLE segment_ends; {DERIVED} UPDATE office SET layout = 1")
    said, noted = told("compare", copy, older)
    assert f"{copy} and {older} are the same: " in said and f"{older} is of layout 1: " in noted


def test_connections_are_ended_whatever_comes(copy: pathlib.Path, monkeypatch: pytest.MonkeyPatch) -> None:
    ended: list[str] = []
    monkeypatch.setattr(Connections, "close", lambda it: ended.append(it.address))
    address = f"http://127.0.0.1:{free_port()}"
    run("resend", copy, "--to", address, "--wait", 0, status=1)
    assert ended == [address]


@pytest.mark.parametrize("words", [[], ["--since-fronts"]])
def test_nothing_is_sent_to_another_society(copy: pathlib.Path, program: str, tmp_path: pathlib.Path, words: list[str]) -> None:
    port, other = free_port(), tmp_path / "other.db"
    with running(program, other, port, "--connections", "9", office=OTHERS) as process:
        said = run("resend", copy, "--to", f"http://127.0.0.1:{port}", *words, status=1)
        process.terminate()
        process.wait(60)
    assert "takes no file of society 900: it is the office of another society, or none. Nothing was sent" in said
    backed_up(other, tmp_path / "its.db")
    with open_copy(tmp_path / "its.db") as its:
        assert resending.how_many(its) == 0
    with standing(program, tmp_path / "same.db") as address:
        assert " 0 known, 0 refused" in run("resend", copy, "--to", address, *words)


class Changing(http.server.BaseHTTPRequestHandler):
    """What stands before an office, and after some requests breaks off and stands before another one."""

    offices, left = [""], 0
    protocol_version = "HTTP/1.1"

    def do_PUT(self) -> None:
        kind = type(self)
        body = self.rfile.read(int(self.headers.get("Content-Length", 0)))
        kind.left -= 1
        if kind.left == 0:
            kind.offices = kind.offices[1:]
            self.close_connection = True
            return
        status, said = ask_once(kind.offices[0], "PUT", self.path, body, seconds=60)
        self.send_response(status)
        self.send_header("Content-Length", str(len(said)))
        self.end_headers()
        self.wfile.write(said)

    def log_message(self, *_: object) -> None:
        """Says nothing."""


@pytest.mark.parametrize("after", [1, 2, 3, 9, 20])
def test_another_society_behind_an_interruption_gets_nothing(copy: pathlib.Path, program: str, tmp_path: pathlib.Path, after: int) -> None:
    port, other = free_port(), tmp_path / "other.db"
    with standing(program, tmp_path / "same.db") as address, running(program, other, port, "--connections", "99", office=OTHERS) as process:
        kind = type("Changing", (Changing,), {"offices": [address, f"http://127.0.0.1:{port}"], "left": after})
        with http.server.ThreadingHTTPServer(("127.0.0.1", 0), kind) as server:
            threading.Thread(target=server.serve_forever, daemon=True).start()
            said = run("resend", copy, "--to", f"http://127.0.0.1:{server.server_port}", "--wait", 5, status=1)
            server.shutdown()
        process.terminate()
        process.wait(60)
    assert "takes no file of society 900: it is the office of another society, or none" in said
    backed_up(other, tmp_path / "its.db")
    with open_copy(tmp_path / "its.db") as its:
        assert resending.how_many(its) == 0
