"""An order closed at an office: one pool, whatever breaks off and whatever answers; nothing over a copy that is not of now."""

import contextlib
import json
import pathlib
import shutil
from collections.abc import Iterator

import pytest
import quarter
from click.testing import CliRunner
from command import run
from conftest import further, running
from odd_office import odd
from served import ask, asked_at, ask_once
from society_office.basics.errors import OfficeError
from society_office.book.copy import open_copy
from society_office.book.page_sums import changed
from society_office.closings import closing
from society_office.closings.orders import free_pool
from society_office.commands import closing_commands
from society_office.commands.cli import main
from society_office.decided import decisions, journal
from society_office.offices.program import free_port

AMOUNT = 70_001


@pytest.fixture
def address(copy: pathlib.Path, program: str, tmp_path: pathlib.Path) -> Iterator[str]:
    """An office that has what the copy has."""
    port = free_port()
    with running(program, pathlib.Path(shutil.copy(copy, tmp_path / "served.db")), port, "--connections", "100000"):
        yield f"http://127.0.0.1:{port}"


@pytest.fixture
def order(copy: pathlib.Path, tmp_path: pathlib.Path) -> pathlib.Path:
    """An order over what is unpaid."""
    run("propose", copy, "--amount", AMOUNT, "--output", tmp_path / "order.json")
    return tmp_path / "order.json"


def words(copy: pathlib.Path, address: str, order: pathlib.Path, program: str, *more: object, wait: int = 1) -> list[str]:
    """The words that close a pool."""
    given = ["close", order, "--copy", copy, "--office", address, "--program", program, "--wait", wait, *more]
    return [str(it) for it in given]


def called(given: list[str], status: int = 0) -> str:
    """What the command prints, with this status; whatever it asks is answered by a word that is no amount."""
    done = CliRunner().invoke(main, given, input="none\n" * 9, catch_exceptions=False)
    assert done.exit_code == status, done.output
    return done.output


def sure(copy: pathlib.Path, address: str, order: pathlib.Path, program: str, *more: object) -> list[str]:
    """The same, with the amount and why."""
    return words(copy, address, order, program, "--amount", AMOUNT, "--why", "asked by the board", *more)


def pools_at(address: str) -> list[int]:
    """The pools that an office has closed, of the first thirty and the last ones."""
    with contextlib.closing(asked_at(address, 60)) as it:
        return [pool for pool in (*range(1, 31), *range(99_990, 100_000)) if ask(it, "GET", f"/v1/pools/{pool}")[0] == 200]


def told(folder: pathlib.Path) -> list[str]:
    """What the journal has."""
    return [it.what for it in decisions.read(folder).journal]


def test_a_pool_is_closed_and_read_back(copy: pathlib.Path, address: str, order: pathlib.Path, program: str, decided: pathlib.Path) -> None:
    before = pools_at(address)
    said = called(sure(copy, address, order, program))
    number = max(before) + 1
    assert f"closed pool {number}: {AMOUNT:,} units of the PR, just as rehearsed\n" in said and "Credits" in said
    assert pools_at(address) == [*before, number]
    assert told(decided) == [f"{it} pool {number}: {AMOUNT:,} units of the PR" for it in ("closing", "closed")]
    assert (decided / f"orders/{number}.json").read_bytes() == order.read_bytes()
    assert decisions.read(decided).journal[-1].sums == {f"orders/{number}.json": journal.sum_of(order.read_bytes())}
    again = called(sure(copy, address, order, program))
    assert f"pool {number} is closed by this very order since" in again and pools_at(address) == [*before, number]
    assert len(told(decided)) == 2


def test_nothing_is_sent_without_the_amount(
    copy: pathlib.Path, address: str, order: pathlib.Path, program: str, decided: pathlib.Path
) -> None:
    before = pools_at(address)
    for amount in ("70000", "70001.00", "seventy"):
        done = CliRunner().invoke(main, words(copy, address, order, program), input=f"{amount}\nwhy\n", catch_exceptions=False)
        assert done.exit_code == 1 and f"the amount is {AMOUNT:,} units, and {amount} was said: nothing was sent" in done.output
    assert "Nothing was sent to the office" in called(words(copy, address, order, program, "--dry-run"))
    assert pools_at(address) == before and told(decided) == [] and not (decided / "orders").exists()
    done = CliRunner().invoke(main, words(copy, address, order, program), input="70,001\nasked by the board\n", catch_exceptions=False)
    assert done.exit_code == 0 and len(pools_at(address)) == len(before) + 1
    assert decisions.read(decided).journal[-1].why == "asked by the board"


def sent(address: str, path: str, body: bytes) -> None:
    """Puts something at an office."""
    assert ask_once(address, "PUT", f"/v1{path}", body, seconds=60)[0] in (200, 201)


@pytest.mark.parametrize(
    "path, body, what",
    [
        ("/returns/RADIO1/5", b"isrc,plays,seconds\nATABC2600001,1,1\n", "return RADIO1/5"),
        ("/returns/RADIO1/7", b"isrc,plays,seconds\nATABC2600001,1,1\n", "return RADIO1/7"),
        ("/pools/6", b'{"amount":5,"cut":[],"returns":[]}', "pool 6"),
        ("/pools/8", b'{"amount":5,"cut":[],"returns":[]}', "pool 8"),
        ("/pools/77", b'{"amount":5,"cut":[],"returns":[]}', "a pool (UNCLAIMED has "),
    ],
)
def test_a_copy_that_is_not_of_now(
    copy: pathlib.Path, address: str, order: pathlib.Path, program: str, path: str, body: bytes, what: str, decided: pathlib.Path
) -> None:
    with open_copy(copy) as opened:
        assert free_pool(opened) == 6 and opened.row("SELECT max(number) FROM returns WHERE reporter = 'RADIO1'") == (4,)
    sent(address, path, body)
    said = called(sure(copy, address, order, program), status=1)
    assert f"the office has what {copy} has not: {what}" in said and "systemctl start society-backup" in said
    assert told(decided) == []


def test_a_copy_that_has_more(copy: pathlib.Path, address: str, program: str, tmp_path: pathlib.Path, decided: pathlib.Path) -> None:
    more = further(program, copy, [("/returns/RADIO7/1", b"isrc,plays,seconds\nATABC2600001,1,1\n")], tmp_path / "more.db")
    run("propose", more, "--amount", AMOUNT, "--output", tmp_path / "order.json")
    said = called(sure(more, address, tmp_path / "order.json", program), status=1)
    assert f"{more} has what the office has not: return RADIO7/1. An older file is served" in said and told(decided) == []


def test_what_is_void_is_not_paid(copy: pathlib.Path, address: str, order: pathlib.Path, program: str, decided: pathlib.Path) -> None:
    first = json.loads(order.read_bytes())["returns"][0]
    run("void", f"{first[0]}/{first[1]}", "--why", "a wrong month")
    assert f"{first[0]}/{first[1]} is void, by {decided}/void.txt" in called(sure(copy, address, order, program), status=1)


def test_two_persons(
    copy: pathlib.Path, address: str, order: pathlib.Path, program: str, decided: pathlib.Path, monkeypatch: pytest.MonkeyPatch
) -> None:
    before = pools_at(address)
    run("decisions", "--persons", 2, "--why", "the board wants it")
    assert "nobody has asked for this order" in called(sure(copy, address, order, program, "--approve"), status=1)
    monkeypatch.setattr(journal, "who", lambda: "anna")
    monkeypatch.setattr(closing, "who", lambda: "anna")
    assert "asked for. A second person closes it" in called(sure(copy, address, order, program))
    assert "anna has asked for this order, so another person" in called(sure(copy, address, order, program, "--approve"), status=1)
    monkeypatch.setattr(journal, "who", lambda: "bert")
    monkeypatch.setattr(closing, "who", lambda: "bert")
    whole = order.read_bytes()
    order.write_bytes(whole.replace(b"70001", b"70002"))
    given = words(copy, address, order, program, "--approve", "--amount", AMOUNT + 1, "--why", "x")
    assert "nobody has asked for this order, or it was changed since" in called(given, status=1)
    order.write_bytes(whole)
    assert pools_at(address) == before
    called(words(copy, address, order, program, "--approve", "--amount", AMOUNT))
    assert len(pools_at(address)) == len(before) + 1
    last = decisions.read(decided).journal[-1]
    assert (last.who, last.why) == ("bert", "asked by the board (asked for by anna)")
    run("decisions", "--persons", 1, "--why", "back")
    assert closing.persons(decisions.read(decided).journal) == 1


@pytest.mark.parametrize("mode", ["hangs", "hangs after", "reset", "reset after", "garbage", "page", "503", "503 after", "forgets"])
def test_an_office_that_gives_no_answer(
    copy: pathlib.Path, address: str, order: pathlib.Path, program: str, decided: pathlib.Path, mode: str
) -> None:
    before = pools_at(address)
    with odd(address, mode) as other:
        said = called(sure(copy, other, order, program), status=1)
    assert "run it again" in said or "run this again" in said
    assert [it.partition(" ")[0] for it in told(decided)] == ["closing"]
    another = order.with_name("another.json")
    another.write_bytes(order.read_bytes().replace(b"70001", b"70003"))
    assert f"`society-office close {decided}/orders/6.json` ends it" in called(words(copy, address, another, program), status=1)
    # No amount and no reason is asked for again.
    said = called(words(copy, address, decided / "orders/6.json", program))
    assert "begun by " in said and f"closed pool 6: {AMOUNT:,} units of the PR, just as rehearsed\n" in said
    assert pools_at(address) == [*before, 6] and [it.partition(" ")[0] for it in told(decided)] == ["closing", "closed"]


def test_an_office_that_has_no_room_for_a_while(copy: pathlib.Path, address: str, order: pathlib.Path, program: str) -> None:
    with odd(address, "503", left=2) as other:
        given = words(copy, other, order, program, "--amount", AMOUNT, "--why", "asked by the board", wait=60)
        assert "closed pool 6" in called(given)


def test_an_order_that_is_refused_is_given_up(
    copy: pathlib.Path, address: str, order: pathlib.Path, program: str, decided: pathlib.Path
) -> None:
    with odd(address, "409", left=1) as other:
        assert "pool 6 is not closed: another order stands under this number" in called(sure(copy, other, order, program), status=1)
    assert [it.partition(":")[0] for it in told(decided)] == ["closing pool 6", "gave up pool 6"]
    assert "closed pool 6" in called(sure(copy, address, order, program))


def test_a_pool_that_credits_otherwise_is_told(
    copy: pathlib.Path, address: str, order: pathlib.Path, program: str, decided: pathlib.Path
) -> None:
    with odd(address, "other") as other:
        said = called(sure(copy, other, order, program), status=1)
    assert "pool 6 is closed, but rehearsed were " in said and ", and the office has credited 12,345 units of " in said
    assert "(not as rehearsed: " in decisions.read(decided).journal[-1].why
    # (what is closed is read back each time)
    with odd(address, "other") as other:
        assert "pool 6 is closed, but rehearsed were " in called(sure(copy, other, order, program), status=1)
    assert f"closed pool 6: {AMOUNT:,} units of the PR, just as rehearsed\n" in called(sure(copy, address, order, program))


def test_an_order_that_the_program_refuses_is_not_begun(
    copy: pathlib.Path, address: str, program: str, tmp_path: pathlib.Path, decided: pathlib.Path
) -> None:
    before = pools_at(address)
    (tmp_path / "wrong.json").write_text(json.dumps({"amount": AMOUNT, "cut": [[quarter.ALPHA, 1]], "returns": [["RADIO1", 999]]}))
    assert "the order is refused, status 409: " in called(sure(copy, address, tmp_path / "wrong.json", program), status=1)
    assert pools_at(address) == before and told(decided) == []


def test_a_pool_that_was_closed_before_is_read_back_again(copy: pathlib.Path, address: str, order: pathlib.Path, program: str) -> None:
    called(sure(copy, address, order, program))
    with odd(address, "other") as other:
        said = called(sure(copy, other, order, program), status=1)
    assert "pool 6 is closed by this very order since " in said and "just as rehearsed" not in said
    assert "pool 6 is closed, but rehearsed were " in said and ", and the office has credited 12,345 units of " in said


def test_what_was_begun_is_taken_back(copy: pathlib.Path, address: str, order: pathlib.Path, program: str, decided: pathlib.Path) -> None:
    with odd(address, "reset") as other:
        called(sure(copy, other, order, program), status=1)
    assert "gave up pool 6" in called(words(copy, address, order, program, "--give-up", "--why", "a typing error"))
    assert "was not begun" in called(words(copy, address, order, program, "--give-up", "--why", "x"), status=1)
    with odd(address, "reset after") as other:
        called(sure(copy, other, order, program), status=1)
    assert "pool 6 is closed, and stays so" in called(words(copy, address, order, program, "--give-up", "--why", "x"), status=1)


def test_another_command_decides_meanwhile(
    copy: pathlib.Path, address: str, order: pathlib.Path, program: str, decided: pathlib.Path, monkeypatch: pytest.MonkeyPatch
) -> None:
    before = pools_at(address)

    def confirmed(*_: object) -> str:
        run("void", "RADIO1/3", "--why", "meanwhile")
        return "why"

    monkeypatch.setattr(closing_commands, "confirmed", confirmed)
    assert "was changed meanwhile by another command" in called(sure(copy, address, order, program), status=1)
    assert pools_at(address) == before


@pytest.mark.parametrize("reporter", ["DUE3F0A9C21", "LATE3F0A9C21", "AMEND1"])
def test_an_order_of_the_office_itself_has_its_own_number(
    copy: pathlib.Path, address: str, program: str, tmp_path: pathlib.Path, reporter: str
) -> None:
    made = {"amount": 0, "cut": [[quarter.ALPHA, 1]], "returns": [[reporter, 99_998]]}
    (tmp_path / "99998.json").write_text(json.dumps(made))
    given = words(copy, address, tmp_path / "99998.json", program, "--amount", 0, "--why", "x")
    assert f"it has to stand beside the order, which pays return 99998 of {reporter}" in called(given, status=1)
    (tmp_path / f"{reporter}-99998.csv").write_text("isrc,plays,seconds\n")
    assert "closed pool 99998: 0 units of the PR" in called(given)
    assert 99_998 in pools_at(address)


def test_what_is_no_order(copy: pathlib.Path, address: str, program: str, tmp_path: pathlib.Path) -> None:
    for text in ("", "{}", "[]", '{"amount":"5","returns":[]}', '{"amount":5,"returns":[1]}'):
        (tmp_path / "order.json").write_text(text)
        assert "the file is no order" in called(words(copy, address, tmp_path / "order.json", program), status=1)
    with pytest.raises(OfficeError):
        closing.order_of(b"\xff")


@pytest.mark.parametrize("mode", ["409 after", "404 after"])
def test_a_refusal_of_what_was_taken_counts_for_nothing(
    copy: pathlib.Path, address: str, order: pathlib.Path, program: str, decided: pathlib.Path, mode: str
) -> None:
    with odd(address, mode, left=1) as other:
        assert "closed pool 6" in called(sure(copy, other, order, program))
    assert [it.partition(":")[0] for it in told(decided)] == ["closing pool 6", "closed pool 6"]


def test_what_is_void_since_it_was_begun_is_not_paid(
    copy: pathlib.Path, address: str, order: pathlib.Path, program: str, decided: pathlib.Path
) -> None:
    before = pools_at(address)
    with odd(address, "reset") as other:
        called(sure(copy, other, order, program), status=1)
    reporter, number = json.loads(order.read_bytes())["returns"][0]
    run("void", f"{reporter}/{number}", "--why", "a wrong month")
    said = called(words(copy, address, order, program), status=1)
    assert f"{reporter}/{number} is void" in said and "--give-up first takes back pool 6, which was begun" in said
    assert pools_at(address) == before


def test_what_is_void_since_it_was_sent_is_told_to_be_closed(
    copy: pathlib.Path, address: str, order: pathlib.Path, program: str, decided: pathlib.Path
) -> None:
    with odd(address, "reset after") as other:
        called(sure(copy, other, order, program), status=1)
    reporter, number = json.loads(order.read_bytes())["returns"][0]
    run("void", f"{reporter}/{number}", "--why", "a wrong month")
    assert "closed pool 6" in called(words(copy, address, order, program))
    assert told(decided)[-1].startswith("closed pool 6:")


def test_what_was_begun_goes_to_no_other_book(
    copy: pathlib.Path, address: str, order: pathlib.Path, program: str, decided: pathlib.Path, tmp_path: pathlib.Path
) -> None:
    """What was begun at one office is not ended at one of another society, or at one that has lost something."""
    with odd(address, "reset") as other:
        called(sure(copy, other, order, program), status=1)
    port = free_port()
    for society, what in (("901", "it is the office of another society, or none"), ("900", f"{copy} has what the office has not: ")):
        office = ["--society", society, "--territory", "40", "--name", "EXAMPLE SOCIETY"]
        with running(program, tmp_path / f"{society}.db", port, "--connections", "1000", office=office):
            giving_up = ("--give-up", "--why", "x")
            for given in ((), giving_up[: 3 * (society == "901")]):
                assert what in called(words(copy, f"http://127.0.0.1:{port}", order, program, *given), status=1)
    assert [it.partition(":")[0] for it in told(decided)] == ["closing pool 6"]


def test_a_pool_that_an_older_file_has_not(
    copy: pathlib.Path, address: str, order: pathlib.Path, program: str, decided: pathlib.Path, tmp_path: pathlib.Path
) -> None:
    """What the journal has as closed, and the office has lost, is told; taken back, it can be closed again."""
    called(sure(copy, address, order, program))
    assert "pool 6 is closed, and stays so" in called(words(copy, address, order, program, "--give-up", "--why", "x"), status=1)
    port = free_port()
    older = f"http://127.0.0.1:{port}"
    with running(program, pathlib.Path(shutil.copy(copy, tmp_path / "older.db")), port, "--connections", "100000"):
        said = called(sure(copy, older, order, program), status=1)
        assert "the office has not pool 6, which " in said and "an older file is served" in said
        assert "gave up pool 6" in called(words(copy, older, order, program, "--give-up", "--why", "lost by a restore"))
        assert "closed pool 6" in called(sure(copy, older, order, program))
    assert [it.partition(" ")[0] for it in told(decided)] == ["closing", "closed", "gave", "closing", "closed"]


def test_a_page_is_no_answer_to_a_return_of_the_office(
    copy: pathlib.Path, address: str, program: str, tmp_path: pathlib.Path, decided: pathlib.Path
) -> None:
    """Where the return of an own order did not come, the order is not refused for it, but ended later."""
    (tmp_path / "99998.json").write_text(json.dumps({"amount": 0, "cut": [[quarter.ALPHA, 1]], "returns": [["AMEND1", 99_998]]}))
    (tmp_path / "AMEND1-99998.csv").write_text("isrc,plays,seconds\n")
    with odd(address, "page", place="/returns/AMEND1/99998") as other:
        said = called(words(copy, other, tmp_path / "99998.json", program, "--amount", 0, "--why", "x"), status=1)
    assert "answers 200, as no office does" in said and [it.partition(":")[0] for it in told(decided)] == ["closing pool 99998"]
    assert "closed pool 99998" in called(words(copy, address, tmp_path / "99998.json", program))


def test_another_order_under_its_number(copy: pathlib.Path, address: str, order: pathlib.Path, program: str, decided: pathlib.Path) -> None:
    """Where somebody else has closed another pool under the number meanwhile, what was begun is given up."""
    with odd(address, "reset") as other:
        called(sure(copy, other, order, program), status=1)
    sent(address, "/pools/6", b'{"amount":5,"cut":[],"returns":[]}')
    assert "pool 6 is not closed: another order stands under this number" in called(words(copy, address, order, program), status=1)
    assert [it.partition(":")[0] for it in told(decided)] == ["closing pool 6", "gave up pool 6"]


def test_an_order_that_was_given_up_gets_a_number_anew(copy: pathlib.Path, order: pathlib.Path, decided: pathlib.Path) -> None:
    """Its number may be another order's since."""

    def planned() -> closing.Plan:
        with open_copy(copy) as opened:
            return closing.plan(decisions.read(decided), opened, order.read_bytes())

    first = planned()
    closing.begin(decisions.read(decided), first, "why")
    assert (first.pool, first.begun, planned().pool, planned().begun) == (6, None, 6, decisions.read(decided).journal[-1])
    closing.end(decided, "gave up", first, "a typing error")
    with changed(copy) as database:
        database.execute("INSERT INTO pools VALUES (6, 0)")
    assert (planned().pool, planned().begun, planned().ended) == (7, None, None)
