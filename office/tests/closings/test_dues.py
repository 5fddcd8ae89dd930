"""What is due and was paid, by chains of orders through the program: nobody gets more than is due, whatever is sent in whatever order."""

import json
import pathlib

import pytest
from click.testing import CliRunner
from desk import ANNA, BORIS, CLARA, HOUSE, OTHER, Desk, file, holder, work
from office_value import Pool, Return, Step
from society_office.basics.errors import OfficeError
from society_office.closings import dues
from society_office.closings.amendments import remarks_on
from society_office.closings.orders import Order
from society_office.commands import dues_commands
from society_office.commands.cli import main

A, B = "ATABC2600001", "ATABC2600002"
# A pool of 1,000 over a recording that nobody has.
PLAYED: list[Step] = [Return("RADIO1", 1, [(A, 10, 10)]), Pool(1, "PR", 1_000, {}, [("RADIO1", 1)])]


def of_a(number: int = 1, sender: str = HOUSE, who: str = ANNA, mr: int = 10_000) -> Step:
    """A file with a work that names A."""
    return file(sender, number, work("W1", A, holder(who, 10_000, mr)))


@pytest.fixture
def desk(program: str, tmp_path: pathlib.Path) -> Desk:
    """The office of that pool."""
    return Desk(program, tmp_path, *PLAYED)


def test_an_amendment_is_remembered(desk: Desk) -> None:
    desk.amend(1, "--amount", 100)
    desk.steps(of_a())
    assert desk.accounts() == {ANNA: (100, 0), "UNCLAIMED": (0, 1_000)}
    assert desk.settled() == [99_998] and desk.balances() == {ANNA: 100}
    assert "lacking" not in desk.run("dues")
    desk.amend(1, "--amount", 0)
    assert desk.accounts()[ANNA] == (0, 100) and "too much: 100 units of 1 account\n" in desk.run("dues")


@pytest.mark.parametrize("amends", [False, True])
def test_void_plays_are_due_to_nobody(program: str, tmp_path: pathlib.Path, decided: pathlib.Path, amends: bool) -> None:
    returns = [Return("RADIO1", 1, [(A, 10, 10)]), Return("RADIO1", 2, [(B, 10, 10)])]
    desk = Desk(program, tmp_path, *returns, Pool(1, "PR", 1_000, {}, [("RADIO1", 1), ("RADIO1", 2)]))
    (decided / "void.txt").write_text("RADIO1/2  # a wrong month\n")
    if amends:
        desk.amend(1)
    desk.steps(file(HOUSE, 1, work("W1", B, holder(BORIS, 10_000))))
    # (what nobody has of the other recording is credited to nobody)
    desk.settled()
    assert desk.balances() == {} and desk.accounts()["UNCLAIMED"] == (1_000, 1_500)
    desk.steps(file(HOUSE, 2, work("W2", A, holder(ANNA, 10_000))))
    assert len(desk.settled()) == 1 and desk.balances() == {ANNA: 1_000}


def test_the_right_of_a_pool_is_amended_before_it_has_an_owner(desk: Desk) -> None:
    desk.amend(1, "--kind", "MR")
    desk.steps(file(HOUSE, 1, work("W1", A, holder(ANNA, 10_000, 0), holder(BORIS, 0, 10_000))))
    desk.settled()
    assert desk.balances() == {BORIS: 1_000}


def test_an_order_that_was_held_back(program: str, tmp_path: pathlib.Path) -> None:
    returns = [Return("RADIO1", k, [(A, 10, 10)]) for k in (1, 2)]
    desk = Desk(program, tmp_path, *returns, Pool(1, "PR", 1_000, {}, [("RADIO1", 1)]), Pool(2, "MR", 500, {}, [("RADIO1", 2)]))
    desk.steps(of_a())
    held = desk.due()
    again = desk.due()
    assert held == again and desk.send(*held, *again) == [201, 201, 200, 200]
    other = desk.due()
    assert json.loads(other[1][1])["kind"] == "MR" and desk.send(*other, *held) == [201, 201, 200, 200]
    assert desk.due() == [] and desk.balances() == {ANNA: 1_500}


def test_of_orders_over_one_copy_one_is_closed(desk: Desk) -> None:
    desk.steps(of_a())
    late = desk.due()
    change = desk.amended(1, "--amount", 400)
    assert [it[0] for it in late + change if "pools" in it[0]] == ["/pools/99999"] * 2
    assert desk.send(*change) == [201, 201] and desk.send(*late) == [201, 409]
    desk.settled()
    assert desk.balances() == {ANNA: 400}
    # An amendment that came too late is not in force, and says so.
    late = desk.amended(1, "--amount", 700)
    desk.steps(Return("RADIO1", 2, [(A, 1, 1)]), Pool(2, "PR", 50, {}, [("RADIO1", 2)]))
    assert "is not in force" in desk.run("dues", status=1)
    assert desk.send(*late) == [201, 201]
    desk.settled()
    assert desk.balances() == {ANNA: 750}


def test_orders_of_several_amendments_and_rounds_in_any_order(desk: Desk) -> None:
    desk.steps(of_a())
    first = desk.due()
    desk.amend(1, "--amount", 1_500)
    second = desk.due()
    desk.amend(1, "--amount", 800)
    third = desk.due()
    for letters in (first, second, third, second, first):
        desk.send(*letters)
    desk.settled()
    assert desk.balances() == {ANNA: 800}


def test_an_order_is_closed_over_its_own_return_alone(program: str, tmp_path: pathlib.Path) -> None:
    """Two orders of one number, of which each was half sent: the order of one is not closed over the return of the other."""
    desk = Desk(program, tmp_path, Return("RADIO1", 1, [(A, 1, 1), (B, 3, 1)]), Pool(1, "PR", 1_000, {}, [("RADIO1", 1)]))
    desk.steps(of_a())
    first = desk.due()
    desk.steps(file(OTHER, 1, work("W1", B, holder(BORIS, 10_000))))
    second = desk.due()
    assert desk.send(first[0], second[1]) == [201, 409]
    # (what was half sent takes no number)
    assert desk.settled() == [99_999] and desk.balances() == {ANNA: 250, BORIS: 750}


def test_a_return_is_paid_by_one_pool(program: str, tmp_path: pathlib.Path) -> None:
    desk = Desk(program, tmp_path, of_a(), *(Return("RADIO1", k, [(A, 10, 10)]) for k in (1, 2, 3)))
    desk.steps(Pool(1, "PR", 1_000, {HOUSE: 1}, [("RADIO1", 1)]), Pool(2, "PR", 1_000, {HOUSE: 1}, [("RADIO1", 3)]))
    change = desk.amended(1, "--amount", 2_000, "--returns", "RADIO1/1-2")
    desk.steps(Pool(3, "PR", 500, {HOUSE: 1}, [("RADIO1", 2)]))
    assert desk.send(*change) == [201, 409]
    assert "pool 99999 is closed over AMEND1/99999" in desk.run("dues", status=1)


def test_two_amendments_name_one_return(program: str, tmp_path: pathlib.Path) -> None:
    desk = Desk(program, tmp_path, of_a(), *(Return("RADIO1", k, [(A, 10, 10)]) for k in (1, 2, 3)))
    desk.steps(Pool(1, "PR", 1_000, {HOUSE: 1}, [("RADIO1", 1)]), Pool(2, "PR", 1_000, {HOUSE: 1}, [("RADIO1", 3)]))
    desk.amend(1, "--amount", 2_000, "--returns", "RADIO1/1-2")
    desk.amended(2, "--amount", 2_000, "--returns", "RADIO1/2-3", status=1)
    assert "RADIO1/2: of pool 1: amend that one first" in desk.said
    desk.amend(1, "--returns", "RADIO1/1")
    desk.amend(2, "--amount", 1_500, "--returns", "RADIO1/2-3")
    desk.settled()
    assert desk.balances() == {ANNA: 3_500}
    assert ["RADIO1", 2] not in json.loads(desk.run("propose", "--amount", 1, "--no-returns"))["returns"]


def test_what_weights_do_not_allow_ends(program: str, tmp_path: pathlib.Path) -> None:
    thirds = work("W1", A, *(holder(it, share) for it, share in ((ANNA, 3_333), (BORIS, 3_333), (CLARA, 3_334))))
    desk = Desk(program, tmp_path, file(HOUSE, 1, thirds), PLAYED[0], Pool(1, "PR", 1_000, {HOUSE: 1}, [("RADIO1", 1)]))
    half = work("W1", A, *(holder(it, 1_667) for it in (ANNA, BORIS, CLARA)), kind="REV")
    desk.steps(file(HOUSE, 2, half))
    for amount in (1_001, 1_007, 2_000, 13):
        desk.amend(1, "--amount", amount, "--cut", f"{HOUSE}=2")
        assert len(desk.settled()) <= 4
    assert all(paid <= max(due, 334) for it, (due, paid) in desk.accounts().items() if it != "UNCLAIMED")


def test_an_amended_pool_whose_conflict_was_settled(program: str, tmp_path: pathlib.Path) -> None:
    desk = Desk(program, tmp_path, of_a(), of_a(1, OTHER, BORIS), Return("RADIO1", 1, [(A, 10, 10)]), Return("RADIO1", 2, [(B, 5, 10)]))
    desk.steps(Pool(1, "PR", 1_000, {HOUSE: 1, OTHER: 1}, [("RADIO1", 1)]))
    desk.amend(1, "--returns", "RADIO1/1-2", "--amount", 1_500)
    desk.steps(file(OTHER, 2, work("W1", B, holder(BORIS, 10_000), kind="REV")))
    desk.settled()
    assert desk.balances() == {ANNA: 1_000, BORIS: 500}
    desk.amend(1, "--cut", "now")
    assert desk.settled() == [] and desk.balances() == {ANNA: 1_000, BORIS: 500}


def test_a_book_with_rounds_and_corrections_of_before(program: str, tmp_path: pathlib.Path) -> None:
    """SETTLED reads as LATE and CORRECTEDn as DUE: they have no due of their own, and what they credit is paid."""
    desk = Desk(program, tmp_path, *PLAYED, of_a(), Return("RADIO1", 2, [(B, 1, 1)]), Pool(2, "PR", 300, {}, [("RADIO1", 2)]))
    steps: list[Step] = [
        Return("SETTLED", 1, [(A, 600, 1)]),
        Pool(3, "PR", 600, {HOUSE: 1}, [("SETTLED", 1)]),
        file(HOUSE, 2, work("W2", B, holder(BORIS, 10_000))),
        Return("CORRECTED2", 2, [(B, 200, 1)]),
        Pool(4, "PR", 200, {HOUSE: 2}, [("CORRECTED2", 2)]),
    ]
    desk.steps(*steps)
    told = "pool 2 was corrected by CORRECTED2: say once by which order it is due: `amend COPY 2 --was-corrected ..`"
    assert told in desk.run("dues", status=1) and told in desk.run("amend", 2, "--amount", 250, status=1)
    desk.amend(2, "--amount", 250, "--was-corrected")
    assert desk.accounts() == {ANNA: (1_000, 600), BORIS: (250, 200), "UNCLAIMED": (0, 1_300)}
    # The work of the round owns the recording of the first pool from then on, whoever claims it later.
    desk.steps(of_a(1, OTHER, CLARA))
    assert desk.settled() == [99_998, 99_997] and desk.balances() == {ANNA: 1_000, BORIS: 250}
    assert json.loads(desk.run("propose", "--amount", 5, "--no-returns"))["returns"] == []
    assert "pool 3 is none that people have closed over plays" in desk.run("amend", 3, "--amount", 1, status=1)


def test_what_owns_a_recording_when_it_was_paid_late_owns_it(desk: Desk) -> None:
    desk.steps(of_a())
    held = desk.due()
    # Before the order was sent, another work claimed the recording, and the first one gave it up.
    desk.steps(of_a(1, OTHER, CLARA), file(HOUSE, 2, work("W1", B, holder(ANNA, 10_000), kind="REV")))
    assert desk.accounts()[CLARA] == (1_000, 0)
    other = desk.due()
    # (both pay the same units of the recording, so that their returns are the same)
    assert desk.send(*held, *other) == [201, 201, 200, 409]
    assert desk.accounts() == {ANNA: (1_000, 1_000), "UNCLAIMED": (0, 1_000)} and desk.due() == []


@pytest.mark.parametrize("apart", [False, True])
def test_what_is_too_much_is_set_off(program: str, tmp_path: pathlib.Path, apart: bool) -> None:
    works = file(HOUSE, 1, work("W1", A, holder(ANNA, 10_000)), work("W2", B, holder(ANNA, 10_000)))
    returns = [Return("RADIO1", 1, [(A, 1, 1)]), Return("RADIO1", 2, [(B, 1, 1)])]
    pools = [Pool(k, "PR", 1_000, {HOUSE: 1}, [("RADIO1", k)]) for k in (1, 2)]
    desk = Desk(program, tmp_path, works, *returns, *pools)
    desk.amend(1, "--amount", 400)
    desk.amend(2, "--amount", 1_900)
    assert desk.accounts()[ANNA] == (2_300, 2_000)
    order = desk.written("dues", *(["--no-set-off"] if apart else []))
    assert json.loads(order[1][1])["amount"] == (900 if apart else 300)
    desk.send(*order)
    assert "too much" in desk.run("dues", "--account", ANNA) and desk.due() == []


def test_that_nothing_is_lacking_is_told(desk: Desk, tmp_path: pathlib.Path) -> None:
    assert desk.run("dues") == "all that is due was paid, and nothing else\n"
    said = run_errors(desk, "dues", "--next", tmp_path / "next").splitlines()
    assert said[1:] == ["nothing is lacking that a further order can pay: nothing was written"] and not (tmp_path / "next").exists()


def test_how_an_order_is_sent_is_told(desk: Desk, tmp_path: pathlib.Path) -> None:
    desk.steps(of_a())
    said = run_errors(desk, "dues", "--next", tmp_path / "next").splitlines()
    [text], order = (tmp_path / "next").glob("LATE*-99999.csv"), tmp_path / "next/99999.json"
    reporter, office = text.stem.removesuffix("-99999"), "http://127.0.0.1:8080/v1"
    assert said[1:] == [
        f"pool 99999, 1,000 units of the PR; send it by `close {order}`, or by these two:",
        f"curl --noproxy '*' -fT {text} {office}/returns/{reporter}/99999 &&",
        f"curl --noproxy '*' -fT {order} {office}/pools/99999",
    ]


def test_nothing_is_written_that_passes_what_is_due(desk: Desk, monkeypatch: pytest.MonkeyPatch) -> None:
    desk.steps(of_a())
    monkeypatch.setattr(dues, "fitting", lambda weights, rooms, most: 1_001)
    assert desk.written("dues", status=1) == []
    assert "the program would pay beyond what is due: 1,001 units of ATABC2600001 to I00000000101, which lacks 1,000 of it" in desk.said


def test_nothing_is_written_that_passes_what_somebody_lacks_in_all(
    program: str, tmp_path: pathlib.Path, monkeypatch: pytest.MonkeyPatch
) -> None:
    works = file(HOUSE, 1, work("W1", A, holder(ANNA, 10_000)), work("W2", B, holder(ANNA, 10_000)))
    returns = [Return("RADIO1", 1, [(A, 1, 1)]), Return("RADIO1", 2, [(B, 1, 1)])]
    desk = Desk(program, tmp_path, works, *returns, *(Pool(k, "PR", 1_000, {HOUSE: 1}, [("RADIO1", k)]) for k in (1, 2)))
    desk.amend(1, "--amount", 400)
    desk.amend(2, "--amount", 1_900)
    monkeypatch.setattr(dues, "fitting", lambda weights, rooms, most: 900 if rooms[ANNA] else 0)
    assert desk.written("dues", status=1) == []
    passed = f"900 units to {ANNA}, which lacks 300 in all"
    assert desk.said == f"society-office: nothing was written, since the program would pay beyond what is due: {passed}\n"
    assert len(desk.written("dues", "--no-set-off")) == 2


def test_what_the_office_itself_has_closed_is_due_by_no_order(desk: Desk) -> None:
    desk.steps(of_a())
    assert desk.settled() == [99_999]
    desk.amend(1, "--amount", 900)
    for pool in (99_998, 99_999):
        said = desk.run("dues", "--pool", pool, status=1)
        assert said == f"society-office: pool {pool} is none that people have closed over plays\n"


def test_an_amendment_shows_no_void_returns_of_other_pools(program: str, tmp_path: pathlib.Path, decided: pathlib.Path) -> None:
    works = file(HOUSE, 1, work("W1", f"{A} {B}", holder(ANNA, 10_000)))
    returns = [Return("RADIO1", 1, [(A, 1, 1)]), Return("RADIO1", 2, [(B, 1, 1)])]
    desk = Desk(program, tmp_path, works, *returns, *(Pool(k, "PR", 1_000, {HOUSE: 1}, [("RADIO1", k)]) for k in (1, 2)))
    (decided / "void.txt").write_text("RADIO1/2  # a wrong month\n")
    shown = json.loads(desk.run("amend", 1, "--amount", 600, "--format", "json"))
    assert {it["account"]: (it["due"], it["paid"]) for it in shown} == {ANNA: (600, 2_000), "UNCLAIMED": (1_000, 0)}


def test_an_amendment_and_its_list(desk: Desk, decided: pathlib.Path) -> None:
    listed = decided / "amendments.txt"
    desk.steps(of_a())
    change = desk.amended(1, "--amount", 300)
    assert listed.read_text().splitlines()[1:] == ['99999 1 {"amount":300,"cut":[],"returns":[["RADIO1",1]]}']
    # The same words write it again, and others are refused until it is in force or gone.
    assert desk.amended(1, "--amount", 300) == change and len(listed.read_text().splitlines()) == 2
    assert "another amendment that is not in force" in desk.run("amend", 1, "--amount", 301, status=1)
    text = listed.read_text()
    for wrong in ('99999 7 {"amount":1,"cut":[],"returns":[]}', '99999 1 {"amount":1}'):
        listed.write_text(wrong + "\n")
        desk.run("dues", status=1)
    listed.write_text("")
    assert desk.send(*change) == [201, 201]
    assert "pool 99999 amends pool 1, and the list of amendments has no line `99999 1 ..`" in desk.run("dues", status=1)
    listed.write_text(text)
    assert desk.settled() == [99_998] and desk.balances() == {ANNA: 300}
    # Returns that an amendment adds are paid by its pool, so that nobody pays them again; one that it does not name is told.
    desk.steps(Return("RADIO1", 2, [(A, 1, 1)]))
    listed.write_text(text + '99997 1 {"amount":300,"cut":[],"returns":[["RADIO1",1],["RADIO1",2]]}\n')
    assert "is not in force" in desk.run("dues", status=1)
    listed.write_text(text)
    desk.amend(1, "--amount", 500, "--returns", "RADIO1/1-2")
    assert desk.run("propose", "--amount", 5, "--returns", "RADIO1/2", status=1).endswith("paid by pool 99997\n")
    assert json.loads(desk.run("dues", "--pool", 1, "--format", "json"))[0]["due"] == 500
    for words, why in {
        ("--returns", "RADIO1/3"): "no such return is stored",
        ("--returns", "AMEND1/99997"): "a return of the office itself",
        ("--cut", f"{HOUSE}=7"): "has all files up to 1 only",
    }.items():
        assert why in desk.run("amend", 1, *words, status=1)
    (decided / "void.txt").write_text("RADIO1/2\n")
    assert "RADIO1/2: void" in desk.run("amend", 1, "--returns", "RADIO1/2", status=1)
    for number in (7, 99_999):
        assert f"pool {number} is none that people have closed" in desk.run("amend", number, "--amount", 1, status=1)
    assert "--into and --why belong together" in desk.run("amend", 1, "--why", "so", status=2)


def test_a_line_that_was_changed_by_hand(desk: Desk, decided: pathlib.Path) -> None:
    desk.steps(of_a(), Return("RADIO1", 2, [(A, 1, 1)]), Return("RADIO1", 3, [(A, 1, 1)]), Pool(2, "PR", 50, {}, [("RADIO1", 3)]))
    desk.amend(1, "--amount", 300)
    listed = decided / "amendments.txt"
    text = listed.read_text()
    listed.write_text(text.replace('["RADIO1",1]', '["RADIO1",1],["RADIO1",2]'))
    assert "`99999 1` adds RADIO1/2, which pool 99999 does not name" in desk.run("dues", status=1)
    listed.write_text(text.replace('["RADIO1",1]', '["RADIO1",1],["RADIO1",3]'))
    assert "RADIO1/3 is of pool 1 and of pool 2: amend one of them" in desk.run("dues", status=1)


def test_an_order_that_was_sent_under_a_wrong_number_counts_as_paid(desk: Desk) -> None:
    desk.steps(of_a())
    letters = desk.due()
    assert desk.send(letters[0], ("/pools/2", letters[1][1])) == [201, 201]
    assert desk.accounts()[ANNA] == (1_000, 1_000) and desk.due() == [] and desk.send(letters[1]) == [409]
    desk.amend(1, "--amount", 1_200)
    assert desk.settled() == [99_997] and desk.balances() == {ANNA: 1_200}
    assert "pool 3 is free" in run_errors(desk, "propose", "--amount", 5, "--no-returns")
    # The office's own returns are of no station.
    desk.run("site", "--into", desk.folder / "site")
    page = (desk.folder / "site/stations.html").read_text()
    own = page.split("<h2>Returns of the office itself</h2>")[1].split("</section>")[0]
    stations = page.replace(own, "")
    assert "RADIO1" in stations and "LATE" not in stations and "AMEND" not in stations
    assert "LATE" in own and "AMEND" in own and "RADIO1" not in own


def test_the_words_of_before_name_what_took_their_place(desk: Desk) -> None:
    assert "`society-office amend COPY POOL` says how an order should have been" in desk.run("correct", 1, "--amount", 5, status=1)
    assert "`society-office dues COPY --next FOLDER`" in desk.run("unclaimed", "--settle", "x", status=2)


def test_numbers_go_down_past_pools_of_people(program: str, tmp_path: pathlib.Path) -> None:
    desk = Desk(program, tmp_path, *PLAYED, Return("RADIO1", 2, [(B, 1, 1)]), Pool(99_999, "PR", 10, {}, [("RADIO1", 2)]))
    desk.steps(of_a())
    assert desk.settled() == [99_998]
    assert "pool 2 is free" in run_errors(desk, "propose", "--amount", 5, "--no-returns")


def run_errors(desk: Desk, *words: object) -> str:
    """What a command says on standard error."""
    command, *rest = (str(it) for it in words)
    return CliRunner(mix_stderr=False).invoke(main, [command, str(desk.live), *rest], catch_exceptions=False).stderr


def test_what_an_amendment_changes_is_told() -> None:
    was = Order("PR", 1_000, [(HOUSE, 1)], [("RADIO1", 1), ("RADIO1", 2)])
    now = Order("MR", 2_000, [(OTHER, 2)], [("RADIO1", 2), ("RADIO1", 3)])
    assert list(remarks_on(was, now)) == [
        "amount 2,000 in the place of 1,000",
        "of the MR in the place of the PR",
        f"the cut counts {HOUSE} up to nothing, and was 1",
        f"the cut counts {OTHER} up to 2, and was without it",
        "pays RADIO1/3 too",
        "does not pay RADIO1/1",
    ]
    assert list(remarks_on(was, was)) == []


def test_an_amendment_keeps_void_returns_and_shows_what_is_due_without_them(
    program: str, tmp_path: pathlib.Path, decided: pathlib.Path
) -> None:
    returns: list[Step] = [Return("RADIO1", 1, [(A, 10, 10)]), Return("RADIO1", 2, [(B, 10, 10)])]
    desk = Desk(program, tmp_path, of_a(), *returns, Pool(1, "PR", 1_000, {HOUSE: 1}, [("RADIO1", 1), ("RADIO1", 2)]))
    (decided / "void.txt").write_text("RADIO1/2  # a wrong month\n")
    shown = json.loads(desk.run("amend", 1, "--amount", 600, "--format", "json"))
    assert {it["account"]: it["due"] for it in shown} == {ANNA: 600, "UNCLAIMED": 0}
    desk.amend(1, "--amount", 600)
    assert (decided / "amendments.txt").read_text().endswith('"returns":[["RADIO1",1],["RADIO1",2]]}\n')
    assert "- amount 700 in the place of 600\n" in desk.run("amend", 1, "--amount", 700)


def test_nothing_is_listed_that_the_program_refuses(desk: Desk, decided: pathlib.Path, monkeypatch: pytest.MonkeyPatch) -> None:
    def refuses(*_: object) -> None:
        raise OfficeError("it is refused")

    before = (decided / "amendments.txt").read_text()
    monkeypatch.setattr(dues_commands, "closed", refuses)
    assert desk.amended(1, "--amount", 300, status=1) == [] and "it is refused" in desk.said
    assert (decided / "amendments.txt").read_text() == before
