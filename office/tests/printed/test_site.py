"""Pages of the office, and whether it is well."""

import json
import pathlib
import re

import quarter
import reckoning
from command import run
from conftest import ROOT, further
from society_office.book.copy import open_copy
from society_office.credits.unclaimed import Cause, Unclaimed
from society_office.printed.site import Site

COMMANDS = (
    "adjust amend balances check close compare decisions dues explain file health ledger members parties pay propose rebuild rehearse "
    "resend returned site statement unclaimed unknown void why works"
)
CAUSES = {"none": "nobody", "plays": "nobody", "share": "share", "conflict": "conflict"}


def test_the_parts_of_a_pool(copy: pathlib.Path) -> None:
    with open_copy(copy) as opened:
        pools = {it.pool: it for it in Site(opened, None, lambda _: None).pools}
    for pool, right, amount, _, _ in quarter.POOLS:
        wanted = {"paid": amount, "settled": 0, "share": 0, "conflict": 0, "nobody": 0}
        for cause, units in reckoning.unclaimed(quarter.OFFICE, pool).values():
            wanted[CAUSES[cause]] += units
            wanted["paid"] -= units
        assert (pools[pool].parts, pools[pool].right, pools[pool].amount) == (wanted, right, amount)


def test_a_recording_is_counted_once(copy: pathlib.Path, tmp_path: pathlib.Path, program: str) -> None:
    steps = [("/returns/RADIO7/" + it, b"isrc,plays,seconds\nZZZZZ2600001,1,1\n") for it in "12"]
    steps += [("/pools/" + it, b'{"amount":5,"cut":[],"returns":[["RADIO7",%s]]}' % it[1:].encode()) for it in ("71", "72")]
    steps.append(("/pools/73", b'{"amount":1,"cut":[],"returns":[]}'))
    office = further(program, copy, steps, tmp_path / "then.db")
    with open_copy(office) as opened:
        found = [it for it in Unclaimed(opened).items() if it.cause is Cause.NOBODY]
    recordings, units = {it.isrc for it in found}, sum(it.units for it in found)
    assert len(recordings) < len(found)
    said = run("unclaimed", office)
    assert f"nobody has the recording: {units:,} units, {len(recordings)} recording" in said
    assert "no plays: 13 units, 2 pools" in said
    assert "no plays: 1 unit, 1 pool\n" in run("unclaimed", office, "--pool", 73)


def test_the_pages(copy: pathlib.Path, tmp_path: pathlib.Path, decided: pathlib.Path) -> None:
    (decided / "void.txt").write_text(quarter.VOID)
    folder = tmp_path / "site"
    run("site", copy, "--into", folder)
    pages = {str(it.relative_to(folder)): it.read_text() for it in folder.rglob("*.html")}
    assert {f"senders/{it}.html" for it in quarter.NAMES} | {f"pools/{it.pool}.html" for it in quarter.POOLS} <= set(pages)
    for name, page in pages.items():
        assert ("<script" in page) == ("script-src" in page) == (name == "works.html"), name
        assert "style=" not in re.sub(r'style="(width|margin-top): [\d.]+(%|rem)"', "", page), name
        for target in re.findall(r'(?:href|src)="([^"#:?]+)[?"]', page):
            assert (folder / name).parent.joinpath(target).resolve().exists(), (name, target)
        assert "<SONG>" not in page
        for head in re.findall(r"<th\b[^>]*>", page):
            assert "scope=" in head, (name, head)
    assert "DELTA &amp; SONS" in pages["senders.html"] and "never applied: 25-0001" in pages["senders.html"]
    rejected, _, cured = pages["rejected.html"].partition("<h2>Registered since")
    assert "registered since: revision 0 with file 3" in cured and "TOO MUCH" not in rejected and "THREE FAULTS" in rejected
    assert "TOO MUCH" not in pages[f"senders/{quarter.ALPHA}.html"].partition("<h2>Rejected works")[2]
    assert "registered since" in cured and ">void<" in pages["stations.html"]
    assert f"{sum(it.amount for it in quarter.POOLS):,}" in pages["balances.html"]
    balances = dict(it.rsplit(",", 1) for it in (folder / "balances.csv").read_text().splitlines()[1:])
    assert {it.split(",")[0]: int(units) for it, units in balances.items()} == reckoning.balances(quarter.OFFICE)
    (folder / "pools/99.html").write_text("of an older copy")
    run("site", copy, "--into", folder)
    assert not (folder / "pools/99.html").exists()


def test_every_command_tells_itself(program: str) -> None:
    del program
    commands = re.findall(r"^  (\w+) ", run("--help").partition("Commands:")[2], re.MULTILINE)
    assert sorted(commands) == sorted(COMMANDS.split())
    manual = (ROOT / "debian/man/society-office.1").read_text()
    for command in commands:
        said = run(command, "--help")
        assert f".SS {command}" in manual
        for option in re.findall(r"^  (?:-h, )?(--[a-z]+)", said, re.MULTILINE):
            assert option.replace("-", r"\-") in manual or option == "--help", (command, option)


def test_the_desk_is_told_all_senders_and_reporters(copy: pathlib.Path, tmp_path: pathlib.Path) -> None:
    run("site", copy, "--into", tmp_path / "site")
    found = json.loads((tmp_path / "site/desk.json").read_text())
    with open_copy(copy) as opened:
        assert [it[0] for it in found["senders"]] == [it.sender for it in opened.lines()]
        assert found["reporters"] == sorted({it for it, in opened.rows("SELECT reporter FROM returns")})
    assert dict(found["senders"])[quarter.ALPHA] == quarter.NAMES[quarter.ALPHA]
