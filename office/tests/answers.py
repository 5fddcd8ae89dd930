"""What the commands that answer questions have to say of an office, beside the reckoning."""

import csv
import io
import json
import pathlib
import re
from collections import Counter

import reckoning
from command import run
from office_value import File, Office, Return, sent


def rows_of(text: str) -> list[dict[str, str]]:
    return list(csv.DictReader(io.StringIO(text)))


def check_explained(copy: pathlib.Path, office: Office, pool: int, account: str) -> None:
    """How each credit of an account in a pool came about."""
    found = json.loads(run("explain", copy, account, "--pool", pool, "--format", "json"))
    _, right, amount, _, returns = office.pools[pool]
    points = reckoning.points(office, returns)
    wanted = [it for it in reckoning.credits(office, pool) if it[1] == account]
    assert (found["right"], found["amount"], found["points"]) == (right, amount, sum(points.values()))
    assert [(it["isrc"], account, it["units"]) for it in found["credits"]] == wanted and found["units"] == sum(it[2] for it in wanted)
    for it in (one[which] for one in found["credits"] for which in ("recording", "share")):
        assert (it["whole"], it["remainder"]) == divmod(it["amount"] * it["weight"], it["all_weights"])
        assert it["last"] == it["units"] - it["whole"] == (it["place"] <= it["left"])
    for it in found["credits"]:
        isrc, owners = it["isrc"], reckoning.claimants(office, pool, it["isrc"])
        assert {(one["reporter"], one["number"], one["seconds"]): one["plays"] for one in it["plays"]} == plays_of(office, pool, isrc)
        weights = reckoning.holders(office, *owners[0], right) if len(owners) == 1 else [(account, 1)]
        assert (account, it["share"]["weight"]) in weights and it["share"]["all_weights"] == sum(one[1] for one in weights)
        assert it["share"]["amount"] == it["recording"]["units"]
        assert it["recording"]["units"] == sum(one[2] for one in reckoning.credits(office, pool) if one[0] == isrc)
        assert it["recording"]["weight"] == points.get(isrc, 1)
        assert (it["recording"]["amount"], it["recording"]["all_weights"]) == (amount, sum(points.values()) or 1)
        title, work, sender = (owners[0][1].title, owners[0][1].number, owners[0][0]) if len(owners) == 1 else ("", "", "")
        assert (it["title"], it["work"], it["publisher"], bool(it["why"])) == (title, work, sender, len(owners) != 1)
    rows = rows_of(run("explain", copy, account, "--pool", pool, "--format", "csv"))
    assert [(it["isrc"], account, int(it["units"])) for it in rows if it["units"]] == wanted
    assert all(int(it["plays"]) * int(it["seconds"]) == int(it["points"]) for it in rows if it["plays"])
    columns = ("amount", "pool_points", "recording_points", "recording_units", "weight", "weights")
    assert [[int(it[one]) for one in columns] for it in rows] == [
        [amount, found["points"], it["recording"]["weight"], it["recording"]["units"], it["share"]["weight"], it["share"]["all_weights"]]
        for it in found["credits"]
        for _ in it["plays"] or [None]
    ]
    for isrc, points_of_it in points.items():
        own = [int(it["points"]) for it in rows if it["isrc"] == isrc]
        assert sum(own) == points_of_it * len([it for it in wanted if it[0] == isrc])


def plays_of(office: Office, pool: int, isrc: str) -> Counter[tuple[str, int, int]]:
    """The plays of a recording in a pool, by return and length."""
    found = Counter[tuple[str, int, int]]()
    for reporter, number in office.pools[pool].returns:
        for written, count, seconds in office.returns[reporter, number]:
            if written.upper().replace("-", "") == isrc:
                found[reporter, number, seconds] += count
    return found


def balances_by_pool(office: Office) -> dict[tuple[str, int, str], int]:
    """What each pool credits to each account, with its right."""
    found = Counter[tuple[str, int, str]]()
    for pool, it in office.pools.items():
        for _, account, units in reckoning.credits(office, pool):
            found[account, pool, it.right] += units
    return dict(found)


def check_balances(copy: pathlib.Path, office: Office) -> None:
    """Balances by pool and right."""
    rows = rows_of(run("balances", copy))
    assert {(it["account"], int(it["pool"]), it["right"]): int(it["units"]) for it in rows} == balances_by_pool(office)


def check_stored(copy: pathlib.Path, office: Office) -> None:
    """The bytes of each return and file."""
    target = copy.with_name("stored")
    for it in office.steps:
        if isinstance(it, Return):
            run("returned", copy, f"{it.reporter}/{it.number}", "--output", target)
            assert target.read_bytes() == office.request(it)[1]
        elif isinstance(it, File):
            run("file", copy, it.sender, sent(it.number), "--output", target)
            assert target.read_bytes() == office.request(it)[1]
    target.unlink(missing_ok=True)


def check_why(copy: pathlib.Path, office: Office) -> None:
    """What became of each file."""
    for sender in {it.sender for it in office.files}:
        said = run("why", copy, sender)
        found = re.findall(r"^file (\S+): (?:(\d+) accepted, (\d+) rejected|(waits|is never applied))$", said, re.MULTILINE)
        rejected = re.findall(r"^  REJECTED (\S+) .*, fault (\d+): ", said, re.MULTILINE)
        own = [it for it in office.files if it.sender == sender]
        assert [str(sent(it.number)) for it in own] == [it[0] for it in found]
        wanted = []
        for it, (_, accepted, refused, waits) in zip(own, found):
            assert ((it.sender, it.number) in office.held) == bool(waits)
            if not waits:
                assert (int(accepted), int(refused)) == (sum(not one.fault for one in it.works), sum(one.fault > 0 for one in it.works))
                ordered = sorted(it.works, key=lambda one: one.kind)
                wanted += [(one.number, str(one.fault)) for one in ordered if one.fault]
        assert rejected == wanted


def check_pages(copy: pathlib.Path, office: Office, folder: pathlib.Path) -> None:
    """The pages: balances, rejected works, stations, and the parts of pools."""
    run("site", copy, "--into", folder)
    found = {it["account"]: int(it["units"]) for it in rows_of((folder / "balances.csv").read_text())}
    assert found == reckoning.balances(office)
    rejected = [it for file in office.files if (file.sender, file.number) in office.applied for it in file.works if it.fault]
    assert sorted((it["work"], int(it["fault"])) for it in rows_of((folder / "rejected.csv").read_text())) == sorted(
        (it.number, it.fault) for it in rejected
    )
    stations = (folder / "stations.html").read_text()
    for reporter in {it[0] for it in office.returns}:
        points = sum(plays * seconds for key, rows in office.returns.items() if key[0] == reporter for _, plays, seconds in rows)
        assert f'{reporter}</a></th><td class="number" data-label="Points">{points:,}<' in stations
    for pool, it in office.pools.items():
        page = (folder / f"pools/{pool}.html").read_text()
        nobodys = sum(units for _, units in reckoning.unclaimed(office, pool).values())
        assert f"<dt>units</dt><dd>{it.amount:,}<" in page and f"<dt>paid</dt><dd>{it.amount - nobodys:,}<" in page
        causes = Counter[str]()
        for cause, units in reckoning.unclaimed(office, pool).values():
            causes[cause] += units
        for words, units in (
            ("share that nobody collects", causes["share"]),
            ("claimed by several", causes["conflict"]),
            ("no owner at the cut", causes["none"] + causes["plays"]),
        ):
            assert f"<dt>{words}</dt><dd>{units:,}<" in page
