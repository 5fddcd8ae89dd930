"""How credits came about, as text, CSV and JSON."""

import csv
import dataclasses
import io
import json
from collections.abc import Iterator
from typing import Any

from rich.console import Console

from society_office.basics.plain_text import plain
from society_office.basics.terminal import console, table
from society_office.credits.explaining import Explained, Explanation, Lacked, Part
from society_office.formats.numbering import counted
from society_office.formats.pool_names import POOL_COLUMNS, PoolNames, named, pool_text

COLUMNS = ["pool", "right", "isrc", "title", "work", "publisher", "file", "reporter", "return", "plays", "seconds", "points"]
RECKONED = ["amount", "pool_points", "recording_points", "recording_units", "weight", "weights", "units", *POOL_COLUMNS]


def reckoned(it: Part) -> str:
    """A part as it is reckoned: the division, and where units are left, to which remainders they go."""
    words = f"{it.amount:,} * {it.weight:,} / {it.all_weights:,} = {it.whole:,}"
    if not it.left:
        return words
    who = "the last unit goes to number 1" if it.left == 1 else f"the last {it.left:,} units go to the numbers 1 to {it.left:,}"
    return f"{words}, remainder {it.remainder:,} (number {it.place:,}; {who}): {it.units:,}"


def percent_text(hundredths: int) -> str:
    """Hundredths of a percent as people write them: 50 %, 33.34 %."""
    return f"{hundredths / 100:.2f}".rstrip("0").rstrip(".") + " %"


def owner_text(it: Explained) -> str:
    """Whose a recording is."""
    if it.owned.why:
        return f"{it.isrc}: {it.owned.why}"
    return f"{it.isrc}: {it.owned.title}, work {it.owned.work} of {it.owned.publisher} {it.owned.publisher_name}, file {it.owned.file}"


def share_text(it: Explained, found: Explanation) -> str:
    """The account's part of a recording's units."""
    who = it.party or found.account
    if it.owned.why:
        return f"{who}: all of it"
    return f"{who}, {percent_text(it.share.weight)} of the {found.right}: {reckoned(it.share)}"


def show(found: Explanation, names: PoolNames, out: Console) -> None:
    """Prints it; of a make-up what was lacking by each pool that it makes up, and what it pays of that."""
    out.print(f"{found.account} {found.name}".rstrip())
    over = "" if found.lacked else f" over {found.points:,} points"
    out.print(f"{pool_text(names, found.pool)} of the {found.right}: {found.amount:,} units{over}")
    for words in found.notes:
        out.print(words, soft_wrap=True)
    if found.lacked:
        show_make_up(found, names, out)
    else:
        for it in found.credits:
            out.print()
            show_credit(it, found, out)
    out.print()
    out.print(f"{found.units:,} units in all, which is what the statement has")


def show_make_up(found: Explanation, names: PoolNames, out: Console) -> None:
    """Prints what was lacking by each pool that a make-up makes up, and what it pays of that."""
    for it in found.lacked:
        out.print()
        show_lacked(it, found, names, out)
    out.print()
    for isrc in dict.fromkeys(it.isrc for it in found.credits):
        out.print(paid_text(found, isrc), soft_wrap=True)


def show_credit(it: Explained, found: Explanation, out: Console) -> None:
    """Prints how a credit comes about."""
    out.print(owner_text(it), soft_wrap=True)
    if it.played:
        rows = [(play.reporter, str(play.number), play.plays, play.seconds, play.points) for play in it.played]
        out.print(table(["station", "return", "plays", "seconds", "points"], rows, ["return", "plays", "seconds", "points"]))
        out.print(f"the recording, {counted(it.part.weight, 'point')}: {reckoned(it.part)}", soft_wrap=True)
    out.print(share_text(it, found), soft_wrap=True)


def show_lacked(it: Lacked, found: Explanation, names: PoolNames, out: Console) -> None:
    """Prints what was due of a recording by a pool that is made up."""
    out.print(f"due by {pool_text(names, it.pool)}, {counted(it.amount, 'unit')} over {counted(it.points, 'point')}:", soft_wrap=True)
    for one in it.due:
        show_credit(one, found, out)
    out.print(f"{counted(it.units, 'unit')} due, of which pool {it.pool} had credited {it.credited:,}", soft_wrap=True)


def paid_text(found: Explanation, isrc: str) -> str:
    """What was lacking of a recording, and what of it is paid."""
    own = [it for it in found.lacked if it.isrc == isrc]
    lacking = sum(it.units - it.credited for it in own) - found.made_up.get(isrc, 0)
    before = f", without {found.made_up[isrc]:,} that make-ups had paid before" if found.made_up.get(isrc) else ""
    units = sum(it.units for it in found.credits if it.isrc == isrc)
    return f"{isrc}: {counted(lacking, 'unit')} lacking{before}; pool {found.pool} pays {units:,} of it"


def as_text(found: Explanation, names: PoolNames) -> str:
    """What is printed of it."""
    out = console()
    with out.capture() as captured:
        show(found, names, out)
    return captured.get()


def csv_rows(found: Explanation, names: PoolNames) -> Iterator[list[object]]:
    """A row for each length of plays in a return; the units of a credit stand in its first row, so that they add up."""
    name, first, last = named(names, found.pool)
    for it in found.credits:
        own = [found.pool, found.right, it.isrc, plain(it.owned.title), plain(it.owned.work), it.owned.publisher, it.owned.file]
        plays: list[list[object]] = [[play.reporter, play.number, play.plays, play.seconds, play.points] for play in it.played]
        for k, play in enumerate(plays or [[""] * 5]):
            share = [it.share.weight, it.share.all_weights, it.units if k == 0 else ""]
            yield [*own, *play, found.amount, found.points, it.part.weight, it.part.units, *share, plain(name), first, last]


def as_csv(found: Explanation, names: PoolNames) -> str:
    """It as CSV with a header."""
    out = io.StringIO()
    writer = csv.writer(out, lineterminator="\n")
    writer.writerow(COLUMNS + RECKONED)
    writer.writerows(csv_rows(found, names))
    return out.getvalue()


def part_data(it: Part) -> dict[str, int]:
    """A part as JSON has it."""
    return {**dataclasses.asdict(it), "whole": it.whole, "remainder": it.remainder, "last": it.last}


def as_json(found: Explanation, names: PoolNames) -> str:
    """It as JSON."""
    name = names.get(found.pool)
    credits: list[dict[str, Any]] = [
        {
            "isrc": it.isrc,
            **dataclasses.asdict(it.owned),
            "plays": [{**dataclasses.asdict(play), "points": play.points} for play in it.played],
            "recording": part_data(it.part),
            "party": it.party,
            "share": part_data(it.share),
            "units": it.units,
        }
        for it in found.credits
    ]
    head = {
        "account": found.account,
        "name": found.name,
        "pool": found.pool,
        "pool_name": name.name if name else "",
        "period": name.period if name else "",
        "right": found.right,
        "amount": found.amount,
        "points": found.points,
        "units": found.units,
    }
    lacked = [
        {"pool": it.pool, "amount": it.amount, "points": it.points, "isrc": it.isrc, "due": it.units, "credited": it.credited}
        for it in found.lacked
    ]
    return json.dumps({**head, "notes": found.notes, "credits": credits, "lacked": lacked}, ensure_ascii=False, indent=1) + "\n"


FORMS = {"table": as_text, "csv": as_csv, "json": as_json}
