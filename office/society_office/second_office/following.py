"""How far a standby is behind: the time up to which it has all that the office has, and what has come since."""

import dataclasses
import json
import pathlib
import time
from typing import Any

from society_office.basics.errors import OfficeError
from society_office.book.copy import Copy
from society_office.formats.numbering import as_sent, counted
from society_office.printed.pages import text_of, write_text
from society_office.second_office.resending import Tally

MINUTE = 60
# So many things are named.
MOST_TOLD = 5
NOTHING: dict[str, Any] = {"fronts": {}, "held": {}, "ends": 0, "returns": 0, "orders": 0}


@dataclasses.dataclass
class Following:
    """What is kept of a standby between one resending and the next."""

    standby: str
    # When the copy was made of which it has all; before there is one, when the first was resent.
    since: float
    has: dict[str, Any] = dataclasses.field(default_factory=lambda: NOTHING)
    lacks: str = ""
    # What it had beyond a copy, the last time and each time since the time before: what came meanwhile is in the next copy.
    more: list[str] = dataclasses.field(default_factory=list)
    ahead: list[str] = dataclasses.field(default_factory=list)
    refused: list[str] = dataclasses.field(default_factory=list)

    @property
    def minutes(self) -> float:
        """For how long it was not known to have all."""
        return max(0.0, time.time() - self.since) / MINUTE

    @property
    def words(self) -> str:
        """How it is, in a line."""
        when = f"{time.strftime('%Y-%m-%d %H:%M:%S', time.localtime(self.since))} ({self.minutes:,.0f} minutes ago)"
        if self.refused:
            return f"{self.standby} is not the same any more: {'; '.join(self.refused)}"
        if self.ahead:
            told = "; ".join(self.ahead[:MOST_TOLD])
            return f"{self.standby} has what the office has not: {told}. The office has lost it: take a copy of the standby, and restore it"
        if self.lacks:
            return f"{self.standby} is known to have all until {when}. What has come since: {self.lacks}"
        return f"{self.standby} has all that came until {when}"

    def caught_up(self, copy: Copy, tally: Tally) -> None:
        """All of a copy was sent to it."""
        self.lacks, self.refused = "", list(tally.causes())
        if not self.refused:
            self.since, self.has = copy.taken, held_by(copy)

    def compared(self, more: list[str]) -> None:
        """What it has beyond the copy that was sent: what it had before too, and the next copy still has not, the office has lost."""
        self.more, self.ahead = more, [it for it in more if it in self.more]

    def fell_behind(self, copy: Copy) -> None:
        """Not all of a copy could be sent to it. Where the clock was set back since, it counts from now on."""
        self.since = min(self.since, time.time())
        self.lacks = come_since(self.has, held_by(copy)) or "nothing"

    def keep(self, path: pathlib.Path) -> None:
        """Keeps it for next time."""
        write_text(path, json.dumps(dataclasses.asdict(self)))


def kept(path: pathlib.Path) -> Following:
    """What was kept; an OfficeError where there is nothing, or something else."""
    try:
        found = Following(**json.loads(text_of(path)))
        if not isinstance(found.has, dict) or not isinstance(found.refused, list) or found.since is None:
            raise TypeError("other values")
        # (what is no time can't be told as one)
        time.localtime(found.since)
        return found
    except (OSError, ValueError, TypeError, OverflowError, RecursionError) as error:
        raise OfficeError(f"{path} is not what `resend --state` keeps: {error}") from error


def begun(path: pathlib.Path, standby: str) -> Following:
    """What was kept of a standby; a new one where that was another's, or there is nothing."""
    if path.exists() and (found := kept(path)).standby == standby:
        return found
    return Following(standby, time.time())


def held_by(copy: Copy) -> dict[str, Any]:
    """How much a copy has of each kind: fronts, held numbers, ends, returns, orders."""
    copy.need_derived()
    lines = copy.lines()
    counts = {"returns": "returns", "orders": "pools", **({"ends": "segment_ends"} if copy.layout >= 3 else {})}
    return {
        **NOTHING,
        "fronts": {it.sender: as_sent(it.front) for it in lines},
        "held": {it.sender: [as_sent(number) for number in it.waiting + it.skipped] for it in lines},
        **{kind: copy.row(f"SELECT count(*) FROM {table}")[0] for kind, table in counts.items()},
    }


def come_since(had: dict[str, Any], has: dict[str, Any]) -> str:
    """What an office has that it had not."""
    found = []
    moved = [sender for sender, front in has["fronts"].items() if front != had["fronts"].get(sender, "0")]
    if moved:
        first = f"{moved[0]} from {had['fronts'].get(moved[0], '0')} to {has['fronts'][moved[0]]}"
        found.append(f"fronts of {counted(len(moved), 'sender')} ({first}{' and others' if len(moved) > 1 else ''})")
    held = sum(len(set(numbers) - set(had["held"].get(sender, []))) for sender, numbers in has["held"].items())
    counts = {"held number": held, **{kind[:-1]: has[kind] - had[kind] for kind in ("ends", "returns", "orders")}}
    return ", ".join(found + [counted(count, noun) for noun, count in counts.items() if count > 0])
