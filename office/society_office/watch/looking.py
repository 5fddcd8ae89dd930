"""Whether the office has the returns and pools of a backup, and whether what a new machine needs is there beside the book."""

import pathlib

from society_office.book.copy import open_copy
from society_office.decided import decisions
from society_office.offices.answered import Asked, lost_money
from society_office.watch.findings import GOOD, WARNING, WRONG, Finding


def look_at_money(backup: pathlib.Path, office: Asked) -> Finding:
    """Whether the office has the last return of each reporter, and the balances, of a backup."""
    with open_copy(backup) as copy:
        if copy.layout == 1:
            return Finding("money", GOOD, f"{backup.name} is of layout 1, which has no balances to compare", 0, "missing")
        missing = [it.words for it in lost_money(copy, office)]
    if missing:
        return Finding("money", WRONG, f"the office has not what {backup.name} has: {'; '.join(missing[:5])}", len(missing), "missing")
    return Finding("money", GOOD, f"the office has the returns and pools of {backup.name}", 0, "missing")


def look_at_decisions(folder: pathlib.Path, backup: pathlib.Path | None) -> Finding:
    """Whether the folder of decisions can be read, is what the journal says, and stands with all else beside the newest backup."""
    found = decisions.read(folder)
    if by_hand := found.changed_by_hand:
        words = f"{folder}: {', '.join(by_hand)} changed since the last line of the journal: `society-office decisions --why ..` writes one"
        return Finding("decisions", WARNING, words, len(by_hand), "changes")
    if backup is not None and not (beside := backup.with_suffix(".tar")).exists():
        return Finding("decisions", WARNING, f"{beside} is not there, which a new machine needs: back up with --with", 0, "changes")
    return Finding("decisions", GOOD, found.words, 0, "changes")
