"""Brings to a standby what stands beside the book: what was decided, and folders of the proxy and the desk.

    python3 -m society_office.second_office.standby_files root@STANDBY:/ /var/lib/society-decisions /etc/society/proxy /etc/society/desk

The first word is a place as rsync takes it, the second the folder of decisions. A standby that has decided something by itself, as one that
is in service, keeps what it has: nothing is brought then.
"""

import pathlib
import subprocess
import sys
from collections.abc import Sequence

from society_office.basics.errors import OfficeError
from society_office.basics.throw_away import room
from society_office.decided import decisions
from society_office.decided.journal import MOMENT

USAGE = "society_office.second_office.standby_files: name a place as rsync takes it, the folder of decisions, and folders that go with it"


def bring(target: str, folder: pathlib.Path, more: Sequence[str]) -> str:
    """Brings the folder of decisions and others to a place; answers what was brought. An OfficeError where that may not be, or failed."""
    with decisions.locked(folder, is_writer=False):
        known = decisions.read_locked(folder)
        with room() as there:
            place = folder.absolute().relative_to("/")
            # (whose it is there does not matter here, and a unit may not make a folder that gives its group on)
            run(["--recursive", "--relative", "--ignore-missing-args", f"{target.rstrip('/')}/./{place}", str(there)])
            refuse_own(target, there / place, known)
        run(["--archive", "--relative", "--delete", "--delay-updates", str(folder.absolute()), *more, target])
    return f"{target} has the {known.words}"


def refuse_own(target: str, had: pathlib.Path, known: decisions.Decisions) -> None:
    """An OfficeError where what a standby has is not what this office had before: it has decided something by itself."""
    if not (had / decisions.JOURNAL).exists():
        return
    try:
        theirs = decisions.read(had)
    except OfficeError as error:
        raise OfficeError(f"what {target} has can't be read, so nothing was brought: {error}") from error
    if theirs.journal != known.journal[: len(theirs.journal)]:
        own = next(it for at, it in enumerate(theirs.journal) if it not in known.journal[at : at + 1])
        told = f"{own.what}, by {own.who} at {own.when.strftime(MOMENT)}"
    elif theirs.changed_by_hand:
        told = f"{', '.join(theirs.changed_by_hand)} by hand"
    else:
        return
    raise OfficeError(f"{target} has decided by itself: {told}. Nothing was brought: it is in service, or its folder is another office's")


def run(words: list[str]) -> None:
    """Runs rsync; an OfficeError with its last line where it fails."""
    try:
        done = subprocess.run(["rsync", *words], stdin=subprocess.DEVNULL, capture_output=True, text=True, check=False)
    except FileNotFoundError as error:
        raise OfficeError("there is no rsync: apt-get install rsync") from error
    if done.returncode:
        raise OfficeError(f"rsync ended with status {done.returncode}: {(done.stderr.strip().splitlines() or ['nothing was said'])[0]}")


def main(words: Sequence[str]) -> int:
    """Brings them: status 1 and a line on standard error where that is not done."""
    if len(words) < 2 or not words[0]:
        print(USAGE, file=sys.stderr)
        return 2
    try:
        print(bring(words[0], pathlib.Path(words[1]), words[2:]))
    except (OfficeError, OSError) as error:
        print(f"society-office: {error}", file=sys.stderr)
        return 1
    return 0


if __name__ == "__main__":
    sys.exit(main(sys.argv[1:]))
