"""The folder payments/ of the folder of decisions: members, the office's words, deductions, the ledger and the batches.

    members.csv     who the members are, and whose accounts      written by people and by `members import`
    payments.txt    the office's account and currency            written by people
    deductions.txt  what is deducted                             written by people
    ledger.txt      what was credited, deducted, ordered, paid   written by commands alone
    batches/3.json  whom a batch pays, and where                 written by commands alone

Each file is 0640, for the treasurer's group. The journal of the folder of decisions has the sum of each as it was written last.
"""

import contextlib
import datetime
import functools
import pathlib
from collections.abc import Iterable, Iterator

from society_office.basics.errors import OfficeError
from society_office.basics.terminal import say
from society_office.decided import decisions
from society_office.decided.decisions import Decisions, Writer
from society_office.decided.journal import sum_of
from society_office.formats.numbering import counted
from society_office.payments import deductions, ledger, members, private, words
from society_office.payments.ledger import Ledger
from society_office.payments.members import Members
from society_office.payments.owed import Entry, Rule
from society_office.payments.words import Words

NAME, BATCHES = "payments", "batches"
MEMBERS, WORDS, DEDUCTIONS, LEDGER = "members.csv", "payments.txt", "deductions.txt", "ledger.txt"
HEADS = {MEMBERS: members.HEAD, WORDS: words.HEAD, DEDUCTIONS: deductions.HEAD, LEDGER: ledger.HEAD}
BY_HAND = (MEMBERS, WORDS, DEDUCTIONS)
# What git is to keep of the folder: nothing, since what was written once could not be erased there.
IGNORED = ".gitignore"


def noted(name: str) -> str:
    """A file as the journal names it."""
    return f"{NAME}/{name}"


class Home:
    """What the folder has, read at one moment; each file is read when it is asked for first."""

    def __init__(self, had: Decisions) -> None:
        """Of a folder of decisions that is locked; an OfficeError where it has no payments."""
        self.decided, self.folder = had, had.folder / NAME
        if not self.folder.is_dir():
            raise OfficeError(f"{had.folder} has no {NAME}: `society-office members begin` makes it")
        self.contents = {it: content_of(self.folder / it) for it in HEADS}
        self.noted = {name: it for one in had.journal for name, it in one.sums.items()}

    @functools.cached_property
    def words(self) -> Words:
        """The office's words."""
        return words.read(self.folder / WORDS)

    @functools.cached_property
    def members(self) -> Members:
        """The members; an OfficeError where a line is wrong."""
        found = members.read(self.folder / MEMBERS)
        if again := sorted(found.by_key.keys() & self.ledger.erased.keys()):
            when = self.ledger.erased[again[0]]
            raise OfficeError(f"{self.folder / MEMBERS}: {again[0]} was erased on {when}: give a new member a new key")
        return found

    @functools.cached_property
    def rules(self) -> list[Rule]:
        """The deductions in their order."""
        return deductions.read(self.folder / DEDUCTIONS, self.members.taxes)

    @functools.cached_property
    def ledger(self) -> Ledger:
        """The ledger, checked whole; an OfficeError where it is not the one that the journal tells, or goes on from that."""
        place = self.folder / LEDGER
        found = ledger.read(self.contents[LEDGER], str(place))
        last = self.noted.get(noted(LEDGER))
        if last is not None and last not in found.sums:
            raise OfficeError(f"{place} lacks lines that the journal tells of: it is an older one, or was changed. {ledger.CURE}")
        return found

    @property
    def told(self) -> str:
        """All that it has, in a line; an OfficeError where a file is wrong."""
        parts = (counted(len(self.members.by_key), "member"), counted(len(self.rules), "deduction"), self.words.currency)
        return f"{self.folder}: {', '.join(parts)}, {counted(len(self.ledger.lines), 'line')} of the ledger"

    @property
    def changed_by_hand(self) -> list[str]:
        """The files of people that are not as the journal has them."""
        return [it for it in BY_HAND if sum_of(self.contents[it]) != self.noted.get(noted(it), sum_of(HEADS[it].encode()))]

    def need_noted(self) -> None:
        """An OfficeError where a file of people was changed and the journal does not tell it."""
        if changed := self.changed_by_hand:
            raise OfficeError(
                f"{', '.join(changed)}: changed since its last line in the journal: `society-office members note --why ..` writes one"
            )

    def batch_file(self, number: int) -> pathlib.Path:
        """Where it is kept whom a batch pays."""
        return self.folder / BATCHES / f"{number}.json"


class Desk:
    """The folder while nobody else writes there."""

    def __init__(self, writer: Writer) -> None:
        """What it has before anything is written."""
        self.writer, self.home = writer, Home(writer.had)

    def put(self, name: str, content: bytes) -> None:
        """Replaces a file; its sum goes to the next line of the journal."""
        private.write(self.home.folder / name, content)
        self.writer.sums[noted(name)] = sum_of(content)

    def book(self, entries: Iterable[Entry]) -> None:
        """Writes lines into the ledger, all of them or none; the first time the line before them that tells whose it is."""
        before, now = self.home.contents[LEDGER], datetime.datetime.now(datetime.UTC).replace(microsecond=0)
        content = ledger.appended(before, self.home.ledger, entries, now)
        if content != before:
            self.put(LEDGER, content)
            self.home.contents[LEDGER] = content

    def note(self, what: str, why: str) -> None:
        """Writes a line into the journal."""
        self.writer.note(what, why)

    def note_broken_off(self) -> None:
        """Tells the journal of lines of the ledger that it does not know, before a payment file of them is given to anybody."""
        if self.home.ledger.lines and (now := sum_of(self.home.contents[LEDGER])) != self.home.noted.get(noted(LEDGER)):
            self.writer.note("pay: what was broken off stands in the ledger", "a command was ended before its line", {noted(LEDGER): now})


def content_of(file: pathlib.Path) -> bytes:
    """What a file of the folder has; an OfficeError where it can't be read: no list at all is not an empty one."""
    try:
        return file.read_bytes()
    except FileNotFoundError as error:
        raise OfficeError(f"{file} is not there: put it back, or where nothing was paid yet: `society-office members begin`") from error
    except PermissionError as error:
        raise OfficeError(f"{file} is for the treasurer's group alone, and you are not of it") from error


def read(named: pathlib.Path | None) -> Home:
    """What the folder has."""
    folder = decisions.need_folder(named)
    with decisions.locked(folder, is_writer=False):
        return Home(decisions.read_locked(folder))


@contextlib.contextmanager
def writing(named: pathlib.Path | None) -> Iterator[Desk]:
    """The folder, to be written by nobody else while the `with` lasts; an OfficeError where a file of it is wrong."""
    with decisions.writing(decisions.need_folder(named)) as writer:
        desk = Desk(writer)
        say(desk.home.told, error=True)
        desk.note_broken_off()
        yield desk


def begin(named: pathlib.Path | None, group: str | None) -> list[str]:
    """Makes what the folder lacks, for a group; answers the names of the files that were made."""
    folder = decisions.need_folder(named) / NAME
    with decisions.writing(folder.parent) as writer:
        if is_new := not folder.is_dir():
            private.make(folder, 0o700)
        lacking = [it for it in HEADS if not (folder / it).exists()]
        last = {name: it for one in writer.had.journal for name, it in one.sums.items()}
        if lost := [it for it in lacking if noted(it) in last]:
            raise OfficeError(f"{folder / lost[0]} is not there, and the journal tells of it: put it back, as a backup has it")
        for it in lacking:
            private.write(folder / it, HEADS[it].encode())
        private.write(folder / IGNORED, b"*\n")
        private.make(folder / BATCHES, 0o700)
        if is_new or group is not None:
            for place in (folder, folder / BATCHES, *(it for it in folder.rglob("*") if it.is_file())):
                private.share(place, group)
    return lacking
