"""What became of a sender's files that the office has, and what was registered since."""

import dataclasses
from collections.abc import Iterator

from society_office.book.copy import Copy
from society_office.checks import faults
from society_office.checks.checking_output import detail, explained
from society_office.checks.work_faults import UTF_8, CheckedWork, checked_work, first_warnings, warned
from society_office.formats.numbering import Line, as_sent, counted, ranges, segment_text
from society_office.works.records import sender_names, shown_number, transactions

# How it begins what is said of a rejected work that a later file has.
CURED = "registered since"


@dataclasses.dataclass(frozen=True)
class Rejected:
    """A work that was rejected: why, where each of its faults is, and what is registered under its number now."""

    number: int
    place: int
    work: str
    title: str
    fault: int
    own: CheckedWork
    since: str

    @property
    def is_cured(self) -> bool:
        """Whether a later file has registered it, or revised it."""
        return self.since.startswith(CURED)


@dataclasses.dataclass(frozen=True)
class SentFile:
    """A file that the office has."""

    number: int
    state: str
    accepted: int
    rejected: list[Rejected]
    warnings: list[str]


@dataclasses.dataclass(frozen=True)
class Story:
    """All of a sender."""

    line: Line
    name: str
    files: list[SentFile]

    @property
    def rejected(self) -> list[Rejected]:
        """All works that were rejected."""
        return [it for file in self.files for it in file.rejected]

    @property
    def warnings(self) -> list[str]:
        """What may be wrong in the files that are applied, though it is no fault."""
        return [f"file {as_sent(file.number)}: {it}" for file in self.files for it in file.warnings]


def since_text(registered: list[tuple[int, int]], number: int) -> str:
    """What is registered under the number of a work that was rejected in a file; its versions are its revisions and their files."""
    later = [it for it in registered if it[1] > number]
    if later:
        return f"{CURED}: revision {later[-1][0]} with file {as_sent(later[-1][1])}"
    if registered:
        return f"revision {registered[-1][0]} of file {as_sent(registered[-1][1])} stands"
    return "not registered since"


def story(copy: Copy, sender: str) -> Story:
    """What became of a sender's files; an OfficeError where it has sent none."""
    copy.need_derived()
    line = copy.need_line(sender)
    registered: dict[str, list[tuple[int, int]]] = {}
    for work, revision, number in copy.rows("SELECT work, revision, number FROM versions WHERE sender = ? ORDER BY work, revision", sender):
        registered.setdefault(work, []).append((revision, number))
    verdicts: dict[int, list[tuple[int, int]]] = {}
    for number, place, fault in copy.rows("SELECT number, place, fault FROM verdicts WHERE sender = ? ORDER BY number, place", sender):
        verdicts.setdefault(number, []).append((place, fault))
    skipped, waiting = set(line.skipped), set(line.waiting)
    blank = {number for listed in (it for work, it in registered.items() if work.startswith(" ")) for _, number in listed}
    files = []
    for number in line.numbers:
        state = "skipped" if number in skipped else "waits" if number in waiting else "applied"
        listed = verdicts.get(number, [])
        bad = [it for it in listed if it[1]]
        rejected = rejected_of(copy, sender, number, bad, registered)
        warnings = warnings_of(copy, sender, number, number in blank) if state == "applied" else []
        files.append(SentFile(number, state, len(listed) - len(bad), rejected, warnings))
    return Story(line, sender_names(copy).get(sender, ""), files)


def rejected_of(
    copy: Copy, sender: str, number: int, bad: list[tuple[int, int]], registered: dict[str, list[tuple[int, int]]]
) -> list[Rejected]:
    """The rejected works of a file, by their places and faults."""
    if not bad:
        return []
    body = copy.body(sender, number)
    works = transactions(body)
    found = []
    for place, fault in bad:
        it = checked_work(body, works[place], copy.territory)
        since = since_text(registered.get(it.number, []), number)
        found.append(Rejected(number, place, shown_number(it.number), it.title, fault, it, since))
    return found


def warnings_of(copy: Copy, sender: str, number: int, has_blank: bool) -> list[str]:
    """What may be wrong with the works of a file; it is read closely only where it has letters past ASCII, or a number with a blank."""
    body = copy.body(sender, number)
    if not has_blank and (body.isascii() or not UTF_8.search(body)):
        return []
    return [it for work in transactions(body) for it in warned(checked_work(body, work, copy.territory))]


def state_lines(it: Line) -> Iterator[str]:
    """How a sender's line stands: its front, its gaps, its ends, and what is never applied."""
    yield f"applied up to {as_sent(it.front)}: {counted(len(it.applied), 'file')} with {counted(it.works, 'work')}"
    for segment, (last, following) in sorted(it.ends.items()):
        yield f"stated: {segment_text(segment)} ends with {last}, and {following:02d} follows"
    if it.waiting:
        yield f"waits: {ranges(it.waiting)}"
    if it.missing:
        yield f"missing, so that they wait: {ranges(it.missing)}"
    if it.lacks_end is not None:
        yield f"missing, so that they wait: the end of {segment_text(it.lacks_end)}; state it with the year that follows"
    if it.skipped:
        yield f"never applied, since the stated ends lead past their year: {ranges(it.skipped)}"
        yield "send their works again under the next number"


def lines(it: Story) -> Iterator[str]:
    """All of it in lines: the state, then each file, and of each rejected work every fault and what was registered since."""
    yield f"{it.line.sender} {it.name}".rstrip()
    yield from state_lines(it.line)
    for file in it.files:
        if file.state != "applied":
            yield f"file {as_sent(file.number)}: " + ("waits" if file.state == "waits" else "is never applied")
            continue
        yield f"file {as_sent(file.number)}: {file.accepted:,} accepted, {len(file.rejected):,} rejected"
        for bad in file.rejected:
            yield f"  REJECTED {bad.work.strip()} {bad.title}, fault {bad.fault}: {faults.words('transaction', bad.fault)}"
            yield from (f"    at {detail(fault)}" for fault in bad.own.faults if fault.number == bad.fault)
            yield from (f"    also {explained(fault)}" for fault in bad.own.faults if fault.number != bad.fault)
            if bad.since:
                yield f"    {bad.since}"
        yield from (f"  {it}" for it in first_warnings(file.warnings))
