"""Checks of files before they are sent: the program says what becomes of them, and our own reading where each fault is."""

import codecs
import dataclasses
import pathlib
import re
from collections.abc import Iterator, Sequence
from typing import Any, Protocol

from society_office.basics.errors import OfficeError
from society_office.checks import faults
from society_office.checks.cwr_faults import CheckedFile, checked
from society_office.checks.return_faults import looks_like_return, return_faults
from society_office.checks.work_faults import CheckedWork, Fault, warned
from society_office.formats.fields import ACK_NUMBER, ACK_TITLE, MAX_BODY, WorkFault
from society_office.formats.numbering import FILE_NAME, as_sent, number_in, path_of, rank_in, segment_of, segment_text
from society_office.formats.plays import BOM
from society_office.formats.return_names import LAST_NUMBER
from society_office.offices.program import KIND, TRIAL, Answer
from society_office.works.records import shown_number, text

SENDER = re.compile(r"[0-9A-Z]{11}", re.ASCII)
# Faults that only what was registered before shows.
OF_THE_LINE = (WorkFault.REGISTERED, WorkFault.NOT_REGISTERED)
# A sender of whom nothing has come, in whose name it is asked what an office is.
ANY_SENDER = "PB000000000"
# The reporter under which a trial office is asked.
TRIAL_REPORTER = "CHECK"
# The numbers under which returns are tried: high ones, which a trial office over last night's copy has not.
FIRST_RETURN, RETURN_STEP = 900_001, 1_000
NEW_LINE = b"\n"
# What a trial office makes of files that it has from an earlier check.
TRIED_BEFORE = "the trial office has this very file under this number already; what became of it then is told"
KEEPS = "the trial office keeps what is checked until it begins anew in the night: {} may come of an earlier check"


class Asked(Protocol):
    """An office that answers requests: the program's replay, or one over HTTP."""

    def ask(self, method: str, path: str, body: bytes | None = None) -> Answer:
        """The answer to a request."""

    def close(self) -> None:
        """Ends it."""


@dataclasses.dataclass
class Sent:
    """A file that was tried: what the program made of it, and what our own reading found."""

    name: str
    body: bytes
    number: int = 0
    label: str = ""
    path: str = ""
    state: str = ""
    refusal: str = ""
    own: CheckedFile = dataclasses.field(default_factory=lambda: CheckedFile([], []))
    rows: list[Fault] = dataclasses.field(default_factory=list)
    verdicts: list[dict[str, int]] = dataclasses.field(default_factory=list)
    titles: list[tuple[str, str]] = dataclasses.field(default_factory=list)
    differs: list[str] = dataclasses.field(default_factory=list)
    elsewhere: str = ""
    tried_before: bool = False
    is_reused: bool = False

    @property
    def warnings(self) -> list[str]:
        """What may be wrong with its works, though it is no fault."""
        return [it for work in self.own.works for it in warned(work)]

    @property
    def notes(self) -> list[str]:
        """What else has to be said of it."""
        other = [f"the name says that it goes to society {self.elsewhere}, which is not this one"] if self.elsewhere else []
        return [*other, *([TRIED_BEFORE] if self.tried_before else []), *self.differs]

    @property
    def is_return(self) -> bool:
        """Whether it is a return of plays."""
        return looks_like_return(self.name, self.body)

    @property
    def sender(self) -> str:
        """The sender that its header names."""
        return self.body[3:14].decode("latin-1")

    @property
    def is_clean(self) -> bool:
        """Whether all of it was taken."""
        return self.state in ("applied", "stored") and not any("fault" in it for it in self.verdicts)


@dataclasses.dataclass(frozen=True)
class Checked:
    """All files that were tried, and the ends that were stated for them."""

    files: list[Sent]
    ends: list[str]

    @property
    def is_clean(self) -> bool:
        """Whether all of them were taken whole."""
        return all(it.is_clean for it in self.files)


def read_files(names: Sequence[pathlib.Path]) -> list[Sent]:
    """The files that are named; an OfficeError where one is JSON, as an order is, or one of works names no sender."""
    found = [Sent(str(it), it.read_bytes()) for it in names]
    for it in found:
        if it.body.lstrip().startswith(b"{"):
            raise OfficeError(f"{it.name}: it is JSON, so no file and no return; an order is tried by `society-office rehearse`")
        if not it.is_return and not (it.body.startswith(b"HDR") and SENDER.fullmatch(it.sender)):
            raise OfficeError(
                f"{it.name}: the first line has to begin with HDR and the sender, as HDRPB000000012; here is {begin_of(it.body)}"
            )
    return found


def begin_of(body: bytes) -> str:
    """How a file begins, in words."""
    if body.startswith((codecs.BOM_UTF16_LE, codecs.BOM_UTF16_BE)):
        return "UTF-16, of two bytes a letter"
    mark = "a byte order mark and " if body.startswith(BOM) else ""
    return f"{mark}{text(body.removeprefix(BOM).partition(NEW_LINE)[0][:14])!r}" if body else "nothing"


def check(office: Asked, society: int, territory: int, files: list[Sent], reporter: str = TRIAL_REPORTER, keeps: bool = False) -> Checked:
    """Tries files at an office that is thrown away: those of a sender in their order, under the numbers behind its front.

    Where the office keeps what is tried, as a trial office does until the night, what may come of that is said."""
    ends: list[str] = []
    for sender in dict.fromkeys(it.sender for it in files if not it.is_return):
        own = [it for it in files if not it.is_return and it.sender == sender]
        ends += check_sender(office, society, territory, sender, own, keeps)
    for number, it in enumerate((it for it in files if it.is_return), FIRST_RETURN):
        check_return(office, f"/v1/returns/{reporter}", number, it)
    return Checked(files, ends)


def need_trial(office: Asked, address: str) -> None:
    """An OfficeError where what answers does not say that it is a trial office: what any other one takes stays."""
    answer = office.ask("GET", f"/v1/senders/{ANY_SENDER}")
    if answer.kind != TRIAL:
        raise OfficeError(
            f"{address} does not say that it is a trial office (it answers {answer.status}, without `{KIND}: {TRIAL}`): nothing was sent. "
            "The proxy's port of the trial office says it, 8444 as nginx.conf is shipped"
        )


def check_return(office: Asked, path: str, number: int, it: Sent) -> None:
    """Tries a return under the first number from this one on that is free."""
    it.label = it.name
    answer = put(office, f"{path}/{number}", it)
    while answer is not None and answer.error == "reused" and number + RETURN_STEP <= LAST_NUMBER:
        number += RETURN_STEP
        answer = put(office, f"{path}/{number}", it)
    if answer is None:
        return
    it.rows = return_faults(it.body)
    it.state = "stored" if answer.is_taken else "refused"
    it.refusal = "" if answer.is_taken else faults.refusal_text("return", answer)
    note_other(it, it.rows, answer, "row")


def note_other(it: Sent, own: Sequence[Fault], answer: Answer, where: str) -> None:
    """Notes where our own reading finds another first fault than the program."""
    found, told = (own[0].number, own[0].line) if own else None, answer.fault(where)
    if found != told and (answer.is_taken or told):
        it.differs.append(f"our own reading finds {fault_at(found, where)}, the program {fault_at(told, where)}: the program is right")


def put(office: Asked, path: str, it: Sent) -> Answer | None:
    """The answer to a file; None where it is too large to be sent at all, which is noted."""
    if len(it.body) > MAX_BODY:
        size = f"{len(it.body):,} bytes, of which line {it.body.count(NEW_LINE, 0, MAX_BODY) + 1:,} passes {MAX_BODY:,}"
        it.state, it.refusal = "refused", f"413: {size}; spread it over more numbers"
        return None
    return office.ask("PUT", path, it.body)


def fault_at(found: tuple[int, int] | None, word: str) -> str:
    """A fault and where it is, in words."""
    return "no fault" if found is None else f"fault {found[0]} at {word} {found[1]}"


def check_sender(office: Asked, society: int, territory: int, sender: str, files: list[Sent], keeps: bool) -> list[str]:
    """Tries a sender's files; answers the ends that were stated so that they follow one another."""
    asked = office.ask("GET", f"/v1/senders/{sender}")
    if asked.status != 200:
        raise OfficeError(f"{sender} can't be asked for: {faults.refusal_text('file', asked)}")
    if asked.standing is None:
        raise OfficeError(f"{sender} can't be asked for: what answers tells no front, so it is no office")
    front, _ = asked.standing
    give_numbers(files, front, society)
    if keeps and are_there(office, sender, front, files, society):
        give_numbers(files, front - len(unnamed(files)), society)
    for it in files:
        it.own = checked(it.body, sender, territory)
        if (answer := put(office, f"/v1/senders/{sender}/{it.path}", it)) is not None:
            take_answer(it, answer)
    ends = list(state_ends(office, sender, front, files))
    for it in files:
        if it.state in ("applied", "held"):
            ask_verdicts(office, sender, it)
        if keeps:
            note_kept(it)
    return ends


def unnamed(files: list[Sent]) -> list[Sent]:
    """The files that are not named by year, which get the numbers behind the front."""
    return [it for it in files if not FILE_NAME.fullmatch(pathlib.Path(it.name).name)]


def are_there(office: Asked, sender: str, front: int, files: list[Sent], society: int) -> bool:
    """Whether the last files of a sender are these very ones, from an earlier check: then sending them again changes nothing."""
    tried = unnamed(files)
    if not 0 < len(tried) <= number_in(front):
        return False
    paths = (path_of(front - len(tried) + k, society) for k in range(1, len(tried) + 1))
    for it, path in zip(tried, paths):
        answer = put(office, f"/v1/senders/{sender}/{path}", it)
        if answer is None or not answer.is_taken or answer.status != 200:
            return False
    for it in tried:
        it.tried_before = True
    return True


def note_kept(it: Sent) -> None:
    """Notes what may come of an earlier check at an office that keeps what is tried."""
    if any(verdict.get("fault") == WorkFault.REGISTERED for verdict in it.verdicts):
        it.differs.append(KEEPS.format(f"fault {WorkFault.REGISTERED}"))
    if it.is_reused:
        it.differs.append(KEEPS.format("what stands under this number"))


def give_numbers(files: list[Sent], front: int, society: int) -> None:
    """Gives each file its number: that of its name by year, else the next one behind the front."""
    following = front
    for it in files:
        if name := FILE_NAME.fullmatch(pathlib.Path(it.name).name):
            it.number = rank_in(int(name[1]), int(name[2]))
            it.path, it.label = f"files/{name[0]}", f"{as_sent(it.number)} {it.name}"
            it.elsewhere = name[3] if int(name[3]) != society else ""
            continue
        following += 1
        it.number, it.label, it.path = following, f"{as_sent(following)} {it.name}", path_of(following, society)


def take_answer(it: Sent, answer: Answer) -> None:
    """Notes what the program answered to a file, and where our own reading finds another fault of the file."""
    if answer.is_taken:
        it.state = "applied" if answer.told["state"] == "applied" else "held"
    else:
        it.state, it.refusal = "refused", faults.refusal_text("file", answer)
        it.is_reused = answer.error == "reused"
    note_other(it, it.own.faults, answer, "line")


def state_ends(office: Asked, sender: str, front: int, files: list[Sent]) -> Iterator[str]:
    """States the ends that lead from the front through the years of the files; answers each request."""
    lasts: dict[int, int] = {segment_of(front): number_in(front)}
    for it in files:
        if it.state in ("applied", "held"):
            year = segment_of(it.number)
            lasts[year] = max(lasts.get(year, 0), number_in(it.number))
    years = sorted(it for it in lasts if it >= segment_of(front))
    for year, following in zip(years, years[1:]):
        body = f'{{"last":{lasts[year]},"next":{following}}}'
        path = f"/v1/senders/{sender}/segments/{segment_text(year)}"
        answer = office.ask("PUT", path, body.encode())
        yield f"PUT {path} {body}" + ("" if answer.is_taken else f" (not taken: status {answer.status})")


def ask_verdicts(office: Asked, sender: str, it: Sent) -> None:
    """Asks what became of the works of a file that was taken, and compares it with our own reading."""
    answer = office.ask("GET", f"/v1/senders/{sender}/verdicts/{as_sent(it.number)}")
    if answer.status != 200:
        it.state = "held"
        return
    if not is_of_verdicts(answer.json):
        raise OfficeError(f"{it.label}: what answers tells no verdicts, so it is no office")
    it.state, it.verdicts = "applied", answer.json
    acknowledged = office.ask("GET", f"/v1/senders/{sender}/acks/{as_sent(it.number)}").body
    it.titles = [(text(ACK_NUMBER.of(line)), text(ACK_TITLE.of(line))) for line in acknowledged.split(b"\r\n") if line.startswith(b"ACK")]
    if len(it.own.works) != len(it.verdicts):
        it.differs.append(f"our own reading finds {len(it.own.works)} works, the program {len(it.verdicts)}: the program is right")
        return
    for work, verdict in zip(it.own.works, it.verdicts):
        own, told = least(work), verdict.get("fault")
        if own != told and not (own is None and told in OF_THE_LINE):
            which = shown_number(work.number)
            it.differs.append(f"{which}: our own reading finds {named(own)}, the program {named(told)}: the program is right")


def is_of_verdicts(found: Any) -> bool:
    """Whether an answer tells what became of works: each a fault, or the revision that it is."""
    return isinstance(found, list) and all(isinstance(it, dict) and isinstance(it.get("fault", it.get("revision")), int) for it in found)


def least(work: CheckedWork) -> int | None:
    """The least fault of a work by our own reading."""
    return work.faults[0].number if work.faults else None


def named(number: int | None) -> str:
    """A fault by its number, in words."""
    return "no fault" if number is None else f"fault {number}"
