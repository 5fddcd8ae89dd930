"""The journal of what was decided: a line for each decision, with a tab between when, who, what, why, and the sums of what was written."""

import contextlib
import dataclasses
import datetime
import hashlib
import os
import pathlib
import pwd
import re
from collections.abc import Iterator

from society_office.basics.errors import OfficeError

MOMENT = "%Y-%m-%dT%H:%M:%SZ"
FIELDS = 5
SUM = re.compile(r"(\S+) ([0-9a-f]{64})", re.ASCII)


@dataclasses.dataclass(frozen=True)
class Decided:
    """A line of the journal: when, who, what, why, and the sums that files had then."""

    when: datetime.datetime
    who: str
    what: str
    why: str
    sums: dict[str, str]

    @property
    def line(self) -> str:
        """As it stands in the journal."""
        sums = ", ".join(f"{name} {it}" for name, it in self.sums.items())
        return "\t".join((self.when.strftime(MOMENT), self.who, self.what, self.why, sums))


def sum_of(content: bytes) -> str:
    """The SHA-256 sum of what a file has."""
    return hashlib.sha256(content).hexdigest()


def journal_in(file: pathlib.Path) -> Iterator[Decided]:
    """The lines of a journal; an OfficeError with the number of one that is none."""
    try:
        text = file.read_bytes().decode()
    except UnicodeDecodeError as error:
        raise OfficeError(f"{file}: the byte 0x{error.object[error.start]:02X} at {error.start} is no UTF-8") from error
    for number, line in enumerate(text.split("\n"), 1):
        if line and not line.startswith("#"):
            yield decided_by(line, f"{file}, line {number}")


def decided_by(line: str, where: str) -> Decided:
    """A line of the journal; an OfficeError where it is none."""
    when, *words = line.split("\t")
    sums = [SUM.fullmatch(it) for it in words[-1].split(", ")] if words and words[-1] else []
    with contextlib.suppress(ValueError):
        moment = datetime.datetime.strptime(when, MOMENT).replace(tzinfo=datetime.UTC)
        if len(words) == FIELDS - 1 and all(words[:3]) and all(sums):
            return Decided(moment, words[0], words[1], words[2], {it[1]: it[2] for it in sums if it})
    raise OfficeError(f"{where}: it is not what a command writes there: time, who, what, why, sums, with a tab between")


def written_now(what: str, why: str, sums: dict[str, str]) -> Decided:
    """A line of now, by the user of the session; an OfficeError where a word is none."""
    now = datetime.datetime.now(datetime.UTC).replace(microsecond=0)
    return Decided(now, who(), one_line(what, "what was done"), one_line(why, "--why"), sums)


def who() -> str:
    """The user who decides: that of the session; of one who is root for others by sudo, with its own name."""
    own = name_of(os.getuid())
    asked = os.environ.get("SUDO_USER", "")
    return asked if own == "root" and asked != "root" and is_user(asked) else own


def name_of(user: int) -> str:
    """The name of a user, or its number."""
    try:
        return pwd.getpwuid(user).pw_name
    except KeyError:
        return str(user)


def is_user(name: str) -> bool:
    """Whether the machine has a user of this name."""
    with contextlib.suppress(KeyError):
        return bool(name) and pwd.getpwnam(name).pw_name == name
    return False


def one_line(words: str, what: str) -> str:
    """Words that stand in a field of the journal; an OfficeError where they are none, or more than a line."""
    if not (found := words.strip()) or not found.isprintable():
        raise OfficeError(f"{what}: write why in one line, without tabs")
    return found
