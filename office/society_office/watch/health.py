"""Whether the office is well: answers, fronts, its file, memory of a start, free disk, a sound backup, the certificate, a standby."""

import contextlib
import dataclasses
import json
import os
import pathlib
import re
import shutil
import socket
import ssl
import subprocess
import time
import urllib.parse
from collections.abc import Callable, Iterator
from typing import Any

from society_office.basics.errors import OfficeError
from society_office.book.copy import beside, open_copy
from society_office.formats.numbering import as_sent
from society_office.offices.asking import Connections
from society_office.offices.book_files import fault_of_files, log_of, office_words, offices
from society_office.offices.program import Office, audited, context_by
from society_office.printed.pages import text_of, write_text
from society_office.second_office import following
from society_office.watch.findings import GOOD, WARNING, WRONG, Finding
from society_office.watch.looking import look_at_decisions, look_at_money

HOUR, DAY = 3_600, 86_400
# What a start needs of memory for each byte of the file, and for each credit and each work that pools look for (docs/SPEEDS.md).
BY_BYTE, BY_CREDIT, BY_PLAYED = 1.1, 150, 400
# Where a process stands in the groups that bound its memory: version 2, and version 1.
GROUPS = pathlib.Path("/sys/fs/cgroup")
# Where the office's unit stands, and then what changes it.
UNITS = [pathlib.Path(it) for it in ("/lib/systemd/system", "/etc/systemd/system", "/run/systemd/system.control")]
UNIT = "society.service"
MEMORY_MAX = re.compile(r"^MemoryMax=(.*)$", re.MULTILINE)
AMOUNT = re.compile(r"(\d+(?:\.\d+)?)([KMGT%]?)", re.ASCII)
# A sender of whom nothing has come, asked where none is known.
NOBODY = "PB999999999"


@dataclasses.dataclass(frozen=True)
class Limits:
    """From where on something is to be looked at, and from where on it is wrong."""

    seconds: float = 5
    memory: float = 67
    disk: float = 10
    backup: float = 30
    certificate: float = 14
    standby: float = 15


@dataclasses.dataclass(frozen=True)
class Looked:
    """What to look at: the office's address and access, the files and folders, and the program."""

    address: str
    user: str = ""
    password: str = ""
    authority: str | None = None
    database: pathlib.Path | None = None
    disk: pathlib.Path | None = None
    backups: pathlib.Path | None = None
    state: pathlib.Path | None = None
    program: str | None = None
    certificate: str | None = None
    standby: pathlib.Path | None = None
    decisions: pathlib.Path | None = None


def newest_first(folder: pathlib.Path) -> list[pathlib.Path]:
    """The backups of a folder; what leads nowhere, or is taken away meanwhile, is none."""
    found = []
    for path in folder.glob("*.db"):
        with contextlib.suppress(FileNotFoundError):
            if path.is_file():
                found.append((path.stat().st_mtime, path))
    return [path for _, path in sorted(found, reverse=True)]


def newest(folder: pathlib.Path) -> pathlib.Path:
    """The newest backup of a folder; an OfficeError where it has none."""
    found = newest_first(folder)
    if not found:
        raise OfficeError(f"no backup (*.db) in {folder}")
    return found[0]


def judged(value: float, limit: float, worse_above: bool) -> int:
    """How a number is: good on the right side of its limit, wrong at twice or half of it."""
    if worse_above:
        return GOOD if value <= limit else WARNING if value <= 2 * limit else WRONG
    return GOOD if value >= limit else WARNING if value >= limit / 2 else WRONG


def look_at_answer(it: Looked, limits: Limits, senders: dict[str, int]) -> Iterator[Finding]:
    """Whether the office answers in time, and each front is at least what it was; `senders` has the fronts known."""
    office = Office(it.address, it.user, it.password, it.authority, seconds=2 * limits.seconds)
    begun = time.monotonic()
    try:
        fronts: dict[str, int] = {}
        for sender in senders or {NOBODY: 0}:
            answer = office.ask("GET", f"/v1/senders/{sender}")
            if answer.status != 200 or answer.standing is None:
                other = ", and with no front: it is no office" if answer.status == 200 else ""
                yield Finding("answer", WRONG, f"{it.address} answered {answer.status} to a question on {sender}{other}")
                return
            fronts[sender], _ = answer.standing
            if len(fronts) == 1:
                took = time.monotonic() - begun
                yield Finding("answer", judged(took, limits.seconds, True), f"answered in {took:.3f} s", took, "seconds")
    except OfficeError as error:
        yield Finding("answer", WRONG, str(error))
        return
    finally:
        office.close()
    yield compared(senders, fronts, it.state)
    senders.update(fronts)


def compared(known: dict[str, int], fronts: dict[str, int], state: pathlib.Path | None) -> Finding:
    """Whether a front is lower than it was; where that is meant, as after a restore, what is kept has to be taken away."""
    lower = [
        f"{sender} had {as_sent(known[sender])} and has {as_sent(front)}"
        for sender, front in fronts.items()
        if front < known.get(sender, 0)
    ]
    if lower:
        cure = f". Where that is meant, back up, and take {state} away" if state else ""
        return Finding("fronts", WRONG, f"an older file is served: {'; '.join(lower)}{cure}", len(lower), "senders")
    return Finding("fronts", GOOD, f"no front of {len(known)} known senders is lower than it was", 0, "senders")


def look_at_file(it: Looked) -> Finding:
    """Whether the office that runs writes the file that the path names, and its log is whole."""
    assert it.database is not None
    if not it.database.is_file():
        return Finding("file", WRONG, f"there is no file {it.database}", 1, "faults")
    fault = fault_of_files(it.database) or fault_of_next_start(it.database)
    return Finding(
        "file", WRONG if fault else GOOD, fault or f"{it.database} is what the office writes, and its log is whole", bool(fault), "faults"
    )


def fault_of_next_start(database: pathlib.Path) -> str:
    """Why the next start is refused (`society: database store`), in words, though the office runs; the empty text where nothing is seen."""
    journal, end = beside(database, "-journal"), ", and the next start is refused"
    if journal.exists() and journal.stat().st_size:
        return f"{journal} stands there, of another program that broke off a write{end}: move it away"
    if database.stat().st_nlink > 1:
        return f"{database} has a second name (a hard link){end}: take that one away"
    return ""


def memory_needed(it: Looked) -> int:
    """The bytes of memory that the next start needs, by the file and its log, and by the credits and the works of the newest backup."""
    assert it.database is not None
    size = sum(path.stat().st_size for path in (it.database, log_of(it.database)) if path.exists())
    needed = int(BY_BYTE * size)
    if it.backups is not None:
        with contextlib.suppress(OfficeError), open_copy(newest(it.backups)) as copy:
            if copy.layout > 1:
                needed += BY_CREDIT * copy.row("SELECT count(*) FROM credits")[0]
                needed += BY_PLAYED * copy.row("SELECT count(DISTINCT isrc) FROM credits")[0]
    return needed


def bound_of_unit(database: pathlib.Path) -> int | None:
    """The MemoryMax of the unit society.service, whether the office runs or not, where it serves this file; None without one."""
    unit = next((it / UNIT for it in reversed(UNITS) if (it / UNIT).exists()), None)
    if unit is None or f"{database}" not in (text := unit.read_text()):
        return None
    for folder in UNITS:
        text += "".join("\n" + it.read_text() for it in sorted(folder.glob(f"{UNIT}.d/*.conf")))
    found = [it.strip() for it in MEMORY_MAX.findall(text)]
    amount = AMOUNT.fullmatch(found[-1]) if found else None
    if amount is None:
        # (nothing, or `infinity`)
        return None
    whole = machine_memory() if amount[2] == "%" else 100 << 10 * " KMGT".index(amount[2] or " ")
    return int(float(amount[1]) * whole / 100)


def machine_memory() -> int:
    """The bytes of memory that the machine has."""
    return os.sysconf("SC_PHYS_PAGES") * os.sysconf("SC_PAGE_SIZE")


def memory_allowed(it: Looked) -> tuple[int, str]:
    """The bytes of memory that the office may take, and what bounds them: the unit's MemoryMax, else the machine's memory."""
    assert it.database is not None
    allowed, why = machine_memory(), "this machine has"
    if (most := bound_of_unit(it.database)) is not None and most < allowed:
        allowed, why = most, "the unit's MemoryMax is"
    for process in offices(it.database):
        for line in (process / "cgroup").read_text().splitlines():
            _, kinds, group = line.split(":", 2)
            bounds = GROUPS / group.lstrip("/") / "memory.max", GROUPS / "memory" / group.lstrip("/") / "memory.limit_in_bytes"
            for bound in bounds if kinds in ("", "memory") else ():
                if bound.exists() and (text := bound.read_text().strip()).isdigit() and int(text) < allowed:
                    allowed, why = int(text), "the unit's MemoryMax is"
    return allowed, why


def look_at_memory(it: Looked, limits: Limits) -> Finding:
    """How much of the memory that the office may take its next start needs: above that it never starts."""
    needed, (allowed, why) = memory_needed(it), memory_allowed(it)
    part = 100 * needed / allowed
    state = GOOD if part < limits.memory else WARNING if part < 100 else WRONG
    return Finding("memory", state, f"a start needs {needed / 1e6:,.0f} MB, and {why} {allowed / 1e6:,.0f} MB", part, "percent")


def look_at_disk(it: Looked, limits: Limits) -> Finding:
    """How much of the disk is free."""
    assert it.disk is not None
    used = shutil.disk_usage(it.disk)
    part = 100 * used.free / used.total
    words = f"{part:.0f} % of the disk of {it.disk} is free, {used.free / 1e9:.1f} GB"
    return Finding("disk", judged(part, limits.disk, False), words, part, "percent")


def look_at_backup(it: Looked, limits: Limits) -> Finding:
    """How old the newest backup is."""
    assert it.backups is not None
    path = newest(it.backups)
    hours = (time.time() - path.stat().st_mtime) / HOUR
    if hours < -1:
        words = f"the newest backup, {path.name}, is of a time {-hours:.1f} hours from now: the clock was wrong; `touch` it or take it away"
        return Finding("backup", WARNING, words, hours, "hours")
    return Finding(
        "backup", judged(hours, limits.backup, True), f"the newest backup, {path.name}, is {hours:.1f} hours old", hours, "hours"
    )


def look_into_backup(it: Looked, kept: dict[str, Any]) -> Finding:
    """Whether the program finds the newest backup sound. An audit takes as long as a start, so what was said of this very file is kept."""
    assert it.backups is not None
    path = newest(it.backups)
    mark = [path.name, path.stat().st_mtime, path.stat().st_size]
    if kept.get("mark") != mark:
        # (byte for byte: a copy that SQLite makes has another first page)
        status, said = audited(lambda place: shutil.copyfile(path, place), office_words(path), it.program)
        kept.update(status=status, said=said, mark=mark)
    state, words = GOOD if kept["status"] == 0 else WRONG, f"`society audit` says of {path.name}: {kept['said']}"
    return Finding("sound", state, words, kept["status"], "status")


def money_of(it: Looked, limits: Limits) -> Finding:
    """Whether the office has the returns and the pools of the newest backup."""
    assert it.backups is not None
    longest = 2 * limits.seconds
    office = Connections(it.address, longest, least=longest, user=it.user, password=it.password, authority=it.authority)
    try:
        return look_at_money(newest(it.backups), office)
    finally:
        office.close()


def decisions_of(it: Looked) -> Finding:
    """Whether what was decided is as the journal says, and stands beside the newest backup."""
    assert it.decisions is not None
    return look_at_decisions(it.decisions, newest(it.backups) if it.backups is not None else None)


def look_at_certificate(it: Looked, limits: Limits) -> Finding:
    """How many days the certificate has left, of a file or as a server shows it."""
    assert it.certificate is not None
    if pathlib.Path(it.certificate).exists():
        words = ["openssl", "x509", "-noout", "-enddate", "-in", it.certificate]
        done = subprocess.run(words, capture_output=True, check=False, text=True)
        if done.returncode:
            raise OfficeError(f"{it.certificate} is no certificate that can be read: {done.stderr.strip().partition(chr(10))[0]}")
        ends = done.stdout.strip().partition("=")[2]
    else:
        parts = urllib.parse.urlsplit(f"//{it.certificate}")
        context = context_by(it.authority)
        host, port = parts.hostname or "", parts.port or 443
        with socket.create_connection((host, port), timeout=10) as plain, context.wrap_socket(plain, server_hostname=host) as peer:
            ends = str((peer.getpeercert() or {})["notAfter"])
    days = (ssl.cert_time_to_seconds(ends) - time.time()) / DAY
    return Finding("certificate", judged(days, limits.certificate, False), f"the certificate ends in {days:.0f} days", days, "days")


def look_at_standby(it: Looked, limits: Limits) -> Finding:
    """For how long a standby has not been known to have all, by what `resend --state` keeps."""
    assert it.standby is not None
    found = following.kept(it.standby)
    state = WRONG if found.refused or found.ahead else judged(found.minutes, limits.standby, True)
    hours = (found.since - time.time()) / HOUR
    if state == GOOD and hours > 1:
        # (the next round would put it right)
        words = f"{found.words}: a time {hours:.1f} hours from now, so the clock was wrong, and no round has ended since"
        return Finding("standby", WARNING, words, found.minutes, "minutes")
    return Finding("standby", state, found.words, found.minutes, "minutes")


def kept_state(it: Looked) -> dict[str, Any]:
    """What was kept last time: the fronts, and what was said of the newest backup."""
    if it.state is None or not it.state.exists():
        return {"fronts": {}, "sound": {}}
    try:
        found = json.loads(text_of(it.state))
        fronts, sound = found["fronts"], found["sound"]
        if not isinstance(sound, dict) or not all(isinstance(front, int) for front in fronts.values()):
            raise TypeError("other values")
    except (ValueError, LookupError, TypeError, AttributeError, RecursionError) as error:
        raise OfficeError(f"{it.state} is not what this command keeps there: take it away") from error
    return {"fronts": fronts, "sound": sound}


def known_fronts(it: Looked, kept: dict[str, int]) -> dict[str, int]:
    """The fronts known: those of the newest backup, and those seen last time, the greater of both.

    A sender seen last time of whom neither of the two newest backups has anything is gone, as after a restore, and forgotten.
    """
    if it.backups is None:
        return dict(kept)
    found: dict[str, int] = {}
    lately: set[str] = set()
    for path in newest_first(it.backups)[:2]:
        with contextlib.suppress(OfficeError), open_copy(path) as copy:
            fronts = {line.sender: line.front for line in copy.lines()}
            found, lately = found or fronts, lately | fronts.keys()
    for sender, front in kept.items():
        if sender in lately or not lately:
            found[sender] = max(front, found.get(sender, 0))
    return found


def taken_up(into: dict[str, Any], known: dict[str, Any]) -> list[Finding]:
    """Takes up what is known; nothing is found by it."""
    into.update(known)
    return []


def keep(it: Looked, state: dict[str, Any]) -> list[Finding]:
    """Keeps what was seen for next time; nothing is found by it."""
    if it.state is not None:
        write_text(it.state, json.dumps(state))
    return []


def tried(name: str, look: Callable[[], list[Finding]]) -> list[Finding]:
    """What a look finds; what can't be looked at, for whatever cause, is wrong, and hides nothing else."""
    try:
        return look()
    except (OfficeError, OSError, ValueError) as error:
        return [Finding(name, WRONG, f"could not be looked at: {error}")]
    except Exception as error:
        return [Finding(name, WRONG, f"could not be looked at: {type(error).__name__}: {error}")]


def look(it: Looked, limits: Limits) -> list[Finding]:
    """All that is found; fronts are kept for next time where none was lower, and where what was kept last time could be read."""
    state: dict[str, Any] = {"fronts": {}, "sound": {}}
    fronts: dict[str, int] = {}
    unread = tried("state", lambda: taken_up(state, kept_state(it)))
    unread = tried("state", lambda: taken_up(fronts, known_fronts(it, state["fronts"]))) or unread
    found = unread + tried("answer", lambda: list(look_at_answer(it, limits, fronts)))
    if any(it.name == "fronts" and it.state == GOOD for it in found):
        state["fronts"] = fronts
    if it.database is not None:
        found += tried("file", lambda: [look_at_file(it)])
        found += tried("memory", lambda: [look_at_memory(it, limits)])
    if it.disk is not None:
        found += tried("disk", lambda: [look_at_disk(it, limits)])
    if it.backups is not None:
        found += tried("backup", lambda: [look_at_backup(it, limits)])
        found += tried("sound", lambda: [look_into_backup(it, state["sound"])])
        found += tried("money", lambda: [money_of(it, limits)])
    if it.certificate is not None:
        found += tried("certificate", lambda: [look_at_certificate(it, limits)])
    if it.standby is not None:
        found += tried("standby", lambda: [look_at_standby(it, limits)])
    if it.decisions is not None:
        found += tried("decisions", lambda: [decisions_of(it)])
    return found if unread else found + tried("state", lambda: keep(it, state))
