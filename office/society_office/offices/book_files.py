"""The files of an office: whether the one that runs writes what its path names, and the log is whole. Scripts use it by `python3 -m`."""

import contextlib
import dataclasses
import json
import os
import pathlib
import re
import sqlite3
import sys
import time
from collections.abc import Callable, Iterator
from typing import TypeVar

from society_office.basics.errors import OfficeError
from society_office.book import book_log, page_sums
from society_office.book.copy import beside, is_in_use, open_copy
from society_office.formats.numbering import as_sent
from society_office.offices.answered import Lack, lacks
from society_office.offices.asking import Connections

PROCESSES = pathlib.Path("/proc")
# Seconds that an answer is waited for.
LONGEST_ASKED = 10.0
# How often, and after how many seconds, an office that has a file not open is looked at again: it may be just starting or ending.
TRIES, PAUSE = 5, 0.2
Found = TypeVar("Found")
USAGE = """usage: python3 -m society_office.offices.book_files check DATABASE
       python3 -m society_office.offices.book_files log LOG
       python3 -m society_office.offices.book_files join DATABASE LOG TARGET
       python3 -m society_office.offices.book_files write-log DATABASE TARGET
       python3 -m society_office.offices.book_files with-sums DATABASE TARGET
       python3 -m society_office.offices.book_files resum DATABASE
       python3 -m society_office.offices.book_files office DATABASE
       python3 -m society_office.offices.book_files lacking DATABASE PROCESS
       python3 -m society_office.offices.book_files has DATABASE ASKED
       python3 -m society_office.offices.book_files front DATABASE SENDER
       python3 -m society_office.offices.book_files settings FILE"""
# A setting of the office: the whole line behind `=`, in quotes or not.
SETTING = re.compile(r"""^[ \t]*(SOCIETY|TERRITORY|NAME)=[ \t]*(?:"([^"]*)"|'([^']*)'|(.*?))[ \t]*$""", re.MULTILINE)


def log_of(database: pathlib.Path) -> pathlib.Path:
    """The log's path."""
    return beside(database, "-wal")


def named_database(process: pathlib.Path) -> pathlib.Path | None:
    """The file that a process was told to serve by `--db`; None where it is no office."""
    words = [os.fsdecode(it) for it in (process / "cmdline").read_bytes().split(b"\0")]
    if not (process / "comm").read_text().startswith("society") or "serve" not in words:
        return None
    named = [after for word, after in zip(words, words[1:]) if word == "--db"]
    named += [it.removeprefix("--db=") for it in words if it.startswith("--db=")]
    return pathlib.Path(os.readlink(process / "cwd"), named[0]).resolve() if named else None


def offices(database: pathlib.Path) -> Iterator[pathlib.Path]:
    """The processes, as folders of /proc, that were started to serve a file; those that may not be looked at are passed over."""
    for process in PROCESSES.glob("[0-9]*"):
        with contextlib.suppress(OSError):
            if named_database(process) == database.resolve():
                yield process


def has_open(process: pathlib.Path, path: pathlib.Path) -> bool:
    """Whether a process has this very file open, and not another one that had its name before."""
    wanted = path.stat() if path.exists() else None
    for link in (process / "fd").iterdir():
        with contextlib.suppress(OSError):
            if wanted is not None and os.path.samestat(link.stat(), wanted):
                return True
    return False


def unwritten(database: pathlib.Path) -> tuple[str, pathlib.Path] | None:
    """An office's process and a file that it should write and has not open."""
    for process in offices(database):
        for path in database.resolve(), log_of(database.resolve()):
            with contextlib.suppress(FileNotFoundError):
                if not has_open(process, path):
                    return process.name, path
    return None


def emptied(database: pathlib.Path) -> str | None:
    """An office's process under which the log was emptied: it writes the first words of a log before it listens."""
    log = log_of(database)
    return next((it.name for it in offices(database) if log.exists() and not any(book_log.Log(log).header)), None)


def still(look: Callable[[pathlib.Path], Found | None], database: pathlib.Path) -> Found | None:
    """What is found, where it is so each time that it is looked at."""
    tries = TRIES
    while (found := look(database)) is not None and tries:
        time.sleep(PAUSE)
        tries -= 1
    return found


def fault_of_files(database: pathlib.Path) -> str:
    """What is wrong with the files that an office writes, in words, or the empty text."""
    found = still(unwritten, database)
    if found is None:
        log = log_of(database)
        if (fault := book_log.fault_of_log(log)) or (office := still(emptied, database)) is None:
            return fault
        return f"{log} is damaged: it was emptied under the office, process {office}, and the next start drops what stood in it"
    process, path = found
    return (
        f"the office, process {process}, does not write {path}: it was moved, removed or put there while the office ran, "
        f"and what is answered goes into another file, which ls -l /proc/{process}/fd names"
    )


def office_words(database: pathlib.Path) -> list[str]:
    """The options that name a file's office; an OfficeError where it has none."""
    try:
        with contextlib.closing(sqlite3.connect(f"{database.resolve().as_uri()}?mode=ro&immutable=1", uri=True)) as it:
            society, territory, name = it.execute("SELECT society, territory, name FROM office").fetchone()
    except (sqlite3.DatabaseError, TypeError) as error:
        raise OfficeError(f"{database} holds no office") from error
    return ["--society", str(society), "--territory", str(territory), f"--name={name}"]


def front_of(database: pathlib.Path, sender: str) -> str:
    """The front of a sender as an office tells it; the empty text of a file of layout 1, which has none."""
    with open_copy(database) as copy:
        if copy.layout == 1:
            return ""
        line = copy.line(sender)
        return as_sent(line.front) if line else "0"


def settings_words(file: pathlib.Path) -> list[str]:
    """The options that the settings of an office come to; an OfficeError where they are not filled in."""
    found = {it[1]: it[2] or it[3] or it[4] or "" for it in SETTING.finditer(file.read_text())}
    if not all(found.get(it) for it in ("SOCIETY", "TERRITORY", "NAME")):
        raise OfficeError(f"{file} has no SOCIETY, TERRITORY or NAME")
    return ["--society", found["SOCIETY"].lstrip("0"), "--territory", found["TERRITORY"].lstrip("0"), f"--name={found['NAME']}"]


def port_of(process: str) -> int:
    """The port at which an office listens, by its process; an OfficeError where it names none."""
    words = [os.fsdecode(it) for it in (PROCESSES / process / "cmdline").read_bytes().split(b"\0")]
    named = [after for word, after in zip(words, words[1:]) if word == "--port"]
    named += [it.removeprefix("--port=") for it in words if it.startswith("--port=")]
    if not named or not named[0].isdecimal():
        raise OfficeError(f"process {process} names no port")
    return int(named[0])


def tell_lacking(database: pathlib.Path, process: pathlib.Path) -> None:
    """Prints what the office of a process answers and a copy has not, as JSON; it may have come since the copy was made."""
    office = Connections(f"http://127.0.0.1:{port_of(process.name)}", LONGEST_ASKED)
    try:
        with open_copy(database) as copy:
            print(json.dumps([dataclasses.asdict(it) for it in lacks(copy, office)] if copy.layout > 1 else []))
    finally:
        office.close()


def need_all(database: pathlib.Path, asked: pathlib.Path) -> None:
    """An OfficeError where a copy has not what an office answered before the copy was made."""
    with open_copy(database) as copy:
        if missing := [it.words for it in (Lack(**one) for one in json.loads(asked.read_text())) if not it.is_in(copy)]:
            raise OfficeError("; ".join(missing))


def resum(database: pathlib.Path) -> None:
    """Sums the pages of a file anew, into which sqlite3 has written; an OfficeError where it has no sums, or an office has it open."""
    if is_in_use(database):
        raise OfficeError(f"{database} is in use: stop the office first")
    if not page_sums.has_sums(database):
        raise OfficeError(f"{database} has no sums")
    page_sums.resum(database)


def refuse(fault: str) -> None:
    """An OfficeError where there is a fault."""
    if fault:
        raise OfficeError(fault)


COMMANDS: dict[str, tuple[int, Callable[..., object]]] = {
    "check": (1, lambda database: refuse(fault_of_files(database))),
    "log": (1, lambda log: refuse(book_log.fault_of_log(log))),
    "join": (3, book_log.join),
    "write-log": (2, book_log.write_log),
    "with-sums": (2, page_sums.write_with_sums),
    "resum": (1, resum),
    "office": (1, lambda database: print("\n".join(office_words(database)))),
    "lacking": (2, tell_lacking),
    "has": (2, need_all),
    "front": (2, lambda database, sender: print(front_of(database, str(sender)))),
    "settings": (1, lambda file: print("\n".join(settings_words(file)))),
}


def main(words: list[str]) -> int:
    """Runs a command for a script: status 1 and a line on standard error where something is wrong."""
    count, command = COMMANDS.get(words[0] if words else "", (-2, print))
    if len(words) != count + 1:
        print(USAGE, file=sys.stderr)
        return 2
    try:
        command(*map(pathlib.Path, words[1:]))
    except (OfficeError, OSError) as error:
        print(error, file=sys.stderr)
        return 1
    return 0


if __name__ == "__main__":
    sys.exit(main(sys.argv[1:]))
