"""Pages and PDF files out of the templates. Everything that a sender wrote is escaped."""

import contextlib
import datetime
import fcntl
import functools
import os
import pathlib
import re
import shutil
import sys
import time
from collections.abc import Callable, Iterable, Iterator
from typing import Any, TextIO

import jinja2
import markupsafe

from society_office.basics.errors import OfficeError
from society_office.book.book_log import DATABASE, MAGIC
from society_office.formats.numbering import as_sent, counted

TEMPLATES = pathlib.Path(__file__).parent / "templates"
# A unit in the last place of a percentage.
TENTHS = 1_000
# Seconds of an hour, hours of a day, and how many hours are told as such.
HOUR, DAY, MANY_HOURS = 3_600, 24, 48


def units(number: int) -> str:
    """A whole number with commas between thousands."""
    return f"{number:,}"


def percent(part: int, whole: int) -> str:
    """A part of a whole in percent, to one place."""
    tenths = (part * TENTHS + whole // 2) // whole if whole else 0
    return f"{tenths // 10}.{tenths % 10} %"


def aged(seconds: float) -> str:
    """How old a copy of a time was when its pages are made, in words."""
    hours = int((time.time() - seconds) // HOUR)
    if hours < 1:
        return "less than an hour"
    return counted(hours, "hour") if hours < MANY_HOURS else counted(hours // DAY, "day")


def moment(seconds: float) -> str:
    """A time of a file as people write it, with its zone."""
    return datetime.datetime.fromtimestamp(seconds).astimezone().strftime("%Y-%m-%d %H:%M %Z")


def with_links(words: str, top: str) -> markupsafe.Markup:
    """Words in which each number behind `pool` or `pools` leads to the page of that pool."""

    def linked(found: re.Match[str]) -> str:
        return re.sub("[0-9]+", lambda it: f'<a href="{top}pools/{it[0]}.html">{it[0]}</a>', found[0])

    return markupsafe.Markup(re.sub("[Pp]ools? [0-9]+(, [0-9]+)*( and [0-9]+)?", linked, str(markupsafe.escape(words))))


def begun(words: str) -> str:
    """Words as a sentence begins: the first letter as a capital, all others as they are."""
    return words[:1].upper() + words[1:]


@functools.cache
def environment() -> jinja2.Environment:
    """The templates with the filters that they use."""
    found = jinja2.Environment(
        loader=jinja2.FileSystemLoader(TEMPLATES),
        autoescape=True,
        undefined=jinja2.StrictUndefined,
        trim_blocks=True,
        lstrip_blocks=True,
    )
    found.filters.update(begun=begun, units=units, moment=moment, as_sent=as_sent, with_links=with_links, aged=aged)
    found.globals.update(counted=counted, percent=percent, style=style)
    return found


@functools.cache
def style() -> str:
    """The style sheet, for a page that stands alone."""
    return text_beside("office.css")


def text_beside(name: str) -> str:
    """A text that stands beside the templates."""
    return (TEMPLATES / name).read_text()


def numbered(name: str, count: int, most: int) -> list[str]:
    """The names of the pages of so many rows, so many on each; the first one has no number."""
    return [f"{name}{'' if k == 0 else f'-{k + 1}'}.html" for k in range(max(1, -(-count // most)))]


def page(template: str, /, **values: Any) -> str:
    """A page by its template."""
    return environment().get_template(template).render(**values)


def write_pdf(html: str, target: pathlib.Path) -> None:
    """Writes a page as a PDF file; an OfficeError where WeasyPrint is not installed."""
    try:
        import weasyprint
    except ImportError as error:
        raise OfficeError("a PDF needs WeasyPrint: `apt-get install weasyprint`") from error
    write_bytes(target, weasyprint.HTML(string=html, base_url=str(TEMPLATES)).write_pdf())


def write_text(target: pathlib.Path, text: str) -> None:
    """Writes a text into a file, as write_bytes does."""
    write_bytes(target, text.encode())


def write_out(text: str, target: pathlib.Path | None) -> None:
    """Writes a text into a file, or to standard output where none is named."""
    if target:
        write_text(target, text)
    else:
        sys.stdout.write(text)


def text_of(path: pathlib.Path) -> str:
    """The text of a file; a ValueError where it is none, as a pipe, on which one would wait for ever."""
    if path.exists() and not path.is_file():
        raise ValueError("it is no file")
    return path.read_text()


def begins_as_a_book(path: pathlib.Path) -> bool:
    """Whether a file begins as a database does, or as the log of one."""
    start = b""
    with contextlib.suppress(PermissionError), path.open("rb") as file:
        start = file.read(len(DATABASE))
    return start == DATABASE or int.from_bytes(start[:4], "big") & ~1 == MAGIC


@contextlib.contextmanager
def drafted(target: pathlib.Path) -> Iterator[pathlib.Path]:
    """Where to write what takes the place of a file in one step at the end, with its mode; an OfficeError where it can't be written.

    A link stays, and the file that it leads to is replaced, but no database and no log of one. What is no file, as a device or a pipe, is
    written itself.
    """
    place = pathlib.Path(os.path.realpath(target))
    draft = place.parent / f".{place.name}.new"
    try:
        if place.is_file() and begins_as_a_book(place):
            raise OfficeError(f"{target} is a database, or the log of one, and would be replaced: name another file")
        target.parent.mkdir(parents=True, exist_ok=True)
        if target.exists() and not target.is_file():
            yield target
            return
        yield draft
        if place.exists():
            shutil.copymode(place, draft)
        draft.replace(place)
    except OSError as error:
        raise OfficeError(f"{target} could not be written: {error.strerror}") from error
    finally:
        # (nothing is left of what ended early, for whatever cause)
        with contextlib.suppress(OSError):
            draft.unlink()


@contextlib.contextmanager
def new_file(target: pathlib.Path) -> Iterator[TextIO]:
    """A file to write a text into, which takes its place in one step at the end; an OfficeError where it can't be written."""
    with drafted(target) as place, place.open("w", encoding="utf-8", newline="") as file:
        yield file


def write_bytes(target: pathlib.Path, content: bytes) -> None:
    """Writes a file in one step, so that it is the old one or the new one; an OfficeError where it can't be written."""
    with drafted(target) as place:
        place.write_bytes(content)


@contextlib.contextmanager
def locked(folder: pathlib.Path) -> Iterator[None]:
    """Waits until no other command writes into a folder, and lets none while the `with` lasts; an OfficeError where it can't be there."""
    try:
        folder.parent.mkdir(parents=True, exist_ok=True)
        handle = os.open(folder.parent, os.O_RDONLY)
    except OSError as error:
        raise OfficeError(f"{folder} could not be written: {error.strerror}") from error
    try:
        # (some disks of a network have no such lock)
        with contextlib.suppress(OSError):
            fcntl.flock(handle, fcntl.LOCK_EX)
        yield
    finally:
        os.close(handle)


@contextlib.contextmanager
def new_folder(target: pathlib.Path, is_own: Callable[[str], bool]) -> Iterator[pathlib.Path]:
    """A folder to write files into, which takes the place of another one whole at the end, or not at all.

    An OfficeError where it can't, or where what is there has a file that is not one of its own, by its name."""
    target = target.resolve()
    if not target.name or target.exists() and not target.is_dir():
        raise OfficeError(f"{target} is no folder of pages, and what is there would be replaced: name another folder")
    draft, old = (target.with_name(f".{target.name}.{it}") for it in ("new", "old"))
    if target.is_dir():
        for it in sorted(target.rglob("*")):
            if it.is_file() and not is_own(it.relative_to(target).as_posix()):
                raise OfficeError(f"{it} is no page, and a folder of pages is replaced as a whole: name another folder, or take it away")
    try:
        for left in (draft, old):
            shutil.rmtree(left, ignore_errors=True)
        draft.mkdir(parents=True)
        yield draft
        if target.exists():
            shutil.copymode(target, draft)
            target.replace(old)
        draft.replace(target)
    except OSError as error:
        raise OfficeError(f"{target} could not be written: {error.strerror}") from error
    finally:
        for left in (draft, old):
            shutil.rmtree(left, ignore_errors=True)


def write_new(folder: pathlib.Path, files: Iterable[tuple[str, str]]) -> int:
    """Writes texts under their names into a new folder, which nobody reads yet; answers how many."""
    made = set[pathlib.Path]()
    count = 0
    for name, text in files:
        place = folder / name
        if place.parent not in made:
            place.parent.mkdir(parents=True, exist_ok=True)
            made.add(place.parent)
        place.write_text(text)
        count += 1
    return count


def write_all(folder: pathlib.Path, files: Iterable[tuple[str, str]]) -> int:
    """Writes texts under their names into a folder; answers how many."""
    count = 0
    for name, text in files:
        write_text(folder / name, text)
        count += 1
    return count
