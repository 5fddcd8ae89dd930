"""The log of an office's file (SQLite's write-ahead log), byte for byte: its end, what stands behind its end, and its pages."""

import array
import dataclasses
import functools
import operator
import os
import pathlib
import shutil
import struct
import sys
from collections.abc import Iterator, Sequence

from society_office.basics.errors import OfficeError

HEADER, FRAME_HEADER = 32, 24
# The first word of a log, whose last bit tells the order of the bytes in the words that are summed; the format's version.
MAGIC, FORMAT = 0x377F_0682, 3_007_000
WORD = 0xFFFF_FFFF
# What a database begins with.
DATABASE = b"SQLite format 3\0"
# How often a log that is written meanwhile is read.
TRIES = 6
Sums = tuple[int, int]


@functools.cache
def weights(count: int) -> tuple[list[int], list[int]]:
    """How often each of so many words, and then the two sums from before, count in the two new sums: both are linear."""
    found: tuple[list[int], list[int]] = ([], [])
    before, second = (1, 0), (0, 1)
    for _ in range(count // 2):
        for sums, one, other in zip(found, before, second):
            sums += [other, one + other & WORD]
        before, second = (((it[0] + it[1]) & WORD, (it[0] + 2 * it[1]) & WORD) for it in (before, second))
    return [*reversed(found[0]), before[0], second[0]], [*reversed(found[1]), before[1], second[1]]


def summed(words: Sequence[int], before: Sums) -> Sums:
    """SQLite's two sums over words, which go on from those before."""
    first, second = weights(len(words))
    terms = [*words, *before]
    return sum(map(operator.mul, first, terms)) & WORD, sum(map(operator.mul, second, terms)) & WORD


@dataclasses.dataclass(frozen=True)
class Frame:
    """A page in a log: its number, the file's pages where it ends a transaction (else 0), and whether the page before leads to its sums.

    `is_open` is that of the first page of a transaction that is being written: the office puts the first byte of its salts there last.
    """

    page: int
    ends: int
    is_open: bool
    is_right: bool
    content: bytes


class Log:
    """A log as it stands at this moment; `frames` reads it."""

    def __init__(self, path: pathlib.Path) -> None:
        self.path = path
        with path.open("rb") as file:
            self.header = file.read(HEADER)
        whole = len(self.header) == HEADER
        self.words: tuple[int, ...] = struct.unpack(">8I", self.header) if whole else (0,) * 8
        # (the office shuts a log by its first byte, once all of it is in the file, and then begins it anew)
        self.is_shut = self.header[:1] == b"\0" and any(self.header)
        self.is_swapped = bool(self.words[0] & 1) == (sys.byteorder == "little")
        is_page = 512 <= self.words[2] <= 65_536 and self.words[2] & (self.words[2] - 1) == 0
        self.is_right = whole and self.words[0] & ~1 == MAGIC and is_page and self.sums(self.header[:24], (0, 0)) == self.words[6:]
        self.page_size = self.words[2] if is_page else 4_096

    def sums(self, content: bytes, before: Sums) -> Sums:
        """The sums over some bytes."""
        words = array.array("I", content)
        if self.is_swapped:
            words.byteswap()
        return summed(words, before)

    def frames(self) -> Iterator[Frame]:
        """All whole frames, also those behind the end."""
        before: Sums = (self.words[6], self.words[7])
        salts = self.words[4:6] if self.is_right else None
        with self.path.open("rb") as file:
            file.seek(HEADER)
            while len(head := file.read(FRAME_HEADER)) == FRAME_HEADER and len(content := file.read(self.page_size)) == self.page_size:
                page, ends, *own, first, second = struct.unpack(">6I", head)
                # (of a log that was emptied under the office the first frames are nothing)
                salts = salts or (tuple(own) if any(own) else (0, 0) if any(self.header) else None)
                is_right = tuple(own) == salts and self.sums(head[:8] + content, before) == (first, second)
                yield Frame(page, ends, salts is not None and own == [salts[0] & 0xFF_FFFF, salts[1]], is_right, content)
                before = first, second

    def lost(self) -> tuple[int, int]:
        """Where the log ends, in pages, and how many confirmed transactions stand behind its end, of which a start reads none.

        A transaction that was broken off has no last page with the log's own salts and right sums, or an open first one. So any other
        last page behind the end means that something before it was changed. A log that was emptied while the office had it open begins with
        nothing: the first words of a new one are on the disk before its first page is.
        """
        is_read, end, lost = self.is_right, 0, 0
        for frame in () if self.is_shut else self.frames():
            if is_read and not frame.is_right:
                is_read, lost = False, -1 if frame.is_open else 0
            end += is_read
            lost += not is_read and frame.is_right and frame.ends > 0
        return end, max(lost, 0)

    def pages(self) -> tuple[dict[int, int], int]:
        """Where the newest content of each page stands, by the transactions up to the end; and the file's pages then, 0 without any."""
        found: dict[int, int] = {}
        begun: dict[int, int] = {}
        count = 0
        for place, frame in enumerate(self.frames() if self.is_right else ()):
            if not frame.is_right:
                break
            begun[frame.page] = HEADER + place * (FRAME_HEADER + self.page_size) + FRAME_HEADER
            if frame.ends:
                found.update(begun)
                begun, count = {}, frame.ends
        return found, count


def fault_of_log(path: pathlib.Path) -> str:
    """What is wrong with a log, in words, or the empty text. A log that is written meanwhile is read again: damage stays where it is."""
    before: tuple[bytes, int] | None = None
    for _ in range(TRIES):
        if not path.exists():
            return ""
        log = Log(path)
        end, lost = log.lost()
        if not lost:
            return ""
        if before == (log.header, end):
            return (
                f"{path} is damaged: {lost} transactions stand behind a page that is not as it was written, and the next start drops them"
            )
        before = log.header, end
    return ""


def join(database: pathlib.Path, log: pathlib.Path, target: pathlib.Path) -> None:
    """Writes a file and its log, which nobody changes meanwhile, as one file, each page as it is."""
    shutil.copyfile(database, target)
    if not log.exists():
        return
    read = Log(log)
    pages, count = read.pages()
    if not count:
        return
    with log.open("rb") as source, target.open("r+b") as file:
        for page, place in sorted(pages.items()):
            source.seek(place)
            file.seek((page - 1) * read.page_size)
            file.write(source.read(read.page_size))
        file.truncate(count * read.page_size)


def page_size_and_count(database: pathlib.Path) -> tuple[int, int]:
    """The bytes of a page of a file, and how many pages it has; an OfficeError where it is no whole database."""
    with database.open("rb") as file:
        start, size = file.read(100), os.fstat(file.fileno()).st_size
    page_size = int.from_bytes(start[16:18], "big")
    page_size = 65_536 if page_size == 1 else page_size
    if not start.startswith(DATABASE) or page_size < 512 or size % page_size:
        raise OfficeError(f"{database} is no whole SQLite database")
    return page_size, size // page_size


def pages(database: pathlib.Path) -> Iterator[tuple[int, bytes]]:
    """Each page of a whole file, behind its number."""
    page_size, count = page_size_and_count(database)
    with database.open("rb") as file:
        for number in range(1, count + 1):
            yield number, file.read(page_size)


def write_log(database: pathlib.Path, target: pathlib.Path) -> None:
    """Writes a log that has each page of a file, so that beside any other file it is read as this one."""
    page_size, count = page_size_and_count(database)
    with target.open("xb") as log:
        salts = b"\1\0\0\0" + os.urandom(4)
        head = struct.pack(">4I", MAGIC | (sys.byteorder == "big"), FORMAT, page_size, 0) + salts
        sums = summed(array.array("I", head), (0, 0))
        log.write(head + struct.pack(">2I", *sums))
        for page, content in pages(database):
            head = struct.pack(">2I", page, count if page == count else 0)
            sums = summed(array.array("I", head + content), sums)
            log.write(head + salts + struct.pack(">2I", *sums) + content)
        # (the program takes only a log whose place behind the last frame has other salts, as its own store leaves it)
        log.write(bytes(FRAME_HEADER))
        log.flush()
        os.fsync(log.fileno())
