"""Lists that people write beside a copy: an entry in a line, and a remark behind `#`."""

import pathlib
from collections.abc import Iterator

from society_office.basics.errors import OfficeError
from society_office.formats.plays import BOM


def entries_of(file: pathlib.Path) -> Iterator[tuple[str, str]]:
    """The entries of a list, each with where it stands; an OfficeError with the line of what is no UTF-8."""
    for number, raw in enumerate(file.read_bytes().removeprefix(BOM).split(b"\n"), 1):
        where = f"{file}, line {number}"
        try:
            words = raw.decode("utf-8").partition("#")[0].strip(" \t\r")
        except UnicodeDecodeError as error:
            raise OfficeError(f"{where}: the byte 0x{raw[error.start]:02X} is no UTF-8: save the list as UTF-8") from error
        if words:
            yield where, words
