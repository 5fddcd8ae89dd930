"""Which office the proxy may mirror puts to: a file stands for one that is known to be of the office's own society.

nginx can't ask that, but looks for the file FOLDER/http://127.0.0.1:8082, where this is the address of its mirror, before each put.
"""

import contextlib
import pathlib
from collections.abc import Iterator

from society_office.basics.errors import OfficeError
from society_office.book.copy import Copy
from society_office.offices.asking import Connections
from society_office.second_office.resending import is_of_same_society

# Who else may look for the file: the proxy, which is another user.
OPEN_FOLDER, OPEN_FILE = 0o755, 0o644


def place_of(folder: pathlib.Path, address: str) -> pathlib.Path:
    """The file of an address; an OfficeError where that would lead out of the folder."""
    if ".." in pathlib.PurePath(address).parts:
        raise OfficeError(f"{address} is no address of a mirror")
    return folder / address.rstrip("/")


@contextlib.contextmanager
def told(folder: pathlib.Path | None, copy: Copy, office: Connections) -> Iterator[None]:
    """Makes the file where the office is known, and takes it away where it is not, or where the `with` ends in an OfficeError."""
    if folder is None:
        yield
        return
    place = place_of(folder, office.address)
    try:
        if not is_of_same_society(copy, office):
            raise OfficeError(f"{office.address} is no office of society {copy.society}: nothing was sent, and the mirror is off")
        make(folder, place)
        yield
    except OfficeError:
        place.unlink(missing_ok=True)
        raise


def make(folder: pathlib.Path, place: pathlib.Path) -> None:
    """Makes a file below a folder, and what is between them, for all to see."""
    for it in reversed([it for it in place.parents if it == folder or folder in it.parents]):
        if not it.is_dir():
            it.mkdir()
            it.chmod(OPEN_FOLDER)
    place.touch()
    place.chmod(OPEN_FILE)
