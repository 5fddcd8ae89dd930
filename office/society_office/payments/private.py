"""Files that have what members told the office: for their user and the treasurer's group alone, whatever the umask says."""

import contextlib
import os
import pathlib
import shutil
import stat
from collections.abc import Iterable, Iterator

from society_office.basics.errors import OfficeError
from society_office.decided.decisions import sync

# The user writes, the group reads; in a folder all of the group may put and replace files.
FILE, SHARED, FOLDER = 0o640, 0o2770, 0o750


@contextlib.contextmanager
def told(target: pathlib.Path) -> Iterator[None]:
    """An OfficeError where a file can't be written."""
    try:
        yield
    except OSError as error:
        raise OfficeError(f"{target} could not be written: {error.strerror}") from error


def write_quick(target: pathlib.Path, content: bytes) -> None:
    """Writes a file in one step, for the user and the group alone; it can be made again, and so the disk is not waited for."""
    write(target, content, is_kept=False)


def write(target: pathlib.Path, content: bytes, is_kept: bool = True) -> None:
    """Writes a file in one step, for the user and the group alone; after a power failure it is the old one or the new one."""
    draft = target.with_name(f".{target.name}.new")
    with told(target):
        with contextlib.suppress(FileNotFoundError):
            draft.unlink()
        handle = os.open(draft, os.O_WRONLY | os.O_CREAT | os.O_EXCL | os.O_CLOEXEC | os.O_NOFOLLOW, 0o600)
        try:
            with open(handle, "wb") as out:
                os.fchmod(handle, FILE)
                out.write(content)
                out.flush()
                if is_kept:
                    os.fsync(handle)
            draft.rename(target)
        except BaseException:
            draft.unlink(missing_ok=True)
            raise
        if is_kept:
            sync(target.parent)


def make(folder: pathlib.Path, mode: int = FOLDER) -> None:
    """Makes a folder that others than the user and the group can't look into; one that is there stays as it is."""
    with told(folder):
        if not folder.is_dir():
            folder.mkdir(parents=True)
            folder.chmod(mode)


def share(place: pathlib.Path, group: str | None) -> None:
    """Gives a file, or a folder and what is made there, to a group, else to that of the user; an OfficeError where it can't be."""
    try:
        shutil.chown(place, group=group if group is not None else os.getgid())
        place.chmod(SHARED if place.is_dir() else FILE)
    except LookupError as error:
        raise OfficeError(f"this machine has no group {group}: `addgroup {group}`, as root") from error
    except PermissionError as error:
        raise OfficeError(f"{place} can't be given to the group {group}: you are not of it; ask root") from error


def open_to_others(paths: Iterable[pathlib.Path]) -> list[pathlib.Path]:
    """Those that users outside the group may read or write, or that the group may write though it is a file."""
    found = []
    for it in paths:
        mode = stat.S_IMODE(it.stat().st_mode)
        if mode & 0o7 or (it.is_file() and mode & ~FILE):
            found.append(it)
    return found
