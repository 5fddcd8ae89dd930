"""Throw-away folders. Each is locked as long as its command lives, so that the next command takes away what a killed one has left."""

import contextlib
import fcntl
import os
import pathlib
import shutil
import tempfile
from collections.abc import Iterator

# How these folders are named, and no others: one without a lock under this name is of a command that was killed.
PREFIX = "society-office-room-"


@contextlib.contextmanager
def room() -> Iterator[pathlib.Path]:
    """A throw-away folder, which is gone when the `with` ends; what killed commands of this user have left is taken away first."""
    clear(pathlib.Path(tempfile.gettempdir()))
    while True:
        with tempfile.TemporaryDirectory(prefix=PREFIX) as made, held(pathlib.Path(made)) as is_there:
            # (before it had its lock, another command may have taken it away)
            if is_there:
                yield pathlib.Path(made)
                return


@contextlib.contextmanager
def held(folder: pathlib.Path) -> Iterator[bool]:
    """Whether a folder is still there once it has its lock, which it keeps while the `with` lasts."""
    with opened(folder) as handle:
        if handle is not None:
            fcntl.flock(handle, fcntl.LOCK_EX)
        yield handle is not None and folder.exists()


@contextlib.contextmanager
def opened(folder: pathlib.Path) -> Iterator[int | None]:
    """A folder, open while the `with` lasts, and no link to one; None where it is not there."""
    try:
        handle = os.open(folder, os.O_RDONLY | os.O_DIRECTORY | os.O_NOFOLLOW | os.O_CLOEXEC)
    except FileNotFoundError:
        yield None
        return
    try:
        yield handle
    finally:
        os.close(handle)


def clear(folder: pathlib.Path) -> None:
    """Takes away what killed commands of this user have left in a folder; what has a lock, or is another's, stays."""
    for it in folder.glob(f"{PREFIX}*"):
        with contextlib.suppress(OSError), opened(it) as handle:
            if handle is not None and os.fstat(handle).st_uid == os.geteuid():
                fcntl.flock(handle, fcntl.LOCK_EX | fcntl.LOCK_NB)
                shutil.rmtree(it, ignore_errors=True)
