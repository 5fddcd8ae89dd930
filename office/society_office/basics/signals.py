"""Signals that ask for the end: a command first puts away what it began, so that no throw-away office and no copy of a book is left."""

import contextlib
import os
import signal
from collections.abc import Callable, Iterator
from typing import NoReturn

# What `kill` and `systemctl stop` send, and what a terminal sends that is closed; Python itself heeds Ctrl-C.
ENDING = (signal.SIGTERM, signal.SIGHUP)
# What Linux calls the signal that a process gets when the one that started it ends.
PARENT_DEATH_SIGNAL = 1


class Ended(SystemExit):
    """The end that a signal asks for, with its number as the code."""


def end(number: int, _: object) -> NoReturn:
    """Ends what is under way."""
    raise Ended(number)


@contextlib.contextmanager
def heeded() -> Iterator[None]:
    """What asks for the end while the `with` lasts ends it, and then the process, as it would have done at once."""
    taken = [it for it in ENDING if signal.getsignal(it) == signal.SIG_DFL]
    for it in taken:
        signal.signal(it, end)
    asked = None
    try:
        yield
    except Ended as ended:
        asked = ended.code
    finally:
        for it in taken:
            signal.signal(it, signal.SIG_DFL)
    if isinstance(asked, int):
        signal.raise_signal(asked)


@contextlib.contextmanager
def put_off() -> Iterator[None]:
    """What asks for the end comes when the `with` has ended, so that what is begun meanwhile is known and can be put away."""
    came: list[int] = []
    taken = [it for it in (*ENDING, signal.SIGINT) if signal.getsignal(it) != signal.SIG_IGN]
    before = {it: signal.signal(it, lambda number, _: came.append(number)) for it in taken}
    try:
        yield
    finally:
        for it, handler in before.items():
            signal.signal(it, handler)
    for number in came:
        signal.raise_signal(number)


def ends_with_parent() -> Callable[[], None] | None:
    """What a process that is started does first, so that it is killed when this one ends, however that is; None where it can't."""
    try:
        # (a process that few commands start, and a module that some units might not let in)
        import ctypes

        library = ctypes.CDLL(None)
    except (ImportError, MemoryError, OSError):
        return None
    parent = os.getpid()

    def ask() -> None:
        library.prctl(PARENT_DEATH_SIGNAL, signal.SIGKILL)
        # (it may have ended meanwhile)
        if os.getppid() != parent:
            os.kill(os.getpid(), signal.SIGKILL)

    return ask
