"""Tables and lines in a terminal."""

import contextlib
import errno
import io
import os
import sys
from collections.abc import Callable, Iterable, Iterator, Sequence

import click
from rich import box
from rich.console import Console
from rich.progress import Progress
from rich.status import Status
from rich.table import Table
from rich.text import Text

from society_office.basics.plain_text import printable

# The width where the output is no terminal, as in a pipe or a file.
PLAIN_WIDTH = 140


class Closed(io.TextIOBase):
    """A standard output that was closed before the command began."""

    def write(self, text: str, /) -> int:
        """An OSError, as writing to a closed file is."""
        raise OSError(errno.EBADF, "it is closed")


def prepare_streams() -> None:
    """Letters that the locale has not are written as their numbers, and a closed stream is told or passed over."""
    if sys.stdout is None:
        sys.stdout = Closed()
    if sys.stderr is None:
        sys.stderr = open(os.devnull, "w")
    for stream in (sys.stdout, sys.stderr):
        if isinstance(stream, io.TextIOWrapper):
            stream.reconfigure(errors="backslashreplace")


def drop_output() -> None:
    """What stands in standard output is not written any more, which Python would try once more when it ends."""
    # (one that was closed has nothing)
    with contextlib.suppress(io.UnsupportedOperation):
        os.dup2(os.open(os.devnull, os.O_WRONLY), sys.stdout.fileno())


def console(error: bool = False) -> Console:
    """Where a command writes; no mark-up, since texts of senders are shown."""
    stream = sys.stderr if error else sys.stdout
    width = None if stream.isatty() else PLAIN_WIDTH
    return Console(file=stream, markup=False, highlight=False, emoji=False, width=width, soft_wrap=False)


def table(columns: Sequence[str], rows: Iterable[Sequence[object]], numbers: Sequence[str] = (), title: str = "") -> Table:
    """A table; the columns named as numbers stand at the right, with commas between thousands."""
    found = Table(
        box=box.SIMPLE_HEAD,
        show_edge=False,
        pad_edge=False,
        title=title or None,
        title_justify="left",
        title_style="bold",
    )
    for column in columns:
        found.add_column(column, justify="right" if column in numbers else "left", overflow="fold", no_wrap=column in numbers)
    for row in rows:
        found.add_row(*(Text(f"{it:,}" if isinstance(it, int) else str(it)) for it in row))
    return found


def say(line: str, error: bool = False) -> None:
    """Writes a line, however long, or several; `?` stands for what would steer the terminal, as an answer of what is no office may."""
    click.echo("\n".join(map(printable, line.split("\n"))), err=error)


@contextlib.contextmanager
def counting(words: str, total: int) -> Iterator[Callable[[], None]]:
    """Shows in a terminal how many of some things are done; what it gives is called after each of them."""
    if not sys.stderr.isatty():
        yield lambda: None
        return
    with Progress(console=console(error=True), transient=True) as progress:
        task = progress.add_task(words, total=total)
        yield lambda: progress.advance(task)


@contextlib.contextmanager
def doing(words: str) -> Iterator[Callable[[str], None]]:
    """Shows in a terminal what is done now; what it gives is called with the next words."""
    if not sys.stderr.isatty():
        yield lambda _: None
        return
    with Status(words, console=console(error=True)) as status:
        yield status.update
