"""The office's program: runs of it over throw-away copies, and requests to an office."""

import base64
import contextlib
import dataclasses
import http.client
import json
import os
import pathlib
import re
import shutil
import socket
import ssl
import subprocess
import urllib.parse
from collections.abc import Callable, Iterator
from typing import Any

from society_office.basics import signals
from society_office.basics.errors import OfficeError
from society_office.basics.plain_text import printable
from society_office.basics.throw_away import room
from society_office.book.copy import Copy, open_copy
from society_office.book.soundness import BROKEN, CURE, need_sound
from society_office.formats.numbering import LAST_RANK, rank_of

CHECKOUT = pathlib.Path(__file__).resolve().parent.parent.parent.parent
# Seconds that a throw-away office may take to listen, and to answer.
START, ANSWER = 600, 600
MANY = 1_000_000
# The header in which the proxy before a trial office says so, and what it says.
KIND, TRIAL = "Society-Office", "trial"
# What an audit says that came to no end: nothing where it was killed.
NOT_LOOKED_AT = re.compile("memory|database store")
# What stands in no name of a host.
UNPRINTED = re.compile(r"[\x00-\x20\x7f]")
# An office answers so to what it takes, or has already, and tells one of these states.
TAKEN = (200, 201, 202)
STATES = ("applied", "held", "ended", "stored", "closed")


def program_of_the_checkout() -> str | None:
    """The program that bin/society of the checkout runs; None where this is no checkout, or it would have to be built."""
    asked = CHECKOUT / "bin/program"
    if not os.access(asked, os.X_OK):
        return None
    done = subprocess.run([asked], stdin=subprocess.DEVNULL, stdout=subprocess.PIPE, text=True, check=False)
    return done.stdout.strip() or None


def find_program(named: str | None = None) -> str:
    """The program: the one that is named, else `society` on the PATH, else the one that bin/society of the checkout runs.

    An OfficeError where there is none."""
    # (each is looked for only where there is none before it: asking the checkout takes a third of a second)
    looked_for = (lambda: named, lambda: os.environ.get("SOCIETY_PROGRAM"), lambda: shutil.which("society"), program_of_the_checkout)
    for candidate in (look() for look in looked_for):
        if candidate and os.access(candidate, os.X_OK) and not os.path.isdir(candidate):
            return os.path.abspath(candidate)
        if candidate and candidate == named:
            raise OfficeError(f"there is no program at {named}")
    raise OfficeError("the program `society` is not on the PATH: name it with --program")


def free_port() -> int:
    """A port of this machine that nobody listens on."""
    with socket.socket() as it:
        it.bind(("127.0.0.1", 0))
        return int(it.getsockname()[1])


@dataclasses.dataclass(frozen=True)
class Answer:
    """The status and the body of an answer, and what kind of office says that it is one: `trial`, where a proxy tells it."""

    status: int
    body: bytes
    kind: str = ""

    @property
    def json(self) -> Any:
        """What the body says, where it is JSON; an empty object where it is not."""
        try:
            return json.loads(self.body)
        except (ValueError, RecursionError):
            return {}

    @property
    def told(self) -> dict[str, Any]:
        """What the body says, where it is a JSON object; an empty one where it is not."""
        return found if isinstance(found := self.json, dict) else {}

    @property
    def is_taken(self) -> bool:
        """Whether an office has what was sent: it then tells a state, which a page that answers in its place does not."""
        return self.status in TAKEN and self.told.get("state") in STATES

    def fault(self, where: str) -> tuple[int, int] | None:
        """The fault of what was sent, and its `line` or `row`; None where none is told."""
        number, place = self.told.get("fault"), self.told.get(where)
        return (number, place) if self.status == 422 and isinstance(number, int) and isinstance(place, int) else None

    @property
    def standing(self) -> tuple[int, set[int]] | None:
        """The front and the held numbers that it tells of a sender; None where it tells none, as an answer of what is no office."""
        try:
            told = [rank_of(it) for it in (self.json["front"], *self.json["held"])]
        except (LookupError, TypeError):
            return None
        known = [it for it in told if it is not None and 0 <= it <= LAST_RANK]
        return (known[0], set(known[1:])) if len(known) == len(told) else None

    @property
    def error(self) -> str:
        """Why the office refuses what was sent, in its own word; the empty text where it tells none."""
        return str(self.told.get("error", ""))


def parts_of(address: str) -> urllib.parse.SplitResult:
    """The parts of an office's address; an OfficeError where it is none."""
    with contextlib.suppress(ValueError):
        parts = urllib.parse.urlsplit(address)
        is_office = parts.scheme in ("http", "https") and not parts.query and not parts.fragment and port_of(parts) is not None
        # (what a publisher writes before each request is no office)
        is_office = is_office and "/v1/" not in f"{parts.path}/"
        if is_office and parts.hostname and not UNPRINTED.search(parts.hostname):
            return parts
    raise OfficeError(f"{address} is no address of an office: write http://127.0.0.1:8080 or https://office.example:8443")


def port_of(parts: urllib.parse.SplitResult) -> int | None:
    """The port of an address; None where what stands there is none."""
    try:
        return parts.port or (443 if parts.scheme == "https" else 80)
    except ValueError:
        return None


def context_by(authority: str | None) -> ssl.SSLContext:
    """What trusts the certificate of a file, or the public ones; an OfficeError where the file has none."""
    try:
        return ssl.create_default_context(cafile=authority)
    except OSError as error:
        raise OfficeError(f"{authority} is no certificate that can be read: {error.strerror or error}") from error


class Office:
    """An office that is asked over HTTP, over one connection that is kept as long as the office keeps it."""

    def __init__(self, address: str, user: str = "", password: str = "", authority: str | None = None, seconds: float = ANSWER) -> None:
        """An office at http://host:port or https://host:port; an OfficeError where the address is none."""
        parts = parts_of(address)
        self.address, self.path, self.is_broken_off = address, parts.path.rstrip("/"), False
        self.headers = {"Authorization": "Basic " + base64.b64encode(f"{user}:{password}".encode()).decode()} if user else {}
        if parts.scheme == "https":
            context = context_by(authority)
            self.connection: http.client.HTTPConnection = http.client.HTTPSConnection(
                parts.hostname or "", port_of(parts), timeout=seconds, context=context
            )
        else:
            self.connection = http.client.HTTPConnection(parts.hostname or "", port_of(parts), timeout=seconds)

    def ask(self, method: str, path: str, body: bytes | None = None) -> Answer:
        """The answer to a request; an OfficeError where none came."""
        try:
            if self.connection.sock is None:
                self.connection.connect()
            # (it may have been broken off before there was a connection to shut)
            if self.is_broken_off:
                raise ConnectionAbortedError("broken off")
            self.connection.request(method, self.path + path, body=body, headers=self.headers)
            answer = self.connection.getresponse()
            return Answer(answer.status, answer.read(), answer.getheader(KIND) or "")
        except (OSError, ValueError, http.client.HTTPException) as error:
            self.connection.close()
            raise OfficeError(f"no answer from {self.address}: {printable(str(error).strip())}") from error

    def wait_for(self, seconds: float) -> None:
        """From now on an office that says nothing for so many seconds gives no answer."""
        self.connection.timeout = seconds
        if self.connection.sock is not None:
            self.connection.sock.settimeout(seconds)

    def break_off(self) -> None:
        """Has the request that another thread waits for, or is about to send, end without an answer."""
        self.is_broken_off = True
        if (it := self.connection.sock) is not None:
            with contextlib.suppress(OSError):
                it.shutdown(socket.SHUT_RDWR)

    def close(self) -> None:
        """Ends the connection, so that others are served."""
        self.connection.close()


@dataclasses.dataclass
class Trial:
    """A throw-away office and the file that it serves."""

    office: Office
    database: pathlib.Path
    process: subprocess.Popen[bytes]

    def end(self) -> None:
        """Ends the office; its file can be read then."""
        self.office.close()
        self.process.terminate()
        self.process.wait()


@contextlib.contextmanager
def trial_office(program: str, words: list[str], database: pathlib.Path | None = None) -> Iterator[Trial]:
    """A throw-away office over a copy of a file, or over an empty one; it is gone when the `with` ends."""
    with room() as folder:
        place = folder / "trial.db"
        if database is not None:
            shutil.copyfile(database, place)
        port = free_port()
        options = [
            *(["--existing"] if database is not None else []),
            "--db",
            str(place),
            "--port",
            str(port),
            "--connections",
            str(MANY),
        ]
        with (folder / "errors").open("wb+") as errors:
            process = None
            try:
                with signals.put_off():
                    process = subprocess.Popen(
                        [program, "serve", *options, *words], stdout=subprocess.PIPE, stderr=errors, preexec_fn=signals.ends_with_parent()
                    )
                if process.stdout is None or process.stdout.readline() != b"listening\n":
                    process.wait()
                    errors.seek(0)
                    raise OfficeError(f"the program did not start over the copy: {errors.read().decode(errors='replace').strip()}")
                yield Trial(Office(f"http://127.0.0.1:{port}"), place, process)
            finally:
                if process is not None:
                    process.kill()
                    process.wait()
                if process is not None and process.stdout:
                    process.stdout.close()


@contextlib.contextmanager
def trial_of(program: str, copy: Copy, before_pools: bool = False) -> Iterator[Trial]:
    """A throw-away office over what a copy holds, whatever stands beside it; with `before_pools` over its files and returns alone, as if
    no pool were closed yet: what very many credits take of time and memory when it starts is not asked for again then."""
    with room() as folder:
        begun = folder / "begun.db"
        save = copy.save_before_pools if before_pools else copy.save
        save(begun)
        with trial_office(program, copy.office_words, begun) as trial:
            yield trial


@contextlib.contextmanager
def open_whole(path: pathlib.Path) -> Iterator[Copy]:
    """A copy with its credits; one of layout 1, which has none, is taken over first by the program, in a throw-away copy of it."""
    with open_copy(path) as copy:
        if copy.layout > 1 or not has_program():
            copy.need_derived()
            with told_of(copy):
                need_sound(copy)
                yield copy
            return
        with trial_of(find_program(), copy) as trial:
            trial.end()
            with open_copy(trial.database) as taken_over:
                taken_over.path, taken_over.moment = path, copy.moment
                taken_over.note = f"{path} is of layout 1: a throw-away copy of it was taken over by the program"
                yield taken_over


@contextlib.contextmanager
def told_of(copy: Copy) -> Iterator[None]:
    """Turns what reading an unsound copy ends with into an OfficeError, which says what an audit says of it."""
    try:
        yield
    except BROKEN as error:
        need_sound(copy, sums=True)
        said = CURE
        with contextlib.suppress(OfficeError):
            status, told = audited(copy.save, copy.office_words)
            said = f"`society audit` says: {told}" if status else "`society audit` finds it sound, so this is a fault of this command"
        raise OfficeError(f"{copy.path} can't be read ({type(error).__name__}: {error}): {said}") from error


def audited(save: Callable[[pathlib.Path], object], words: list[str], program: str | None = None) -> tuple[int, str]:
    """The status with which the program audits what `save` writes, and what it says.

    An OfficeError where there is no program, or it could not look at it, for want of memory or disk.
    """
    with room() as folder:
        place = folder / "copy.db"
        save(place)
        done = subprocess.run([find_program(program), "audit", "--db", str(place), *words], capture_output=True, check=False)
    said = (done.stdout + done.stderr).decode(errors="replace").strip()
    if not said or NOT_LOOKED_AT.search(said):
        raise OfficeError(f"`society audit` could not look at it (is the disk full, or the memory?): {said or done.returncode}")
    return done.returncode, said


def has_program() -> bool:
    """Whether there is a program to be found."""
    try:
        return bool(find_program())
    except OfficeError:
        return False


class ReplayOffice:
    """`society replay`, an empty office that saves nothing: it is asked request after request over its standard input."""

    def __init__(self, program: str, words: list[str]) -> None:
        """Starts the program; what it writes on standard error is the user's to see."""
        self.process = subprocess.Popen([program, "replay", *words], stdin=subprocess.PIPE, stdout=subprocess.PIPE)

    def ask(self, method: str, path: str, body: bytes | None = None) -> Answer:
        """The answer to a request; an OfficeError where the program has ended."""
        given = body or b""
        into, out = self.process.stdin, self.process.stdout
        assert into is not None and out is not None
        try:
            into.write(f"{method} {path} HTTP/1.1\r\nContent-Length: {len(given)}\r\n\r\n".encode() + given)
            into.flush()
        except BrokenPipeError:
            pass
        head = b""
        while not head.endswith(b"\r\n\r\n"):
            line = out.readline()
            if not line:
                raise OfficeError(f"`society replay` ended with status {self.process.wait()}")
            head += line
        length = next(int(it.split(b":")[1]) for it in head.lower().split(b"\r\n") if it.startswith(b"content-length:"))
        return Answer(int(head.split(b" ", 2)[1]), out.read(length))

    def close(self) -> None:
        """Ends the program."""
        for stream in (self.process.stdin, self.process.stdout):
            if stream:
                stream.close()
        self.process.wait()
