"""Many requests to one office: over a few connections, again where it has no room or the connection breaks, with a password of .netrc."""

import dataclasses
import itertools
import netrc
import pathlib
import queue
import ssl
import time
from collections.abc import Iterable, Iterator
from concurrent.futures import ThreadPoolExecutor
from typing import Any

from society_office.basics.errors import OfficeError
from society_office.checks.faults import NOT_TAKEN
from society_office.offices.program import Answer, Office, parts_of

# What is asked again: the office had no memory or disk for it (503), or a proxy has no disk, or no office behind it.
AGAIN = {408, 429, *range(500, 600)}
# What leads to another address, at which what is put is not.
ELSEWHERE = range(300, 400)
# Seconds between one time and the next.
FIRST_PAUSE, LONGEST_PAUSE = 0.05, 5.0
# So many seconds an answer is waited for at least, though hardly any are left in which it would be asked for again.
LEAST_ANSWER = 5.0
# After so many requests a connection is given up, since an office without a proxy serves nobody else meanwhile.
ON_ONE_CONNECTION = 500
# So many requests of a connection are at hand at once.
AT_HAND = 4
FEW = 4


@dataclasses.dataclass(frozen=True)
class Request:
    """A request: of which kind it is, its path behind /v1/, and what it puts; None where it asks."""

    kind: str
    path: str
    body: bytes | None = None


class PatientOffice:
    """An office that is asked again, for some seconds, where there was no answer or none that counts.

    One that hangs is waited for no longer than that, and at least for `least` seconds.
    """

    def __init__(self, office: Office, seconds: float, least: float = LEAST_ANSWER) -> None:
        self.office, self.seconds, self.least, self.asked, self.is_stopped = office, seconds, least, 0, False
        self.has_put = False
        # What an office is asked before the first thing that is put over a connection: behind one that broke may stand another office.
        self.first: Request | None = None

    def ask(self, it: Request) -> Answer:
        """The answer to a request; an OfficeError where none came in time, the user is refused, or the office is elsewhere."""
        if self.asked and self.asked % ON_ONE_CONNECTION == 0:
            self.office.close()
        self.asked += 1
        self.has_put = self.has_put or it.body is not None
        until, pause = time.monotonic() + self.seconds, FIRST_PAUSE
        while isinstance(said := self.once(it, until), str):
            if self.is_stopped or time.monotonic() + pause > until:
                raise OfficeError(f"{said}. {'What was sent stays: run' if self.has_put else 'Run'} it again")
            time.sleep(pause)
            pause = min(2 * pause, LONGEST_PAUSE)
        if said.status in (401, 403):
            raise OfficeError(f"{self.office.address}: {NOT_TAKEN[said.status]} (--netrc)")
        if said.status in ELSEWHERE:
            raise OfficeError(f"{self.office.address} answers {said.status}: it leads to another address, which is the one to name")
        return said

    def once(self, it: Request, until: float) -> Answer | str:
        """The answer, or why it is to be asked again."""
        self.office.wait_for(max(until - time.monotonic(), self.least))
        try:
            if it.body is not None and self.first is not None and self.office.connection.sock is None:
                self.need_same(self.first)
            answer = self.office.ask("GET" if it.body is None else "PUT", f"/v1/{it.path}", it.body)
        except OfficeError as error:
            if isinstance(error, OtherOffice) or isinstance(error.__cause__, ssl.SSLCertVerificationError):
                raise
            return str(error)
        if answer.status in AGAIN:
            return f"{self.office.address} answers {answer.status} to {it.path}"
        return answer

    def need_same(self, first: Request) -> None:
        """An OtherOffice where the office is none, or of another society: it has no such path."""
        if self.office.ask("PUT", f"/v1/{first.path}", first.body).status == 404:
            society = first.kind
            raise OtherOffice(f"{self.office.address} takes no file of society {society}: it is the office of another society, or none")


class OtherOffice(OfficeError):
    """An office of another society: what it would take can't be taken back."""


class Connections:
    """A few connections to one office, over which many requests go."""

    def __init__(self, address: str, seconds: float, count: int = 0, least: float = LEAST_ANSWER, **access: Any) -> None:
        """Without a count it is one to an office itself, which serves one at a time, and a few to a proxy (https)."""
        is_proxy = address.startswith("https:")
        self.address, self.count = address, count or (FEW if is_proxy else 1)
        # (an office itself would wait for the next request of one connection, while the others wait for it)
        self.keeps = is_proxy or self.count == 1
        self.offices = [PatientOffice(Office(address, **access), seconds, least) for _ in range(self.count)]
        self.free = queue.SimpleQueue[PatientOffice]()
        for it in self.offices:
            self.free.put(it)

    def ask(self, it: Request) -> Answer:
        """The answer to one request, over a connection that is free."""
        office = self.free.get()
        try:
            return office.ask(it)
        finally:
            if not self.keeps:
                office.office.close()
            self.free.put(office)

    def answers(self, requests: Iterable[Request]) -> Iterator[tuple[Request, Answer]]:
        """Each request with its answer, in their order; only a few bodies are in memory at a time."""
        coming = iter(requests)
        threads = ThreadPoolExecutor(self.count)
        try:
            while some := list(itertools.islice(coming, AT_HAND * self.count)):
                yield from zip(some, map(self.ask, some) if self.count == 1 else threads.map(self.ask, some))
        except (Exception, KeyboardInterrupt, SystemExit):
            self.stop()
            raise
        finally:
            threads.shutdown(cancel_futures=True)

    def ask_first(self, first: Request) -> None:
        """From now on each new connection begins with this question, before anything is put over it."""
        for it in self.offices:
            it.first = first
            it.office.close()

    def stop(self) -> None:
        """What is under way ends soon, as where the command is broken off."""
        for it in self.offices:
            it.is_stopped = True
            it.office.break_off()

    def close(self) -> None:
        """Ends all connections, so that others are served."""
        for it in self.offices:
            it.office.close()


def access_by_netrc(address: str, file: pathlib.Path | None) -> dict[str, str]:
    """The user and the password that a file such as ~/.netrc has for the host of an address; an OfficeError where it has none."""
    host = parts_of(address).hostname or ""
    try:
        found = netrc.netrc(str(file) if file else None).authenticators(host)
    except netrc.NetrcParseError as error:
        raise OfficeError(f"{error.filename}, line {error.lineno}: {error.msg}") from error
    except UnicodeDecodeError as error:
        raise OfficeError(f"{file or '~/.netrc'}: the byte 0x{error.object[error.start]:02X} is no UTF-8: save it as UTF-8") from error
    if found is None:
        raise OfficeError(f"{file or '~/.netrc'} has no entry for {host}")
    return {"user": found[0], "password": found[2] or ""}
