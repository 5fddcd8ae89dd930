"""Each allocation of the program is refused in turn, and no answer changes.

A server is begun over and over, over a file that is not there yet; the k-th allocation is refused, k = 1, 2, .. until a run in which
none was. Those before it listens end the program with one line, and leave a file that is no office's yet or a new office's. Those after are
counted anew in each row of requests. Each request comes over a connection of its own. It gets the row's answer, or, once at most, an
answer 503 or a line 'memory fault after 0 requests'; it is then sent again, and it and all later ones get the row's answers.
`cc` compiles the refusal.
"""
import collections
import concurrent.futures
import contextlib
import dataclasses
import multiprocessing
import os
import pathlib
import re
import shutil
import socket
import subprocess
from collections.abc import Iterable

from bodies import CSV_HEADER, FIRST, NO_WORKS, REVISION, SENDER, get, order_body, request
from program import EMPTY_DATABASE, Other, Server, audited, told, trial
from served import Ended, connected

PATH = f"/v1/senders/{SENDER}"
BUSY = b'{"error":"busy"}'
MEMORY = (b"society: memory fault after 0 requests\n", b"society: database memory\n", b"society: database store\n")
# What an audit finds where a start was refused memory.
LEFT = (EMPTY_DATABASE, Ended(b"sound\n", b"", 0))

# The C library's allocations, counted from the program's begin up to where it listens, or from there on; the one with the number
# REFUSE_AT is refused, and a file is made that says so. No disk is waited for, since none fails here.
REFUSAL = r"""
#define _GNU_SOURCE
#include <errno.h>
#include <fcntl.h>
#include <stdlib.h>
#include <sys/syscall.h>
#include <unistd.h>
extern void *__libc_malloc(size_t);
extern void *__libc_realloc(void *, size_t);
extern void *__libc_calloc(size_t, size_t);
extern void *__libc_memalign(size_t, size_t);
static long count, refuse_at;
static int is_counting, counts_later;
__attribute__((constructor)) static void begin(void) {
    const char *text = getenv("REFUSE_AT");
    refuse_at = text ? atol(text) : 0;
    counts_later = getenv("REFUSE_LATER") != 0;
    is_counting = !counts_later;
}
static int is_refused(void) {
    if (!is_counting || ++count != refuse_at) return 0;
    int file = open(getenv("REFUSE_MARK"), O_CREAT | O_WRONLY, 0600);
    if (file >= 0) close(file);
    errno = ENOMEM;
    return 1;
}
int listen(int listener, int waiting) {
    is_counting = counts_later;
    return syscall(SYS_listen, listener, waiting);
}
int fsync(int file) { return 0; }
int fdatasync(int file) { return 0; }
void *malloc(size_t size) { return is_refused() ? 0 : __libc_malloc(size); }
void *realloc(void *old, size_t size) { return is_refused() ? 0 : __libc_realloc(old, size); }
void *calloc(size_t many, size_t size) { return is_refused() ? 0 : __libc_calloc(many, size); }
void *aligned_alloc(size_t to, size_t size) { return is_refused() ? 0 : __libc_memalign(to, size); }
int posix_memalign(void **out, size_t to, size_t size) {
    if (is_refused()) return ENOMEM;
    *out = __libc_memalign(to, size);
    return *out ? 0 : ENOMEM;
}
"""

PLAYS = CSV_HEADER + b"ATABC2600001,10,200\n"
TWO_ROWS = CSV_HEADER + b"at-abc-26-00001,1,60\nATABC2600001,2,30\n"
NO_PLAY = CSV_HEADER + b"ATABC2600001,0,60\n"
PAID = [["RADIO1", 1]]
AT_3, MORE_AT_3 = order_body(1001, [[SENDER, 3]], PAID), order_body(1002, [[SENDER, 3]], PAID)


def put(path: str, body: bytes) -> bytes:
    return request("PUT", path, body)


def put_file(number: int, body: bytes) -> bytes:
    return put(f"{PATH}/transmissions/{number}", body)


# Each row with the status of each of its requests in an ample run.
ROWS = {
    "first_acknowledgement": [(put_file(1, FIRST), 201), (get(f"{PATH}/acks/1"), 200)],
    "gap_filled": [
        (put_file(1, FIRST), 201),
        (put_file(3, NO_WORKS), 202),
        (get(f"{PATH}/acks/3"), 404),
        (get(PATH), 200),
        (put_file(2, REVISION), 201),
        (get(PATH), 200),
        (get(f"{PATH}/acks/1"), 200),
        (get(f"{PATH}/acks/3"), 200),
        (get(f"{PATH}/verdicts/2"), 200),
        (get(f"{PATH}/works/W1"), 200),
    ],
    "pool_closed_at_a_cut": [
        (put_file(1, FIRST), 201),
        (put_file(2, NO_WORKS), 201),
        (put("/v1/returns/RADIO1/1", PLAYS), 201),
        (put("/v1/pools/7", AT_3), 409),
        (put_file(3, NO_WORKS), 201),
        (put("/v1/pools/7", AT_3), 201),
        (put("/v1/pools/7", AT_3), 200),
        (put("/v1/pools/7", MORE_AT_3), 409),
        (get("/v1/pools/7"), 200),
        (get("/v1/accounts/I00000000199"), 200),
        (get("/v1/accounts/PPB000000012A1"), 200),
    ],
    "points_of_one_recording": [
        (put("/v1/returns/RADIO1/1", TWO_ROWS), 201),
        (put("/v1/returns/RADIO1/1", TWO_ROWS), 200),
        (put("/v1/returns/RADIO1/1", PLAYS), 409),
        (put("/v1/pools/1", order_body(5, [], PAID)), 201),
        (get("/v1/pools/1"), 200),
        (put("/v1/returns/RADIO1/2", NO_PLAY), 422),
        (get("/v1/accounts/UNCLAIMED"), 200),
    ],
}


def compiled(folder: pathlib.Path) -> str:
    """The library that refuses."""
    if not shutil.which("cc"):
        raise Other("there is no `cc`, which compiles what refuses memory")
    source, library = folder / "refusal.c", folder / "refusal.so"
    source.write_text(REFUSAL)
    subprocess.run(["cc", "-O1", "-shared", "-fPIC", "-o", library, source], check=True)
    return str(library)


@dataclasses.dataclass
class Tried:
    """A row whose allocations are refused: its requests with their answers; `later` counts allocations from where it listens on."""

    program: pathlib.Path
    library: str
    name: str
    later: bool
    answers: list[bytes] = dataclasses.field(default_factory=list)

    def server(self, folder: pathlib.Path, k: int) -> Server:
        """A server over a file that is not there, whose k-th allocation is refused; none where k is 0."""
        for left in folder.iterdir():
            left.unlink()
        refusal = {"LD_PRELOAD": self.library, "REFUSE_AT": str(k), "REFUSE_MARK": str(folder / "mark")}
        refusal.update({"REFUSE_LATER": "yes"} if self.later else {})
        return Server(self.program, folder, "office.db", connections=1_000_000, env=refusal)


def was_refused(folder: pathlib.Path) -> bool:
    return (folder / "mark").exists()


def ask(server: Server, asked: bytes) -> tuple[bytes, bytes]:
    """What is written for one request on a connection of its own, and the server's line on it."""
    parts = []
    with connected(server.port) as peer, contextlib.suppress(OSError):
        # Where it is given up before the first read, the rest of this may find no peer.
        peer.sendall(asked)
        peer.shutdown(socket.SHUT_WR)
        while part := peer.recv(65536):
            parts.append(part)
    return b"".join(parts), re.sub(rb"^connection \d+: ", b"", server.out.readline())


def answers_of(tried: Tried, folder: pathlib.Path) -> list[bytes]:
    """The row's answers with ample memory."""
    answers = []
    with tried.server(folder, 0) as server:
        told(tried.name, server.first, b"listening\n")
        for asked, status in ROWS[tried.name]:
            text, line = ask(server, asked)
            told((tried.name, asked[:40]), (text[:12], line), (b"HTTP/1.1 %d" % status, b"1 requests\n"))
            answers.append(text)
    return answers


def is_refusal(text: bytes, line: bytes) -> bool:
    """Whether a request was refused because memory was: 503, or nothing at all."""
    if line == b"memory fault after 0 requests\n":
        return text == b""
    return text.startswith(b"HTTP/1.1 503 ") and text.endswith(BUSY)


def check_start(tried: Tried, folder: pathlib.Path, server: Server) -> str:
    """Where it does not listen it says why in one line, and its file is no office's yet or a new one's."""
    ended = server.ended()
    is_told = ended.err in MEMORY or ended.err.startswith(b"society: cannot ")
    told("the end of a start", (is_told, ended.status), (True, 1))
    if (folder / "office.db").exists():
        told("its file", audited(tried.program, folder / "office.db") in LEFT, True)
    return "a start"


def check_requests(server: Server, requests: Iterable[tuple[bytes, bytes]]) -> str:
    """Sends the row; what was refused of it."""
    seen = "nothing"
    for asked, wanted in requests:
        text, line = ask(server, asked)
        if text != wanted:
            told(("refused once", asked[:40], text, line), (seen, is_refusal(text, line)), ("nothing", True))
            seen = "an answer" if text else "a connection"
            text, line = ask(server, asked)
        told((asked[:40], seen), (text, line), (wanted, b"1 requests\n"))
    return seen


def check_run(tried: Tried, folder: pathlib.Path, k: int) -> str | None:
    """How a run goes whose k-th allocation is refused; none where it has fewer."""
    with tried.server(folder, k) as server:
        if server.first != b"listening\n":
            # (where nothing was refused, somebody else has taken its port meanwhile, and it is begun again)
            return check_start(tried, folder, server) if was_refused(folder) else check_run(tried, folder, k)
        seen = check_requests(server, zip((it for it, _ in ROWS[tried.name]), tried.answers))
    return seen if was_refused(folder) else None


def check_share(tried: Tried, folder: pathlib.Path, first: int, step: int) -> collections.Counter[str]:
    """Refuses the first allocation and each that comes a step later, and counts what was refused so."""
    folder.mkdir()
    counts = collections.Counter[str]()
    for k in range(first, 1_000_000, step):
        try:
            seen = check_run(tried, folder, k)
        except Other as why:
            raise Other(f"{tried.name}, allocation {k} refused: {why}") from why
        if not seen:
            break
        counts[seen] += 1
    return counts


# A row, whether allocations are counted from where it listens on, and what is refused then.
IN_TURN = [("first_acknowledgement", False, ["a start"]), *((it, True, ["a connection", "an answer"]) for it in ROWS)]


@trial
def each_allocation_is_refused_in_turn(program: pathlib.Path, folder: pathlib.Path) -> None:
    library, shares = compiled(folder), 2 * (os.cpu_count() or 1)
    # (each process has a Python of its own, since this one has threads in the gate)
    with concurrent.futures.ProcessPoolExecutor(shares, multiprocessing.get_context("spawn")) as pool:
        shared = []
        for name, later, kinds in IN_TURN:
            room = folder / f"{name} {later}"
            room.mkdir()
            tried = Tried(program, library, name, later)
            tried.answers = answers_of(tried, room)
            counted = [pool.submit(check_share, tried, folder / f"{name} {later} {it}", 1 + it, shares) for it in range(shares)]
            shared.append((name, kinds, counted))
        for name, kinds, counted in shared:
            counts = sum((it.result() for it in counted), collections.Counter[str]())
            told((name, counts), [it for it in kinds if counts[it] == 0], [])
