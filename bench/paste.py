#!/usr/bin/python3
"""Pastes every block of commands of the documents into a shell, in order, and compares what is printed with what the document says.

A block of commands is a fenced block with the word `sh`; what it prints is a fenced block with the word `text`, where that is the
next fenced block under the same heading.
Each document begins in a fresh copy of the checkout, in a folder of its own, in which bin/society runs the program, and with the program on
the PATH as `society`; its blocks go into one bash. Standard output and standard error are compared with the text block line by line, but
for blanks at the ends of lines and the shell's own lines on jobs; a block without a text block has to end with status 0. What the blocks
left running is reported and stopped. Ends with status 1 where anything differs, or where a package that the blocks use is missing, which is
named before any is pasted.
"""
import argparse
import ctypes
import dataclasses
import difflib
import os
import pathlib
import re
import selectors
import shutil
import signal
import socket
import subprocess
import sys
import tempfile
import time
from collections.abc import Iterator

import common
import served
from served import ROOT

DOCUMENTS = ["README.md", "docs/OPERATIONS.md", "docs/PUBLISHERS.md", "docs/STATIONS.md", "docs/OFFICE.md"]
PRACTICE = "bench/practice.sh"
# What blocks use and a machine may lack: programs, in packages of their names, and what society-office asks of Debian's Python.
PROGRAMS = ["curl", "nginx", "openssl", "sqlite3"]
MODULES = ["click", "jinja2", "rich"]
PYTHON = "/usr/bin/python3"
# The proxy of the shell, which nothing that the blocks ask for on this machine may go to: nobody listens there.
NO_PROXY = "http://127.0.0.1:9"
FENCE = re.compile(r"^( *)(```+|~~~+) *(\w*) *$")
PORT = re.compile(r"--port[ =](\d+)|127\.0\.0\.1:(\d+)|localhost:(\d+)")
# What bash says of its jobs: `[1] 4711`, `[1]+  Terminated  ..`, `bash: line 3:  4711 Terminated  ..`.
JOBS = re.compile(r"^(\[\d+\][+-]? .*|bash: line \d+: +\d+ (Terminated|Killed|Hangup|Interrupt)\b.*)$")
BECOME_SUBREAPER = 36


@dataclasses.dataclass
class Block:
    """A block of commands, the number of its first line, and what it prints where the document says so."""

    line: int
    commands: str
    wanted: str | None = None


def fenced(text: str) -> Iterator[tuple[int, str, str, bool]]:
    """Each fenced block: the number of its first line, its word, its text, and whether a heading stands between it and the one before."""
    lines, opened, between, inside = text.splitlines(), None, list[str](), list[str]()
    for number, line in enumerate(lines, 1):
        fence = FENCE.match(line)
        if opened is None and fence:
            opened, inside = (fence[1], fence[2], fence[3], number + 1), []
        elif opened is None:
            between.append(line)
        elif fence and fence[2].startswith(opened[1]) and not fence[3]:
            yield opened[3], opened[2], "\n".join(inside) + "\n", any(it.startswith("#") for it in between)
            opened, between = None, []
        else:
            inside.append(line.removeprefix(opened[0]))
    if opened is not None:
        raise ValueError(f"the block at line {opened[3]} has no end")


def blocks(text: str) -> list[Block]:
    """The blocks of commands of a document; one in a comment, which readers don't see, is pasted too."""
    found, last = [], None
    for line, word, inside, has_heading in fenced(text):
        if word == "sh":
            last = Block(line, inside)
            found.append(last)
        else:
            if word == "text" and last is not None and not has_heading:
                last.wanted = inside
            last = None
    return found


def fresh_copy(program: str, folder: pathlib.Path) -> None:
    """Copies what git keeps or would keep into a folder, as it is now, in which bin/society then runs the program."""
    names = subprocess.run(["git", "ls-files", "-co", "--exclude-standard", "-z"], cwd=ROOT, capture_output=True, check=True).stdout
    for name in filter(None, names.decode().split("\0")):
        if (ROOT / name).is_file():
            (folder / name).parent.mkdir(parents=True, exist_ok=True)
            shutil.copy(ROOT / name, folder / name)
    if pathlib.Path(program) != ROOT / "release/society":
        (folder / "release/society").unlink(missing_ok=True)
    place = folder / "crates/society/out/society"
    place.parent.mkdir(parents=True, exist_ok=True)
    # Last, so that bin/society finds it newer than its sources, where the release is not of these.
    shutil.copy(program, place)


def descendants() -> dict[int, str]:
    """The processes that this one started, and those that these did, by their ids, with their commands."""
    parents = {}
    for entry in pathlib.Path("/proc").glob("[0-9]*"):
        try:
            fields = (entry / "stat").read_text().rpartition(")")[2].split()
            if fields[0] != "Z":
                command = (entry / "cmdline").read_bytes().replace(b"\0", b" ").decode(errors="replace").strip()
                parents[int(entry.name)] = int(fields[1]), command
        except OSError:
            continue
    found, new = dict[int, str](), {os.getpid()}
    while new:
        new = {pid for pid, (parent, _) in parents.items() if parent in new}
        found |= {pid: parents[pid][1] for pid in new}
    return found


def ended(seconds: float) -> dict[int, str]:
    """Waits for the end of all that was started, no longer than this; answers what is still running."""
    end = time.monotonic() + seconds
    while (left := descendants()) and time.monotonic() < end:
        time.sleep(0.02)
    return left


def stopped() -> list[str]:
    """Ends all that is still running of what was started; answers their commands. What was stopped by the blocks has a moment to end."""
    left = ended(2)
    for how in signal.SIGTERM, signal.SIGKILL:
        for pid in descendants():
            try:
                os.kill(pid, how)
            except ProcessLookupError:
                pass
        ended(2)
    return list(left.values())


class Shell:
    """A bash that reads what is pasted from its standard input."""

    MARK = "end of the block"

    def __init__(self, checkout: pathlib.Path, path: pathlib.Path) -> None:
        env = {"PATH": f"{path}:{os.environ['PATH']}", "HOME": str(checkout.parent), "LANG": "C.UTF-8", "TERM": "dumb"}
        env |= dict.fromkeys(["http_proxy", "https_proxy", "all_proxy"], NO_PROXY)
        words, pipe = ["bash", "--noprofile", "--norc"], subprocess.PIPE
        self.process = subprocess.Popen(words, cwd=checkout, env=env, stdin=pipe, stdout=pipe, stderr=subprocess.STDOUT)
        self.into, self.out = served.pipes(self.process)
        os.set_blocking(self.out.fileno(), False)
        self.ready = selectors.DefaultSelector()
        self.ready.register(self.out, selectors.EVENT_READ)
        self.text = b""

    def paste(self, commands: str, seconds: float) -> tuple[str, int | None]:
        """What is printed, and the last command's status; None for a status where there was no end within the time."""
        end = time.monotonic() + seconds
        self.into.write(f"{commands}printf '\\n{self.MARK}: %s\\n' $?\n".encode())
        self.into.flush()
        mark = re.compile(rb"\n" + self.MARK.encode() + rb": (\d+)\n")
        while not (found := mark.search(self.text)):
            if not self.ready.select(max(0, end - time.monotonic())):
                return self.text.decode(errors="replace"), None
            part = self.out.read()
            if not part:
                return self.text.decode(errors="replace"), None
            self.text += part
        printed, self.text = self.text[: found.start()], self.text[found.end() :]
        return printed.decode(errors="replace"), int(found[1])

    def close(self) -> None:
        self.into.close()
        self.out.close()
        self.ready.close()


def compared_lines(text: str) -> list[str]:
    """A text's lines without blanks at their ends, without the shell's lines on jobs and without empty lines at the end."""
    lines = [it.rstrip() for it in text.split("\n") if not JOBS.match(it.rstrip())]
    while lines and not lines[-1]:
        lines.pop()
    return lines


def fault_of(block: Block, printed: str, status: int | None) -> str | None:
    """What is wrong with a block, or None."""
    if status is None:
        return "no end, or the shell ended; printed until then:\n" + printed
    if block.wanted is None:
        return None if status == 0 else f"status {status}; printed:\n{printed}"
    wanted, found = compared_lines(block.wanted), compared_lines(printed)
    if wanted == found:
        return None
    return "another text is printed:\n" + "\n".join(difflib.unified_diff(wanted, found, "in the document", "printed", lineterm=""))


def pasted(name: str, checkout: pathlib.Path, path: pathlib.Path, seconds: float) -> int:
    """Pastes a document; answers how many faults there were."""
    found, faults, passed = blocks((checkout / name).read_text()), 0, []
    shell = Shell(checkout, path)
    for block in found:
        begun = time.monotonic()
        printed, status = shell.paste(block.commands, seconds)
        passed.append(time.monotonic() - begun)
        fault = fault_of(block, printed, status)
        if fault:
            faults += 1
            print(f"{name}:{block.line}: {fault}", flush=True)
        if status is None:
            break
    shell.close()
    try:
        shell.process.wait(5)
    except subprocess.TimeoutExpired:
        pass
    if not found:
        faults += 1
        print(f"{name}: has no block of commands", flush=True)
    for command in stopped():
        faults += 1
        print(f"{name}: left running: {command}", flush=True)
    compared = sum(it.wanted is not None for it in found)
    first = f"the first in {passed[0]:.2f} s, " if passed else ""
    print(f"{name}: {len(found)} blocks, {first}{compared} with what they print, {faults} faults", flush=True)
    return faults


def ports_in_use(names: list[str]) -> Iterator[int]:
    """The ports which the documents, and the script that some of them begin with, name, and another program has."""
    named = {int(next(filter(None, it.groups()))) for name in [*names, PRACTICE] for it in PORT.finditer((ROOT / name).read_text())}
    for port in sorted(named):
        with socket.socket() as it:
            it.setsockopt(socket.SOL_SOCKET, socket.SO_REUSEADDR, 1)
            try:
                it.bind(("127.0.0.1", port))
            except OSError:
                yield port


def missing(names: list[str]) -> Iterator[str]:
    """The packages that are missing of those that the blocks of these documents use, or the script that some of them begin with."""
    pasted_text = "".join(it.commands for name in names for it in blocks((ROOT / name).read_text()))
    if PRACTICE in pasted_text:
        pasted_text += (ROOT / PRACTICE).read_text()
    words = set(re.findall(r"[\w-]+", pasted_text))
    yield from (it for it in PROGRAMS if it in words and not shutil.which(it))
    if "society-office" in words and not os.access(PYTHON, os.X_OK):
        yield "python3"
    elif "society-office" in words:
        for it in MODULES:
            if subprocess.run([PYTHON, "-c", f"import {it}"], stderr=subprocess.DEVNULL, check=False).returncode:
                yield f"python3-{it}"


def document(name: str) -> str:
    """The name of a document, from the top of the checkout."""
    if not (ROOT / name).is_file():
        raise argparse.ArgumentTypeError(f"there is no document {name} in {ROOT}")
    return name


def main() -> None:
    options = common.parser(__doc__)
    options.add_argument("--seconds", type=float, default=60, help="most seconds that a block may take (default: 60)")
    options.add_argument(
        "documents", nargs="*", type=document, default=DOCUMENTS, help=f"from the top of the checkout (default: {' '.join(DOCUMENTS)})"
    )
    given = options.parse_args()
    if lacking := list(missing(given.documents)):
        sys.exit(f"missing, and the documents use it: apt-get install {' '.join(lacking)}")
    if in_use := list(ports_in_use(given.documents)):
        sys.exit(f"another program has port {in_use[0]}, which the documents use: stop it first")
    # What goes on after its parent has ended, as nginx does, is then a child of this process and can be stopped.
    ctypes.CDLL(None).prctl(BECOME_SUBREAPER, 1, 0, 0, 0)
    faults = 0
    for name in given.documents:
        with tempfile.TemporaryDirectory() as room:
            folder = pathlib.Path(room)
            fresh_copy(given.program, folder / "office")
            (folder / "installed").mkdir()
            shutil.copy(given.program, folder / "installed/society")
            faults += pasted(name, folder / "office", folder / "installed", given.seconds)
    sys.exit(1 if faults else 0)


if __name__ == "__main__":
    main()
