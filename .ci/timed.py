#!/usr/bin/env python3
"""Runs `rt ci` and the must-fail edits, the trials of the built program and the tests of society-office, looks what the program calls of
the machine, what flake8, mypy and shellcheck say of the sources in Python and shell, and whether the documents name what is there, and
passes on what all of them print. Before its last line, which counts all, it tells the processor minutes of each crate and part, and whether
release/society is the program that was built.

`rt ci` runs on a copy of the checkout without the edits, which edits.py tries beside it, those of a crate once that is proved. A part is
what a process of the prover works on: a proof, a crate's tests, or edits. Processes are looked at twice a second, so what a process did in
its last half second counts under 'other', as do rt itself, linking, and the tests and programs that are run. A run that is ended (SIGTERM)
ends all that it began, tells what it had done, and has the status 143.
"""
import collections
import contextlib
import ctypes
import os
import pathlib
import re
import resource
import shutil
import signal
import subprocess
import sys
import tempfile
import threading
import time
from collections.abc import Callable, Iterable, Iterator
from typing import NoReturn

sys.path.append(os.path.join(os.path.dirname(os.path.abspath(__file__)), "..", "trials"))
import calls  # noqa: E402 (the folder comes first)
import documents  # noqa: E402
import edits  # noqa: E402
import release  # noqa: E402
import run as trials  # noqa: E402
import sources  # noqa: E402

PARTS = ("proofs", "tests", "edits")
# The folders whose sources are read here; office/check reads its own.
GATE_READS = tuple(it for it in sources.FOLDERS if it != "office")
LAST_LINE = re.compile(r"(\d+) passed, (\d+) failed\s*")
# What `rt ci` says once a crate is proved, whose libraries are built then.
PROVED = re.compile(r"rt: (\w+) (?:proved$|is kept: )")
TICKS = os.sysconf("SC_CLK_TCK")
# What a process asks for that is to have the children of those under it that end (prctl), and the status of a run that is ended.
SET_CHILD_SUBREAPER = 36
STATUS_ENDED = 128 + signal.SIGTERM
# Of a process its parent, when it began, its processor seconds, and its state.
State = tuple[str, str, float, str]


def words_of(process: str) -> list[str]:
    """The words of a process, none where it has ended."""
    try:
        with open(f"/proc/{process}/cmdline", "rb") as file:
            return file.read().decode(errors="replace").split("\0")
    except OSError:
        return []


def state_of(process: str) -> State | None:
    """The parent of a process, when it began, the processor seconds of it and of the children that it waited for, and its state in a
    letter, Z where its parent has not waited for its end; none where it has ended."""
    try:
        with open(f"/proc/{process}/stat", encoding="utf-8", errors="replace") as file:
            fields = file.read().rpartition(")")[2].split()
    except OSError:
        return None
    return fields[1], fields[19], sum(int(it) for it in fields[11:15]) / TICKS, fields[0]


def states() -> dict[str, State]:
    """The state of each process."""
    found = {process: state_of(process) for process in os.listdir("/proc") if process.isdigit()}
    return {process: state for process, state in found.items() if state}


def is_under_this(process: str, known: dict[str, State]) -> bool:
    """Whether a process is this one or was begun under it, by the states that are known."""
    while process in known and process != str(os.getpid()):
        process = known[process][0]
    return process == str(os.getpid())


def folder_of(process: str) -> str:
    """The name of the folder in which a process works, none where it has ended."""
    try:
        return os.path.basename(os.readlink(f"/proc/{process}/cwd"))
    except OSError:
        return ""


class Stopped(BaseException):
    """The run was asked to end (SIGTERM). It is no `Exception`, which what is under way may take for one of its own."""


def running_under_this() -> list[str]:
    """The processes under this one that have not ended, without Python's own, which clears away once its other processes have ended."""
    known, own = states(), str(os.getpid())
    under = [it for it, state in known.items() if it != own and state[3] != "Z" and is_under_this(it, known)]
    return [it for it in under if "resource_tracker" not in str(words_of(it))]


def end_all() -> None:
    """Ends every process under this one, also those that are begun meanwhile."""
    # (what a disk keeps from ending is not waited for longer than this)
    for _ in range(100):
        under = running_under_this()
        if not under:
            break
        for it in under:
            with contextlib.suppress(OSError):
                os.kill(int(it), signal.SIGKILL)
        time.sleep(0.1)


# The tries of edits, once they have begun.
TRIES: list[edits.Tries] = []


def stop(_signal: int, _frame: object) -> NoReturn:
    """Ends the run by an exception, so that what was measured is still told. What it began is ended first, since it is waited for on the
    way."""
    signal.signal(signal.SIGTERM, signal.SIG_IGN)
    ctypes.CDLL(None).prctl(SET_CHILD_SUBREAPER, 1, 0, 0, 0)
    for it in TRIES:
        it.end()
    end_all()
    raise Stopped


class Meter:
    """The processor seconds of each process of the prover under this one, by crate and part."""

    def __init__(self) -> None:
        # By the number of a process and its beginning its crate and part, and the processor seconds.
        self.spent: dict[tuple[str, str], tuple[tuple[str, str], float]] = {}
        self.ended = threading.Event()

    def kind_of(self, process: str, words: list[str]) -> tuple[str, str] | None:
        """The crate and the part of a process of the prover, none for another process."""
        if len(words) < 2 or os.path.basename(words[0]) != "rattle" or "--crate-name" not in words:
            return None
        crate = words[words.index("--crate-name") + 1]
        if folder_of(process).startswith(edits.PREFIX):
            return crate, "edits"
        return crate, "tests" if "--test" in words else "proofs"

    def look(self) -> None:
        """Reads how far each process of the prover is."""
        known = states()
        for process, (parent, begun, seconds, _) in known.items():
            # What the prover's own children do is counted with it once it has waited for them.
            if not is_under_this(process, known) or (parent, known.get(parent, ("", ""))[1]) in self.spent:
                continue
            # (a number can be given to another process once the first has ended)
            key = process, begun
            kind = self.spent[key][0] if key in self.spent else self.kind_of(process, words_of(process))
            if kind:
                self.spent[key] = kind, seconds

    def run(self) -> None:
        while not self.ended.wait(0.5):
            self.look()

    def table(self, minutes: float) -> Iterator[str]:
        """Lines that tell the processor minutes of each crate, of each part and in all, and the minutes that went by."""
        by_crate: dict[str, dict[str, float]] = collections.defaultdict(lambda: dict.fromkeys(PARTS, 0.0))
        for (crate, part), seconds in self.spent.values():
            by_crate[crate][part] += seconds / 60
        total = sum(resource.getrusage(resource.RUSAGE_CHILDREN)[:2]) / 60
        sums = {part: sum(row[part] for row in by_crate.values()) for part in PARTS}
        yield f"{'processor minutes':18}" + "".join(f"{part:>8}" for part in PARTS)
        for crate, row in by_crate.items():
            yield f"{crate:18}" + "".join(f"{row[part]:8.1f}" for part in PARTS)
        yield f"{'all crates':18}" + "".join(f"{sums[part]:8.1f}" for part in PARTS)
        other = total - sum(sums.values())
        yield f"in all {total:.1f} processor minutes, {other:.1f} of them other; {minutes:.1f} minutes on {os.cpu_count()} processors"


@contextlib.contextmanager
def copied(top: pathlib.Path) -> Iterator[pathlib.Path]:
    """A copy of a checkout, without its edits and without what was built; at the end what was built in it is moved to the checkout."""
    git = top / ".git"
    with tempfile.TemporaryDirectory(prefix="gate-", dir=git if git.is_dir() else None) as room:
        copy = pathlib.Path(room, "checkout")
        crates = [str(it) for it in (top / "crates").iterdir()]

        def left_out(folder: str, names: list[str]) -> set[str]:
            return {it for it in names if it == ".git" or folder in crates and it in ("out", "must-fail")}

        shutil.copytree(top, copy, symlinks=True, ignore=left_out)
        # (by this `rt ci` knows the top of a repository)
        (copy / ".git").mkdir()
        try:
            yield copy
        finally:
            for it in sorted(copy.glob("crates/*/out/*")):
                moved(it, top / it.relative_to(copy))


def moved(one: pathlib.Path, to: pathlib.Path) -> None:
    """Moves a file or a folder, in the place of what is there."""
    to.parent.mkdir(parents=True, exist_ok=True)
    if to.is_dir() and not to.is_symlink():
        shutil.rmtree(to)
    else:
        to.unlink(missing_ok=True)
    shutil.move(one, to)


def passed_on(words: list[str], folder: pathlib.Path, tell: Callable[[str], object]) -> tuple[int, list[int]]:
    """Runs a command in a folder and passes on what it prints but its last line, each line also to `tell`; gives its status, and how many
    passed and failed by that line, none where there was none."""
    counts = []
    with subprocess.Popen(words, cwd=folder, stdin=subprocess.DEVNULL, stdout=subprocess.PIPE, text=True, errors="replace") as ran:
        for line in ran.stdout or ():
            last = LAST_LINE.fullmatch(line)
            if last:
                counts = [int(it) for it in last.groups()]
            else:
                print(line, end="", flush=True)
                tell(line)
    return ran.returncode, counts


def proved(words: list[str], kit: pathlib.Path) -> tuple[int, list[int]]:
    """Runs `rt ci` on a copy of the checkout, and the edits of each crate once that is proved; gives its status, and how many passed and
    failed of both."""
    with copied(release.TOP) as copy:
        tries = edits.Tries(kit, copy / "crates")
        TRIES.append(tries)

        def tell(line: str) -> None:
            found = PROVED.match(line)
            if found:
                tries.begin(found[1])

        status, counts = passed_on(words, copy, tell)
        tries.widen()
        if status == 0:
            counts = added(counts, tries.told())
        tries.end()
    return status, counts


def tools_checked(program: pathlib.Path) -> tuple[int, int]:
    """How many tests of society-office (office/) passed and failed over a program. What its script prints is passed on; where it fails
    without a test's word, that counts as one that failed."""
    line, environment = "", {**os.environ, "SOCIETY_PROGRAM": str(program)}
    words, both = [release.TOP / "office/check"], subprocess.STDOUT
    with subprocess.Popen(
        words, stdin=subprocess.DEVNULL, stdout=subprocess.PIPE, stderr=both, env=environment, text=True, errors="replace"
    ) as ran:
        for line in ran.stdout or ():
            print(line, end="", flush=True)
    passed, failed = (sum(int(it) for it in re.findall(rf"(\d+) (?:{word})", line)) for word in ("passed", "failed|errors?"))
    return passed, failed or int(ran.returncode != 0)


def added(counts: Iterable[int], others: Iterable[int]) -> list[int]:
    """How many passed and failed in both."""
    return [one + other for one, other in zip(counts, others)]


def checked(words: list[str]) -> tuple[int, list[int], list[str]]:
    """The status of the run of `rt ci`, how many passed and failed of it, of the edits and of all that is tried of the program then, and a
    line on the release. A program that was not proved, or is not built, is neither tried nor compared."""
    kit = calls.kit_at_hand()
    status, counts = proved(words, kit)
    if status != 0:
        return status, counts, []
    counts = added(counts, calls.checked(kit))
    counts = added(counts, trials.check(trials.builds()))
    counts = added(counts, tools_checked(release.built_in(release.TOP)))
    counts = added(counts, sources.check(GATE_READS))
    counts = added(counts, documents.check())
    line, is_right = release.compared()
    return status, added(counts, (0, int(not is_right))), [line]


def main() -> int:
    release.unmark()
    signal.signal(signal.SIGTERM, stop)
    meter, begun, begun_with = Meter(), time.monotonic(), ""
    threading.Thread(target=meter.run, daemon=True).start()
    try:
        begun_with = release.made_from()
        status, counts, told = checked(sys.argv[1:])
        signal.signal(signal.SIGTERM, signal.SIG_IGN)
    except Stopped:
        status, counts, told = STATUS_ENDED, [], ["stopped before its end: what it had done up to there"]
    meter.ended.set()
    print(*meter.table((time.monotonic() - begun) / 60), *told, sep="\n", flush=True)
    if counts:
        print("{} passed, {} failed".format(*counts), flush=True)
    passed = status == 0 and counts[1:] == [0]
    if passed:
        release.mark(begun_with)
    return status or int(not passed)


if __name__ == "__main__":
    sys.exit(main())
