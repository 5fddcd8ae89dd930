#!/usr/bin/env python3
"""Tries the edits of must-fail/, each of which is a wrong body: the prover has to refuse it in the function, and at the goal, that it
names.

    .ci/edits.py [CRATE[:WORD] ..]            the edits of these crates, else of all, with WORD in their names; `rt ci` has built the
    libraries .ci/edits.py --goals [CRATE[:WORD] ..]    also prints all that each leaves open, for the lines of a new edit .ci/edits.py
    --libraries CHECKOUT ..      takes the libraries of another checkout, whose sources are the same

An edit has the lines that `rt must-fail` reads (`file:`, `old:`, `new:`) and lines `refused: FUNCTION GOAL`, by the prover's names, as
`refused: reading::take returns-in-Err`; each of these goals has to be open. What is promised is a clause of what is returned, an invariant
of a type or of a loop: another goal is none, nor does a refusal by a name count that the edit took away. Where a wrong body can be made
only by a call that is not allowed there, the line is `forbidden: FUNCTION GOAL`, and the goal is what that call requires.

A function is proved by the clauses of those that it calls, whatever their bodies are. So the edits of functions that differ are tried at
once, by one check of these functions and of those that they call (`rattle check --only`), where `rt must-fail` proves the crate anew, and
then once for each edit. But the prover looks for no proof of a function that calls one that is not proved, where it has no file of answers:
such an edit has a line `round: 2`, and those of one round are tried at once. What a check said is kept by all that it read, and taken again
where that is the same.
"""
import argparse
import concurrent.futures
import contextlib
import hashlib
import os
import pathlib
import re
import shutil
import subprocess
import sys
import tempfile
import threading
import time
from collections.abc import Iterator

import calls

TOP = calls.TOP
# How the folder is called in which a check of edits works: the gate's table knows them by it.
PREFIX = "edits-"
MONTH = 30 * 24 * 3600
# What a function leaves open, by the lines of the prover.
SEARCHED = re.compile(r"fn \w+::(\S+): [^\n]*?`search` did not prove ((?:`[^`\s]+`(?:, | and )?)+)")
NOTED = re.compile(r"note: `([^`]+)` of (?:\./)?proofs/(\S+)/\w+\.antt must prove")
FAILED = re.compile(r"(?:\./)?proofs/(\S+)/\w+\.antt:\d+:\d+: error: `([^`]+)`: (.*)")
# Goals that no answer closes stand before the line of their function.
UNPROVED = re.compile(r"note: src/(\S+)\.rt:\d+:\d+: it is not proved that .*?\(`([^`]+)`\)|fn \w+::(\S+): (?!proved)")
# An error that says nothing of a clause: a proof names what the edit took away.
BY_NAME = re.compile(r"has no field|is not in scope|has no `|was not admitted")
# The goals that a line of an edit may name, by its word: those of what is promised, and those of what a call requires.
GOALS = {"refused": re.compile(r"^(?:returns|invariant_of|loop)"), "forbidden": re.compile(r"^\w+(?:-\w+)?-requires")}


class Edit:
    """An edit: what it changes, and the goals at which it has to be refused."""

    def __init__(self, path: pathlib.Path) -> None:
        self.path, self.changes, self.refused, self.odd, self.round = path, [], [], [], ""
        self.name = f"{path.parent.parent.name}/{path.stem}"
        file = old = None
        for line in path.read_text(encoding="utf-8").splitlines():
            word, _, rest = line.partition(":")
            if word == "file":
                file = rest.strip()
            elif word == "old":
                old = rest[1:]
            elif word == "new" and file and old:
                self.changes.append((file, old, rest[1:]))
            elif word in GOALS:
                function, _, goal = rest.strip().partition(" ")
                self.refused.append((function.replace("::", "/"), goal))
                self.odd += [] if GOALS[word].search(goal) else [goal]
            elif word == "round":
                self.round = rest.strip()

    def functions(self) -> set[str]:
        """The functions in which it has to be refused."""
        return {function for function, _ in self.refused}

    def faults(self) -> Iterator[str]:
        """A line for each thing that it does not say as it has to."""
        if not self.changes or not self.refused:
            yield f"edit {self.name}: FAILED: it has no `file:`, `old:` and `new:`, or says not where it is refused"
        yield from (f"edit {self.name}: FAILED: {goal or 'nothing'} is no goal that its line may name" for goal in self.odd)


class Batch:
    """Edits of a crate that are tried at once, and the texts of the files that they change."""

    def __init__(self, folder: pathlib.Path) -> None:
        self.folder, self.edits, self.texts = folder, list[Edit](), dict[str, str]()

    def functions(self) -> set[str]:
        """The functions in which its edits have to be refused."""
        return set().union(*(it.functions() for it in self.edits))

    def takes(self, edit: Edit) -> bool:
        """Whether an edit can be tried with those that are there; then it is taken up."""
        texts = dict(self.texts)
        for file, old, new in edit.changes:
            text = texts.get(file) or (self.folder / file).read_text(encoding="utf-8")
            if text.count(old) != 1:
                return False
            texts[file] = text.replace(old, new)
        if self.functions() & edit.functions() or self.edits and self.edits[0].round != edit.round:
            return False
        self.edits.append(edit)
        self.texts = texts
        return True


def batches_of(folder: pathlib.Path, edits: list[Edit]) -> tuple[list[Batch], list[str]]:
    """The edits of a crate in batches, and a line for each that can't be tried."""
    batches, lines = list[Batch](), list[str]()
    for edit in edits:
        faults = list(edit.faults())
        lines += faults
        if faults or any(it.takes(edit) for it in batches):
            continue
        alone = Batch(folder)
        if alone.takes(edit):
            batches.append(alone)
        else:
            lines.append(f"edit {edit.name}: FAILED: a text of an `old:` line is not in its file, or not once")
    return batches, lines


def edits_of(name: str, word: str = "") -> tuple[list[Edit], list[str]]:
    """The edits of a crate with a word in their names, and a line for each file beside them that is none."""
    files = sorted(it for it in (calls.CRATES / name / "must-fail").glob("*") if it.suffix != ".md")
    lines = [f"edit {name}/{it.name}: FAILED: this is no edit" for it in files if it.suffix != ".edit" or not it.is_file()]
    return [Edit(it) for it in files if it.suffix == ".edit" and it.is_file() and word in it.stem], lines


def open_goals(said: str) -> tuple[dict[str, set[str]], dict[str, set[str]]]:
    """The goals that each function leaves open by what the prover said, and those that fail by a name alone."""
    found, by_name = dict[str, set[str]](), dict[str, set[str]]()
    for function, goals in SEARCHED.findall(said):
        found.setdefault(function.replace("::", "/"), set()).update(re.findall(r"`([^`]+)`", goals))
    for goal, function in NOTED.findall(said):
        found.setdefault(function, set()).add(goal)
    before = []
    for file, goal, function in UNPROVED.findall(said):
        if goal:
            before.append((file, goal))
        else:
            own = function.replace("::", "/")
            found.setdefault(own, set()).update(goal for file, goal in before if own.startswith(f"{file}/"))
            before = []
    for function, goal, why in FAILED.findall(said):
        (by_name if BY_NAME.search(why) else found).setdefault(function, set()).add(goal)
    return found, by_name


def verdict(edit: Edit, said: str) -> tuple[bool, str]:
    """Whether an edit is refused as it has to be by what the prover said, and a line on that."""
    found, by_name = open_goals(said)
    if edit.refused and all(goal in found.get(function, ()) for function, goal in edit.refused):
        where = ", ".join(f"{function.replace('/', '::')} {goal}" for function, goal in edit.refused)
        return True, f"edit {edit.name}: refused at {where}"
    left = {function: sorted(found.get(function, set()) | by_name.get(function, set())) for function in sorted(edit.functions())}
    last = said.rstrip().rpartition("\n")[2]
    return False, f"edit {edit.name}: NOT REFUSED where it has to be; what is open there: {left}; the check's last line: {last[:200]}"


class Kept:
    """What checks of edits said, kept among the user's caches by all that they read; what was not taken for a month goes."""

    def __init__(self, below: dict[str, list[str]], kit: pathlib.Path) -> None:
        self.below, self.kit, self.taken = below, (kit / "KIT-ID").read_bytes(), 0
        self.folder = pathlib.Path(os.environ.get("XDG_CACHE_HOME") or os.path.expanduser("~/.cache"), "society-edits")
        for it in self.folder.glob("*"):
            with contextlib.suppress(OSError):
                if it.stat().st_mtime < time.time() - MONTH:
                    it.unlink()

    def place(self, batch: Batch, functions: list[str]) -> pathlib.Path:
        """The file of what a check of a batch says."""
        own = calls.sum_of(TOP, batch.folder.name, self.below)
        read = repr((self.kit, own, sorted(batch.texts.items()), functions))
        return self.folder / hashlib.sha256(read.encode()).hexdigest()

    def said(self, place: pathlib.Path) -> str | None:
        """What is kept there, none where nothing is."""
        with contextlib.suppress(OSError):
            said = place.read_text(encoding="utf-8")
            os.utime(place)
            self.taken += 1
            return said
        return None

    def keep(self, place: pathlib.Path, said: str) -> None:
        """Keeps what a check said, whole or, where there is no place to keep it, not at all."""
        with contextlib.suppress(OSError):
            self.folder.mkdir(parents=True, exist_ok=True)
            with tempfile.NamedTemporaryFile("w", dir=self.folder, delete=False, encoding="utf-8") as file:
                file.write(said)
            os.replace(file.name, place)


class Tries:
    """Tries of the edits of crates, some at a time, each with what is left of the processors by others."""

    def __init__(self, kit: pathlib.Path, built: pathlib.Path = calls.CRATES, processors: int = os.cpu_count() or 1) -> None:
        self.kit, self.built, self.below = kit, built, calls.crates()
        self.kept = Kept(self.below, kit)
        self.pool = concurrent.futures.ThreadPoolExecutor(processors)
        # Beside `rt ci`, which has a check for each processor, half of them; each takes some 2 GB.
        self.beside = threading.Semaphore(max(1, processors // 2))
        self.more, self.ended = processors - max(1, processors // 2), threading.Event()
        self.begun, self.lines = dict[str, list[tuple[Batch, concurrent.futures.Future[str]]]](), list[str]()

    def begin(self, name: str, word: str = "") -> None:
        """Begins with the edits of a crate, whose libraries are built."""
        if name in self.begun:
            return
        edits, lines = edits_of(name, word)
        batches, others = batches_of(calls.CRATES / name, edits)
        self.lines += lines + others
        self.begun[name] = [(it, self.pool.submit(self.said_of, it)) for it in batches]

    def widen(self) -> None:
        """Has all processors taken from now on."""
        self.beside.release(self.more)

    def end(self) -> None:
        """Begins with no further check."""
        self.ended.set()
        self.pool.shutdown(wait=False, cancel_futures=True)

    def said_of(self, batch: Batch) -> str:
        """What the prover says of the functions of a batch."""
        functions = sorted(it.replace("/", "::") for it in batch.functions())
        place = self.kept.place(batch, functions)
        kept = self.kept.said(place)
        if kept is not None:
            return kept
        with self.beside, tempfile.TemporaryDirectory(prefix=PREFIX) as room:
            if self.ended.is_set():
                return "ended"
            for part in calls.PARTS:
                if (batch.folder / part).is_dir():
                    shutil.copytree(batch.folder / part, pathlib.Path(room, part))
            for file, text in batch.texts.items():
                pathlib.Path(room, file).write_text(text, encoding="utf-8")
            ran = subprocess.run(
                self.words(batch.folder.name, functions),
                cwd=room,
                stdin=subprocess.DEVNULL,
                stdout=subprocess.PIPE,
                stderr=subprocess.STDOUT,
                text=True,
                errors="replace",
                check=False,
            )
        # (a check that was killed, or could not tell, says nothing for good)
        if ran.returncode == 1:
            self.kept.keep(place, ran.stdout)
        return ran.stdout

    def words(self, name: str, functions: list[str]) -> list[str]:
        """The words of a check of some functions of a crate."""
        words = [str(it) for it in calls.words_for(name, self.below, self.kit, self.built)]
        only = [it for function in functions for it in ("--only", function)]
        return ["nice", "-n", "10", str(self.kit / "bin/rattle"), *words[: words.index("--list-calls")], "--short-goals", *only]

    def told(self, with_goals: bool = False) -> tuple[int, int]:
        """Waits for all, prints a line for each edit, and gives how many passed and failed."""
        passed, failed = 0, len(self.lines)
        print(*self.lines, sep="\n", end="\n" * bool(self.lines))
        for name in sorted(self.begun):
            for batch, said in self.begun[name]:
                goals = open_goals(said.result())[0]
                for edit in batch.edits:
                    is_refused, line = verdict(edit, said.result())
                    passed, failed = passed + is_refused, failed + (not is_refused)
                    print(line, flush=True)
                if with_goals:
                    print(
                        *(f"  {function.replace('/', '::')} {goal}" for function in sorted(goals) for goal in sorted(goals[function])),
                        sep="\n",
                    )
        checks = sum(map(len, self.begun.values()))
        print(f"edits: {passed} refused, by {checks} checks, of which {self.kept.taken} are kept from earlier runs on this machine")
        return passed, failed


def main() -> None:
    options = argparse.ArgumentParser(description=__doc__, formatter_class=argparse.RawDescriptionHelpFormatter)
    options.add_argument("--goals", action="store_true", help="prints all goals that are open")
    options.add_argument("--libraries", type=pathlib.Path, default=TOP, metavar="CHECKOUT", help="where `rt ci` has built the libraries")
    options.add_argument("crates", nargs="*", metavar="CRATE[:WORD]")
    given = options.parse_args()
    tries = Tries(calls.kit_at_hand(), given.libraries / "crates")
    tries.widen()
    for name, _, word in (it.partition(":") for it in given.crates or tries.below):
        if name not in tries.below:
            sys.exit(f"{name} is no crate of crates.txt")
        tries.begin(name, word)
    passed, failed = tries.told(given.goals)
    print(f"{passed} passed, {failed} failed")
    sys.exit(int(failed > 0))


if __name__ == "__main__":
    main()
