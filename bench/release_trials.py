#!/usr/bin/python3
"""Tries what goes by release/: which program bin/society runs and what it says, when bin/release renews it, how the gate compares, and how
it ends where it is ended.

All of it happens in a copy of the checkout, with a toolchain that proves nothing and a program that does nothing. A line tells of each
trial; the status is 1 where one is not as wanted. It takes some 8 processor seconds.
"""
import argparse
import os
import pathlib
import shutil
import signal
import subprocess
import sys
import tempfile
import time
from collections.abc import Iterator

import common  # noqa: F401
from served import ROOT

# A toolchain: its line, a proof of all crates, and a build of the program.
TOOLCHAIN = """#!/bin/sh
case "$1" in
  version) echo "toolchain one" ;;
  all) echo "== work_ids" ;;
  run) mkdir -p out && cp {program} out/society && echo "rt: running" >&2 ;;
esac
"""
# Tests of society-office, all as wanted, and what the other parts of the gate are given in the place of their own functions.
TOOLS = "#!/bin/sh\necho '3 passed in 0.01s'\n"
CALLS = "\n\ndef checked(kit):\n    return 3, 0\n"
SOURCES = "\n\ndef check(folders):\n    return 4, 0\n"
TRIALS = "\n\ndef builds():\n    return []\n\n\ndef check(programs):\n    return 31, 0\n"
PROGRAM = "/bin/true"
SOURCE, DEFINITION, PROOF = "crates/work_ids/src/lib.rt", "crates/work_ids/specs/Lib.antt", "crates/work_ids/proofs/Lib.antt"
# What waits, and each part of the gate with a stand-in that does so.
WAITS = "touch waits; sleep 60 & sleep 60"
IN_PYTHON = """

import concurrent.futures
import pathlib
import subprocess


def {name}(*_):
    with concurrent.futures.ThreadPoolExecutor() as both:
        return list(both.map(lambda it: subprocess.run(it, shell=True), ["{waits}; touch went_on"] * 2))
"""
WAITING = {
    "rt ci": ("stand_in", WAITS),
    "the list of calls": (".ci/calls.py", IN_PYTHON.format(name="checked", waits=WAITS)),
    "the trials": ("trials/run.py", IN_PYTHON.format(name="check", waits=WAITS)),
    "the reading of sources": (".ci/sources.py", IN_PYTHON.format(name="check", waits=WAITS)),
    "the tests of society-office": ("office/check", f"#!/bin/sh\n{WAITS}"),
}
ENDED = "stopped before its end: what it had done up to there; nothing is left; what comes then is not begun"
OTHERS = "the sources are others than those that release/society was made from"
SAME = "release: release/society is the program that was built, byte for byte"


# The name of a trial, what is printed, in lines or whole, with the status, and the status that is wanted with a text that is printed.
Seen = tuple[str, tuple[str | list[str], int], tuple[int, str]]


class Checkout:
    """A copy of this checkout without a release, and a folder with the toolchain."""

    def __init__(self, folder: pathlib.Path) -> None:
        self.top, self.tools = folder / "office", folder / "tools"
        names = subprocess.run(["git", "ls-files", "-co", "--exclude-standard", "-z"], cwd=ROOT, stdout=subprocess.PIPE, check=True).stdout
        for name in filter(None, names.decode().split("\0")):
            if (ROOT / name).is_file() and not name.startswith("release/"):
                (self.top / name).parent.mkdir(parents=True, exist_ok=True)
                shutil.copy(ROOT / name, self.top / name)
        self.add("trials/run.py", TRIALS)
        self.add(".ci/calls.py", CALLS)
        self.add(".ci/sources.py", SOURCES)
        self.write("office/check", TOOLS)
        self.tools.mkdir()
        (folder / "KIT-ID").write_text("one\n")
        (self.tools / "rt").write_text(TOOLCHAIN.format(program=PROGRAM))
        (self.tools / "rt").chmod(0o755)

    def write(self, name: str, text: str) -> None:
        (self.top / name).write_text(text)

    def add(self, name: str, text: str = "\n") -> None:
        """Adds something to a file, which may be no text."""
        with open(self.top / name, "ab") as file:
            file.write(text.encode())

    def run(self, *words: str | pathlib.Path, toolchain: bool = True) -> tuple[str, int]:
        """All that a command prints, and its status."""
        path = "/usr/bin:/bin"
        how = {"PATH": f"{self.tools}:{path}" if toolchain else path, "SOCIETY_VERBOSE": "1", "LANG": "C.UTF-8"}
        ran = subprocess.run(words, cwd=self.top, env=how, stdout=subprocess.PIPE, stderr=subprocess.STDOUT, text=True, check=False)
        return ran.stdout, ran.returncode

    def gate(self, ending: str = "5 passed, 0 failed") -> tuple[list[str], int]:
        """What the gate prints in its last two lines where `rt ci` ends so, and its status. The program is built before."""
        built = self.top / "crates/society/out/society"
        built.parent.mkdir(parents=True, exist_ok=True)
        shutil.copy(PROGRAM, built)
        printed, status = self.run(sys.executable, ".ci/timed.py", "sh", "-c", f"echo '{ending}'; echo '{ending}' | grep -q ', 0 failed'")
        return printed.splitlines()[-2:], status

    def ended(self, name: str, text: str) -> tuple[str, int]:
        """The gate's last line where it is ended while this file waits, with what is left of what it began, and its status."""
        self.write("stand_in", "echo '5 passed, 0 failed'")
        kept = (self.top / name).read_text() if (self.top / name).exists() else ""
        self.write(name, kept + text if name.endswith(".py") else text)
        how = {"PATH": f"{self.tools}:/usr/bin:/bin", "LANG": "C.UTF-8"}
        words = [sys.executable, ".ci/timed.py", "sh", "stand_in"]
        with subprocess.Popen(words, cwd=self.top, env=how, stdout=subprocess.PIPE, stderr=subprocess.STDOUT, text=True) as ran:
            while not (self.top / "waits").exists() and ran.poll() is None:
                time.sleep(0.1)
            ran.send_signal(signal.SIGTERM)
            printed = ran.stdout.read() if ran.stdout else ""
        self.write(name, kept)
        (self.top / "waits").unlink(missing_ok=True)
        left = [it.parent.name for it in pathlib.Path("/proc").glob("[0-9]*/cwd") if os.path.realpath(it) == str(self.top)]
        seen = printed if "Traceback" in printed else printed.splitlines()[-1]
        return (
            f"{seen}; {left or 'nothing'} is left; what comes then is {'begun' * (self.top / 'went_on').exists() or 'not begun'}",
            ran.returncode,
        )

    def unbuild(self) -> None:
        shutil.rmtree(self.top / "crates/society/out", ignore_errors=True)


def trials(it: Checkout) -> Iterator[Seen]:
    """The name of each trial, what is seen, and what is wanted of it: a status, or a status and a text that is printed."""
    release, why = ("bin/release",), ("bin/release", "--why")
    yield "no release: the gate passes and says so", it.gate(), (0, "release: there is no release/society (bin/release makes it)")
    it.unbuild()
    yield "no release, no toolchain: a sentence", it.run("bin/society", toolchain=False), (1, "whose command rt is not on this machine")
    yield "no gate: not renewed", it.run(*release), (1, "has not passed since it was last begun")
    yield "a gate that fails", it.gate("4 passed, 1 failed"), (1, "4 passed, 1 failed")
    yield "is no leave to renew", it.run(*release), (1, "has not passed since it was last begun")
    it.gate()
    it.add("crates/society/out/society")
    yield "a program that the gate did not build: not renewed", it.run(*release), (1, "is not the program that the gate built")
    it.gate()
    yield "a gate that passed: renewed", it.run(*release), (0, "toolchain toolchain one")
    yield "the gate finds it the same", it.gate(), (0, SAME)
    it.unbuild()
    yield "it is run", it.run("bin/society"), (0, "/release/society")
    yield "also without a toolchain", it.run("bin/society", toolchain=False), (0, "/release/society")
    yield "the check is silent", it.run("bin/release", "--check"), (0, "")
    it.add(PROOF)
    yield "a proof does not count", it.run(*why), (0, "")
    yield from of_other_sources(it, why)
    yield from of_other_toolchains(it, why)
    yield from of_a_changed_program(it, why)
    for part, written in WAITING.items():
        yield f"the gate is ended in {part}", it.ended(*written), (143, ENDED)


def of_other_sources(it: Checkout, why: tuple[str, ...]) -> Iterator[Seen]:
    for name in (SOURCE, DEFINITION, "HANDLES"):
        kept = (it.top / name).read_text()
        it.add(name)
        yield f"{name} changed", it.run(*why), (1, OTHERS)
        it.write(name, kept)
    it.write("crates/work_ids/specs/Added.antt", "")
    yield "a definition added", it.run(*why), (1, OTHERS)
    (it.top / "crates/work_ids/specs/Added.antt").unlink()
    it.add("crates.txt", "more_tests: work_ids\n")
    yield "a crate of tests added", it.run(*why), (0, "")
    kept = (it.top / SOURCE).read_text()
    it.add(SOURCE)
    yield "other sources, no toolchain: a sentence", it.run("bin/society", toolchain=False), (
        1,
        "release/society is there to be run as it is",
    )
    yield "other sources: built", it.run("bin/society"), (0, "society: building")
    yield "and run without building", it.run("bin/society"), (0, "/crates/society/out/society\n")
    yield "the gate passes and says so", it.gate(), (0, "release: release/society is of other sources")
    it.write(SOURCE, kept)
    yield "a gate of other sources: not renewed", it.run("bin/release"), (1, "the gate has passed on other sources")


def of_other_toolchains(it: Checkout, why: tuple[str, ...]) -> Iterator[Seen]:
    kept = (it.tools / "rt").read_text()
    (it.tools / "rt").write_text(kept.replace("toolchain one", "toolchain two"))
    yield "another toolchain", it.run(*why), (1, "the toolchain is another")
    yield "the release is run all the same", it.run("bin/society"), (0, "/release/society")
    yield "the gate passes and says so", it.gate(), (0, "made by another toolchain")
    (it.tools / "rt").write_text(kept)


def of_a_changed_program(it: Checkout, why: tuple[str, ...]) -> Iterator[Seen]:
    kept = (it.top / "release/society").read_bytes()
    it.add("release/society")
    yield "a byte more in release/society", it.run(*why), (1, "is not the file whose sum")
    yield "the gate fails", it.gate(), (1, "50 passed, 1 failed")
    it.run("sh", "-c", "cd release && sha256sum society > society.sha256")
    yield "also where its sum was renewed", it.gate(), (1, "release: FAILED: release/society is not the program that was built")
    (it.top / "release/society").write_bytes(kept)
    yield "its sum alone is another: the gate fails", it.gate(), (1, "release: FAILED: release/society is not the file whose sum")


def main() -> None:
    argparse.ArgumentParser(description=__doc__, formatter_class=argparse.RawDescriptionHelpFormatter).parse_args()
    failed = 0
    with tempfile.TemporaryDirectory() as folder:
        for name, (printed, status), (wanted, text) in trials(Checkout(pathlib.Path(folder))):
            printed = "\n".join(printed) if isinstance(printed, list) else printed
            is_right = status == wanted and text in printed and bool(text) == bool(printed)
            failed += not is_right
            print(
                f"{'as wanted' if is_right else 'NOT AS WANTED'}: {name}" + ("" if is_right else f": status {status}, {printed!r}"),
                flush=True,
            )
    sys.exit(int(failed > 0))


if __name__ == "__main__":
    main()
