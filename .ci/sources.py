#!/usr/bin/python3
"""Reads every Python file of the repository with flake8 and mypy, every shell file with shellcheck, and looks how long each is.

    .ci/sources.py             all of them
    .ci/sources.py office      those of a folder

A line tells of each thing that is found; the status is 1 where there is one, also where one of the readers is missing and can't be
installed (.ci/needs). The gate runs this (.ci/timed.py), office/check for the folder office.
"""
import argparse
import os
import pathlib
import re
import subprocess
import sys
from collections.abc import Iterator

TOP = pathlib.Path(__file__).resolve().parent.parent
# The most lines that a file may have.
LINES = 400
# What is no source: what was built or kept.
LEFT_OUT = {"__pycache__", "out", "build"}
NEEDS = ["flake8", "mypy", "shellcheck", "click", "jinja2", "rich", "pytest"]
# What mypy reads at once, by the folders in whose files it is, and where what these take from other folders is looked for. A file without
# an ending is a module of its own, whose name another may have.
TESTS = ["office", "harness", "office/tests", *(str(it.relative_to(TOP)) for it in sorted((TOP / "office/tests").glob("[a-z]*/")))]
AT_ONCE = (
    (("office/society_office", "office/society-office", "examples"), ["office"]),
    (("office/tests",), TESTS),
    (("office/bench",), TESTS),
    ((".ci", "harness", "tools", "trials", "bench"), ["harness", "trials", "bench", *TESTS]),
)
FOLDERS = (".ci", "bench", "bin", "debian", "examples", "harness", "office", "tools", "trials")


def sources(folder: str) -> Iterator[str]:
    """The files of a folder that may be sources, by their paths from the top."""
    for place, folders, names in os.walk(TOP / folder):
        folders[:] = sorted(it for it in folders if it not in LEFT_OUT and (it == ".ci" or not it.startswith(".")))
        yield from (str(pathlib.Path(place, it).relative_to(TOP)) for it in sorted(names) if not os.path.islink(os.path.join(place, it)))


def kind_of(path: str) -> str:
    """Whether a file is Python or shell, by its ending or its first line; the empty text where it is neither."""
    ending = pathlib.Path(path).suffix
    if ending in (".py", ".sh"):
        return ending[1:]
    with open(TOP / path, "rb") as file:
        first = file.readline(100)
    found = re.match(rb"#!.*\b(python3|(?:ba)?sh)\b", first)
    return {b"python3": "py"}.get(found[1], "sh") if found else ""


def said(words: list[str], **environment: str) -> list[str]:
    """The lines that a reader says; where it fails without a word, a line on that."""
    done = subprocess.run(words, cwd=TOP, env={**os.environ, **environment}, capture_output=True, text=True, check=False)
    lines = [it for it in (done.stdout + done.stderr).splitlines() if it]
    return lines or [f"{words[0]} failed, with status {done.returncode}"] * (done.returncode != 0)


def is_in(path: str, folder: str) -> bool:
    return f"{path}/".startswith(f"{folder.rstrip('/')}/")


def typed(python: list[str]) -> Iterator[str]:
    """What mypy says of files, as strictly as it can be."""
    known = [it for folders, _ in AT_ONCE for it in folders]
    yield from (f"{it}: stands in no folder that mypy reads" for it in python if not any(is_in(it, folder) for folder in known))
    for number, (folders, paths) in enumerate(AT_ONCE):
        if given := [it for it in python if any(is_in(it, folder) for folder in folders)]:
            yield from told_of_types(given, paths, str(number))


def told_of_types(given: list[str], paths: list[str], cache: str) -> Iterator[str]:
    scripts, modules = [it for it in given if not it.endswith(".py")], [it for it in given if it.endswith(".py")]
    words = ["/usr/bin/mypy", "--no-error-summary", "--hide-error-context", "--cache-dir"]
    for these in [modules, *([it] for it in scripts)]:
        if these:
            yield from said([*words, f".mypy_cache/{cache}", *these], MYPYPATH=":".join(paths))


def too_long(path: str) -> Iterator[str]:
    count = (TOP / path).read_bytes().count(b"\n")
    if count > LINES:
        yield f"{path}: has {count} lines, where {LINES} are the most"


def faults(python: list[str], shell: list[str]) -> Iterator[str]:
    """A line for each thing that is found."""
    if python:
        yield from said(["/usr/bin/flake8", *python])
        yield from typed(python)
    if shell:
        yield from said(["/usr/bin/shellcheck", "-f", "gcc", *shell])
    for it in python + shell:
        yield from too_long(it)


def check(folders: tuple[str, ...] = FOLDERS) -> tuple[int, int]:
    """Tells what is found; gives how many files passed, and how many did not, which is one too where a reader is missing."""
    if subprocess.run([TOP / ".ci/needs", *NEEDS], check=False).returncode:
        print("sources: FAILED: they are not read", flush=True)
        return 0, 1
    files: dict[str, list[str]] = {"py": [], "sh": [], "": []}
    for path in (it for folder in folders for it in sources(folder)):
        files[kind_of(path)].append(path)
    found = list(faults(files["py"], files["sh"]))
    count = len(files["py"]) + len(files["sh"])
    print(*found, f"sources: {count} files of Python and shell, {len(found)} lines on what is wrong with them", sep="\n", flush=True)
    wrong = len({re.split(r"[: ]", it)[0] for it in found})
    return count - wrong, wrong


def main() -> int:
    options = argparse.ArgumentParser(description=__doc__, formatter_class=argparse.RawDescriptionHelpFormatter)
    options.add_argument("folders", nargs="*", metavar="FOLDER", help=f"(default: {', '.join(FOLDERS)})")
    return int(check(tuple(options.parse_args().folders) or FOLDERS)[1] > 0)


if __name__ == "__main__":
    sys.exit(main())
