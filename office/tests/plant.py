#!/usr/bin/python3
"""Plants bugs one by one into a copy of society-office and counts those that its tests notice.

plants.toml has the bugs: a file, a text that stands in it once, the text that takes its place, and the tests that are likely to notice it.
These run first, then the others, and those that take long last, each only where the ones before notice nothing. Printed is what becomes
of each bug, and the count; the status is 1 where one is out of date, or where a test that is likely to notice one fails without it.
"""
import argparse
import os
import pathlib
import shutil
import subprocess
import sys
import tempfile
import tomllib
from collections.abc import Iterable

TESTS = pathlib.Path(__file__).resolve().parent
ROOT = TESTS.parent.parent
# The tests that take long, and the seconds that a run may take: a bug that makes one hang is noticed.
LONG, MOST = ["commands/test_random_offices.py", "gate/test_bench.py"], 600


def checkout(folder: pathlib.Path) -> pathlib.Path:
    """The folder office of a checkout in which it and debian are copies, and all else this one's."""
    for it in ROOT.iterdir():
        if it.name in ("office", "debian"):
            shutil.copytree(it, folder / it.name, ignore=shutil.ignore_patterns("__pycache__"))
        elif it.name != ".git":
            (folder / it.name).symlink_to(it)
    return folder / "office"


def is_noticed(office: pathlib.Path, words: list[str]) -> bool:
    """Whether these tests fail."""
    command = [sys.executable, "-m", "pytest", "-q", "-x", *words]
    environment = {**os.environ, "PYTHONDONTWRITEBYTECODE": "1"}
    try:
        done = subprocess.run(command, cwd=office, env=environment, capture_output=True, timeout=MOST, check=False)
    except subprocess.TimeoutExpired:
        return True
    return done.returncode != 0


def failing_without(tests: Iterable[str]) -> list[str]:
    """The test files that fail without a bug."""
    with tempfile.TemporaryDirectory(prefix="plant-") as folder:
        office = checkout(pathlib.Path(folder))
        return [it for it in sorted(tests) if is_noticed(office, [f"tests/{it}"])]


def plants() -> list[dict[str, str]]:
    """All bugs."""
    found: list[dict[str, str]] = tomllib.loads((TESTS / "plants.toml").read_text())["plant"]
    return found


def planted(plant: dict[str, str], office: pathlib.Path) -> str | None:
    """The text of a bug's file with the bug in it; none where it is out of date."""
    text = (office / plant["file"]).read_text()
    if text.count(plant["old"]) != 1 or plant["old"] == plant["new"]:
        return None
    return text.replace(plant["old"], plant["new"])


def outcome(plant: dict[str, str], likely_only: bool) -> str:
    """What becomes of a planted bug: noticed, SURVIVES, or OUT OF DATE."""
    with tempfile.TemporaryDirectory(prefix="plant-") as folder:
        office = checkout(pathlib.Path(folder))
        text = planted(plant, office)
        if text is None:
            return "OUT OF DATE"
        (office / plant["file"]).write_text(text)
        likely = plant.get("first", "").split()
        runs = [
            [f"tests/{it}" for it in likely],
            [f"--ignore=tests/{it}" for it in LONG + likely],
            [f"tests/{it}" for it in LONG],
        ]
        if likely_only:
            del runs[1:]
        return "noticed" if any(is_noticed(office, words) for words in runs if words) else "SURVIVES"


def main() -> None:
    """Plants all of them, or those with a word in their names."""
    options = argparse.ArgumentParser(description=__doc__, formatter_class=argparse.RawDescriptionHelpFormatter)
    options.add_argument("words", nargs="*", help="only the bugs whose names have one of these words")
    options.add_argument("--every", type=int, default=1, metavar="N", help="of these every Nth, from --first on")
    options.add_argument(
        "--likely", action="store_true", help="run only the tests that are likely to notice it: a lower bound, in a few minutes"
    )
    options.add_argument("--first", type=int, default=0, metavar="K")
    given = options.parse_args()
    chosen = [it for it in plants() if not given.words or any(word in it["name"] for word in given.words)][given.first :: given.every]
    if failing := failing_without({test for it in chosen for test in it.get("first", "").split()}):
        sys.exit(f"without any bug these fail, so that they notice none: {', '.join(failing)}")
    found = {}
    for it in chosen:
        found[it["name"]] = outcome(it, given.likely)
        print(f"{found[it['name']]:12} {it['name']}", flush=True)
    count = list(found.values()).count("noticed")
    print(f"{count} of {len(found)} planted bugs are noticed")
    sys.exit(1 if "OUT OF DATE" in found.values() else 0)


if __name__ == "__main__":
    main()
