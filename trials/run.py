#!/usr/bin/env python3
"""Runs the program and compares what it writes with what is wanted. It takes three minutes.

    trials/run.py               the program that bin/society runs; where it would have to be built, release/society as it is
    trials/run.py PROGRAM..     the programs that are named
    trials/run.py --only WORD   the trials with this word in their names alone

A line tells of each trial that fails; the status is 1 then. The gate runs them over the program as each compiler of `rt ci` built it
(.ci/run).
"""
import argparse
import concurrent.futures
import importlib
import pathlib
import subprocess
import sys
import tempfile
from collections.abc import Iterator

from program import ROOT, TRIALS, Other, Trial

from served import program_at_hand

# Each other file of this folder adds its trials.
for name in sorted(it.stem for it in pathlib.Path(__file__).resolve().parent.glob("*.py")):
    if name not in ("run", "program"):
        importlib.import_module(name)

BUILT = ROOT / "crates/society/out/society"


def builds() -> list[pathlib.Path]:
    """The program as each compiler of `rt ci` built it."""
    by_rattle = BUILT.with_name("society.by-rattle")
    # (what Rattle's own compiler does not compile, `rt ci` tells of and passes)
    return [BUILT, *[by_rattle] * by_rattle.exists()]


def failures(tried: pathlib.Path, trials: list[Trial]) -> Iterator[str]:
    """A line for each of these trials that a program fails."""
    for it in trials:
        with tempfile.TemporaryDirectory() as folder:
            try:
                it(tried, pathlib.Path(folder))
            except (Other, OSError, subprocess.SubprocessError) as why:
                yield f"{tried.name}: {it.__name__} FAILED: {why}"


def check(programs: list[pathlib.Path], word: str = "") -> tuple[int, int]:
    """Runs all trials with this word in their names over each program, one program beside the other, and gives how many passed and
    failed."""
    trials = [it for it in TRIALS if word in it.__name__]
    passed = failed = 0
    with concurrent.futures.ThreadPoolExecutor(len(programs)) as pool:
        for tried, lines in zip(programs, pool.map(lambda it: list(failures(it, trials)), programs), strict=True):
            print(*lines, f"{tried.name}: {len(trials) - len(lines)} of {len(trials)} trials as wanted", sep="\n", flush=True)
            passed, failed = passed + len(trials) - len(lines), failed + len(lines)
    return passed, failed


def main() -> int:
    options = argparse.ArgumentParser(description=__doc__, formatter_class=argparse.RawDescriptionHelpFormatter)
    options.add_argument("--only", metavar="WORD", default="", help="the trials with this word in their names (default: all)")
    options.add_argument("programs", metavar="PROGRAM", nargs="*", type=pathlib.Path, help="(default: the program that bin/society runs)")
    options.epilog = "trials:\n" + "\n".join(f"  {it.__name__}" for it in TRIALS)
    given = options.parse_args()
    if not any(given.only in it.__name__ for it in TRIALS):
        sys.exit(f"no trial has {given.only} in its name; `trials/run.py --help` lists them")
    named = [it.resolve() for it in given.programs] or [program_at_hand()]
    passed, failed = check(named, given.only)
    return int(failed > 0 or not passed)


if __name__ == "__main__":
    sys.exit(main())
