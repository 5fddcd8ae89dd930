"""The measurement of a large office, of a small one; and that no script of bench/ passes where it has tried nothing."""

import os
import subprocess
import sys

import pytest
from command import Word
from conftest import ROOT

MEASURED = [
    "statement",
    "explain",
    "balances",
    "parties",
    "unclaimed",
    "propose",
    "why",
    "site",
    "dues",
    "rebuild",
    "compare",
]


def test_the_measurement_runs(program: str) -> None:
    words: list[Word] = [
        sys.executable,
        ROOT / "office/bench/sizes.py",
        "--works",
        "900",
        "--pools",
        "7",
        "--senders",
        "2",
        "--all",
    ]
    done = subprocess.run(
        words,
        capture_output=True,
        text=True,
        check=False,
        env={**os.environ, "SOCIETY_PROGRAM": program},
    )
    assert (done.returncode, done.stderr) == (0, "")
    lines = done.stdout.splitlines()
    assert (
        lines[0].startswith("900 works, 7 pools: ")
        and [it for it in MEASURED if not any(line.startswith(it) for line in lines)]
        == []
    )
    assert all(" s of processor, " in it and it.endswith("]") for it in lines[1:])
    assert "statements in " in lines[-1] and "all equal to the balances" in lines[-1]


def test_the_comparison_of_credits_runs(program: str) -> None:
    words: list[Word] = [
        sys.executable,
        ROOT / "office/bench/credits.py",
        "--count",
        "3",
    ]
    done = subprocess.run(
        words,
        capture_output=True,
        text=True,
        check=False,
        env={**os.environ, "SOCIETY_PROGRAM": program},
    )
    assert (done.returncode, done.stderr) == (0, "") and done.stdout.endswith(
        "3 random offices, differing: none\n"
    )


@pytest.mark.parametrize(
    "words, said",
    [
        (["backup_trials", "zzz"], "argument case: no case has 'zzz' in its name"),
        (["edge", "zzz"], "argument case: no case has 'zzz' in its name"),
        (["growth", "zzz"], "argument case: no case has 'zzz' in its name"),
        (["hostile_bodies", "zzz"], "argument case: no case has 'zzz' in its name"),
        (["table_times", "zzz"], "argument case: no case has 'zzz' in its name"),
        (["paste", "docs/NONE.md"], "there is no document docs/NONE.md in "),
        (["old_files"], "name a folder of samples, or --measure COUNT"),
        (["old_files", "/dev"], "no sample (*.layout*.db) in /dev"),
    ],
)
def test_a_script_that_would_try_nothing_fails(
    words: list[str], said: str, program: str
) -> None:
    command: list[Word] = [
        sys.executable,
        "-B",
        ROOT / f"bench/{words[0]}.py",
        "--program",
        program,
        *words[1:],
    ]
    done = subprocess.run(command, capture_output=True, text=True, check=False)
    assert (
        done.returncode in (1, 2)
        and done.stdout == ""
        and said in done.stderr.splitlines()[-1]
    ), done.stderr
