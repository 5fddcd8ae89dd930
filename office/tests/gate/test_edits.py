"""The gate's tries of edits: a wrong body counts as refused at the goal that it names alone (.ci/edits.py). The prover here is a script,
which says what a source says."""

import importlib.util
import pathlib
import sys
from types import ModuleType

import pytest
from conftest import ROOT

sys.path.insert(0, str(ROOT / ".ci"))

PROVED = "fn small::sums::add: proved\n"
OPEN = "fn small::sums::add: no proof: expected answers; `search` did not prove `returns-clause-sum`, `take-requires-some`; it calls none\n"
NOTED = "note: `loop-at-init` of proofs/sums/add/Answers.antt must prove: 0 = 1\n"
BY_NAME = "./proofs/sums/add/Answers.antt:2:3: error: `returns-clause-sum`: record `X` has no field `in-Some`\n"
LEFT = "note: src/sums.rt:1:1: it is not proved that it holds (`returns-clause-sum`); a limit\nfn small::sums::add: not proved\n"
FALSE_TERM = "./proofs/sums/add/Answers.antt:2:3: error: `returns-clause-sum`: expected 1, found 0\n"
RATTLE = """#!/bin/sh
echo "$@" >> "${0%/*}/../words"
cat src/* | sed 's/ END /\\n/g'
exit 1
"""


@pytest.fixture
def edits(tmp_path: pathlib.Path, monkeypatch: pytest.MonkeyPatch) -> ModuleType:
    """The module, over a crate `small` with two sources, and a prover that prints these."""
    spec = importlib.util.spec_from_file_location("edits", ROOT / ".ci/edits.py")
    assert spec and spec.loader
    module = importlib.util.module_from_spec(spec)
    spec.loader.exec_module(module)
    for name, text in {
        "src/sums.rt": "sum\n",
        "src/takes.rt": "take\n",
        "must-fail/README.md": "none\n",
    }.items():
        file = tmp_path / "crates/small" / name
        file.parent.mkdir(parents=True, exist_ok=True)
        file.write_text(text)
    kit = tmp_path / "kit/bin/rattle"
    kit.parent.mkdir(parents=True)
    kit.write_text(RATTLE)
    kit.chmod(0o755)
    (tmp_path / "kit/KIT-ID").write_text("1")
    monkeypatch.setattr(module, "TOP", tmp_path)
    monkeypatch.setattr(module.calls, "CRATES", tmp_path / "crates")
    monkeypatch.setattr(module.calls, "crates", lambda: {"small": []})
    monkeypatch.setenv("XDG_CACHE_HOME", str(tmp_path / "cache"))
    return module


def edit(
    folder: pathlib.Path,
    name: str,
    new: str,
    refused: str,
    file: str = "sums",
    old: str = "",
    word: str = "refused",
) -> None:
    """Writes an edit of a source, with END for the ends of lines within its new text."""
    text = f"file: src/{file}.rt\nold: {old or file[:-1]}\nnew: {new.strip().replace(chr(10), ' END ')}\n"
    (folder / f"crates/small/must-fail/{name}.edit").write_text(
        text + "".join(f"{word}: {it}\n" for it in refused.split(" and ") if it)
    )


def told(
    module: ModuleType, folder: pathlib.Path, capsys: pytest.CaptureFixture[str]
) -> tuple[tuple[int, int], list[str], list[str]]:
    """How many passed and failed, the lines of that, and the functions of each check."""
    words = folder / "kit/words"
    words.unlink(missing_ok=True)
    tries = module.Tries(folder / "kit")
    tries.begin("small")
    counts = tries.told()
    checks = words.read_text().splitlines() if words.exists() else []
    *lines, last = capsys.readouterr().out.splitlines()
    batches = len(tries.begun["small"])
    assert last.startswith(
        f"edits: {counts[0]} refused, by {batches} checks, of which {batches - len(checks)} are kept"
    )
    return counts, lines, [it.partition(" --only ")[2] for it in checks]


@pytest.mark.parametrize(
    ("said", "goal", "refused"),
    [
        (OPEN, "returns-clause-sum", True),
        (NOTED, "loop-at-init", True),
        (FALSE_TERM, "returns-clause-sum", True),
        (BY_NAME + LEFT, "returns-clause-sum", True),
        (LEFT.replace("src/sums", "src/takes"), "returns-clause-sum", False),
        (
            LEFT.replace("fn small::sums::add", "fn small::sums::take"),
            "returns-clause-sum",
            False,
        ),
        (PROVED, "returns-clause-sum", False),
        (OPEN, "returns-clause-other", False),
        (BY_NAME, "returns-clause-sum", False),
        (OPEN.replace("add", "subtract"), "returns-clause-sum", False),
    ],
)
def test_a_refusal(
    edits: ModuleType,
    tmp_path: pathlib.Path,
    capsys: pytest.CaptureFixture[str],
    said: str,
    goal: str,
    refused: bool,
) -> None:
    edit(tmp_path, "wrong", said, f"sums::add {goal}")
    counts, lines, checks = told(edits, tmp_path, capsys)
    assert counts == ((1, 0) if refused else (0, 1)) and checks == ["sums::add"]
    assert lines[0].startswith(
        f"edit small/wrong: refused at sums::add {goal}"
        if refused
        else "edit small/wrong: NOT REFUSED"
    )


def test_each_goal_counts(
    edits: ModuleType, tmp_path: pathlib.Path, capsys: pytest.CaptureFixture[str]
) -> None:
    edit(
        tmp_path,
        "wrong",
        OPEN,
        "sums::add returns-clause-sum and sums::add returns-clause-other",
    )
    assert told(edits, tmp_path, capsys)[0] == (0, 1)


def test_what_a_call_requires_is_no_promise(
    edits: ModuleType, tmp_path: pathlib.Path, capsys: pytest.CaptureFixture[str]
) -> None:
    edit(tmp_path, "wrong", OPEN, "sums::add take-requires-some")
    counts, lines, checks = told(edits, tmp_path, capsys)
    assert (counts, lines, checks) == (
        (0, 1),
        [
            "edit small/wrong: FAILED: take-requires-some is no goal that its line may name"
        ],
        [],
    )
    edit(tmp_path, "wrong", OPEN, "sums::add take-requires-some", word="forbidden")
    assert told(edits, tmp_path, capsys)[0] == (1, 0)
    edit(tmp_path, "wrong", OPEN, "sums::add returns-clause-sum", word="forbidden")
    assert told(edits, tmp_path, capsys)[0] == (0, 1)


@pytest.mark.parametrize(
    ("refused", "old"),
    [
        ("", "sum"),
        ("sums::add", "sum"),
        ("sums::add returns", "none"),
        ("sums::add returns", "u"),
    ],
)
def test_what_says_nothing_fails(
    edits: ModuleType,
    tmp_path: pathlib.Path,
    capsys: pytest.CaptureFixture[str],
    refused: str,
    old: str,
) -> None:
    (tmp_path / "crates/small/src/sums.rt").write_text("sum u\n")
    edit(tmp_path, "wrong", OPEN, refused, old=old)
    counts, lines, checks = told(edits, tmp_path, capsys)
    assert (
        (counts[0], checks) == (0, [])
        and counts[1] >= 1
        and all(it.startswith("edit small/wrong: FAILED: ") for it in lines)
    )


def test_what_is_no_edit_fails(
    edits: ModuleType, tmp_path: pathlib.Path, capsys: pytest.CaptureFixture[str]
) -> None:
    (tmp_path / "crates/small/must-fail/wrong.edti").write_text("")
    assert told(edits, tmp_path, capsys)[:2] == (
        (0, 1),
        ["edit small/wrong.edti: FAILED: this is no edit"],
    )


def test_functions_that_differ_are_tried_at_once(
    edits: ModuleType, tmp_path: pathlib.Path, capsys: pytest.CaptureFixture[str]
) -> None:
    edit(tmp_path, "one", OPEN, "sums::add returns-clause-sum")
    edit(
        tmp_path,
        "other",
        OPEN.replace("sums::add", "takes::take"),
        "takes::take returns-clause-sum",
        "takes",
    )
    assert told(edits, tmp_path, capsys)[::2] == (
        (2, 0),
        ["sums::add --only takes::take"],
    )
    # A body of the same function is tried by itself, and of the others what was said is kept.
    edit(
        tmp_path,
        "third",
        OPEN.replace("sums::add", "takes::take"),
        "takes::take returns-clause-sum",
        "takes",
    )
    assert told(edits, tmp_path, capsys)[::2] == ((3, 0), ["takes::take"])
    # So is one of another round.
    edit(
        tmp_path,
        "third",
        OPEN.replace("sums::add", "takes::other"),
        "takes::other returns-clause-sum\nround: 2",
        "takes",
    )
    assert told(edits, tmp_path, capsys)[::2] == ((3, 0), ["takes::other"])
    # What a check read has changed: nothing that was kept is taken.
    (tmp_path / "crates/small/specs").mkdir()
    (tmp_path / "crates/small/specs/Lib.antt").write_text("pub mod Sums\n")
    assert len(told(edits, tmp_path, capsys)[2]) == 2
    (tmp_path / "kit/KIT-ID").write_text("2")
    assert len(told(edits, tmp_path, capsys)[2]) == 2
