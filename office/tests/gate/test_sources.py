"""The gate's reading of sources: what flake8, mypy and shellcheck find is told, and so is a reader that is not there (.ci/sources.py)."""

import importlib.util
import pathlib
import shutil
from types import ModuleType

import pytest
from conftest import ROOT

UNTYPED = "import os\n\n\ndef doubled(number):\n    return 2 * number\n"
WRONG = "def named(number: int) -> str:\n    return number\n"
UNQUOTED = "#!/bin/sh\nrm -r $1\n"


@pytest.fixture
def sources(tmp_path: pathlib.Path, monkeypatch: pytest.MonkeyPatch) -> ModuleType:
    """The reader, over a checkout that has nothing to be read yet."""
    spec = importlib.util.spec_from_file_location("sources", ROOT / ".ci/sources.py")
    assert spec and spec.loader
    found = importlib.util.module_from_spec(spec)
    spec.loader.exec_module(found)
    for name in (".flake8", "pyproject.toml"):
        shutil.copy(ROOT / name, tmp_path)
    for name in (".ci", "tools"):
        (tmp_path / name).mkdir()
    (tmp_path / ".ci/needs").write_text("#!/bin/sh\n")
    (tmp_path / ".ci/needs").chmod(0o755)
    monkeypatch.setattr(found, "TOP", tmp_path)
    return found


def told(
    sources: ModuleType, capsys: pytest.CaptureFixture[str]
) -> tuple[tuple[int, int], str]:
    """How many files passed and how many did not, and what is printed."""
    counts = sources.check(("tools",))
    return counts, capsys.readouterr().out


@pytest.mark.parametrize(
    "name, text, said",
    [
        ("it.py", UNTYPED, "tools/it.py:1:1: F401"),
        (
            "it.py",
            UNTYPED,
            "tools/it.py:4: error: Function is missing a type annotation",
        ),
        ("it.py", WRONG, "tools/it.py:2: error: Incompatible return value type"),
        (
            "it",
            "#!/usr/bin/python3\n" + WRONG,
            "tools/it:3: error: Incompatible return value type",
        ),
        ("it.py", "#\n" * 401, "tools/it.py: has 401 lines"),
        ("it", UNQUOTED, "tools/it:2:7: note: Double quote"),
        ("it.sh", UNQUOTED + "#\n" * 399, "tools/it.sh: has 401 lines"),
    ],
)
def test_what_a_reader_finds_is_told(
    sources: ModuleType,
    tmp_path: pathlib.Path,
    capsys: pytest.CaptureFixture[str],
    name: str,
    text: str,
    said: str,
) -> None:
    (tmp_path / "tools" / name).write_text(text)
    counts, printed = told(sources, capsys)
    assert counts == (0, 1) and said in printed


def test_what_is_right_passes(
    sources: ModuleType, tmp_path: pathlib.Path, capsys: pytest.CaptureFixture[str]
) -> None:
    (tmp_path / "tools/it.py").write_text("#\n" * 400)
    (tmp_path / "tools/it").write_text('#!/bin/sh\nrm -r "$1"\n')
    (tmp_path / "tools/README.md").write_text("$1\n")
    assert told(sources, capsys) == (
        (2, 0),
        "sources: 2 files of Python and shell, 0 lines on what is wrong with them\n",
    )


def test_a_reader_that_is_not_there_is_a_fault(
    sources: ModuleType, tmp_path: pathlib.Path, capsys: pytest.CaptureFixture[str]
) -> None:
    (tmp_path / ".ci/needs").write_text("#!/bin/sh\nexit 1\n")
    assert told(sources, capsys) == ((0, 1), "sources: FAILED: they are not read\n")


def test_no_file_of_python_is_passed_over(
    sources: ModuleType, tmp_path: pathlib.Path
) -> None:
    (tmp_path / "elsewhere").mkdir()
    (tmp_path / "elsewhere/it.py").write_text("")
    assert list(sources.typed(["elsewhere/it.py"])) == [
        "elsewhere/it.py: stands in no folder that mypy reads"
    ]
