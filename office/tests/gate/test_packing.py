"""The package of Python: what it needs is in it."""

import pathlib
import re
import shutil
import subprocess
import sys
import tomllib
import zipfile

import pytest
from conftest import ROOT
from society_office import __version__


def test_a_wheel_from_the_folder_alone(tmp_path: pathlib.Path) -> None:
    pytest.importorskip("setuptools")
    folder = tmp_path / "office"
    shutil.copytree(
        ROOT / "office", folder, ignore=shutil.ignore_patterns("tests", "bench", ".*")
    )
    build = "from setuptools import build_meta; print(build_meta.build_wheel('.'))"
    done = subprocess.run(
        [sys.executable, "-c", build],
        cwd=folder,
        capture_output=True,
        text=True,
        check=True,
    )
    names = zipfile.ZipFile(folder / done.stdout.split()[-1]).namelist()
    packed = {
        it.relative_to(ROOT / "office").as_posix()
        for it in (ROOT / "office/society_office").rglob("*")
        if it.is_file()
    }
    assert {it for it in packed if "__pycache__" not in it} <= set(names)
    assert (
        "society_office/checks/faults.json" in names
        and f"society_office-{__version__}.dist-info/METADATA" in names
    )


def test_the_page_for_staff_has_the_same_faults() -> None:
    assert (ROOT / "examples/desk/faults.json").read_bytes() == (
        ROOT / "office/society_office/checks/faults.json"
    ).read_bytes()


def test_what_is_asked_for_only_where_it_is_used_is_suggested() -> None:
    optional = tomllib.loads((ROOT / "office/pyproject.toml").read_text())["project"][
        "optional-dependencies"
    ]
    names = {re.split("[>=]", it)[0] for one in optional.values() for it in one}
    assert names == {"weasyprint", "openpyxl"}
    suggested = re.findall(
        "^Suggests: (.*)$", (ROOT / "debian/control").read_text(), re.MULTILINE
    )[1].split(", ")
    assert {"weasyprint", "python3-openpyxl"} <= set(suggested)


def listed(name: str) -> list[list[str]]:
    """The words of each line of a list of debian/."""
    return [it.split() for it in (ROOT / "debian" / name).read_text().splitlines()]


def moved(path: str, places: dict[str, str]) -> str:
    """A path where the first of these places that it is, or is in, stands for another; nothing where it is in none."""
    return next(
        (
            to + path[len(place) :]
            for place, to in places.items()
            if f"{path}/".startswith(f"{place}/")
        ),
        "",
    )


def test_each_page_that_the_documents_name_is_in_the_package_of_debian() -> None:
    """It is there by the path that is named, from the folder of README.md."""
    text = "".join(
        it.read_text() for it in [ROOT / "README.md", *(ROOT / "docs").glob("*.md")]
    )
    named = set(re.findall(r"(?<![\w./-])[\w./-]+\.md\b", text))
    assert {
        "CONTRIBUTING.md",
        "release/README.md",
        "docs/RULES.md",
        "examples/desk/README.md",
    } <= named
    linked = {link: to for to, link in listed("society.links")}
    installed = {
        f"{target}/{pathlib.PurePath(it).name}": it
        for it, target in listed("society.install")
    }
    assert {
        it: moved(moved(f"usr/share/doc/society/{it}", linked), installed)
        for it in named
    } == {it: it for it in named}
    assert all((ROOT / it).is_file() for it in named)
