"""The index of works that the nightly backup makes of its newest copy, for those who may read that and not write beside it."""

import grp
import os
import pathlib
import shutil

import pytest
from conftest import ROOT
from scripts import backed_up, own_group
from society_office.book.copy import open_copy
from society_office.works import work_index


@pytest.mark.parametrize("is_placed", [False, True])
def test_the_newest_copy_has_an_index_of_works_for_the_group(
    copy: pathlib.Path, tmp_path: pathlib.Path, program: str, monkeypatch: pytest.MonkeyPatch, is_placed: bool
) -> None:
    (tmp_path / "bin").mkdir()
    (tmp_path / "bin/society-office").symlink_to(ROOT / "office/society-office")
    monkeypatch.setenv("PATH", f"{tmp_path / 'bin'}:{os.environ['PATH']}")
    database, group = pathlib.Path(shutil.copy(copy, tmp_path / "office.db")), own_group()
    for _ in range(2):
        done = backed_up(database, tmp_path, program, "--group", group, *(["--place", str(tmp_path / "staff")] if is_placed else []))
        assert (done.returncode, done.stderr, "index" in done.stdout) == (0, "", False)
    made = sorted((tmp_path / "backups").glob("*.db"))[-1]
    read = tmp_path / "staff/copy.db" if is_placed else made
    [found] = [*(tmp_path / "backups").glob("*.works"), *(tmp_path / "staff").glob("*.works")]
    assert found.name == f"{read.name}.works" and found.parent == read.parent
    assert (found.stat().st_gid, found.stat().st_mode & 0o777) == (grp.getgrnam(group).gr_gid, 0o640)
    with open_copy(read) as opened:
        assert work_index.read(found, work_index.stamp_of(opened)) is not None


def test_a_backup_tells_why_it_has_no_index(
    copy: pathlib.Path, tmp_path: pathlib.Path, program: str, monkeypatch: pytest.MonkeyPatch
) -> None:
    (tmp_path / "bin").mkdir()
    (tmp_path / "bin/society-office").write_text("#!/bin/sh\necho no room >&2\nexit 1\n")
    (tmp_path / "bin/society-office").chmod(0o755)
    monkeypatch.setenv("PATH", f"{tmp_path / 'bin'}:{os.environ['PATH']}")
    database = pathlib.Path(shutil.copy(copy, tmp_path / "office.db"))
    done = backed_up(database, tmp_path, program, "--group", own_group())
    assert done.returncode == 0 and done.stdout.endswith(" kept; without an index of works: no room\n")
