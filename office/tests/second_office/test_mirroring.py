"""The proxy's mirror: a file stands for a standby that is known to be of the office's society, and for no other."""

import pathlib
import stat

import pytest
from command import run
from conftest import ROOT, running
from odd_office import odd
from society_office.basics.errors import OfficeError
from society_office.book.copy import open_copy
from society_office.offices.asking import Connections
from society_office.offices.program import free_port
from society_office.second_office import mirroring
from test_second_office import OTHERS, standing


def test_a_standby_is_known_while_it_answers(copy: pathlib.Path, program: str, tmp_path: pathlib.Path) -> None:
    """It is known from its answer on, and no longer where it gives none, or another society's office stands there."""
    known, port = tmp_path / "known", free_port()
    known.mkdir()
    words = ["resend", copy, "--known", known, "--wait", 0, "--to"]
    with standing(program, tmp_path / "standby.db", port) as address:
        place = mirroring.place_of(known, address)
        run(*words, address)
        assert str(place) == f"{known}/http:/127.0.0.1:{port}" and place.exists()
        assert [stat.S_IMODE(it.stat().st_mode) for it in (place.parent, place)] == [0o755, 0o644]
    run(*words, address, status=1)
    assert not place.exists()
    with standing(program, tmp_path / "standby.db", port):
        run(*words, address)
        assert place.exists()
    with running(program, tmp_path / "other.db", port, "--connections", "99", office=OTHERS):
        said = run(*words, address, status=1)
        assert f"{address} is no office of society 900: nothing was sent, and the mirror is off" in said and not place.exists()


@pytest.mark.parametrize("mode", ["page", "404", "garbage"])
def test_what_is_no_office_is_not_known(copy: pathlib.Path, program: str, tmp_path: pathlib.Path, mode: str) -> None:
    with standing(program, tmp_path / "standby.db") as address, odd(address, mode, place="/files/") as other:
        place = mirroring.place_of(tmp_path / "known", other)
        mirroring.make(tmp_path / "known", place)
        run("resend", copy, "--known", tmp_path / "known", "--wait", 0, "--to", other, status=1)
        assert not place.exists()


def test_what_is_told_of_it_with_a_state(copy: pathlib.Path, program: str, tmp_path: pathlib.Path) -> None:
    """Also where the state of a standby is kept, by which a failure is told only later."""
    with running(program, tmp_path / "other.db", port := free_port(), "--connections", "99", office=OTHERS):
        address = f"http://127.0.0.1:{port}"
        place = mirroring.place_of(tmp_path / "known", address)
        mirroring.make(tmp_path / "known", place)
        run("resend", copy, "--known", tmp_path / "known", "--state", tmp_path / "state", "--wait", 0, "--to", address, out=True)
        assert not place.exists()


def test_nothing_is_known_before_it_was_asked(copy: pathlib.Path, tmp_path: pathlib.Path, monkeypatch: pytest.MonkeyPatch) -> None:
    office, there = Connections("http://127.0.0.1:9", 0), list[bool]()
    place = mirroring.place_of(tmp_path, office.address)

    def asked(*_: object) -> bool:
        there.append(place.exists())
        return True

    monkeypatch.setattr(mirroring, "is_of_same_society", asked)
    with open_copy(copy) as opened, mirroring.told(tmp_path, opened, office):
        there.append(place.exists())
    assert there == [False, True]


def test_an_address_leads_nowhere_else(tmp_path: pathlib.Path) -> None:
    with pytest.raises(OfficeError, match="is no address of a mirror"):
        mirroring.place_of(tmp_path, "http://127.0.0.1:80/../../../etc")
    assert mirroring.place_of(tmp_path, "http://127.0.0.1:80/") == tmp_path / "http:/127.0.0.1:80"


def test_the_proxy_looks_where_the_unit_makes_it() -> None:
    """nginx.conf and the unit name one folder."""
    assert "if (!-f /run/society-standby/$standby) {" in (ROOT / "examples/nginx.conf").read_text()
    unit = (ROOT / "debian/units/society-standby.service").read_text()
    assert "\nRuntimeDirectory=society-standby\n" in unit and '--known "$$RUNTIME_DIRECTORY"' in unit
