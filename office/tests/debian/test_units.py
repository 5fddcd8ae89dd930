"""When the units of the packages go off."""

import re

from conftest import ROOT

# The minutes that a backup may have the office halted: society-backup's longest, and a little more.
HALTED = 2


def minutes(name: str) -> set[int]:
    """The minutes of an hour at which a timer goes off."""
    text = (ROOT / f"debian/units/society-{name}.timer").read_text()
    hour, minute, every = re.findall(r"^OnCalendar=(?:\S+ )?(\S+?):(\d+)(?:/(\d+))?(?::00)?$", text, re.M)[0]
    assert hour == "*" or not every
    return set(range(int(minute), 60, int(every or 60)))


def test_health_does_not_look_while_a_backup_has_the_office_halted() -> None:
    """An office that is halted does not answer, which health would tell."""
    assert minutes("health") == {4, 19, 34, 49} and minutes("backup") == {30} and len(minutes("standby")) == 12
    for name in "backup", "standby":
        assert not {it + more for it in minutes(name) for more in range(HALTED)} & minutes("health")
