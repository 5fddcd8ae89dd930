"""Restores, as backup_trials.py tries them: over a running office, stopped in the middle, and killed before each program that they run."""
import contextlib
import json
import os
import pathlib
import random
import shutil
import signal
import stat
import subprocess
import time

import measured
import served
from backup_office import KILLING, MOST_KILLS, RESTORE, RETURN, SLOW_CP, Office, Word, check, ended, failed, front_of, trial, wait_for
from bodies import SENDER
from society_office.book import page_sums


@trial
def restores(office: Office) -> None:
    office.send(3)
    assert office.backed_up()[0] == 0
    copy = office.newest()
    office.send(2)
    office.as_service()
    broken = office.folder / "broken.db"
    shutil.copy(copy, broken)
    with page_sums.changed(broken) as it:
        it.execute("UPDATE fronts SET front = 1")
    known = "--sender", SENDER, "--front"
    try:
        failed("a damaged backup", office.restored("--from", broken, *known, "1"), "nothing was changed")
        check("the office was not stopped", office.front(), 5)
        if os.geteuid() == 0:
            os.chown(office.home, 33, 33)
        status, out, err = office.restored("--from", copy, *known, "3")
        check("a backup is restored", (status, err, "the front of PB000000012 is 3" in out), (0, "", True))
        check("the office answers", office.front(), 3)
        found = office.database.stat()
        check("owner and mode", (found.st_uid, oct(stat.S_IMODE(found.st_mode))), (office.home.stat().st_uid, "0o600"))
        aside = next(office.home.glob("aside-*"))
        check("what was there", sorted(it.name for it in aside.iterdir()), ["office.db", "office.db-wal"])
        subprocess.run(["sqlite3", aside / "office.db", ".backup " + str(office.folder / "old.db")], check=True)
        check("is whole", front_of(office.folder / "old.db"), 5)
        failed("another front", office.restored("--from", copy, *known, "4"), "is 3, not 4")
        check("the office goes on", office.front(), 3)
        subprocess.run([office.tools / "systemctl", "stop"], check=True)
        check("by hand", office.restored("--from", copy, "--service", "none")[0], 0)
    finally:
        office.end_service()


def killed_at_each_step(office: Office, copy: pathlib.Path) -> None:
    """Kills a restore before each program that it runs: the book is the one from before, of 4 files, or the backup, of 6 and a return."""
    kept = office.folder / "kept"
    subprocess.run([office.tools / "systemctl", "stop"], check=True)
    shutil.copytree(office.home, kept)
    names = "cp", "mv", "rm", "sync", "chown", "chmod", "mktemp", "rmdir"
    for name in names:
        office.tool(name, KILLING.format(name, shutil.which(name)))
    found, steps = [], 0
    while True:
        steps += 1
        for it in office.home.iterdir():
            shutil.rmtree(it) if it.is_dir() else it.unlink()
        shutil.copytree(kept, office.home, dirs_exist_ok=True)
        (office.tools / "count").write_text("0")
        (office.tools / "last").write_text(str(steps))
        (office.tools / "killed").unlink(missing_ok=True)
        status, _, err = office.restored("--from", copy, "--service", "none")
        if not (office.tools / "killed").exists():
            break
        with measured.Server(office.program, office.database) as server, contextlib.closing(server.connection()) as asking:
            front = json.loads(served.ask(asking, "GET", f"/v1/senders/{SENDER}")[1])["front"]
            found.append((front, served.ask(asking, "PUT", *RETURN)[0]))
    for name in names:
        (office.tools / name).unlink()
    older, newer = (4, 201), (6, 200)
    before = found.count(older)
    check(
        f"killed at {len(found)} steps",
        (status, found, before > 8, len(found) - before > 3),
        (0, [older] * before + [newer] * (len(found) - before), True, True),
    )
    subprocess.run([office.tools / "systemctl", "start"], check=True)
    office.wait()


@trial
def new_machine(office: Office) -> None:
    """A restore where there was no office, and no service that is enabled."""
    office.send(3)
    assert office.backed_up()[0] == 0
    copy = office.newest()
    office.as_service()
    subprocess.run([office.tools / "systemctl", "stop"], check=True)
    for it in office.home.iterdir():
        it.unlink()
    try:
        status, out, _ = office.restored("--from", copy, "--sender", SENDER, "--front", "3")
        check("nothing was there", (status, "nothing was there before" in out, "systemctl enable society" in out), (0, True, True))
        check("nothing beside", sorted(it.name for it in office.home.iterdir()), ["office.db", "office.db-wal"])
    finally:
        office.end_service()


@trial
def one_at_a_time(office: Office) -> None:
    """Beside a restore there is neither another nor a backup."""
    office.send(3)
    assert office.backed_up()[0] == 0
    copy = office.newest()
    office.stop()
    (office.tools / "hold").touch()
    office.tool("cp", SLOW_CP)
    command: list[Word] = [RESTORE, "--db", office.database, "--from", copy, "--service", "none", "--program", office.program]
    running = subprocess.Popen(command, env=office.environment(), stdout=subprocess.PIPE, stderr=subprocess.PIPE, text=True)
    wait_for(lambda: (office.tools / "copying").exists())
    failed("a second restore", office.restored("--from", copy, "--service", "none"), "another restore")
    failed("a backup", office.backed_up(), "a restore of")
    office.let_go()
    check("the first one", ended(running)[0], 0)
    office.tool("date", "#!/bin/sh\necho 2026-01-06-023000\n")
    check("again in the same second", [office.restored("--from", copy, "--service", "none")[0] for _ in range(2)], [0, 0])
    check("each keeps what was there", len(list(office.home.glob("aside-*"))), 3)


def older_beside_newer(office: Office) -> pathlib.Path:
    """An office of 4 files that runs as a service, and a backup of 6 files and a return."""
    office.send(2)
    assert office.backed_up()[0] == 0
    older = office.newest()
    office.send(4)
    assert office.asked("PUT", *RETURN)[0] == 201 and office.backed_up()[0] == 0
    copy = office.newest()
    # (a log that has not each page of its file, and beside the backup would be neither book)
    office.stop()
    (office.home / "office.db-wal").unlink()
    shutil.copy(older, office.database)
    office.start()
    office.sent = 2
    office.send(2)
    office.as_service()
    return copy


def begun_again(office: Office, kept: pathlib.Path) -> None:
    """The service over what was kept of its folder, without what a restore left beside it."""
    subprocess.run([office.tools / "systemctl", "stop"], check=True)
    for it in office.home.iterdir():
        shutil.rmtree(it) if it.is_dir() else it.unlink()
    shutil.copytree(kept, office.home, dirs_exist_ok=True)
    subprocess.run([office.tools / "systemctl", "start"], check=True)
    check("the office that is well", office.wait(), 4)


def served_after(office: Office) -> int | str:
    """The front that the office has once whoever waited for the end of a restore has done what it does."""
    wait_for(lambda: not [it for it in pathlib.Path("/proc").glob("[0-9]*") if is_guard(it, office)])
    return office.wait()


def is_guard(process: pathlib.Path, office: Office) -> bool:
    """Whether a process is of a restore of this office, as the one that waits for its end; none but the office itself is else."""
    with contextlib.suppress(OSError):
        is_of_it = f"PATH={office.tools}:".encode() in (process / "environ").read_bytes()
        return is_of_it and not (process / "cmdline").read_bytes().startswith(b"society\0")
    return False


def killed_after(office: Office, copy: pathlib.Path, seconds: float) -> bool:
    """A restore that is killed after so many seconds; whether it was still under way."""
    command: list[Word] = [RESTORE, "--db", office.database, "--port", str(office.port), "--program", office.program, "--from", copy]
    words = ["--sender", SENDER, "--front", "6"]
    running = subprocess.Popen([*command, *words], env=office.environment(), stdout=subprocess.DEVNULL, stderr=subprocess.DEVNULL)
    time.sleep(seconds)
    running.kill()
    return running.wait() == -signal.SIGKILL


@trial
def killed_while_it_serves(office: Office) -> None:
    """A restore over a service that runs, killed before each program that it runs, and at random moments, 52 times in all: the office is
    served again each time, over what was there or over the backup."""
    copy, kept = older_beside_newer(office), office.folder / "kept"
    subprocess.run([office.tools / "systemctl", "stop"], check=True)
    shutil.copytree(office.home, kept)
    subprocess.run([office.tools / "systemctl", "start"], check=True)
    shutil.copy(office.tools / "systemctl", office.tools / "service")
    names = {it: shutil.which(it) or it for it in ("cp", "mv", "rm", "sync", "chown", "chmod", "mktemp", "rmdir", "sqlite3", "stat")}
    found, chance = list[int | str](), random.Random(1)
    try:
        while True:
            begun_again(office, kept)
            for name, program in {**names, "systemctl": str(office.tools / "service")}.items():
                office.tool(name, KILLING.format(name, program))
            (office.tools / "count").write_text("0")
            (office.tools / "last").write_text(str(len(found) + 1))
            (office.tools / "killed").unlink(missing_ok=True)
            begun = time.monotonic()
            status, _, err = office.restored("--from", copy, "--sender", SENDER, "--front", "6")
            seconds = time.monotonic() - begun
            for name in names:
                (office.tools / name).unlink()
            # (in one step: whoever waits for the end of the restore asks it now)
            shutil.copy(office.tools / "service", office.tools / "new").replace(office.tools / "systemctl")
            if not (office.tools / "killed").exists():
                break
            found.append(served_after(office))
        check(f"killed before {len(found)} programs: what is served", (set(found), status), ({4, 6}, 0))
        check("first the old one, then the backup", found, sorted(found))
        while len(found) < MOST_KILLS:
            begun_again(office, kept)
            if killed_after(office, copy, chance.uniform(0, seconds)):
                found.append(served_after(office))
        check(f"killed {len(found)} times: what is served", set(found), {4, 6})
    finally:
        office.end_service()


@trial
def wrong_fronts(office: Office) -> None:
    """A front that the backup has not stops nothing, whatever it is."""
    copy = older_beside_newer(office)
    (office.tools / "asked").unlink(missing_ok=True)
    try:
        for front in ("0", "1", "4", "5", "7", "8", "60", "999999", "26-0001", "99-9999"):
            failed(f"front {front}", office.restored("--from", copy, "--sender", SENDER, "--front", front), "is 6, not")
            check("the office goes on", office.front(), 4)
        asked = (office.tools / "asked").read_text() if (office.tools / "asked").exists() else ""
        check("nothing was stopped", [it for it in asked.splitlines() if it.startswith(("stop", "start", "restart"))], [])
        check("nothing beside", sorted(it.name for it in office.home.iterdir()), ["office.db", "office.db-wal"])
    finally:
        office.end_service()


@trial
def restores_that_end_early(office: Office) -> None:
    copy = older_beside_newer(office)
    try:
        # The file can't be put in place: what was there comes back.
        office.tool("mv", "#!/bin/sh\nexit 1\n")
        status, _, err = office.restored("--from", copy, "--sender", SENDER, "--front", "6")
        check("it could not be put in place", (status != 0, "is untouched" in err), (True, True))
        check("the office as it was", office.wait(), 4)
        check("nothing beside", sorted(it.name for it in office.home.iterdir()), ["office.db", "office.db-wal"])
        (office.tools / "mv").unlink()
        killed_at_each_step(office, copy)
        check("run again", office.restored("--from", copy, "--sender", SENDER, "--front", "6")[0], 0)
        check("the office over the copy", office.wait(), 6)
    finally:
        office.end_service()
