#!/usr/bin/python3
"""Tries society-backup and society-restore on a running office: what they leave, and that the office is never left halted.

A backup is made under load, over an office that is down, into a full disk (a small tmpfs; as root), killed in the middle, by signals
too, beside a second one, also into another folder, with a copying that hangs, beside a strange process, with old copies, of files that
were moved away under the office, and of a log in which a bit was changed. Then restores: over the running office, of a damaged file, with
another front than the one that is given, two at once, beside a backup, on a new machine, stopped in the middle, and killed before each
program that they run. `systemctl` and, where a moment has to be met, other programs are stand-ins that this script makes. Ends with status
1 where anything differs.
"""
import contextlib
import grp
import os
import pathlib
import shutil
import signal
import stat
import subprocess
import sys
import tempfile
import threading
import time

import common
import restore_trials  # noqa: F401 (it adds its trials)
from backup_office import BACKUP, ENDLESS_DF, SLOW_CP, TRIALS, WRONG, Office, check, ended, failed, front_of, left_over, trial, wait_for
from served import ROOT
from society_office.book import page_sums


@trial
def under_load(office: Office) -> None:
    """Ten backups while files are sent: each has what was answered before it began, and nothing that was not sent when it ended."""
    stops, end = [], threading.Event()

    def load() -> None:
        while not end.is_set():
            office.send()

    loader = threading.Thread(target=load)
    loader.start()
    for _ in range(10):
        before = office.sent
        status, out, err = office.backed_up()
        after = office.sent
        check("a backup under load", (status, err, " sound; halted for " in out), (0, "", True))
        check("what it has", before <= front_of(office.newest()) <= after + 1)
        stops.append(int(out.split(" halted for ")[1].split(" ")[0]))
        time.sleep(1)
    end.set()
    loader.join()
    check("the office goes on", office.front(), office.sent)
    check("ten copies", len(list(office.copies.glob("office-*.db"))), 10)
    check("nothing unfinished", left_over(office), [])
    modes = {oct(stat.S_IMODE(it.stat().st_mode)) for it in office.copies.iterdir()}
    check("who may read them", (modes, oct(stat.S_IMODE(office.copies.stat().st_mode))), ({"0o600"}, "0o700"))
    check("nothing in the office's folder", sorted(it.name for it in office.home.iterdir()), ["office.db", "office.db-wal"])
    print(f"  halted for {min(stops)} to {max(stops)} ms, {office.sent} files sent, {office.unanswered} twice", flush=True)


@trial
def office_down(office: Office) -> None:
    office.send(3)
    office.stop()
    before = {it.name: it.read_bytes() for it in office.home.iterdir()}
    check("a backup while the office is down", office.backed_up()[0], 0)
    check("what it has", front_of(office.newest()), 3)
    check("the files are as they were", {it.name: it.read_bytes() for it in office.home.iterdir()}, before)


@trial
def disk_full(office: Office) -> None:
    if os.geteuid() != 0:
        print("  passed over: no root to mount a small disk", flush=True)
        return
    office.send(3)
    office.copies.mkdir()
    subprocess.run(["mount", "-t", "tmpfs", "-o", "size=300k,mode=700", "tmpfs", office.copies], check=True)
    try:
        failed("no room", office.backed_up(), "has room for")
        office.tool("df", ENDLESS_DF)
        with open(office.copies / "filler", "wb", buffering=0) as filler, contextlib.suppress(OSError):
            while True:
                filler.write(bytes(4_096))
        failed("the disk is full in the middle", office.backed_up(), "could not be copied")
        check("the office goes on", office.goes_on())
        check("nothing unfinished", left_over(office), [])
        check("the office answers", office.front(), 3)
    finally:
        subprocess.run(["umount", office.copies], check=True)


@trial
def ended_in_the_middle(office: Office) -> None:
    office.send(2)
    for how in signal.SIGTERM, signal.SIGINT, signal.SIGHUP, signal.SIGKILL:
        running = office.held()
        running.send_signal(how)
        # A shell runs its trap once what it waits for has ended.
        if how != signal.SIGKILL:
            (office.tools / "hold").unlink()
        check(f"{how.name}: the office goes on", office.goes_on())
        (office.tools / "hold").unlink(missing_ok=True)
        status = ended(running)[0]
        check(f"{how.name}: status", status, -9 if how == signal.SIGKILL else 128 + how)
        office.let_go()
    running = office.held()
    os.killpg(running.pid, signal.SIGKILL)
    check("all its processes killed: the office goes on", office.goes_on())
    ended(running)
    office.let_go()
    check("the next one", office.backed_up()[0], 0)
    check("nothing unfinished", left_over(office), [])


@trial
def two_at_once(office: Office) -> None:
    office.send(2)
    running = office.held()
    failed("a second one", office.backed_up(), "another backup")
    check("the first one's office is still halted", office.state(), "T")
    office.let_go()
    check("the first one", ended(running)[0], 0)
    check("the office goes on", office.goes_on())


@trial
def one_elsewhere(office: Office) -> None:
    """A backup into another folder waits while one has the office halted, and takes its own older copies away where it is told to."""
    office.send(2)
    office.tool("cp", SLOW_CP)
    others = office.folder / "others"
    running = office.held()
    waiting = office.backup("--to", others, "--keep", "1")
    time.sleep(1)
    check("the first one's office is still halted", office.state(), "T")
    office.let_go()
    check("both", [ended(running)[0], ended(waiting)[0]], [0, 0])
    check("the office goes on", office.goes_on())
    (first,) = others.glob("office-*.db")
    time.sleep(1.1)
    check("another one", office.backed_up("--to", others, "--keep", "1")[0], 0)
    check("only it stays", [it != first for it in others.glob("office-*.db")], [True])


@trial
def a_copying_that_hangs(office: Office) -> None:
    office.send(2)
    # (two folders below the one in which it finds its module)
    (office.folder / "office").symlink_to(ROOT / "office")
    script = office.folder / "debian/bin/backup"
    script.parent.mkdir(parents=True)
    script.write_text(BACKUP.read_text().replace("LONGEST=60", "LONGEST=2"))
    script.chmod(0o755)
    (office.tools / "hold").touch()
    office.tool("cp", SLOW_CP)
    running = office.backup(script=script)
    wait_for(lambda: (office.tools / "copying").exists())
    check("the office goes on by itself", office.goes_on(5))
    office.let_go()
    failed("its copy counts for nothing", ended(running), "went on before all was copied")
    check("no copy", list(office.copies.glob("office-*")), [])


@trial
def strangers_and_wrong_places(office: Office) -> None:
    office.send(2)
    with open(office.database, "rb"):
        failed("another process has the file", office.backed_up(), "several processes")
    check("the office is not halted", office.state() != "T")
    failed("into its own folder", office.backed_up("--to", office.home), "own folder")
    failed("no file", office.backed_up("--db", office.home / "none.db"), "no file")
    (office.folder / "file").touch()
    failed("no folder", office.backed_up("--to", office.folder / "file"), "could not be made")
    failed("a folder that can't be written", office.backed_up("--to", "/proc/self"), "can't be written")
    failed("no group", office.backed_up("--group", "no-such-group"), "no group")
    failed("no program", office.backed_up("--program", "/none"), "there is no program")
    office.stop()
    with open(office.database, "rb"):
        failed("a process that is no office", office.backed_up(), "is no office")
    check("wrong words", [office.backed_up(*it)[0] for it in (["--days", "0"], ["--keep", "0"], ["--what", "1"], ["--days"])], [2] * 4)


@trial
def old_ones(office: Office) -> None:
    office.send(1)
    office.copies.mkdir()
    for age in 1, 6, 7, 8, 40:
        path = office.copies / f"office-2026-01-{age:02}-023000.db"
        path.touch()
        os.utime(path, (time.time() - age * 86_400 - 600,) * 2)
    (office.copies / "mine.db").touch()
    os.utime(office.copies / "mine.db", (0, 0))
    check("a backup", office.backed_up("--days", "7")[0], 0)
    made = office.newest().name
    check("its time is that of what it holds", abs(office.newest().stat().st_mtime - time.time()) < 60)
    check(
        "what is kept",
        sorted(it.name for it in office.copies.glob("*.db")),
        sorted([made, "office-2026-01-01-023000.db", "office-2026-01-06-023000.db", "mine.db"]),
    )
    for it in office.copies.glob("office-*.db"):
        os.utime(it, (time.time() - 40 * 86_400 - (it.name == made),) * 2)
    time.sleep(1.1)
    check("a backup after a clock that was wrong", office.backed_up("--days", "7")[0], 0)
    check("the newest three stay", len(list(office.copies.glob("office-*.db"))), 3)


@trial
def for_a_group(office: Office) -> None:
    """The folder and the copies of --group are for its members, and for nobody else."""
    office.send(1)
    group = grp.getgrgid(33 if os.geteuid() == 0 else os.getegid())
    check("a backup", office.backed_up("--group", group.gr_name)[0], 0)
    found = [(it.stat().st_gid, oct(stat.S_IMODE(it.stat().st_mode))) for it in (office.copies, office.newest())]
    check("who may read it", found, [(group.gr_gid, "0o750"), (group.gr_gid, "0o640")])


@trial
def damage_is_told(office: Office) -> None:
    office.send(2)
    office.stop()
    with page_sums.changed(office.database) as it:
        it.execute("UPDATE fronts SET front = 1")
    failed("a damaged file", office.backed_up(), "damaged")
    check("no copy of it", list(office.copies.glob("office-*")), [])


@trial
def moved_away(office: Office) -> None:
    """The file or its log is another one than the office writes."""
    office.send(2)
    shutil.move(office.database, office.home / "old.db")
    failed("the file renamed", office.backed_up(), "no file")
    shutil.copy(office.home / "old.db", office.database)
    failed("and copied back", office.backed_up(), "does not write")
    (office.home / "old.db").replace(office.database)
    check("put back", office.backed_up()[0], 0)
    log = office.home / "office.db-wal"
    shutil.copy(log, office.home / "new")
    (office.home / "new").replace(log)
    failed("a copy in the log's place", office.backed_up(), "does not write")
    check("the office is not halted", office.state() != "T")


@trial
def changed_bits(office: Office) -> None:
    """A bit of the log that drops later requests is told; a write that was broken off is none."""
    office.send(4)
    office.stop()
    log = office.home / "office.db-wal"
    sound = log.read_bytes()
    for place in 5, 40, 4_000, 60_000, len(sound.rstrip(b"\0")) - 20_000:
        changed = bytearray(sound)
        changed[place] ^= 4
        log.write_bytes(changed)
        failed(f"bit at {place}", office.backed_up(), "is not as it was written")
    log.write_bytes(sound[: len(sound.rstrip(b"\0")) - 3_000])
    check("a log whose end is torn", office.backed_up()[0], 0)
    check("it has all but the last", front_of(office.newest()), 3)


def main() -> None:
    options = common.parser(__doc__)
    common.add_cases(options, [it.__name__ for it in TRIALS])
    given = options.parse_args()
    for it in TRIALS:
        if given.case in it.__name__:
            print(it.__name__, flush=True)
            with tempfile.TemporaryDirectory(ignore_cleanup_errors=True) as folder:
                office = Office(given.program, pathlib.Path(folder))
                try:
                    it(office)
                finally:
                    office.stop()
    print("wrong: " + (", ".join(WRONG) or "nothing"))
    sys.exit(1 if WRONG else 0)


if __name__ == "__main__":
    main()
