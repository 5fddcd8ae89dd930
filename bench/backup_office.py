"""An office in a folder of its own, its backups and restores, and stand-ins of programs: what the trials of backup_trials.py share."""
import contextlib
import http.client
import json
import os
import pathlib
import signal
import sqlite3
import subprocess
import threading
import time
from collections.abc import Callable
from typing import Any

from bodies import NO_WORKS, SENDER
from served import ROOT, Server, ask_once, free_port, serve_words

BACKUP, RESTORE = ROOT / "debian/bin/society-backup", ROOT / "debian/bin/society-restore"
PATH = f"/v1/senders/{SENDER}/transmissions"
RETURN = "/v1/returns/TV9/1", b"isrc,plays,seconds\n"
# Most seconds until something that has to happen at once has happened.
SOON = 3
# So often a restore over a service that runs is killed.
MOST_KILLS = 52
# A word of a command; the status of one, what it printed, and what it printed of faults; a trial of an office.
Word = str | pathlib.Path
Outcome = tuple[int, str, str]
Trial = Callable[["Office"], None]
WRONG, TRIALS = list[str](), list[Trial]()

# A service manager of one service: its command and its process stand in files beside it.
SYSTEMCTL = """#!/bin/bash
here=$(dirname "$0")
echo "$*" >> "$here/asked"
case $* in
  stop*) kill "$(cat "$here/pid")"; while kill -0 "$(cat "$here/pid")" 2> /dev/null; do sleep 0.05; done ;;
  start*)
    # (one that runs is not started again)
    exec 9> "$here/lock"; flock 9
    kill -0 "$(cat "$here/pid")" 2> /dev/null || { setsid bash "$here/start" > /dev/null 2>&1 9>&- & echo $! > "$here/pid"; } ;;
  *is-enabled*) exit 1 ;;
  is-active*) kill -0 "$(cat "$here/pid")" 2> /dev/null && echo active ;;
esac
"""
# Kills the script that runs it where the programs so far are as many as stand in a file, and is the program otherwise.
KILLING = """#!/bin/bash
here=$(dirname "$0")
count=$(($(cat "$here/count") + 1))
echo "$count" > "$here/count"
if [ "$count" = "$(cat "$here/last")" ]; then
  echo "{0}" > "$here/killed"
  # (the script itself, and not a shell of its own in which it waits for an answer)
  it=$PPID
  while read -r _ _ _ parent _ < "/proc/$it/stat" && grep -q society-restore "/proc/$parent/cmdline"; do it=$parent; done
  kill -9 "$it"
  exit 1
fi
exec {1} "$@"
"""
# A copying that waits until a file is gone.
SLOW_CP = """#!/bin/bash
here=$(dirname "$0")
# (cp has the file open, and nothing else has)
[ ! -f "$1" ] || exec 5< "$1"
touch "$here/copying"
while [ -e "$here/hold" ]; do sleep 0.05 5<&-; done
exec /bin/cp "$@"
"""
ENDLESS_DF = "#!/bin/sh\necho Avail\necho 999999999999\n"


def trial(function: Trial) -> Trial:
    TRIALS.append(function)
    return function


def check(what: str, found: object, wanted: object = True) -> None:
    print(f"  {what}: " + ("ok" if found == wanted else f"WRONG, {found!r} and not {wanted!r}"), flush=True)
    if found != wanted:
        WRONG.append(what)


class Office:
    """An office in a folder of its own, with folders for backups and for stand-ins of programs."""

    def __init__(self, program: pathlib.Path, folder: pathlib.Path) -> None:
        self.program, self.folder, self.port = program, folder, free_port()
        self.home, self.copies, self.tools = folder / "home", folder / "copies", folder / "tools"
        for it in self.home, self.tools:
            it.mkdir()
        (self.tools / "society").symlink_to(program)
        self.database, self.sent, self.unanswered = self.home / "office.db", 0, 0
        self.start()

    def start(self) -> None:
        server = Server(self.program, self.database, 1_000_000, port=self.port)
        server.drain()
        self.process = server.process
        self.wait()

    def wait(self, seconds: float = 120) -> int | str:
        """Waits until it answers."""
        end = time.monotonic() + seconds
        while time.monotonic() < end:
            with contextlib.suppress(OSError):
                return self.front()
            time.sleep(0.1)
        raise AssertionError("the office does not answer")

    def stop(self) -> None:
        self.process.kill()
        self.process.wait()

    def asked(self, method: str, path: str, body: bytes | None = None, timeout: float = 120) -> tuple[int, bytes]:
        return ask_once(self.port, method, path, body, seconds=timeout)

    def front(self) -> int | str:
        found: int | str = json.loads(self.asked("GET", f"/v1/senders/{SENDER}", timeout=10)[1])["front"]
        return found

    def send(self, count: int = 1) -> None:
        """Sends the next files; what got no answer is sent again."""
        for _ in range(count):
            try:
                status, text = self.asked("PUT", f"{PATH}/{self.sent + 1}", NO_WORKS)
            except http.client.RemoteDisconnected:
                self.unanswered += 1
                status, text = self.asked("PUT", f"{PATH}/{self.sent + 1}", NO_WORKS)
            assert status in (200, 201), text
            self.sent += 1

    def state(self) -> str:
        return pathlib.Path(f"/proc/{self.process.pid}/stat").read_text().rpartition(")")[2].split()[0]

    def goes_on(self, seconds: float = SOON) -> bool:
        """Whether it runs, now or soon."""
        end = time.monotonic() + seconds
        while self.state() == "T" and time.monotonic() < end:
            time.sleep(0.02)
        return self.state() != "T"

    def tool(self, name: str, text: str) -> pathlib.Path:
        path = self.tools / name
        path.write_text(text)
        path.chmod(0o755)
        return path

    def environment(self) -> dict[str, str]:
        return {**os.environ, "PATH": f"{self.tools}:{os.environ['PATH']}"}

    def backup(self, *words: Word, script: pathlib.Path = BACKUP, **how: Any) -> subprocess.Popen[str]:
        """A backup that is started."""
        command: list[Word] = [script, "--db", self.database, "--to", self.copies, "--program", self.program, *words]
        return subprocess.Popen(command, env=self.environment(), stdout=subprocess.PIPE, stderr=subprocess.PIPE, text=True, **how)

    def backed_up(self, *words: Word, **how: Any) -> Outcome:
        return ended(self.backup(*words, **how))

    def held(self) -> subprocess.Popen[str]:
        """A backup that stands in the middle, with the office halted."""
        (self.tools / "hold").touch()
        self.tool("cp", SLOW_CP)
        running = self.backup(start_new_session=True)
        wait_for(lambda: (self.tools / "copying").exists())
        check("the office is halted", self.state(), "T")
        return running

    def let_go(self) -> None:
        for name in "hold", "copying":
            (self.tools / name).unlink(missing_ok=True)

    def newest(self) -> pathlib.Path:
        return max(self.copies.glob("office-*.db"), key=lambda it: it.stat().st_mtime_ns)

    def restored(self, *words: Word) -> Outcome:
        command: list[Word] = [RESTORE, "--db", self.database, "--port", str(self.port), "--program", self.program, *words]
        return ended(subprocess.Popen(command, env=self.environment(), stdout=subprocess.PIPE, stderr=subprocess.PIPE, text=True))

    def as_service(self) -> None:
        """Makes systemctl the one that starts and stops this office."""
        self.tool("systemctl", SYSTEMCTL)
        words = " ".join(f"'{it}'" for it in serve_words(self.database, self.port, 1_000_000))
        (self.tools / "start").write_text(f"exec -a society '{self.program}' {words}\n")
        (self.tools / "pid").write_text(str(self.process.pid))
        # Whoever was started by this script is a zombie until it is waited for.
        threading.Thread(target=self.process.wait, daemon=True).start()

    def end_service(self) -> None:
        with contextlib.suppress(OSError, ValueError):
            os.kill(int((self.tools / "pid").read_text()), signal.SIGKILL)


def ended(running: subprocess.Popen[str]) -> Outcome:
    out, err = running.communicate(timeout=300)
    return running.returncode, out, err


def wait_for(condition: Callable[[], object], seconds: float = 60) -> None:
    end = time.monotonic() + seconds
    while not condition():
        assert time.monotonic() < end, "it does not happen"
        time.sleep(0.02)


def front_of(copy: pathlib.Path) -> int:
    """The front that stands in a copy, which has to be one file."""
    with contextlib.closing(sqlite3.connect(f"file:{copy}?mode=ro&immutable=1", uri=True)) as it:
        return int(it.execute("SELECT front FROM fronts WHERE sender = ?", (SENDER,)).fetchone()[0])


def left_over(office: Office) -> list[str]:
    return [it.name for it in office.copies.glob(".unfinished.*")]


def failed(what: str, outcome: Outcome, word: str) -> None:
    status, out, err = outcome
    told = err.splitlines()[-1] if err else ""
    check(f"{what}: {told}", (status, out, told.startswith(("backup: FAILED", "restore: FAILED")) and word in told), (1, "", True))
