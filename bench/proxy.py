"""nginx before an office, with examples/nginx.conf, of which only the ports and the folder of the nightly pages are changed."""
import json
import os
import pathlib
import pwd
import shutil
import socket
import subprocess
import sys
import time
from collections.abc import Sequence

import common  # noqa: F401
import served
from served import ROOT

PAGE = ROOT / "examples/desk"
SECRET = "secret"


class Proxy:
    """nginx in a folder of its own, with a certificate, users who all have the password SECRET, and a copy of the page for staff.

    `senders` are the pairs of senders.json. `account` is the user of the system as whom all of nginx runs; without it nginx runs as
    who started it, and its worker as the one that its packager chose where that is root. `changes` are texts of the configuration, each
    with what is put in its place. Nightly pages, a few files in place of those, are in `pages`, and in `known` what a mirror looks for.
    """

    def __init__(
        self,
        folder: pathlib.Path,
        office_port: int,
        users: list[str],
        senders: Sequence[object],
        account: str | None = None,
        trial_office_port: int | None = None,
        changes: Sequence[tuple[str, str]] = (),
    ) -> None:
        self.port, self.trial_port, self.home = served.free_port(), served.free_port(), folder / "proxy"
        self.pages, self.trial_office_port = self.home / "pages", trial_office_port or served.free_port()
        # The answer to the question about a long pool, which the office behind it has.
        self.long_pool = b""
        self.system_log, self.known = self.home / "system_log", self.home / "known"
        self.home.mkdir()
        self.configure(office_port, changes)
        self.make_pages(users)
        shutil.copytree(PAGE, self.home / "desk")
        (self.home / "desk/senders.json").write_text(json.dumps(senders))
        key: list[str | pathlib.Path] = [
            "openssl",
            "req",
            "-x509",
            "-newkey",
            "rsa:2048",
            "-nodes",
            "-keyout",
            self.home / "office.key",
            "-out",
            self.home / "office.crt",
        ]
        subprocess.run([*key, "-days", "2", "-subj", "/CN=localhost"], check=True, capture_output=True)
        password = subprocess.run(["openssl", "passwd", "-6", SECRET], check=True, capture_output=True, text=True).stdout
        (self.home / "passwords").write_text("".join(f"{user}:{password}" for user in users))
        # Where nginx is started as root, its worker is another user, who has to read all this.
        folder.chmod(0o755)
        # (by itself a service may have 1,024 files open)
        command = ["prlimit", "--nofile=1024:", "nginx", "-p", str(self.home), "-c", str(self.home / "nginx.conf"), "-g", "daemon off;"]
        if account and os.geteuid() == 0:
            self.hand_over(account)
            command = ["setpriv", f"--reuid={account}", f"--regid={account}", "--clear-groups", *command]
        self.process = subprocess.Popen(command, stderr=subprocess.DEVNULL)
        self.wait()

    def configure(self, office_port: int, changes: Sequence[tuple[str, str]]) -> None:
        """The example with other ports; without a trial office its port leads to one that nobody listens on."""
        text = (ROOT / "examples/nginx.conf").read_text()
        ports = {
            "8443": self.port,
            "8444": self.trial_port,
            "8445": served.free_port(),
            "8080": office_port,
            "8081": self.trial_office_port,
        }
        places = {"/var/lib/society-site": self.pages, "/run/society-standby": self.known, "/dev/log": self.system_log}
        for old, new in [*changes, *((old, str(new)) for old, new in (places | ports).items())]:
            assert old in text, f"examples/nginx.conf has no {old}"
            text = text.replace(old, new)
        (self.home / "nginx.conf").write_text(text)

    def make_pages(self, users: list[str]) -> None:
        """Files in the place of the nightly pages and statements, of each kind."""
        for name in ["site", *(f"statements/{user}" for user in users)]:
            folder = self.pages / name
            folder.mkdir(parents=True)
            for file in "index.html", "office.css", "balances.csv", "statement.csv", "some.pdf", "some.other":
                (folder / file).write_text(name)
        (self.pages / "site/desk.json").write_text('{"senders": [], "reporters": ["RADIO1"]}')

    def hand_over(self, account: str) -> None:
        """Gives the folder and all in it to a user of the system."""
        known = pwd.getpwnam(account)
        for path in [self.home, *self.home.rglob("*")]:
            os.chown(path, known.pw_uid, known.pw_gid)
        self.home.chmod(0o700)

    def wait(self) -> None:
        end = time.monotonic() + 10
        while time.monotonic() < end:
            with socket.socket() as it:
                if it.connect_ex(("127.0.0.1", self.port)) == 0:
                    return
            time.sleep(0.05)
        sys.exit("nginx does not listen: " + pathlib.Path(self.home / "error.log").read_text())

    def close(self) -> None:
        self.process.terminate()
        self.process.wait()
