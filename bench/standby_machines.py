"""An office, a standby behind a way that loses and delays, the proxies before them, and their users: what standby.py tries."""
import base64
import contextlib
import http.client
import os
import pathlib
import random
import signal
import socket
import ssl
import subprocess
import threading
import time
from collections.abc import Sequence

import served
from edge_asking import OFFICE
from measured import Server
from proxy import SECRET, Proxy
from served import ROOT
import random_office
from society_office.second_office import mirroring

SENDERS, STATIONS = random_office.SENDERS, ["station-RADIO1", "station-TV1"]
USERS = [*SENDERS, *STATIONS, OFFICE]
TAKEN = {200, 201, 202}
# What a piece of a connection waits for, the seconds of a halt or of being away, and how late a put may come.
DELAYS, PAUSE, LATE = [0, 0, 0, 0.01], 0.2, 0.4
# The most seconds that whoever puts may wait for an answer: a mirror is given five.
AT_ONCE = 2
# So many puts over one connection while the standby hangs, each within a second.
TIMES = 30
OFF = '        default "";\n        8444 "";\n'
WRONG: list[str] = []
# Texts of the configuration, each with what is put in its place.
Changes = Sequence[tuple[str, str]]


def check(what: str, found: object, wanted: object = True) -> None:
    if found != wanted:
        WRONG.append(what)
        print(f"{what}: WRONG, {found!r} and not {wanted!r}", flush=True)


def port() -> int:
    """A free port in which no port of the example stands, since those are replaced in it."""
    while any(it in str(found := served.free_port()) for it in ("8443", "8444", "8445", "8080", "8081")):
        pass
    return found


class Standby:
    """A second office over a file, always on one port, with the trouble that comes over it."""

    def __init__(self, program: str) -> None:
        self.program, self.port, self.kills, self.halts = program, port(), 0, 0
        self.delay, self.change = 0.0, threading.Lock()

    def begin(self, database: pathlib.Path) -> None:
        self.database, self.kills, self.halts = database, 0, 0
        self.server: Server = Server(self.program, database, self.port)

    def end(self) -> None:
        with self.change:
            self.server.kill()

    def trouble(self, rng: random.Random) -> None:
        """Now and then it is killed, and away for a while, or halted; and it is slow or not."""
        chance = rng.random()
        with self.change:
            if chance < 0.1:
                self.kills += 1
                self.server.kill()
                time.sleep(rng.choice([0, PAUSE]))
                self.server = Server(self.program, self.database, self.port)
            elif chance < 0.2:
                self.halts += 1
                self.server.process.send_signal(signal.SIGSTOP)
                time.sleep(PAUSE)
                self.server.process.send_signal(signal.SIGCONT)
        self.delay = rng.choice(DELAYS)


class Way:
    """The way to the standby: a port that hands each connection on, piece by piece, and loses a part of them, or brings them late."""

    def __init__(self, standby: Standby, target: int) -> None:
        self.standby, self.target, self.lost, self.late, self.rng = standby, target, 0.0, 0.0, random.Random(0)
        self.outer = socket.create_server(("127.0.0.1", port()))
        self.port = self.outer.getsockname()[1]
        threading.Thread(target=self.serve, daemon=True).start()

    def serve(self) -> None:
        while True:
            near, _ = self.outer.accept()
            threading.Thread(target=self.hand_on, args=(near, self.rng.random()), daemon=True).start()

    def hand_on(self, near: socket.socket, chance: float) -> None:
        if chance < self.lost:
            near.close()
            return
        if chance < self.lost + self.late:
            time.sleep(LATE * self.rng.random())
        try:
            far = socket.create_connection(("127.0.0.1", self.target))
        except OSError:
            near.close()
            return
        for ends in ((near, far), (far, near)):
            threading.Thread(target=self.pump, args=ends, daemon=True).start()

    def pump(self, source: socket.socket, target: socket.socket) -> None:
        with contextlib.suppress(OSError):
            while piece := source.recv(65_536):
                time.sleep(self.standby.delay)
                target.sendall(piece)
        for it in (source, target):
            with contextlib.suppress(OSError):
                it.shutdown(socket.SHUT_RDWR)


class Machines:
    """The ports of an office and a standby, and the proxies before them: with the mirror to the standby, and to its own proxy."""

    def __init__(self, program: str, folder: pathlib.Path, changes: Changes = ()) -> None:
        self.program, self.folder, self.office_port, self.standby = program, folder, port(), Standby(program)
        # (the office itself stands here while both are served)
        self.office: Server | None = None
        folder.chmod(0o755)
        self.own = self.proxy("standby", self.standby.port)
        self.ways = [Way(self.standby, self.standby.port), Way(self.standby, self.own.port)]
        self.addresses = [f"http://127.0.0.1:{self.ways[0].port}", f"https://localhost:{self.ways[1].port}"]
        password = base64.b64encode(f"{OFFICE}:{SECRET}".encode()).decode()
        access = f'proxy_set_header Authorization "Basic {password}"; proxy_ssl_verify on; proxy_ssl_name localhost;'
        trusted = f"proxy_ssl_trusted_certificate {self.own.home}/office.crt;"
        lines = ("# include standby.conf;", access + trusted)
        self.proxies = [
            self.proxy("plain", self.office_port, [mirror_to(self.addresses[0]), *changes]),
            self.proxy("secure", self.office_port, [mirror_to(f"https://127.0.0.1:{self.ways[1].port}"), lines, *changes]),
        ]
        for proxy, address in zip(self.proxies, (self.addresses[0], f"https://127.0.0.1:{self.ways[1].port}")):
            mirroring.make(proxy.known, mirroring.place_of(proxy.known, address))
        (folder / "netrc").write_text(f"machine localhost login {OFFICE} password {SECRET}\n")

    def proxy(self, name: str, office_port: int, changes: Changes = ()) -> Proxy:
        home = self.folder / name
        home.mkdir()
        return Proxy(home, office_port, USERS, [], "www-data" if os.geteuid() == 0 else None, changes=changes)

    def access(self, kind: int) -> list[str]:
        """The words that name the standby to `society-office`."""
        secret = ["--netrc-file", str(self.folder / "netrc"), "--authority", str(self.own.home / "office.crt")]
        return [self.addresses[kind], *(secret if kind else [])]

    def close(self) -> None:
        for it in [self.own, *self.proxies]:
            it.close()


def mirror_to(address: str) -> tuple[str, str]:
    """The line that turns the mirror on."""
    return OFF, OFF.replace('""', address, 1)


class User:
    """A user of the proxy with a connection that is kept, from an address of its own."""

    def __init__(self, proxy: Proxy, name: str) -> None:
        context = ssl.create_default_context(cafile=proxy.home / "office.crt")
        source = (f"127.0.1.{USERS.index(name) + 1}", 0)
        self.connection = http.client.HTTPSConnection("localhost", proxy.port, context=context, source_address=source, timeout=60)
        self.words = {"Authorization": "Basic " + base64.b64encode(f"{name}:{SECRET}".encode()).decode()}

    def put(self, path: str, body: bytes) -> tuple[int, float]:
        """The status and the seconds; a connection that nginx has ended meanwhile is made again."""
        begun = time.monotonic()
        for is_last in (False, True):
            try:
                self.connection.request("PUT", f"/v1{path}", body=body, headers=self.words)
                answer = self.connection.getresponse()
                answer.read()
                return answer.status, time.monotonic() - begun
            except (ConnectionError, ssl.SSLEOFError):
                self.connection.close()
                assert not is_last
        raise AssertionError("it was not asked")


def user_of(path: str) -> str:
    """Whose path it is."""
    kind, name = path.split("/")[1:3]
    return {"senders": name, "returns": f"station-{name}"}.get(kind, OFFICE)


def office_tool(machines: Machines, *words: object) -> tuple[int, list[str]]:
    """The status and the lines of a command."""
    done = subprocess.run(
        [str(ROOT / "office/society-office"), *map(str, words)],
        capture_output=True,
        text=True,
        env={**os.environ, "SOCIETY_PROGRAM": str(machines.program)},
    )
    return done.returncode, (done.stdout + done.stderr).splitlines()


def copied(machines: Machines, database: pathlib.Path, name: str) -> pathlib.Path:
    """A copy of an office's file, as the backup makes it."""
    copies = machines.folder / name
    words = ["--db", str(database), "--to", str(copies), "--keep", "1", "--program", machines.program]
    subprocess.run([str(ROOT / "debian/bin/society-backup"), *words], check=True, capture_output=True)
    (found,) = copies.glob("office-*.db")
    return found
