"""The cases of standby.py, each with the lines of examples/nginx.conf without which it fails."""
import contextlib
import json
import pathlib
import signal
import socket
import subprocess
import tempfile
import threading
import time
from collections.abc import Callable, Iterator
from typing import Any

import bodies
import served
import standby_year
from bodies import CSV_HEADER, FIRST, changed, order_body
from edge_asking import OFFICE, asked
from measured import Server
from served import ROOT
from standby_machines import SENDERS, TIMES, Machines, User, copied, office_tool, user_of
from society_office.second_office import mirroring

# The options of an office of another society.
OTHERS = ["--society", "901", "--territory", "40", "--name", "OTHER"]


@contextlib.contextmanager
def both_served(machines: Machines) -> Iterator[pathlib.Path]:
    """The office and the standby, empty."""
    with tempfile.TemporaryDirectory(dir=machines.folder, ignore_cleanup_errors=True) as room:
        folder = pathlib.Path(room)
        machines.ways[0].lost = machines.ways[0].late = machines.standby.delay = 0
        machines.standby.begin(folder / "standby.db")
        try:
            with Server(machines.program, folder / "office.db", machines.office_port) as office:
                machines.office = office
                yield folder
        finally:
            machines.standby.server.process.send_signal(signal.SIGCONT)
            machines.standby.end()


def same_within(machines: Machines, seconds: float, paths: list[str]) -> bool:
    """Whether the standby soon has what stands at some paths."""
    end = time.monotonic() + seconds
    while time.monotonic() < end:
        with contextlib.closing(machines.standby.server.connection()) as it:
            if all(served.ask(it, "GET", path)[0] == 200 for path in paths):
                return True
        time.sleep(0.1)
    return False


def hangs(machines: Machines) -> bool:
    """A standby that hangs is noticed by nobody: not on a kept connection, and by no limit."""
    with both_served(machines):
        user, path = User(machines.proxies[0], SENDERS[0]), f"/senders/{SENDERS[0]}/transmissions"
        machines.standby.server.process.send_signal(signal.SIGSTOP)
        found = [user.put(f"{path}/{k}", bodies.NO_WORKS) for k in range(1, TIMES + 1)]
        return {status for status, _ in found} == {201} and max(seconds for _, seconds in found) < 1


def brings(machines: Machines) -> bool:
    """Puts of all kinds are brought, a file of the greatest length too."""
    with both_served(machines):
        user, office = User(machines.proxies[0], SENDERS[0]), User(machines.proxies[0], OFFICE)
        long = bodies.works_file(0, 400, SENDERS[0])
        statuses = [user.put(f"/senders/{SENDERS[0]}/transmissions/1", long)[0], office.put("/pools/3", order_body(5, [], []))[0]]
        return statuses == [201, 201] and same_within(machines, 5, [f"/v1/senders/{SENDERS[0]}/acks/1", "/v1/pools/3"])


@contextlib.contextmanager
def listening(at: int, answer: bytes) -> Iterator[list[bytes]]:
    """What comes to a port, each request's bytes; `answer` is what each is given."""
    came, listener = [], socket.create_server(("127.0.0.1", at))

    def take() -> None:
        with contextlib.suppress(OSError):
            while True:
                peer, _ = listener.accept()
                with peer:
                    came.append(peer.recv(1 << 16))
                    peer.sendall(answer)

    threading.Thread(target=take, daemon=True).start()
    try:
        yield came
    finally:
        with contextlib.suppress(OSError):
            listener.shutdown(socket.SHUT_RDWR)
        listener.close()


def only_its_own(machines: Machines) -> bool:
    """It brings what is put into the office, and what is asked, refused, or put into the trial office it does not; and no password."""
    proxy, path = machines.proxies[0], f"/v1/senders/{SENDERS[0]}/transmissions"
    nonsense = b"HTTP/1.1 500 Nonsense\r\nContent-Length: 7\r\n\r\nnothing"
    with tempfile.TemporaryDirectory(dir=machines.folder) as folder, listening(machines.standby.port, nonsense) as came:
        trial = Server(machines.program, pathlib.Path(folder) / "trial.db", proxy.trial_office_port)
        with trial, Server(machines.program, pathlib.Path(folder) / "office.db", machines.office_port):
            asking: list[tuple[str, str, str, bytes, dict[str, Any]]] = [
                (SENDERS[0], "GET", f"{path}/1", b"", {}),
                (SENDERS[1], "PUT", f"{path}/2", bodies.NO_WORKS, {}),
                (SENDERS[0], "PUT", f"{path}/3", bodies.NO_WORKS, {"password": "guess"}),
                (SENDERS[0], "PUT", f"{path}/4", bodies.NO_WORKS, {"port": proxy.trial_port}),
                (SENDERS[0], "PUT", f"{path}/1", bodies.NO_WORKS, {}),
            ]
            statuses = [asked(proxy, user, method, target, body, **how)[0] for user, method, target, body, how in asking]
            time.sleep(1)
    lines = [it.split(b"\r\n")[0].split(b" ")[:2] for it in came]
    return statuses == [404, 403, 401, 202, 201] and lines == [[b"PUT", f"{path}/1".encode()]] and b"uthorization" not in came[0]


def two_contents(machines: Machines) -> bool:
    """A number with two contents: the mirror lost the first, and brought the second, which the office refused. Just that is told."""
    first = changed(FIRST, 1, 4, SENDERS[0].encode())
    other = first.replace(b"FIRST SONG", b"OTHER SONG")
    returns = [CSV_HEADER + b"ATABC2600001,%d,180\n" % plays for plays in (10, 20)]
    orders = [json.dumps({"kind": it, "amount": 0, "cut": [], "returns": []}).encode() for it in ("PR", "MR")]
    cases = {
        "files": (f"/senders/{SENDERS[0]}/transmissions/1", first, other),
        "returns": ("/returns/RADIO1/1", returns[0], returns[1]),
        "orders": ("/pools/1", orders[0], orders[1]),
    }
    return all(is_told(machines, kind, *case) for kind, case in cases.items())


def is_told(machines: Machines, kind: str, path: str, one: bytes, other: bytes) -> bool:
    with both_served(machines) as folder:
        way, user = machines.ways[0], User(machines.proxies[0], user_of(path))
        way.lost = 1.0
        statuses = [user.put(path, one)[0]]
        # (what is lost is lost once nginx has tried)
        time.sleep(0.5)
        way.lost = 0.0
        statuses.append(user.put(path, other)[0])
        time.sleep(0.5)
        statuses.append(served.ask_once(machines.standby.port, "PUT", f"/v1{path}", other)[0])
        copy = copied(machines, folder / "office.db", f"{folder.name}/copies")
        way_of = ["--since-fronts"] if kind == "returns" else []
        status, told = office_tool(machines, "resend", copy, "--to", machines.addresses[0], *way_of)
        rows = office_tool(machines, "compare", copy, copied(machines, folder / "standby.db", f"{folder.name}/others"))
    is_right = statuses == [201, 409, 200] and (status, rows[0], len(rows[1])) == (1, 1, 1)
    is_right &= told[0].endswith("1 refused") and rows[1][0].startswith(f"{kind}: 1 difference; first ")
    if not is_right:
        print(f"{kind}: {statuses}, {told}, {rows}", flush=True)
    return is_right


def nothing_to_others(machines: Machines) -> bool:
    """An office of another society at the standby's address gets nothing: society-standby asks it first."""
    proxy, address, path = machines.proxies[0], machines.addresses[0], f"/senders/{SENDERS[0]}/transmissions"
    place = mirroring.place_of(proxy.known, address)
    resend = ["--to", address, "--known", proxy.known, "--state", machines.folder / "state.json", "--wait", "1"]
    with both_served(machines) as folder, tempfile.TemporaryDirectory() as other:
        user = User(proxy, SENDERS[0])
        statuses = [user.put(f"{path}/1", bodies.NO_WORKS)[0]]
        copy = copied(machines, folder / "office.db", f"{folder.name}/copies")
        found = [(office_tool(machines, "resend", copy, *resend)[0], place.exists())]
        machines.standby.end()
        with served.Server(machines.program, f"{other}/other.db", 1_000, port=machines.standby.port, office=OTHERS):
            said = office_tool(machines, "resend", copy, *resend)[1]
            found += [("is no office of society" in " ".join(said), place.exists())]
            statuses += [user.put(f"{path}/{it}", bodies.NO_WORKS)[0] for it in (2, 3)]
            time.sleep(1)
            front = served.ask_once(machines.standby.port, "GET", f"/v1{path.rpartition('/')[0]}", seconds=10)[1]
        machines.standby.begin(folder / "standby.db")
        found += [(office_tool(machines, "resend", copy, *resend)[0], place.exists())]
    return (statuses, found, front) == ([201] * 3, [(0, True), (True, False), (0, True)], b'{"front":0,"held":[]}')


def a_year(machines: Machines) -> bool:
    """A year by the documents: what is void is paid by nobody, also after a restore and in the standby's service (standby_year.py)."""
    with both_served(machines) as folder, contextlib.ExitStack() as stack:

        @contextlib.contextmanager
        def restored(copy: pathlib.Path) -> Iterator[None]:
            """The office over an older copy, by society-restore; it goes on behind the `with`."""
            assert machines.office
            machines.office.kill()
            words = ["--from", str(copy), "--db", str(folder / "office.db"), "--service", "none", "--program", machines.program]
            subprocess.run([str(ROOT / "debian/bin/society-restore"), *words], check=True, capture_output=True)
            machines.office = stack.enter_context(Server(machines.program, folder / "office.db", machines.office_port))
            yield

        wrong = standby_year.of_the_year(machines, folder, restored, lambda name: User(machines.proxies[0], name))
    for it in wrong:
        print(f"  {it}", flush=True)
    return wrong == []


# Each case, with lines of examples/nginx.conf without which it fails.
HOP = "proxy_pass http://127.0.0.1:8445$request_uri;"
CASES: dict[Callable[[Machines], bool], list[tuple[str, str]]] = {
    hangs: [(HOP, "proxy_pass $standby$request_uri;")],
    brings: [("            mirror /mirror;\n", ""), ("            mirror /standby;\n", "")],
    only_its_own: [
        ('"~^PUT ." 1', '"~^\\S+ ." 1'),
        ('        8444 "";\n', ""),
        ('Authorization "";\n            proxy_ignore', "X-Other 1; proxy_ignore"),
    ],
    # (proxy.py looks for the folder's name)
    nothing_to_others: [("if (!-f /run/society-standby/$standby) {", "# /run/society-standby\n            if ($is_mirrored = 0) {")],
    two_contents: [],
    a_year: [],
}
