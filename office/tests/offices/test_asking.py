"""Many requests to one office: what is refused for now is sent again, what is no answer ends all, and how an office is reached."""

import http.client
import http.server
import pathlib
import threading
import time
from collections.abc import Iterator

import pytest
from command import run
from society_office.basics.errors import OfficeError
from society_office.commands.standby_commands import connected, send_again
from society_office.offices import program
from society_office.offices.asking import ON_ONE_CONNECTION, Connections, Request, access_by_netrc
from society_office.offices.program import free_port


class Busy(http.server.BaseHTTPRequestHandler):
    """A proxy that has too many requests now and then, or breaks the connection, and takes each in the end."""

    protocol_version = "HTTP/1.1"
    asked: list[str] = []
    connections = 0
    silent = threading.Event()
    # What it answers to one after the other, 0 for nothing, and then to all.
    statuses = [503, 0, 502, 500, 429, 201]

    def setup(self) -> None:
        type(self).connections += 1
        super().setup()

    def do_PUT(self) -> None:
        self.rfile.read(int(self.headers["Content-Length"]))
        self.asked.append(self.headers["Authorization"] or "")
        status = self.statuses[min(len(self.asked), len(self.statuses)) - 1]
        if not self.path.startswith("/v1/"):
            status = 401 if self.path.endswith("/1") else self.silent.wait(30) and 0
        if status:
            self.send_response(status)
            self.send_header("Content-Length", "0")
            self.end_headers()
        self.close_connection = not status

    def log_message(self, format: str, *words: object) -> None:
        pass


@pytest.fixture
def busy() -> Iterator[str]:
    """The address of such a proxy."""
    Busy.asked, Busy.connections = [], 0
    with http.server.ThreadingHTTPServer(("127.0.0.1", 0), Busy) as server:
        threading.Thread(target=server.serve_forever, daemon=True).start()
        yield f"http://127.0.0.1:{server.server_address[1]}"
        server.shutdown()


def test_what_is_refused_for_now_is_sent_again(busy: str, tmp_path: pathlib.Path) -> None:
    (tmp_path / "netrc").write_text("machine 127.0.0.1 login office password secret\n")
    user = access_by_netrc(busy, tmp_path / "netrc")
    connections = Connections(busy, 20, user=user["user"], password=user["password"])
    count = ON_ONE_CONNECTION + 1
    answers = list(connections.answers(Request("return", f"returns/TV5/{k + 1}", b"") for k in range(count)))
    connections.close()
    assert [(it.path, answer.status) for it, answer in answers] == [(f"returns/TV5/{k + 1}", 201) for k in range(count)]
    assert len(Busy.asked) == count + len(Busy.statuses) - 1 and set(Busy.asked) == {"Basic b2ZmaWNlOnNlY3JldA=="}
    # (the first one was broken, and a new one is made before the last request)
    assert Busy.connections == 3


def test_what_ends_a_round(busy: str, copy: pathlib.Path, tmp_path: pathlib.Path) -> None:
    said = run("resend", copy, "--to", busy, "--wait", "0", status=1)
    assert "answers 503 to senders/" in said and "run it again" in said
    assert "no answer from" in run("resend", copy, "--to", f"http://127.0.0.1:{free_port()}", "--wait", "0", status=1)
    # (no number of seconds would be waited for ever)
    assert "nan" in run("resend", copy, "--to", busy, "--wait", "nan", status=2)
    with pytest.raises(OfficeError, match="has no entry for 127.0.0.1"):
        (tmp_path / "netrc").write_text("machine office.example login office password secret\n")
        access_by_netrc(busy, tmp_path / "netrc")
    (tmp_path / "netrc").write_text("nothing of this kind\n")
    assert "netrc, line 1: " in run("resend", copy, "--to", busy, "--netrc-file", tmp_path / "netrc", status=1)
    (tmp_path / "netrc").write_bytes(b"machine 127.0.0.1 login office password \xff\n")
    assert "0xFF is no UTF-8" in run("resend", copy, "--to", busy, "--netrc-file", tmp_path / "netrc", status=1)
    assert "is no address" in run("resend", copy, "--to", "office", status=1)


@pytest.mark.parametrize("status, said", [(500, "answers 500 to senders/"), (301, "answers 301: it leads to another address")])
def test_what_no_office_answers_is_no_refusal(
    status: int, said: str, busy: str, copy: pathlib.Path, tmp_path: pathlib.Path, monkeypatch: pytest.MonkeyPatch
) -> None:
    state = tmp_path / "state.json"
    monkeypatch.setattr(Busy, "statuses", [status])
    assert said in run("resend", copy, "--to", busy, "--wait", "0", status=1) and len(Busy.asked) == 1
    told = run("resend", copy, "--to", busy, "--wait", "0", "--state", state, "--behind", "0", status=1, out=True)
    assert "is known to have all until" in told and "not the same" not in told and len(Busy.asked) == 2


def test_one_answer_ends_what_others_wait_for(busy: str) -> None:
    connections, begun = Connections(f"{busy}/slow", 20, 4), time.monotonic()
    with pytest.raises(OfficeError, match="the proxy wants a user and a password"):
        list(connections.answers(Request("return", f"returns/TV5/{k}", b"") for k in (1, 2, 3, 4)))
    assert time.monotonic() - begun < 15


def test_what_is_broken_off_before_it_connects(busy: str) -> None:
    office, begun = program.Office(f"{busy}/slow"), time.monotonic()
    office.break_off()
    with pytest.raises(OfficeError, match="broken off"):
        office.ask("PUT", "/v1/returns/TV5/2", b"")
    assert time.monotonic() - begun < 15


def test_how_an_office_is_reached(busy: str, copy: pathlib.Path, tmp_path: pathlib.Path, monkeypatch: pytest.MonkeyPatch) -> None:
    offices = connected("http://127.0.0.1:1", False, None, None, 7, 3).offices
    assert [it.seconds for it in offices] == [3] * 7
    defaults = {it.name: it.default for it in send_again.params}
    assert (defaults["wait"], defaults["connections"], defaults["behind"]) == (60, 0, 15)
    for count, status, why in ((32, 1, "is no address"), (33, 2, "--connections")):
        assert why in run("resend", copy, "--to", "office", "--connections", count, status=status)
    monkeypatch.setenv("HOME", str(tmp_path))
    (tmp_path / ".netrc").write_text("machine 127.0.0.1 login office password secret\n")
    (tmp_path / ".netrc").chmod(0o600)
    run("resend", copy, "--to", busy, "--netrc", "--wait", 0, status=1)
    assert Busy.asked == ["Basic b2ZmaWNlOnNlY3JldA=="]
    for words in (["resend", copy, "--to"], ["compare", copy]):
        said = run(*words, "https://127.0.0.1:1", "--authority", tmp_path / "none.crt", "--wait", 0, status=1)
        assert f"{tmp_path / 'none.crt'} is no certificate that can be read" in said
