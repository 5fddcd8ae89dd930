"""What stands before an office and answers oddly: it hangs, breaks off, or says something else than the office, which may have taken it."""

import contextlib
import http.server
import socket
import threading
import time
from collections.abc import Iterator
from typing import Any

from served import ask_once

# What can become of something that is put: the office gets it not, or with `after` gets it and its answer is lost.
MODES = ("hangs", "reset", "garbage", "page", "404", "409", "503")
# What an office says with these statuses.
BODIES = {"404": b'{"error":"unknown"}', "409": b'{"error":"reused"}', "503": b'{"error":"busy"}'}


class Odd(http.server.BaseHTTPRequestHandler):
    """Answers as its mode says to what is put where its place stands in the path, and hands on all else."""

    office, mode, left, place, seconds = "", "", 0, "/pools/", 3.0
    protocol_version = "HTTP/1.1"

    def handed_on(self) -> tuple[int, bytes]:
        """What the office answers."""
        body = self.rfile.read(int(self.headers.get("Content-Length", 0)))
        return ask_once(type(self).office, self.command, self.path, body if self.command == "PUT" else None, seconds=60)

    def answer(self, status: int, body: bytes) -> None:
        """Answers."""
        self.send_response(status)
        self.send_header("Content-Length", str(len(body)))
        self.end_headers()
        self.wfile.write(body)

    def do_GET(self) -> None:
        """A question."""
        if type(self).mode == "forgets" and "/pools/" in self.path:
            self.answer(404, b'{"error":"unknown"}')
            return
        status, body = self.handed_on()
        if type(self).mode == "other" and "/pools/" in self.path and status == 200:
            body = body.rsplit(b",", 1)[0] + b",12345\n"
        self.answer(status, body)

    def do_PUT(self) -> None:
        """What is put."""
        kind = type(self)
        mode, _, after = kind.mode.partition(" ")
        if kind.place not in self.path or kind.left == 0 or mode not in MODES:
            self.answer(*self.handed_on())
            return
        kind.left -= 1
        if after:
            self.handed_on()
        self.answer_oddly(mode)

    def answer_oddly(self, mode: str) -> None:
        """The answer of a mode, if it has one; the connection ends."""
        self.close_connection = True
        if mode == "hangs":
            time.sleep(type(self).seconds)
        elif mode == "reset":
            self.connection.setsockopt(socket.SOL_SOCKET, socket.SO_LINGER, b"\1\0\0\0\0\0\0\0")
        elif mode == "garbage":
            self.wfile.write(b"\x00\xffgarbage\r\n\r\n")
        elif mode == "page":
            self.answer(200, b"<html>a page</html>")
        else:
            self.answer(int(mode), BODIES[mode])

    def log_message(self, *_: Any) -> None:
        """Says nothing."""


@contextlib.contextmanager
def odd(address: str, mode: str, left: int = 1_000, place: str = "/pools/") -> Iterator[str]:
    """The address of something odd before an office, which is so for as many requests."""
    kind = type("Odd", (Odd,), {"office": address, "mode": mode, "left": left, "place": place})
    server = http.server.ThreadingHTTPServer(("127.0.0.1", 0), kind)
    thread = threading.Thread(target=server.serve_forever)
    thread.start()
    try:
        yield f"http://127.0.0.1:{server.server_port}"
    finally:
        server.shutdown()
        thread.join()
        server.server_close()
