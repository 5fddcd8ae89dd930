"""Requests through the proxy, byte for byte as they are given: what edge.py and edge_limits.py share."""
import base64
import http.client
import socket
import ssl
from typing import Any

from proxy import SECRET, Proxy

FIRST_SENDER, OTHER_SENDER = "PB000000012", "PB000000034"
OFFICE, READER = "office", "reader"
PATHS = {
    FIRST_SENDER: f"/v1/senders/{FIRST_SENDER}",
    OTHER_SENDER: f"/v1/senders/{OTHER_SENDER}",
    OFFICE: "/v1/accounts/I00000000199",
    READER: "/v1/accounts/I00000000199",
}


def head_of(
    user: str | None, method: str, target: str, length: int | None = None, password: str = SECRET, close: bool = True, behind: str = ""
) -> bytes:
    """A request's head, its target as it is; `length` is that of the body that it announces, `behind` is put behind name and password."""
    name = "" if user is None else "Authorization: Basic " + base64.b64encode(f"{user}:{password}".encode()).decode() + behind + "\r\n"
    size = "" if length is None else f"Content-Length: {length}\r\n"
    end = "Connection: close\r\n" if close else ""
    return f"{method} {target} HTTP/1.1\r\nHost: localhost\r\n{end}{name}{size}\r\n".encode()


def asked(
    proxy: Proxy,
    user: str | None,
    method: str,
    target: str,
    body: bytes = b"",
    password: str = SECRET,
    port: int | None = None,
    source: str | None = None,
    timeout: float = 60,
) -> tuple[int, bytes]:
    """The status and the body of an answer; 0 where there is none."""
    length = len(body) if method == "PUT" else None
    with connected(port or proxy.port, proxy, source=source, timeout=timeout) as peer:
        peer.sendall(head_of(user, method, target, length, password) + body)
        answer = http.client.HTTPResponse(peer, method=method)
        try:
            answer.begin()
        except http.client.BadStatusLine:
            return 0, b""
        return answer.status, answer.read()


def connected(port: int, proxy: Proxy, buffer: int | None = None, source: str | None = None, timeout: float = 60) -> ssl.SSLSocket:
    """A connection with TLS; `buffer` bounds what the system takes of an answer before it is read, `source` is its own address."""
    plain = socket.socket()
    if buffer:
        plain.setsockopt(socket.SOL_SOCKET, socket.SO_RCVBUF, buffer)
    if source:
        plain.bind((source, 0))
    plain.settimeout(timeout)
    plain.connect(("127.0.0.1", port))
    context = ssl.create_default_context(cafile=proxy.home / "office.crt")
    context.check_hostname = False
    return context.wrap_socket(plain)


def status_of(proxy: Proxy, user: str, source: str, **how: Any) -> int:
    return asked(proxy, user, "GET", PATHS[user], source=source, **how)[0]
