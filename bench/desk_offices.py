"""The offices whose pages desk_page.py looks at."""
import contextlib
from collections.abc import Iterable

import served
from bodies import FIRST, NO_WORKS, changed, order_body, plays, works_file
from measured import Server
from served import ROOT

ALPHA, BETA, GAMMA, DELTA = "PB000000012", "PB000000034", "PB000000056", "PB000000078"
SENDERS = [[ALPHA, "Alpha Music"], [BETA, "Beta Verlag"], [GAMMA, "Gamma & <b>Söhne</b>"]]
MARKUP = b'<img src="x" onerror="document.title=1">'


def put_all(server: Server, puts: Iterable[tuple[str, bytes]]) -> None:
    with contextlib.closing(server.connection()) as connection:
        served.put_all(connection, puts, (201, 202))


def rejected_file(number: int, sender: str = BETA) -> bytes:
    """A work without its shares in order, under a title that is markup."""
    file = changed(changed(FIRST, 1, 6, sender[2:].encode()), 6, 130, b"05007")
    return changed(changed(file, 3, 20, MARKUP), 3, 82, b"X%d" % number)


def rejected_works(first: int, count: int, sender: str) -> bytes:
    """A file of works whose writer has too large a share."""
    return works_file(first, count, sender).replace(b"05000   00000   00000", b"05007   00000   00000")


def stated(server: Server, sender: str, segment: str, last: int, following: int) -> None:
    put_all(server, [(f"/v1/senders/{sender}/segments/{segment}", b'{"last":%d,"next":%d}' % (last, following))])


def by_year(sender: str, year: int, number: int) -> str:
    return f"/v1/senders/{sender}/files/CW{year:02}{number:04}EXA_900.V22"


def of_sender(sender: str, body: bytes = NO_WORKS) -> bytes:
    return changed(body, 1, 4, sender.encode())


def years(server: Server) -> None:
    """Alpha has plain files, and those of 24 and 26; Beta waits for an end; Gamma has a file of a year that its ends skip. Pools 1, 2 and
    2604."""
    plain, none = f"/v1/senders/{ALPHA}/transmissions", of_sender(ALPHA)
    bodies = {n: none for n in range(1, 31)} | {3: rejected_works(0, 11, ALPHA), 29: rejected_works(20, 1, ALPHA)}
    put_all(server, [(f"{plain}/{n}", body) for n, body in bodies.items()])
    stated(server, ALPHA, "plain", 30, 24)
    put_all(server, [(by_year(ALPHA, 24, n), rejected_works(30, 1, ALPHA) if n == 2 else none) for n in (1, 2, 3)])
    stated(server, ALPHA, "24", 3, 26)
    put_all(server, [(by_year(ALPHA, 26, n), none) for n in (1, 2)])
    put_all(server, [(f"/v1/senders/{BETA}/transmissions/1", of_sender(BETA)), (by_year(BETA, 26, 1), of_sender(BETA))])
    stated(server, GAMMA, "plain", 0, 26)
    put_all(server, [(by_year(GAMMA, year, 1), of_sender(GAMMA)) for year in (26, 25)])
    put_all(server, [(f"/v1/returns/RADIO1/{n}", plays(n, 3, 9 * n)) for n in (1, 2, 3)])
    put_all(server, [(f"/v1/pools/{n}", order_body(1_000 + n, [], [["RADIO1", at]])) for at, n in enumerate((1, 2, 2604), 1)])


def many_rejected(server: Server) -> None:
    """800 rejected works of one sender, and a pool that credits a party of a sender that senders.json lacks."""
    put_all(server, [(f"/v1/senders/{ALPHA}/transmissions/{n}", rejected_works(200 * n, 200, ALPHA)) for n in (1, 2, 3, 4)])
    work = works_file(5, 1, DELTA).replace(b"00000000295", b"           ")
    put_all(server, [(f"/v1/senders/{DELTA}/transmissions/1", work), ("/v1/returns/RADIO1/1", plays(1, 3, 5))])
    put_all(server, [("/v1/pools/1", order_body(1_000, [[DELTA, 1]], [["RADIO1", 1]]))])


def a_day(server: Server) -> None:
    """The office of examples/day.http, a file with a rejected work, and one that waits."""
    server.sent((ROOT / "examples/day.http").read_bytes())
    beta = f"/v1/senders/{BETA}/transmissions"
    put_all(server, [(f"{beta}/2", rejected_file(2)), (f"{beta}/4", changed(NO_WORKS, 1, 6, BETA[2:].encode()))])


def many_files(server: Server) -> None:
    """An office of 5,000 files of three senders, of which two wait, with rejected works, 40 returns and 25 pools."""
    puts = []
    for sender, count, first in (ALPHA, 3_000, 0), (BETA, 1_500, 3_000), (GAMMA, 500, 4_500):
        for n in range(1, count + 1):
            # Beta's file 1,490 and Gamma's 250 are missing.
            if (sender, n) not in ((BETA, 1_490), (GAMMA, 250)):
                body = rejected_file(n, sender) if n % 700 == 0 or n in (1_480, 2_990) else works_file(first + n, 1, sender)
                puts.append((f"/v1/senders/{sender}/transmissions/{n}", body))
    puts += [(f"/v1/returns/RADIO1/{n}", plays(n, 200, 20 * n)) for n in range(1, 41)]
    cut = [[ALPHA, 2_000], [BETA, 1_000], [GAMMA, 200]]
    puts += [(f"/v1/pools/{n}", order_body(10**9 + n, cut, [["RADIO1", n]])) for n in range(1, 26)]
    put_all(server, puts)
