#!/usr/bin/python3
"""Sends long streams to `society replay`, and looks whether every answer is the right one and the memory stays.

A stream of 1,000,000 questions and repeated puts over one connection: the program's memory at the end is no more than after
the first thousand (pages of the memory that was taken before the first read may be touched later). 100,000 puts of new files: no
answer is a 503, and the memory is reported beside the bytes that the book keeps.
"""
import os
import pathlib

import threading
import time

import common
import served
from bodies import CSV_HEADER, FIRST, NO_WORKS, SENDER, get, put_file, put_pool, put_return

PATH = f"/v1/senders/{SENDER}"


class Replay:
    """The program, to which requests are sent while a thread reads what it writes."""

    def __init__(self, program: str) -> None:
        self.process = served.begun_replay(program)
        self.into, self.out = served.pipes(self.process)

    def ask(self, stream: bytes, rounds: int, size: int) -> bytes:
        """Sends a stream again and again, and compares the bytes that are written, as many in each round, with the first round's."""
        first: list[bytes] = []
        reader = threading.Thread(target=self.compare, args=(rounds, size, first))
        reader.start()
        for _ in range(rounds):
            self.into.write(stream)
        self.into.flush()
        reader.join()
        return first[0]

    def compare(self, rounds: int, size: int, first: list[bytes]) -> None:
        for _ in range(rounds):
            text = self.out.read(size)
            first.append(text)
            if text != first[0]:
                print("another answer", text, first[0])
                os._exit(1)
            del first[1:]

    def end(self) -> bytes:
        """What is written after the last answer."""
        self.into.close()
        return self.out.read()

    def memory(self) -> tuple[int, int]:
        """The memory that the program has of the system for its data, and how much of it was ever touched, in kB."""
        lines = pathlib.Path(f"/proc/{self.process.pid}/status").read_text().split("\n")
        taken = dict(it.split(":\t") for it in lines if it.startswith(("VmData", "RssAnon")))
        return int(taken["VmData"].split()[0]), int(taken["RssAnon"].split()[0])


PLAYS = CSV_HEADER + b"ATABC2600001,10,200\n"
ORDER = put_pool(7, 1001, [[SENDER, 1]], [["RADIO1", 1]])
SETTING = put_file(FIRST, 1) + put_file(NO_WORKS, 3) + put_return(PLAYS) + ORDER
QUESTIONS = get(PATH, f"{PATH}/works/W1", f"{PATH}/verdicts/1", f"{PATH}/acks/1", "/v1/pools/7", "/v1/accounts/I00000000199")
ROUND = QUESTIONS + put_file(FIRST) + put_file(NO_WORKS) + put_return(PLAYS) + ORDER


def a_million_requests(program: str) -> None:
    setting = served.replay(program, SETTING)
    size = len(served.replay(program, SETTING + ROUND)) - len(setting)
    replay = Replay(program)
    replay.ask(SETTING, 1, len(setting))
    begun = time.monotonic()
    text = replay.ask(ROUND, 100, size)
    assert text.count(b"HTTP/1.1 200 OK\r\n") == 9 and text.count(b"HTTP/1.1 409 ") == 1, text
    early, early_touched = replay.memory()
    assert replay.ask(ROUND, 99_900, size) == text
    late, late_touched = replay.memory()
    assert replay.end() == b""
    print(f"1,000,000 requests of ten shapes: {time.monotonic() - begun:.1f} s;", end=" ")
    print(f"{early} kB of data after 1,000 ({early_touched} touched) and {late} kB at the end ({late_touched} touched)", flush=True)
    assert late <= early, "the memory grew"


def a_hundred_thousand_puts(program: str) -> None:
    puts = [put_file(FIRST, n) for n in range(1, 100_001)]
    texts = [b'{"front":%d,"state":"applied"}' % n for n in range(1, 100_001)]
    head = b"HTTP/1.1 201 Created\r\nContent-Type: application/json\r\nContent-Length: %d\r\n\r\n%s"
    wanted = b"".join(head % (len(it), it) for it in texts)
    replay = Replay(program)
    begun = time.monotonic()
    assert replay.ask(b"".join(puts), 1, len(wanted)) == wanted, "another answer"
    passed = time.monotonic() - begun
    _, touched = replay.memory()
    assert replay.end() == b""
    kept = 100_000 * len(FIRST) // 1000
    print(f"100,000 puts of {len(FIRST)} bytes: {passed:.1f} s, {touched} kB touched; the book keeps {kept} kB of bodies")


def main() -> None:
    options = common.parser(__doc__).parse_args()
    a_million_requests(options.program)
    a_hundred_thousand_puts(options.program)


if __name__ == "__main__":
    main()
