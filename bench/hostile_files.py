"""Cases of hostile_bodies.py: files of works, and pools over them."""
import chosen
from bodies import FIRST, MAX_BODY, put_pool, works_file
from hostile_cases import POOL, QUESTIONS, case, put, put_return
from lines import (
    HDR,
    ROOM,
    W1,
    filled,
    isrc,
    name,
    one_group,
    one_work,
    parties_and_recordings,
    pwr,
    rec,
    record,
    returns_of,
    row,
    spu,
    work,
)


# Lines and groups.
@case
def lines_of_one_byte() -> bytes:
    return put(filled(FIRST, lambda k: b" \n")[0]) + QUESTIONS


@case
def lines_of_no_byte() -> bytes:
    return put(filled(FIRST, lambda k: b"\n")[0]) + QUESTIONS


@case
def short_lines_of_an_unread_group() -> bytes:
    def body(lines: bytes, count: int) -> bytes:
        head = HDR + b"GRHAGR0000102.200000000000\n"
        return head + lines + b"GRT00001%08d%08d\n" % (count, count + 2) + b"TRL00001%08d%08d\n" % (count, count + 4)

    lines, count = filled(b"", lambda k: b"AGR\n", b"", MAX_BODY - len(body(b"", 0)))
    return put(body(lines, count)) + QUESTIONS


@case
def all_groups_empty() -> bytes:
    def group(k: int) -> bytes:
        return b"GRHNWR%05d02.200000000000\nGRT%05d0000000000000002\n" % (k + 1, k + 1)

    groups, count = filled(b"", group, b"", MAX_BODY - len(HDR) - 25)
    return put(HDR + groups + b"TRL%05d00000000%08d\n" % (count, 2 * count + 2)) + QUESTIONS


@case
def all_groups_of_one_work() -> bytes:
    def group(k: int) -> bytes:
        head = b"GRHNWR%05d02.200000000000\n" % (k + 1)
        return head + work(0, b"W%d" % (k + 1)) + b"GRT%05d0000000100000003\n" % (k + 1)

    groups, count = filled(b"", group, b"", MAX_BODY - len(HDR) - 25)
    return put(HDR + groups + b"TRL%05d%08d%08d\n" % (count, count, 3 * count + 2)) + QUESTIONS


@case
def no_line_end() -> bytes:
    return put(HDR[:-2] + b" " * (MAX_BODY - len(HDR) + 2))


@case
def lines_of_2000_bytes() -> bytes:
    return put(one_work(lambda k: record(b"ALT", 0, k + 1, b" " * 1_981) + b"\n")) + QUESTIONS


# Works and their parties.
@case
def works_alone() -> bytes:
    lines, count = filled(b"", lambda k: work(k, b"W%d" % (k + 1)), b"", ROOM)
    return put(one_group(lines, count)) + QUESTIONS


@case
def works_without_title() -> bytes:
    lines, count = filled(b"", lambda k: record(b"NWR", k, 0) + b"\n", b"", ROOM)
    return put(one_group(lines, count)) + QUESTIONS


@case
def one_work_revised() -> bytes:
    lines, count = filled(b"", lambda k: work(k, b"W1", b"REV"), b"", ROOM)
    return put(one_group(W1, 1), 1) + put(one_group(lines, count, b"REV"), 2) + QUESTIONS.replace(b"s/1", b"s/2")


@case
def publishers_all_different() -> bytes:
    return put(one_work(lambda k: spu(k + 1, name(k)))) + QUESTIONS


@case
def publishers_all_the_same() -> bytes:
    return put(one_work(lambda k: spu(k + 1, b"P"))) + QUESTIONS


@case
def publishers_of_blank_number() -> bytes:
    return put(one_work(lambda k: record(b"SPU", 0, k + 1) + b"\n")) + QUESTIONS


@case
def publishers_with_a_row_each() -> bytes:
    def line(k: int) -> bytes:
        return spu(k + 1, name(k // 2)) if k % 2 == 0 else row(b"SPT", k + 1, name(k // 2))

    return put(one_work(line)) + QUESTIONS


@case
def rows_that_name_the_first() -> bytes:
    def line(k: int) -> bytes:
        return spu(k + 1, name(k)) if k < 17_000 else row(b"SPT", k + 1, name(0))

    return put(one_work(line)) + QUESTIONS


@case
def rows_that_name_the_last() -> bytes:
    def line(k: int) -> bytes:
        return spu(k + 1, name(k)) if k < 17_000 else row(b"SPT", k + 1, name(16_999))

    return put(one_work(line)) + QUESTIONS


@case
def writers_for_the_last_publisher() -> bytes:
    def line(k: int) -> bytes:
        return spu(k + 1, name(k)) if k < 16_000 else pwr(k + 1, name(15_999))

    return put(one_work(line)) + QUESTIONS


@case
def recordings_of_one_work() -> bytes:
    return put(one_work(lambda k: rec(k + 1, isrc(k)))) + QUESTIONS


# Pools.
CUT = [["PB000000012", 1]]


@case
def pool_of_ten_thousand_recordings() -> bytes:
    return put_return(returns_of(10_000)) + put_pool(1, 10**12, [], [["RADIO1", 1]]) + POOL


@case
def pool_over_many_works() -> bytes:
    lines, count = filled(b"", lambda k: work(k, b"W%d" % k) + rec(1, isrc(k), k), b"", ROOM)
    return put(one_group(lines, count)) + put_return(returns_of(count)) + put_pool(1, 10**12, CUT, [["RADIO1", 1]]) + POOL


@case
def recordings_beside_parties_unplayed() -> bytes:
    body = parties_and_recordings(2_000, 16_000)
    return put(body) + put_return(returns_of(0)) + put_pool(1, 10**12, CUT, [["RADIO1", 1]]) + POOL


@case
def recordings_beside_parties_one_played() -> bytes:
    body = parties_and_recordings(2_000, 16_000)
    return put(body) + put_return(returns_of(1)) + put_pool(1, 10**12, CUT, [["RADIO1", 1]]) + POOL


@case
def recordings_beside_parties_all_played() -> bytes:
    body = parties_and_recordings(200, 31_000)
    return put(body) + put_return(returns_of(200)) + put_pool(1, 10**12, CUT, [["RADIO1", 1]]) + POOL


@case
def pool_names_a_thousand_returns() -> bytes:
    puts = b"".join(put_return(returns_of(1), k + 1) for k in range(1_000))
    return puts + put_pool(1, 10**12, [], [["RADIO1", k + 1] for k in range(1_000)]) + POOL


def works_of(numbers: list[bytes]) -> bytes:
    """Files of clean works with these numbers."""
    parts = [numbers[first : first + 1_000] for first in range(0, len(numbers), 1_000)]
    return b"".join(put(works_file(1, len(part), number=lambda k: part[k - 1]), place) for place, part in enumerate(parts, 1))


@case
def work_numbers_chosen_against_a_hash() -> bytes:
    return works_of(chosen.numbers(130_000, 14))


@case
def as_many_other_work_numbers() -> bytes:
    return works_of([b"W%011d" % (it * 8_191) for it in range(1, 130_001)])
