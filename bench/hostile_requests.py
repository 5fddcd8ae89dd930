"""Cases of hostile_bodies.py: returns, files by year and ends of segments, orders, and heads."""
from bodies import CSV_HEADER, MAX_BODY, NO_WORKS, get, put_pool, request
from hostile_cases import POOL, SENDER, case, put_return
from lines import name


# Returns.
@case
def one_quoted_field() -> bytes:
    return put_return(b'"' + b"x" * (MAX_BODY - 2) + b'"')


@case
def one_open_quote() -> bytes:
    return put_return(CSV_HEADER + b'"' + b"\n" * (MAX_BODY - len(CSV_HEADER) - 1))


@case
def one_field_of_quotes() -> bytes:
    return put_return(CSV_HEADER + b'"' + b'""' * ((MAX_BODY - len(CSV_HEADER) - 2) // 2) + b'"')


@case
def one_row_of_empty_fields() -> bytes:
    return put_return(CSV_HEADER + b"," * (MAX_BODY - len(CSV_HEADER)))


@case
def line_ends_alone() -> bytes:
    return put_return(b"\n" * MAX_BODY)


@case
def line_ends_after_the_header() -> bytes:
    return put_return(CSV_HEADER + b"\r\n" * ((MAX_BODY - len(CSV_HEADER)) // 2)) + put_pool(1, 5, [], [["RADIO1", 1]]) + POOL


@case
def quoted_fields_of_ten_thousand_rows() -> bytes:
    line = b'"ATABC2600001","1","1"'
    body = CSV_HEADER + (line + b"\n" * 80) * 10_000
    return put_return(body[:MAX_BODY]) + put_pool(1, 5, [], [["RADIO1", 1]]) + POOL


# Files by year and ends of segments.
def put_year(year: int, number: int) -> bytes:
    return request("PUT", f"{SENDER}/files/CW{year:02}{number:04}EXA_900.V22", NO_WORKS)


def state_end(segment: str, last: int, following: int) -> bytes:
    return request("PUT", f"{SENDER}/segments/{segment}", b'{"last":%d,"next":%d}' % (last, following))


@case
def one_statement_lets_a_hundred_years_go() -> bytes:
    files = b"".join(put_year(year, number) for year in range(100) for number in range(1, 41))
    ends = b"".join(state_end(f"{year:02}", 40, year + 1) for year in range(99))
    return files + ends + state_end("plain", 0, 0) + get(SENDER)


@case
def every_second_year_is_skipped() -> bytes:
    files = b"".join(put_year(year, number) for year in range(100) for number in range(1, 11))
    ends = b"".join(state_end(f"{year:02}", 10, year + 2) for year in range(0, 98, 2))
    return files + ends + state_end("plain", 0, 0) + get(SENDER) * 1_000


@case
def statements_again_and_again() -> bytes:
    one = state_end("plain", 1, 26)
    return one * (MAX_BODY // len(one))


# Orders.
def pool_of(body: bytes) -> bytes:
    assert len(body) <= MAX_BODY
    return request("PUT", "/v1/pools/1", body)


@case
def nested_as_deep_as_is_read() -> bytes:
    deep = b"[" * 120 + b"]" * 120
    return pool_of(b"[" + b",".join([deep] * ((MAX_BODY - 2) // 241)) + b"]")


@case
def nested_without_end() -> bytes:
    return pool_of(b"[" * MAX_BODY)


@case
def many_empty_arrays() -> bytes:
    return pool_of(b'{"amount":1,"returns":[],"cut":[' + b",".join([b"[]"] * 349_500) + b"]}")


@case
def many_small_arrays() -> bytes:
    pairs = b",".join([b'["PB000000012",1]'] * 58_000)
    return pool_of(b'{"amount":1,"returns":[],"cut":[' + pairs + b"]}")


@case
def many_returns_out_of_range() -> bytes:
    pairs = b",".join([b'["A",0]'] * 131_000)
    return pool_of(b'{"amount":1,"cut":[],"returns":[' + pairs + b"]}")


@case
def many_different_keys() -> bytes:
    return pool_of(b"{" + b",".join(b'"%s":0' % name(k) for k in range(110_000)) + b"}")


@case
def one_key_again_and_again() -> bytes:
    return pool_of(b"{" + b",".join([b'"amount":1'] * 95_000) + b"}")


@case
def one_long_text() -> bytes:
    return pool_of(b'"' + b"\\u0041" * 174_000 + b'"')


@case
def one_long_number() -> bytes:
    return pool_of(b'{"amount":' + b"9" * (MAX_BODY - 40) + b',"cut":[],"returns":[]}')


@case
def one_long_fraction() -> bytes:
    return pool_of(b'{"amount":0.' + b"9" * (MAX_BODY - 50) + b'e-99,"cut":[],"returns":[]}')


@case
def many_hard_numbers() -> bytes:
    return pool_of(b"[" + b",".join([b"2.2250738585072011e-308"] * 43_000) + b"]")


@case
def orders_of_the_most_names() -> bytes:
    one = put_pool(1, 1, [["PB%09d" % k, 1] for k in range(200)], [["R", k + 1] for k in range(1_000)])
    return one * (MAX_BODY // len(one))


# Heads.
def escaped(count: int) -> str:
    return "%41" * count


def heads(text: str) -> bytes:
    assert len(text) <= 8_192, len(text)
    return text.encode() * (MAX_BODY // len(text))


@case
def escapes_in_every_parameter() -> bytes:
    paths = [
        f"/v1/senders/{escaped(2_700)}",
        f"/v1/senders/{escaped(1_350)}/works/{escaped(1_350)}",
        f"/v1/senders/{escaped(1_350)}/acks/{escaped(1_350)}",
        f"/v1/senders/{escaped(1_350)}/verdicts/{escaped(1_350)}",
        f"/v1/pools/{escaped(2_700)}",
        f"/v1/accounts/{escaped(2_700)}",
    ]
    text = get(*paths) + request("PUT", f"/v1/senders/{escaped(1_350)}/transmissions/{escaped(1_350)}")
    text += request("PUT", f"/v1/returns/{escaped(1_350)}/{escaped(1_350)}")
    text += request("PUT", f"/v1/senders/{escaped(1_350)}/files/{escaped(1_350)}") + request(
        "PUT", f"/v1/senders/{escaped(1_350)}/segments/{escaped(1_350)}"
    )
    return text * (MAX_BODY // len(text))


@case
def paths_of_many_slashes() -> bytes:
    return heads("GET " + "/" * 8_100 + " HTTP/1.1\r\n\r\n")


@case
def heads_of_64_fields() -> bytes:
    return heads("GET / HTTP/1.1\r\n" + "A:\r\n" * 64 + "\r\n")


@case
def heads_of_one_long_field() -> bytes:
    return heads("GET / HTTP/1.1\r\nA: " + "x" * 8_100 + "\r\n\r\n")


@case
def least_heads() -> bytes:
    return heads("GET / HTTP/1.1\n\n")


@case
def line_ends_before_heads() -> bytes:
    return heads("\r\n" * 4_000 + "GET / HTTP/1.1\r\n\r\n")
