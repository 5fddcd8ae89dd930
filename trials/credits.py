"""What orders would credit over a database that requests leave."""
import json
import pathlib

from bodies import SENDER, get, order_body, plays_of, put_file, put_pool, put_return, works_file
from served import OFFICE, Ended, office_of
from leaving import CLOSED_AT_A_CUT, IN_EVERY_TABLE, change, left_by
from program import run, served_one, told, trial

# An order, and the rows that answer it, or why there are none.
Line = tuple[str, list[str] | str]
COLUMNS = b"order,isrc,points,units,remainder,sender,work,revision,account,weight,part\n"
WORDS = ["credit", "--db", "office.db", *OFFICE]

# Lines over a database with one work, its revision, and returns RADIO1/1 of 10 plays of 200 seconds and RADIO1/2 of 7 of 70: what each is
# answered, on standard output or on standard error.
LINES: list[Line] = [
    # An order whose return a pool has paid.
    (
        '{"amount":1001,"cut":[["S",1]],"returns":[["RADIO1",1]]}',
        ["2000,1001,0,S,W1,0,I00000000199,5000,501", "2000,1001,0,S,W1,0,I00000000295,5000,500", "2000,1001,0,S,W1,0,UNCLAIMED,0,0"],
    ),
    # The revision, and the other right.
    (
        '{"amount":7,"cut":[["S",2]],"returns":[["RADIO1",1]]}',
        ["2000,7,0,S,W1,1,I00000000199,0,0", "2000,7,0,S,W1,1,I00000000295,10000,7", "2000,7,0,S,W1,1,UNCLAIMED,0,0"],
    ),
    (
        '{"amount":7,"kind":"MR","cut":[["S",1]],"returns":[["RADIO1",1]]}',
        ["2000,7,0,S,W1,0,I00000000199,10000,7", "2000,7,0,S,W1,0,I00000000295,0,0", "2000,7,0,S,W1,0,UNCLAIMED,0,0"],
    ),
    # Both returns; nobody's recording; recordings that are wanted, or are not.
    ('{"amount":3,"cut":[],"returns":[["RADIO1",1],["RADIO1",2]]}', ["2490,3,0,,,,UNCLAIMED,,3"]),
    ('{"amount":3,"cut":[],"isrcs":["at-abc-26-00001"],"returns":[["RADIO1",1]]}', ["2000,3,0,,,,UNCLAIMED,,3"]),
    ('{"amount":3,"cut":[],"isrcs":["GBXYZ2600002"],"returns":[["RADIO1",1]]}', []),
    ('{"amount":3,"cut":[],"isrcs":[],"returns":[]}', []),
    # Lines that are refused.
    ('{"amount":1,"cut":[["S",4]],"returns":[]}', "cut S front 26-0001"),
    ('{"amount":1,"cut":[["PB000000034",1]],"returns":[]}', "cut PB000000034 front 0"),
    ('{"amount":1,"cut":[["S",1]],"returns":[["RADIO1",1],["RADIO1",3]]}', "no return RADIO1 3"),
    ('{"amount":1,"cut":[],"returns":[["RADIO1",1],["RADIO1",1]]}', "fault 4"),
    ('{"amount":1000000000001,"cut":[],"returns":[]}', "fault 2"),
    ('{"amount":1,"cut":[],"returns":[],"isrcs":["X"]}', "fault 1"),
    ('{"amount":1,"cut":[],"returns":[],"isrc":[]}', "fault 1"),
    ("", "fault 1"),
    # A file of a year stands in the line, and the last line has no end.
    ('{"amount":0,"cut":[["S","26-0001"]],"returns":[]}', ["-,0,0,0,,,,UNCLAIMED,,0"]),
]


def listed(lines: list[Line]) -> tuple[bytes, bytes]:
    """What is written on standard output and on standard error of lines like those."""
    out, err = COLUMNS, b""
    for number, (_, answer) in enumerate(lines, 1):
        rows = answer if isinstance(answer, list) else []
        wanted = [f"{number},{row}\n" if row.startswith("-") else f"{number},ATABC2600001,{row}\n" for row in rows]
        out += "".join(wanted).replace(",S,", f",{SENDER},").encode()
        err += b"" if answer is rows else f"society: order {number}: {answer}\n".replace("cut S", f"cut {SENDER}").encode()
    return out, err


def asked(lines: list[Line]) -> bytes:
    return "\n".join(text for text, _ in lines).replace('"S"', f'"{SENDER}"').encode()


@trial
def orders_are_answered_line_by_line(program: pathlib.Path, folder: pathlib.Path) -> None:
    left = left_by(program, folder, "office.db", IN_EVERY_TABLE)
    held = left.read_bytes()
    out, err = listed(LINES)
    told("all lines", run(program, folder, WORDS, asked(LINES)), Ended(out, err, 1))
    right = [it for it in LINES if isinstance(it[1], list)]
    told("lines that are right", run(program, folder, WORDS, asked(right)), Ended(listed(right)[0], b"", 0))
    told("no line", run(program, folder, WORDS, b""), Ended(COLUMNS, b"", 0))
    told("its bytes then", left.read_bytes() == held, True)


@trial
def an_order_credits_what_its_pool_does(program: pathlib.Path, folder: pathlib.Path) -> None:
    order = order_body(999_999_999_983, [[SENDER, 1]], [["RADIO1", 1]])
    filled = (
        put_file(works_file(0, 50))
        + put_return(plays_of(1, [k % 60 for k in range(90)]))
        + put_pool(7, *(json.loads(order)[key] for key in ("amount", "cut", "returns")))
    )
    table = run(program, folder, ["replay", *OFFICE], filled + get("/v1/pools/7")).out.partition(b"isrc,account,units\n")[2]
    left_by(program, folder, "office.db", filled)
    done = run(program, folder, WORDS, order)
    rows = [line.split(b",") for line in done.out.splitlines()[1:]]
    told("the table of the pool", b"".join(b"%s,%s,%s\n" % (it[1], it[8], it[10]) for it in rows), table)
    told("its rows", len(rows) > 100, True)


@trial
def nothing_is_told_of_what_is_no_office(program: pathlib.Path, folder: pathlib.Path) -> None:
    line = asked(LINES[:1])
    for words, wanted in [(WORDS, "empty"), (["credit", "--db", ".", *OFFICE], "store")]:
        told(wanted, run(program, folder, words, line), Ended(b"", f"society: database {wanted}\n".encode(), 1))
    left = left_by(program, folder, "office.db", CLOSED_AT_A_CUT)
    told(
        "another office", run(program, folder, [*WORDS[:3], *office_of(901)], line), Ended(b"", b"society: database of another office\n", 1)
    )
    told("nowhere to write", run(program, folder, WORDS, line, stdout=open("/dev/full", "wb")).status, 1)
    change(left, "UPDATE balances SET units = units + 1")
    told("damaged", run(program, folder, WORDS, line), Ended(b"", b"society: database damaged\n", 1))
    told("served", served_one(program, folder, left.name, True, 900).err, b"society: database damaged\n")
