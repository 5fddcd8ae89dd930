"""An office in a file: where there is none, where it is opened again, and where it is audited."""
import os
import pathlib
import socket
import stat

from bodies import FIRST, SENDER, get, put_file
from served import Ended, serve_words
from program import ANOTHER_OFFICE, DAY, DAY_ANSWERS, EMPTY_DATABASE, ROW_NAMES, ROWS, SERVED_ONE, Server
from program import answer, answered, applied, audited, held_by, run, run_row, served_one, told, trial

WANTS_A_FILE = [
    "serve|--existing|--db|office.db|--port|1|--connections|1|--society|900|--territory|40|--name|X",
    "audit|--db|office.db|--society|900|--territory|40|--name|X",
]


@trial
def a_file_that_is_not_there(program: pathlib.Path, folder: pathlib.Path) -> None:
    for row in WANTS_A_FILE:
        told(row, run_row(program, folder, row), EMPTY_DATABASE)
        told(row, held_by(folder), {})


@trial
def a_file_that_is_empty(program: pathlib.Path, folder: pathlib.Path) -> None:
    (folder / "office.db").write_bytes(b"")
    for row in WANTS_A_FILE:
        told(row, run_row(program, folder, row), EMPTY_DATABASE)
        told(row, held_by(folder), {"office.db": b""})


@trial
def a_path_that_cannot_be_looked_at(program: pathlib.Path, folder: pathlib.Path) -> None:
    """It is not told as one where nothing is."""
    (folder / "office.db").write_bytes(b"")
    for row in WANTS_A_FILE:
        told(row, run_row(program, folder, row.replace("office.db", "office.db/office.db")), Ended(b"", b"society: database store\n", 1))


@trial
def what_is_no_file(program: pathlib.Path, folder: pathlib.Path) -> None:
    """A device, a fifo and a folder are refused, whether an office has to be there or not, and left as they are."""
    os.mkfifo(folder / "fifo")
    (folder / "folder").mkdir()
    refused = Ended(b"", b"society: database store\n", 1)
    for path in ("/dev/null", "fifo", "folder"):
        for row in (*WANTS_A_FILE, WANTS_A_FILE[0].replace("--existing|", "")):
            told((path, row), run_row(program, folder, row.replace("office.db", path)), refused)
    told("what is there", sorted(it.name for it in folder.iterdir()), ["fifo", "folder"])


@trial
def a_log_without_its_file(program: pathlib.Path, folder: pathlib.Path) -> None:
    """A log with pages is what is left of an office: it is told as damage beside no file, and beside one of no byte, and stays."""
    answered(program, folder, "office.db", put_file(FIRST, 1))
    log = (folder / "office.db-wal").read_bytes()
    for row, empty in (("no file", None), ("a file of no byte", b"")):
        (folder / "office.db").unlink()
        if empty is not None:
            (folder / "office.db").write_bytes(empty)
        for words in (*WANTS_A_FILE, WANTS_A_FILE[0].replace("--existing|", "")):
            told((row, words), run_row(program, folder, words), Ended(b"", b"society: database damaged\n", 1))
        told((row, "its log"), (folder / "office.db-wal").read_bytes() == log, True)
        (folder / "office.db").touch()


@trial
def who_may_read_a_new_file(program: pathlib.Path, folder: pathlib.Path) -> None:
    """Its owner alone, and its log too, under whatever mask; one that others may write is told of, and served."""
    for mask in (0o000, 0o022, 0o077):
        path = folder / f"{mask:o}.db"
        with Server(program, folder, path.name, preexec_fn=lambda: os.umask(mask)) as server:
            told("served", server.sent(put_file(FIRST, 1)), applied(1))
            modes = [stat.S_IMODE(it.stat().st_mode) for it in (path, path.with_name(path.name + "-wal"))]
            told((f"{mask:o}", "modes"), modes, [0o600, 0o600])
            told((f"{mask:o}", "its end"), server.ended().err, b"")
    path.chmod(0o620)
    with Server(program, folder, path.name, existing=True) as server:
        told("served", server.sent(put_file(FIRST, 1)), answer(b"200 OK", b'{"front":1,"state":"applied"}'))
        told("told of", server.ended().err, b"society: others may write 77.db\n")
    told("its mode stays", stat.S_IMODE(path.stat().st_mode), 0o620)


@trial
def a_file_that_has_all_in_its_log(program: pathlib.Path, folder: pathlib.Path) -> None:
    """An office that was killed before its first copy has its book in the log: with it the file is an office's, and without it empty."""
    came = answered(program, folder, "office.db", put_file(FIRST, 1))
    # (the file itself has its first page alone, and no table)
    told("what came", (came, (folder / "office.db").stat().st_size), (applied(1), 4_096))
    told("with its log", audited(program, folder / "office.db"), Ended(b"sound\n", b"", 0))
    asked = get(f"/v1/senders/{SENDER}")
    told("begun again", answered(program, folder, "office.db", asked), answer(b"200 OK", b'{"front":1,"held":[]}'))
    (folder / "office.db-wal").unlink()
    told("without it", audited(program, folder / "office.db"), EMPTY_DATABASE)


@trial
def a_port_that_is_taken(program: pathlib.Path, folder: pathlib.Path) -> None:
    with socket.create_server(("127.0.0.1", 0)) as taken:
        port = str(taken.getsockname()[1])
        words = serve_words("F", int(port))
        told("a port that is taken", run(program, folder, words), Ended(b"", f"society: cannot listen at port {port}\n".encode(), 1))


# The day's requests up to its returns, and those after.
DAY_CUT = DAY.index(b"PUT /v1/returns/RADIO1/1 ")


@trial
def a_day_over_a_file(program: pathlib.Path, folder: pathlib.Path) -> None:
    """All answers are those of one run in memory, though the program is killed between."""
    out = answered(program, folder, "day.db", DAY[:DAY_CUT]) + answered(program, folder, "day.db", DAY[DAY_CUT:])
    told("the day's answers", out, DAY_ANSWERS)


# A path, whether an office has to be there, a society, and what is written where one peer comes without a request.
SERVED = [
    ("served.db", True, 900, EMPTY_DATABASE),
    ("served.db", False, 900, SERVED_ONE),
    ("served.db", False, 901, ANOTHER_OFFICE),
    ("served.db", False, 900, SERVED_ONE),
    ("served.db", True, 900, SERVED_ONE),
    (":memory:", False, 900, Ended(b"", b"society: database store\n", 1)),
]


@trial
def connections_over_a_file(program: pathlib.Path, folder: pathlib.Path) -> None:
    for path, existing, society, wanted in SERVED:
        told((path, existing, society), served_one(program, folder, path, existing, society), wanted)


@trial
def a_file_that_is_audited(program: pathlib.Path, folder: pathlib.Path) -> None:
    """A file that is audited keeps its bytes, and its log too."""
    told("the day's answers", answered(program, folder, "audited.db", DAY), DAY_ANSWERS)
    held = held_by(folder)
    told("its files", sorted(held), ["audited.db", "audited.db-wal"])
    for society, wanted in ((900, Ended(b"sound\n", b"", 0)), (901, ANOTHER_OFFICE)):
        told(society, audited(program, folder / "audited.db", society), wanted)
        told("what its files hold", held_by(folder) == held, True)


@trial
def the_file_alone_is_the_book(program: pathlib.Path, folder: pathlib.Path) -> None:
    """After a normal end the database file alone is the book: it opens without its log, with what had come before."""
    out = answered(program, folder, "alone.db", DAY[:DAY_CUT])
    told("a normal end", served_one(program, folder, "alone.db", True, 900), SERVED_ONE)
    (folder / "alone.db-wal").unlink(missing_ok=True)
    told("the day's answers", out + answered(program, folder, "alone.db", DAY[DAY_CUT:]), DAY_ANSWERS)


# The streams of whole requests among the rows over bytes.
OVER_A_FILE = ("a_day", "arrivals/", "long_days/", "pools/", "rows_of_kinds/", "rows_of_years/", "years/")


@trial
def rows_over_a_file(program: pathlib.Path, folder: pathlib.Path) -> None:
    """Over a file a stream is answered as it is over tables in memory."""
    for number, row in enumerate(it for it in ROW_NAMES if it.startswith(OVER_A_FILE)):
        with Server(program, folder, f"{number}.db") as server:
            told(row, server.sent((ROWS / f"{row}.http").read_bytes()), (ROWS / f"{row}.answers").read_bytes())
            told(row, server.ended().status, 0)
