"""Files that are checked before they are sent, and what became of those that were: our own reading beside the program."""

import collections
import json
import os
import pathlib
import random
import subprocess
import sys

import cwr
import mutants
import pytest
import quarter
import reckoning
from command import Word, run
from conftest import ROOT, made
from cwr import file
from office_value import File, Office, Step
from society_office.book.copy import open_copy
from society_office.checks import checking
from society_office.checks.cwr_faults import checked
from society_office.checks.why import story
from society_office.formats.plays import points
from society_office.offices.program import ReplayOffice
from society_office.works.records import transactions

FIRST = (ROOT / "examples/first.cwr").read_bytes()
SENDER = "PB000000012"
WORDS = ["--society", "900", "--territory", "40", "--name", "EXAMPLE SOCIETY"]
# Fields that are written over: line, position from 1, what is put there.
CHANGES = [
    (1, 1, "HDX"),
    (1, 65, "20260230"),
    (1, 73, "246060"),
    (1, 79, "00000101"),
    (2, 1, "XXX"),
    (2, 4, "NW_"),
    (2, 4, "REV"),
    (2, 4, "AGR"),
    (2, 7, "00002"),
    (3, 1, "REV"),
    (3, 4, "00000001"),
    (3, 12, "0000000A"),
    (3, 20, " " * 60),
    (3, 82, " " * 14),
    (3, 82, "W\x01"),
    (3, 96, "T0345246802"),
    (3, 96, "T034524680"),
    (3, 96, "T0000000010"),
    (3, 96, "T000000001X"),
    (3, 96, "           "),
    (4, 1, "GRH"),
    (4, 1, "S_U"),
    (4, 22, "P2"),
    (4, 88, "0000000019A"),
    (4, 88, "           "),
    (4, 116, "10001"),
    (4, 116, "0500 "),
    (4, 124, "10006"),
    (4, 132, "10000"),
    (5, 12, "00000003"),
    (5, 20, "P2"),
    (5, 35, "05007"),
    (5, 35, "05006"),
    (5, 35, "10001"),
    (5, 40, "1000X"),
    (5, 50, "X"),
    (5, 51, "0040"),
    (5, 51, "  40"),
    (5, 51, "9999"),
    (6, 20, "\x7f"),
    (6, 116, "12X        "),
    (6, 116, "199        "),
    (6, 130, "05006"),
    (6, 130, "05007"),
    (7, 29, "05007"),
    (7, 44, "E"),
    (7, 20, "A2"),
    (8, 20, "P9"),
    (8, 20, "   "),
    (8, 102, "\x01"),
    (9, 250, "A1ABC2600001"),
    (9, 250, "atabc2600001"),
    (9, 250, " " * 12),
    (9, 1, "HDR"),
    (9, 1, "TRL"),
    (10, 4, "00002"),
    (10, 9, "00000002"),
    (10, 17, "00000008"),
    (10, 1, "XYZ"),
    (11, 4, "00002"),
    (11, 9, "00000002"),
    (11, 17, "0000001X"),
    (11, 1, "TRX"),
]
ROWS = [
    "isrc,plays,seconds",
    "ISRC,plays,seconds",
    "isrc;plays;seconds",
    "",
    "\n\nisrc,plays,seconds\nATABC2600001,1,1\n",
    "\r\n\ufeffisrc,plays,seconds\n",
    f"isrc,plays,seconds\nATABC2600001,\"1,1\n{'ATABC2600001,1,1' * 12_000}",
    "isrc,plays,seconds\n",
    "\ufeffisrc,plays,seconds\r\nATABC2600001,1,1\r\n\r\n",
    *(
        f"isrc,plays,seconds\n{row}\n"
        for row in (
            "ATABC2600001,1,1",
            "ATABC2600001,0,1",
            "ATABC2600001,1000000,10000",
            "ATABC2600001,1000001,1",
            "ATABC2600001,00000001,1",
            "ATABC2600001,1,10001",
            "AT,1,1",
            "at-abc-26-00001,1,1",
            "AT-ABC2600001,1,1",
            "ATABC2600001,1,3:00",
            "ATABC2600001,1,180.5",
            ",,",
            "ATABC2600001,1",
            "ATABC2600001,1,1,",
            '"ATABC2600001","1","1"',
            "ATABC2600001,1.5,1",
            "ATABC2600001, 1,1",
            "ATABC2600001,1E+05,1",
            "AT ABC 26 00001,1,1",
            'ATABC2600001,"1,000",1',
            "ATABC2600001,1,1\n\nATABC2600002,0,0",
        )
    ),
]


def changed(line: int, position: int, value: str) -> bytes:
    lines = FIRST.split(b"\r\n")
    raw = value.encode("latin-1")
    lines[line - 1] = lines[line - 1][: position - 1].ljust(position - 1) + raw + lines[line - 1][position - 1 + len(raw) :]
    return b"\r\n".join(lines)


def bodies() -> list[bytes]:
    lines = FIRST.split(b"\r\n")
    others = [
        b"",
        b"\r\n",
        FIRST[:-4],
        FIRST[:40],
        FIRST.replace(b"\r\n", b"\n")[:-1],
        FIRST + b"  \r\n",
        FIRST + b"X\r\n",
        FIRST.replace(b"\r\n", b""),
        b"X" + FIRST.replace(b"\r\n", b""),
        b"X" * 2_001 + FIRST,
    ]
    others += [b"\r\n".join(lines[:k] + lines[k + 1 :]) for k in range(1, 11)]
    others += [b"\r\n".join(lines[:k] + [lines[k]] + lines[k:]) for k in range(11)]
    others += [FIRST.replace(b"FIRST SONG", "FÜRST SONG".encode()), FIRST.replace(b"FIRST SONG", b"F" * 2_001)]
    return [changed(*it) for it in CHANGES] + others


def tried(office: ReplayOffice, body: bytes, number: int) -> checking.Sent:
    """A file that was tried under a number, and read by ourselves."""
    file = checking.Sent(f"{number}.cwr", body, number, "", f"transmissions/{number}")
    file.own = checked(body, SENDER, 40)
    checking.take_answer(file, office.ask("PUT", f"/v1/senders/{SENDER}/{file.path}", body))
    if file.state == "applied":
        checking.ask_verdicts(office, SENDER, file)
    return file


def test_our_own_reading_is_the_programs(program: str) -> None:
    office = ReplayOffice(program, WORDS)
    number = 0
    for body in bodies():
        # A work number of its own for each file, so that no work is registered before.
        file = tried(office, body.replace(b"W1      ", b"W%-7d" % number, 1), number + 1)
        number += file.state == "applied"
        assert not file.differs, (body, file)
    for row, text in enumerate(ROWS):
        played = checking.Sent("it.csv", text.encode())
        checking.check_return(office, "/v1/returns/RADIO1", row + 1, played)
        assert not played.differs, (body, played)
    office.close()


@pytest.mark.parametrize("seed", range(12))
def test_our_own_reading_of_random_changes_is_the_programs(seed: int, program: str) -> None:
    rng, office, number = random.Random(seed), ReplayOffice(program, WORDS), 0
    sources = [FIRST] + [cwr.file(SENDER, "ALPHA", it.works) for it in quarter.OFFICE.files if it.sender != quarter.BETA]
    states = collections.Counter[str]()
    for _ in range(100):
        body = mutants.file(rng, rng.choice(sources))
        file = tried(office, body, number + 1)
        number += file.state == "applied"
        states[file.state] += 1
        assert not file.differs, (body, file.differs)
        # What is registered is what was read: the verdict of a work without a fault hangs on its number alone.
        assert [it.work for it in transactions(body)] == [it.number for it in file.own.works] if file.state == "applied" else True
    stored, listed = collections.Counter[str](), list[int]()
    for row in range(100):
        played = checking.Sent("it.csv", mutants.a_return(rng))
        checking.check_return(office, "/v1/returns/RADIO1", row + 1, played)
        states[played.state] += 1
        assert not played.differs, (played.body, played.differs)
        if played.state == "stored":
            stored.update(points(played.body))
            listed.append(row + 1)
    assert min(states["applied"], states["refused"], states["stored"]) > 15, states
    # The program counts the points of what it took as we do: over no file a pool goes to nobody, recording by recording.
    order = json.dumps({"amount": 10**12, "cut": [], "returns": [["RADIO1", it] for it in listed]}).encode()
    assert office.ask("PUT", "/v1/pools/1", order).status == 201
    isrcs = sorted(stored)
    parts = reckoning.split(10**12, [stored[it] for it in isrcs])
    lines = office.ask("GET", "/v1/pools/1").body.decode().splitlines()[1:]
    assert lines == [f"{isrc},UNCLAIMED,{units}" for isrc, units in zip(isrcs, parts)]
    office.close()


def test_every_fault_of_a_work_is_told(tmp_path: pathlib.Path, program: str) -> None:
    paths = []
    for sender, number, path, works in quarter.FILES[:3]:
        paths.append(tmp_path / f"{number}.cwr")
        paths[-1].write_bytes(file(sender, quarter.NAMES[sender], works))
    said = run("check", *paths, "--program", program, status=1, out=True)
    assert "1 of 3 works accepted" in said and "(the check digit of T034524680 is 1: T0345246801)" in said
    assert "at line 6, SWR, PR ownership share 130-134: '10001'" in said
    assert "also fault 9, line 6, SWR, IPI name number 116-126: '12X'" in said and "also fault 8, line 3, NWR, MR collection" in said
    found = json.loads(run("check", *paths, "--program", program, "--json", status=1, out=True))
    assert [it["number"] for it in found[1]["faults"]] == [4, 8, 9, 3] and found[1]["faults"][2]["cure"] == "write eleven digits"


def test_names_by_year_and_ends(tmp_path: pathlib.Path, program: str) -> None:
    paths = [tmp_path / it for it in ("plain.cwr", "CW260001BE_900.V22", "CW270001BE_900.V21")]
    for path, (sender, _, _, works) in zip(paths, quarter.FILES[3:6]):
        path.write_bytes(file(sender, quarter.NAMES[sender], works))
    said = run("check", *paths, "--program", program)
    assert 'segments/plain {"last":1,"next":26}' in said and 'segments/26 {"last":1,"next":27}' in said
    assert f"27-0001 {paths[2]}: applied" in said
    assert "26-0001" in run("check", paths[1], paths[2], "--program", program, "--brief", status=1, out=True)


def test_files_by_year_that_are_given_in_another_order(tmp_path: pathlib.Path, program: str) -> None:
    names = ["plain.cwr", "CW260002BE_900.V22", "CW260001BE_900.V22", "CW270001BE_900.V21", "CW270002BE_901.V21"]
    for k, name in enumerate(names):
        (tmp_path / name).write_bytes(FIRST.replace(b"W1      ", b"W%-7d" % k))
    said = run("check", *(tmp_path / it for it in names), "--program", program, status=1, out=True)
    assert 'segments/26 {"last":2,"next":27}' in said
    assert said.count("note: the name says that it goes to society 901, which is not this one") == 1
    assert f"{tmp_path}/CW270002BE_901.V21: REFUSED" in said


def test_a_file_of_works_without_its_header(tmp_path: pathlib.Path, program: str) -> None:
    for body, said in (
        (b"", "here is nothing"),
        (b"\xef\xbb\xbf" + FIRST, "a byte order mark and 'HDRPB000000012'"),
        (FIRST.decode().encode("utf-16"), "here is UTF-16, of two bytes a letter"),
        (FIRST[3:], "here is 'PB000000012EXA'"),
        (b' {"amount":1,"cut":[],"returns":[]}', "it is JSON, so no file and no return"),
    ):
        (tmp_path / "it.cwr").write_bytes(body)
        assert said in run("check", tmp_path / "it.cwr", "--program", program, status=1)


@pytest.mark.parametrize(
    "body, said",
    [
        (FIRST.replace(b"\r\n", b""), "line 2, the end of the file (the line ends are missing, or are CR alone"),
        (FIRST.replace(b"\r\n", b"\r"), "line 2, the end of the file (the line ends are missing, or are CR alone"),
        (FIRST[:-40], "the end of the file (a file that was cut while it was sent or saved)"),
        (FIRST + b"\x1a", "line 12, ?, the line: '?' (an end mark of old programs, Ctrl-Z: take it away)"),
        (FIRST + FIRST, "line 12, HDR, the line: 'HDRPB000000012EXAMPL': after TRL"),
        (FIRST.replace(b"\r\n", b"\r\r\n"), "line 8, PWR, writer IP # 102-110: 'A1' (the line ends with CR twice)"),
    ],
)
def test_what_was_done_to_a_file_of_works(tmp_path: pathlib.Path, program: str, body: bytes, said: str) -> None:
    (tmp_path / "it.cwr").write_bytes(body)
    assert said in run("check", tmp_path / "it.cwr", "--program", program, status=1, out=True)


@pytest.mark.parametrize("size", [1_048_576, 1_048_577])
def test_a_file_that_is_too_large(tmp_path: pathlib.Path, program: str, size: int) -> None:
    rows = b"ATABC2600001,3,180\n"
    (tmp_path / "it.csv").write_bytes((b"isrc,plays,seconds\n" + rows * 60_000)[:size])
    said = run("check", tmp_path / "it.csv", "--program", program, status=1, out=True)
    refused = "REFUSED, 413: 1,048,577 bytes, of which line 55,189 passes 1,048,576; spread it over more numbers"
    assert (refused in said) == (size > 1_048_576)
    (tmp_path / "it.cwr").write_bytes((FIRST + b" " * 1_000 + b"\n" + (b" " * 1_000 + b"\n") * 1_100)[:size])
    said = run("check", tmp_path / "it.cwr", "--program", program, status=size > 1_048_576)
    assert size == 1_048_576 or "fault 12" not in said


def test_spreadsheets(tmp_path: pathlib.Path, program: str) -> None:
    (tmp_path / "it.csv").write_text("isrc,plays,seconds\nATABC2600001,3,3:00\nATABC2600001,1.000,5\n,,\n")
    said = run("check", tmp_path / "it.csv", "--program", program, status=1, out=True)
    assert "row 2, seconds: '3:00' (a time: write it in seconds, 3:00 as 180)" in said and "return fault 5 in row 2" in said
    assert "row 3, plays: '1.000'" in said and "an empty row of the spreadsheet" in said
    (tmp_path / "it.csv").write_text("isrc;plays;seconds\nATABC2600001;3;180\n")
    assert "semicolons stand between" in run("check", tmp_path / "it.csv", "--program", program, status=1, out=True)


def test_of_a_long_cell_the_beginning_is_shown(tmp_path: pathlib.Path, program: str) -> None:
    (tmp_path / "long.csv").write_text('isrc,plays,seconds\n"' + "A" * 1_000_000 + '",1,1\n"' + "B" * 1_000 + '"\n')
    said = run("check", tmp_path / "long.csv", "--program", program, status=1, out=True)
    assert len(said) < 1_000 and f"'{'A' * 60}'" in said and f"'{'B' * 60}'" in said


def test_a_file_is_checked_against_a_copy(copy: pathlib.Path, tmp_path: pathlib.Path, program: str) -> None:
    (tmp_path / "it.cwr").write_bytes(file(quarter.BETA, "BETA VERLAG", [quarter.rev("2", "AGAIN", "DEBET2600002", quarter.BETA_HOUSE)]))
    assert f"26-0003 {tmp_path}/it.cwr: applied\n  1 of 1 works accepted" in run(
        "check", tmp_path / "it.cwr", "--copy", copy, "--program", program
    )


def test_a_revision_that_is_rejected_in_the_file_of_its_work(tmp_path: pathlib.Path, program: str) -> None:
    work = quarter.nwr("A1", "FIRST", "ATABC2600001", quarter.ALPHA_HOUSE, quarter.ANNA)
    again = quarter.rev("A1", "AGAIN", "ATABC2600001", quarter.ALPHA_HOUSE, quarter.OVERSHARED, fault=5)
    steps: list[Step] = [File(quarter.ALPHA, 1, "transmissions/1", [work, again])]
    said = run("why", made(program, Office(quarter.NAMES, steps), tmp_path), quarter.ALPHA)
    assert "revision 0 of file 1 stands" in said and "registered since" not in said


def dry_run(environment: dict[str, str], *words: object) -> subprocess.CompletedProcess[str]:
    """A run of examples/dryrun over examples/first.cwr."""
    command: list[Word] = [sys.executable, ROOT / "examples/dryrun", *map(str, words), ROOT / "examples/first.cwr"]
    return subprocess.run(command, env={**os.environ, **environment}, capture_output=True, text=True, check=False)


def test_the_program_of_a_dry_run(tmp_path: pathlib.Path, program: str) -> None:
    """The one that is named, else that of $SOCIETY_PROGRAM, else `society` on the PATH; the others are none that runs."""
    none, path = str(tmp_path / "none"), tmp_path / "bin"
    path.mkdir()
    (path / "society").symlink_to(program)
    others = f"{path}:/usr/bin:/bin"
    for done in (
        dry_run({"SOCIETY_PROGRAM": none, "PATH": ""}, "--program", program),
        dry_run({"SOCIETY_PROGRAM": program, "PATH": ""}),
        dry_run({"SOCIETY_PROGRAM": "", "PATH": others}),
    ):
        assert (done.returncode, done.stderr) == (0, "") and "accepted W1 FIRST SONG" in done.stdout
    done = dry_run({"SOCIETY_PROGRAM": none, "PATH": others})
    assert done.returncode == 2 and done.stderr.startswith("dryrun: ") and none in done.stderr


@pytest.mark.parametrize("script, said", [("> /dev/full", "dryrun: [Errno 28] No space left on device\n"), ("| true", "")])
def test_a_dry_run_whose_lines_go_nowhere(program: str, script: str, said: str) -> None:
    words = f"'{ROOT}/examples/dryrun' '{ROOT}/examples/first.cwr' {script}; exit ${{PIPESTATUS[0]}}"
    environment = {**os.environ, "PYTHONUNBUFFERED": "", "SOCIETY_PROGRAM": program}
    done = subprocess.run(["bash", "-c", words], env=environment, capture_output=True, text=True, check=False)
    assert (done.returncode, done.stderr) == (2, said)


def test_why(copy: pathlib.Path) -> None:
    with open_copy(copy) as opened:
        told = {it.sender: story(opened, it.sender) for it in opened.lines()}
        for sender, number, _, works in quarter.FILES + quarter.LATER:
            file = next(it for it in told[sender].files if it.number == number)
            wanted = (
                []
                if (sender, number) in quarter.OFFICE.held
                else [(it.number, it.fault) for it in sorted(works, key=lambda it: it.kind) if it.fault]
            )
            assert [(it.work, it.fault) for it in file.rejected] == wanted
            assert all(it.fault in (20, 21) or it.own.faults[0].number == it.fault for it in file.rejected)
    assert told[quarter.GAMMA].line.missing == [2] and told[quarter.BETA].line.skipped == [1_250_001]
    said = run("why", copy, quarter.ALPHA)
    assert "registered since: revision 0 with file 3" in said and "revision 1 of file 2 stands" in said
    assert "nothing has come of PB000000099" in run("why", copy, "PB000000099", status=1)
