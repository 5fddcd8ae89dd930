#!/usr/bin/python3
"""Opens files of older layouts, and measures how long taking one over takes.

With a folder of samples: each NAME.layoutN*.db is audited, which writes nothing to it, and rebuilt: all that it has is sent to an empty
office of today, which has to be the same as the file once it is taken over. It is opened, and sent NAME.later.http, whose answers have to
be those of NAME.later.answers, byte for byte. Then changed rows of each are refused, and the file's bytes stay.

With --measure: a file of so many transmissions of one work is filled, made a file of layout 2 and one of layout 1 by `sqlite3`, and opened
in each layout; reported are the seconds that passed and the peak memory until it listens. Ends with status 1 where anything differs.
"""
import pathlib
import shutil

import subprocess
import sys
import tempfile

import common
import measured
import served
from measured import Server
from served import ROOT
from society_office.book import page_sums

# What makes layout 2 of layout 3, and layout 1 of layout 2.
SECOND = "DROP TABLE mechanical_pools; DROP TABLE segment_ends; UPDATE office SET layout = 2;"
FIRST = "".join(f"DROP TABLE {it}; " for it in ("balances", "credits", "recordings", "versions", "verdicts", "fronts"))
FIRST += "UPDATE office SET layout = 1;"

# A change, the layouts in which it is no more a right file, and what is told.
CHANGES = [
    ("UPDATE transmissions SET body = x'00' WHERE rowid = (SELECT min(rowid) FROM transmissions)", (1, 2), "damaged"),
    ("UPDATE returns SET body = x'00' WHERE rowid = (SELECT min(rowid) FROM returns)", (1, 2), "damaged"),
    ("UPDATE pools SET amount = -1 WHERE pool = (SELECT min(pool) FROM pools)", (1, 2), "damaged"),
    ("UPDATE pools SET amount = amount + 1 WHERE pool = (SELECT min(pool) FROM pools)", (2,), "damaged"),
    ("UPDATE fronts SET front = front + 1", (2,), "damaged"),
    ("UPDATE verdicts SET fault = 5 WHERE rowid = (SELECT min(rowid) FROM verdicts)", (2,), "damaged"),
    ("DELETE FROM versions WHERE rowid = (SELECT min(rowid) FROM versions)", (2,), "damaged"),
    ("UPDATE recordings SET isrc = 'GBXYZ2600002' WHERE rowid = (SELECT min(rowid) FROM recordings)", (2,), "damaged"),
    ("UPDATE credits SET units = units + 1 WHERE rowid = (SELECT min(rowid) FROM credits)", (2,), "damaged"),
    ("UPDATE balances SET units = units + 1 WHERE rowid = (SELECT min(rowid) FROM balances)", (2,), "damaged"),
    ("UPDATE office SET society = 901", (1, 2), "of another office"),
    ("UPDATE office SET layout = 9", (1, 2), "schema"),
    ("UPDATE office SET layout = 3", (1, 2), "schema"),
]


def changed_by(path: pathlib.Path, statements: str) -> None:
    """Runs statements on a file with sqlite3, so that nothing is left beside it."""
    with page_sums.changed(path) as connection:
        connection.executescript(statements)
        connection.execute("PRAGMA wal_checkpoint(TRUNCATE)")


def said(ended: served.Ended) -> str:
    """What a run printed."""
    return (ended.out + ended.err).decode().strip()


def audited(program: str, path: pathlib.Path) -> tuple[str, bool]:
    """What `society audit` says of a file, and whether the file is as it was."""
    before = path.read_bytes()
    return said(served.audit(program, path)), path.read_bytes() == before


def rebuilt(program: str, path: pathlib.Path) -> bool:
    """Whether an empty office that gets all that the file has is the same as the file once it is taken over; the file stays as it was."""
    before = path.read_bytes()
    run = subprocess.run([ROOT / "office/society-office", "rebuild", path, "--program", program], capture_output=True, text=True)
    return run.returncode == 0 and "follows from what was sent: " in run.stdout and path.read_bytes() == before


def refused(program: str, path: pathlib.Path) -> tuple[str, bool]:
    """What is told where a file is not opened, and whether it is as it was."""
    before = path.read_bytes()
    return said(served.run(program, served.serve_words(path, served.free_port()))), path.read_bytes() == before


def try_sample(program: str, folder: pathlib.Path, sample: pathlib.Path) -> list[str]:
    """Opens a sample, and then each changed one; answers what differs."""
    name, layout = sample.name.split(".")[0], int(sample.name.split(".layout")[1][0])
    work, wrong = folder / "office.db", []
    shutil.copy(sample, work)
    work.chmod(0o600)
    if audited(program, work) != ("sound", True):
        wrong.append("audit")
    if not rebuilt(program, work):
        wrong.append("rebuilt")
    with Server(program, work) as server:
        seen = server.sent(sample.with_name(f"{name}.later.http").read_bytes())
    if seen != sample.with_name(f"{name}.later.answers").read_bytes():
        wrong.append("later answers")
    for statements, layouts, told in CHANGES:
        if layout in layouts:
            for it in folder.glob("office.db*"):
                it.unlink()
            shutil.copy(sample, work)
            work.chmod(0o600)
            changed_by(work, statements)
            if refused(program, work) != (f"society: database {told}", True):
                wrong.append(statements)
    return wrong


def try_samples(program: str, samples: pathlib.Path) -> bool:
    failed = False
    found = sorted(samples.glob("*.layout*.db"))
    if not found:
        sys.exit(f"no sample (*.layout*.db) in {samples}")
    for sample in found:
        with tempfile.TemporaryDirectory() as folder:
            wrong = try_sample(program, pathlib.Path(folder), sample)
        print(f"{sample.name}: {', '.join(wrong) or 'ok'}")
        failed |= bool(wrong)
    return failed


def measure(program: str, count: int) -> None:
    path = measured.new_database()
    measured.filled(program, path, measured.files(count, 1))
    for layout, statements in (3, ""), (2, SECOND), (1, FIRST):
        changed_by(path, statements)
        copy = path.with_name(f"layout{layout}.db")
        shutil.copy(path, copy)
        size = copy.stat().st_size / 1_000_000
        processor, passed, peak = measured.opened(program, copy)
        print(
            f"{count:,} transmissions, layout {layout}: {size:.0f} MB, {processor:.1f} s of processor, {passed:.1f} s, {peak:.0f} MB",
            flush=True,
        )


def main() -> None:
    options = common.parser(__doc__)
    options.add_argument("samples", nargs="?", type=pathlib.Path, help="a folder of samples")
    options.add_argument("--measure", type=int, metavar="COUNT", help="how many transmissions the file has")
    words = options.parse_args()
    if not words.measure and not words.samples:
        options.error("name a folder of samples, or --measure COUNT")
    if words.measure:
        measure(words.program, words.measure)
    sys.exit(words.samples is not None and try_samples(words.program, words.samples))


if __name__ == "__main__":
    main()
