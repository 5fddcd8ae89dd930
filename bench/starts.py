#!/usr/bin/python3
"""Measures how long `society audit` takes over offices whose pools, cuts or works are many: each at two sizes, with the exponent.

Each office is a file that is filled once through `society serve`; with --keep the files stay in that folder, and a later run takes those
that are there. Reported are the least processor seconds (user and system) of some runs, their greatest peak memory, and by how much the
seconds grow with the size (1 is as the size does, 2 as its square). Where a case says so, its pools alone count: what the same office
takes without them is taken off, and milliseconds a pool are told. The taken-over files are those of layout 3, made older by `sqlite3`.
"""

import argparse
import pathlib
import shutil
from collections.abc import Callable, Iterator

import tempfile

import common
import old_files
from bodies import SENDER, order_body, plays, plays_of, works_file
from measured import audited, filled
from growth import exponent, in_turn, sender

# Puts: where each goes, and its body.
Puts = Iterator[tuple[str, bytes]]
MANY = 100  # senders of an office of files of one work
CUT = 21  # senders of a pool's cut
PLAYED = 20  # recordings of a return
WIDE = 100  # recordings of a return from all over a line


def empty_file(name: str) -> bytes:
    """A file of no work."""
    return works_file(0, 0, name)


def pools_of_cuts(pools: int, cuts: int) -> Puts:
    """Empty files of as many senders as a cut has, and pools of that cut and of no return."""
    for k in range(cuts):
        yield f"/v1/senders/{sender(k)}/transmissions/1", empty_file(sender(k))
    cut = [[sender(k), 1] for k in range(cuts)]
    for n in range(1, pools + 1):
        yield f"/v1/pools/{n}", order_body(1_000_000, cut, [])


def full_files(works: int) -> Puts:
    """Files of 800 works of one sender."""
    for n in range(works // 800):
        yield f"/v1/senders/{SENDER}/transmissions/{n + 1}", works_file(n * 800, 800)


def pools_of_no_cut(works: int, pools: int) -> Puts:
    """Full files, and pools of an empty cut and of a return each."""
    yield from full_files(works)
    for n in range(1, pools + 1):
        yield f"/v1/returns/RADIO1/{n}", plays(n, PLAYED)
        yield f"/v1/pools/{n}", order_body(1_000_000, [], [["RADIO1", n]])


def pools_of_full_files(works: int, pools: int) -> Puts:
    """Full files, and pools of the whole line, each with a return of recordings from all over it."""
    yield from full_files(works)
    for n in range(1, pools + 1):
        yield f"/v1/returns/RADIO1/{n}", plays_of(n, range(n, works, works // WIDE))
        yield f"/v1/pools/{n}", order_body(1_000_000, [[SENDER, works // 800]], [["RADIO1", n]])


def files_of_one_work(works: int) -> Puts:
    """Files of one work that 100 senders send in turn."""
    for name, number, body in in_turn(works, MANY):
        yield f"/v1/senders/{name}/transmissions/{number}", body


def pools_of_works(works: int, pools: int) -> Puts:
    """Files of one work, and pools of the whole lines of some senders, each with a return of recordings."""
    yield from files_of_one_work(works)
    for n in range(1, pools + 1):
        cut = sorted([sender((n + k) % MANY), works // MANY] for k in range(CUT))
        yield f"/v1/returns/RADIO1/{n}", plays(n, PLAYED, n * PLAYED % (works - PLAYED))
        yield f"/v1/pools/{n}", order_body(1_000_000, cut, [["RADIO1", n]])


# Each case: its two sizes, the requests of an office of a size, those of the same office without its pools (none: nothing is taken off),
# and how many pools it has.
CASES: dict[str, tuple[tuple[int, int], Callable[[int], Puts], Callable[[int], Puts] | None, int]] = {
    "pools of 50 cuts, no return": ((2_000, 8_000), lambda n: pools_of_cuts(n, 50), None, 0),
    "40,000 works, 200 pools of no cut": ((10_000, 40_000), lambda n: pools_of_no_cut(n, 200), full_files, 200),
    "full files, 100 pools of 100 recordings of all of them": ((8_000, 32_000), lambda n: pools_of_full_files(n, 100), full_files, 100),
    "works, pools of 21 cuts and 20 recordings": ((10_000, 40_000), lambda n: pools_of_works(n, 200), files_of_one_work, 200),
    "files of one work of 100 senders, layout 3": ((25_000, 100_000), files_of_one_work, None, 0),
    "files of one work of 100 senders, layout 2": ((25_000, 100_000), files_of_one_work, None, 0),
    "files of one work of 100 senders, layout 1": ((25_000, 100_000), files_of_one_work, None, 0),
}
# What makes an older file of one of layout 3.
OLDER = {"layout 3": "", "layout 2": old_files.SECOND, "layout 1": old_files.SECOND + old_files.FIRST}


def least_of(program: str, path: pathlib.Path, runs: int) -> tuple[float, float]:
    """The least seconds of some audits, and their greatest peak."""
    all_runs = [audited(program, path) for _ in range(runs)]
    return min(it[0] for it in all_runs), max(it[1] for it in all_runs)


def file_of(program: str, keep: pathlib.Path, name: str, requests: Puts) -> pathlib.Path:
    """The file of an office, filled where it is not there."""
    path = keep / f"{name.replace(' ', '_').replace(',', '')}.db"
    if not path.exists():
        part = path.with_suffix(".part")
        # What a run left that was cut off.
        for it in keep.glob(f"{part.name}*"):
            it.unlink()
        filled(program, part, requests)
        # The killed server's log is brought into the file.
        old_files.changed_by(part, "")
        part.rename(path)
    return path


def older(path: pathlib.Path, layout: str) -> pathlib.Path:
    """The same file in an older layout."""
    if not OLDER[layout]:
        return path
    copy = path.with_suffix(f".{layout.replace(' ', '')}")
    shutil.copy(path, copy)
    old_files.changed_by(copy, OLDER[layout])
    return copy


def measure(options: argparse.Namespace, keep: pathlib.Path, name: str) -> str:
    """The row of a case."""
    sizes, requests, without, pools = CASES[name]
    plain, _, layout = name.rpartition(", ") if name.endswith(tuple(OLDER)) else (name, "", "layout 3")
    cells, seconds = [], []
    for size in sizes:
        path = older(file_of(options.fill or options.program, keep, f"{plain} {size}", requests(size)), layout)
        took, peak = least_of(options.program, path, options.runs)
        cells.append(f"{size:,} | {took:.2f} | {peak:.0f}")
        if without:
            bare = file_of(options.fill or options.program, keep, f"{without.__name__} {size}", without(size))
            base, _ = least_of(options.program, bare, options.runs)
            cells[-1] += f" ({base:.2f} without pools, {(took - base) / pools * 1_000:.1f} ms a pool)"
        seconds.append(took)
    return f"| {name} | {' | '.join(cells)} | {exponent(sizes, seconds)} |"


def main() -> None:
    options = common.parser(__doc__)
    options.add_argument("--runs", type=int, default=2, help="audits of each office (default: 2)")
    options.add_argument("--keep", type=pathlib.Path, help="a folder for the files, which stay there (default: one that goes)")
    options.add_argument("--fill", type=common.program_file, help="the program that fills the files (default: the one that is measured)")
    common.add_cases(options, CASES)
    given = options.parse_args()
    with tempfile.TemporaryDirectory() as folder:
        keep = given.keep or pathlib.Path(folder)
        keep.mkdir(parents=True, exist_ok=True)
        print("| Office | Size | Seconds | Peak MB | Size | Seconds | Peak MB | Exponent |\n|---|---|---|---|---|---|---|---|", flush=True)
        for name in CASES:
            if given.case in name:
                print(measure(given, keep, name), flush=True)


if __name__ == "__main__":
    main()
