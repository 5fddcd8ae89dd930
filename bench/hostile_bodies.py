#!/usr/bin/python3
"""Sends the worst bodies of 1 MiB of each layer to the program, and measures it.

Each case is one stream of requests to `society replay`; a put is followed by the questions that read what was put. Reported are,
of the run with the least processor time (user and system), its processor seconds, the seconds that passed, the peak memory of the
program in MB, the bytes in and out, and how many answers of each status came. The last line says whether a case took over 2 s.
"""
import common
import hostile_files  # noqa: F401 (it adds its cases)
import hostile_requests  # noqa: F401
import measured
from hostile_cases import CASES, Case

LIMIT = 2.0


def shown(make: Case) -> str:
    """A case's name as it is listed."""
    return make.__name__.replace("_", " ")


def main() -> None:
    options = common.parser(__doc__)
    options.add_argument("--runs", type=int, default=3, help="runs of each case that takes less than 2 s (default: 3)")
    common.add_cases(options, (shown(it) for it in CASES))
    given = options.parse_args()
    slow = []
    print("| Case | Seconds | Passed | Peak MB | Bytes in | Bytes out | Answers |")
    print("|---|---|---|---|---|---|---|")
    for make in CASES:
        if given.case not in shown(make):
            continue
        stream = make()
        run = measured.least_of(given.program, stream, given.runs, LIMIT)
        times = f"{run.processor:.3f} | {run.passed:.3f} | {run.peak:.1f}"
        print(f"| {shown(make)} | {times} | {len(stream):,} | {run.written:,} | {measured.listed(run.statuses)} |", flush=True)
        if run.processor > LIMIT:
            slow.append(shown(make))
    print(f"over {LIMIT} s: " + (", ".join(slow) or "none"))


if __name__ == "__main__":
    main()
