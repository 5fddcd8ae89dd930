#!/usr/bin/python3
"""Runs random chains of tests/chains.py, in which the laws of what is due are asserted after each step; prints what they did.

The status is 1 where a chain breaks a law; its number is printed, and `--first NUMBER --count 1` runs it again.
"""
import argparse
import pathlib
import sys
import traceback
from collections import Counter

OFFICE = pathlib.Path(__file__).resolve().parent.parent
sys.path[:0] = [str(OFFICE), str(OFFICE / "tests")]

import chains  # noqa: E402 (the folders of the checkout come first)


def main() -> None:
    """Runs them."""
    options = argparse.ArgumentParser(description=__doc__, formatter_class=argparse.RawDescriptionHelpFormatter)
    options.add_argument("--first", type=int, default=0)
    options.add_argument("--count", type=int, default=3_000)
    options.add_argument("--steps", type=int, default=40, help="steps of each chain (default: 40)")
    given = options.parse_args()
    total: Counter[str] = Counter()
    broken = list[int]()
    for number in range(given.first, given.first + given.count):
        try:
            total += chains.run(number, given.steps).counts
        except Exception:
            traceback.print_exc()
            broken.append(number)
    for what, count in sorted(total.items()):
        print(f"{count:8,} {what}")
    print(f"{given.count:,} chains, broken: {', '.join(map(str, broken)) or 'none'}")
    sys.exit(1 if broken else 0)


if __name__ == "__main__":
    main()
