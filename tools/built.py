#!/usr/bin/env python3
"""Checks a crate, or builds its library, over libraries that are built, where `rt check` in a new checkout first proves every crate below.

    tools/built.py check CRATE [FLAG ..]      `rattle check` of a crate over what out/ keeps, with flags such as `--only PATH`,
    `--allow-holes` tools/built.py library CRATE [FLAG ..]    builds the library of a crate, for the crates above it

A library is taken that this built of the sources as they are, else one of --libraries CHECKOUT, in which `rt ci` has built it, where its
sources and those of all crates below it are the same there. The gate is the judge, not this.
"""
import argparse
import pathlib
import shutil
import subprocess
import sys

TOP = pathlib.Path(__file__).resolve().parent.parent
sys.path.append(str(TOP / ".ci"))
import calls  # noqa: E402 (the folder comes first)

MARK = "made-of"
INCREMENTAL = ("--incremental", "out/incremental")


def library_in(top: pathlib.Path, name: str) -> pathlib.Path:
    """The folder of a crate's library in a checkout."""
    return top / "crates" / name / "out/rlib"


def library_of(name: str, below: dict[str, list[str]], other: pathlib.Path | None) -> pathlib.Path:
    """The folder in which the library of a crate is that was made of its sources; ends where there is none."""
    wanted, own = calls.sum_of(TOP, name, below), library_in(TOP, name)
    if (own / MARK).is_file() and (own / MARK).read_text() == wanted:
        return own
    if other and (library_in(other, name) / f"{name}.rlib").is_dir() and calls.sum_of(other, name, below) == wanted:
        return library_in(other, name)
    sys.exit(f"{name} is not built of its sources: tools/built.py library {name}")


def words_for(name: str, below: dict[str, list[str]], kit: pathlib.Path, other: pathlib.Path | None) -> list[str]:
    """The prover's words for a crate, without its verb and how it is to be checked."""
    words = " ".join(str(it) for it in calls.words_for(name, below, kit)).split(" ")
    words = words[1 : words.index("--jobs")]
    for it in calls.those_below(name, below):
        found = str(library_of(it, below, other))
        words = [word.replace(str(library_in(TOP, it)), found) for word in words]
    return words


def main() -> None:
    options = argparse.ArgumentParser(description=__doc__, formatter_class=argparse.RawDescriptionHelpFormatter)
    options.add_argument("--libraries", type=pathlib.Path, metavar="CHECKOUT", help="another checkout, in which libraries are built")
    options.add_argument("--jobs", default="2", help="processors (2)")
    options.add_argument("verb", choices=["check", "library"])
    options.add_argument("crate")
    given, flags = options.parse_known_args()
    below, kit = calls.crates(), calls.kit_at_hand()
    if given.crate not in below:
        sys.exit(f"{given.crate} is no crate of crates.txt")
    folder, library = calls.CRATES / given.crate, library_in(TOP, given.crate)
    words = [*words_for(given.crate, below, kit, given.libraries), "--jobs", given.jobs, *INCREMENTAL, *flags]
    (folder / "out").mkdir(exist_ok=True)
    if given.verb == "check":
        sys.exit(subprocess.run([kit / "bin/rattle", "check", *words], cwd=folder, check=False).returncode)
    made_of = calls.sum_of(TOP, given.crate, below)
    shutil.rmtree(library, ignore_errors=True)
    library.mkdir()
    status = subprocess.run([kit / "bin/rattle", "build", *words, "-o", f"out/rlib/{given.crate}.rlib"], cwd=folder, check=False).returncode
    if status == 0:
        (library / MARK).write_text(made_of)
    sys.exit(status)


if __name__ == "__main__":
    main()
