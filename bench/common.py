"""What the scripts of this folder share: their arguments. Programs are started, asked and measured by harness/."""
import argparse
import os
import pathlib
import sys
from collections.abc import Callable, Iterable

ROOT = pathlib.Path(__file__).resolve().parent.parent
# (what reads and changes an office's file stands with the tools of the office, and random offices with their tests)
sys.path += [str(ROOT / it) for it in ("harness", "office", "office/tests")]

from served import program_at_hand  # noqa: E402 (the folder comes first)


def program_file(name: str) -> str:
    """The absolute path of the program named, which is there and can be run."""
    path = os.path.abspath(name or program_at_hand())
    if not os.access(path, os.X_OK) or os.path.isdir(path):
        raise argparse.ArgumentTypeError(f"no program at {path}: `bin/society --help` builds it, or name one with --program")
    return path


def parser(text: str | None, program: Callable[[str], str] = program_file) -> argparse.ArgumentParser:
    """A parser with `--program`, whose help is the script's own text; `program` reads the name."""
    it = argparse.ArgumentParser(description=text, formatter_class=argparse.RawDescriptionHelpFormatter)
    it.add_argument("--program", type=program, default="", help="the program (default: the one that bin/society runs)")
    return it


def add_cases(options: argparse.ArgumentParser, names: Iterable[str]) -> None:
    """Adds the argument that chooses cases by a part of their names, and lists the names in the help; a word that none has is refused."""
    names = list(names)

    def of_a_case(word: str) -> str:
        if any(word in it for it in names):
            return word
        raise argparse.ArgumentTypeError(f"no case has {word!r} in its name")

    options.add_argument("case", nargs="?", default="", type=of_a_case, help="run only the cases whose name has this in it")
    options.epilog = "cases:\n" + "\n".join(f"  {it}" for it in names)
