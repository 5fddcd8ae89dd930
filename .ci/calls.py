"""Which crates may touch the machine, and by which calls.

The rule: of the program's crates society alone names the runtime of the host, and what it calls of the libraries that reach
the machine, or open a database, is what .ci/calls/society lists. No other crate of the program has an `impl Disk` or an `impl Calls`, or
calls what opens a database. What a crate calls is told by the prover (`rattle check --list-calls`), over the libraries that `rt ci` left.
"""
import concurrent.futures
import hashlib
import itertools
import pathlib
import re
import shutil
import subprocess
import sys
from collections.abc import Iterator

TOP = pathlib.Path(__file__).resolve().parent.parent
CRATES = TOP / "crates"
LISTS = TOP / ".ci" / "calls"
# The folders of a crate that the prover reads.
PARTS = ("src", "specs", "proofs")
# The crates that the program is not made of.
TESTS = "test_"
# What reaches the machine, or opens a database, by a word of the source.
REACHES = re.compile(
    r"\b(?:HostRuntime|open_from|open_with_sums|open_files|open_files_with|extern|unsafe)\b|\bimpl\b[^{;]*\b(?:Disk|Calls)\s+for\b"
)
# The libraries of which each call is listed.
LISTED = re.compile(r"calls (std|std_io|libc|os|sqlite\w*): \d+ functions?")


def crates() -> dict[str, list[str]]:
    """Each crate of crates.txt with the libraries that it names."""
    lines = (TOP / "crates.txt").read_text().splitlines()
    parted = (line.partition(":") for line in lines if ":" in line and not line.startswith("#"))
    return {name.split()[0]: below.split() for name, _, below in parted}


def kit_at_hand() -> pathlib.Path:
    """The folder of the toolchain whose command is `rt`."""
    if not (command := shutil.which("rt")):
        sys.exit("the command rt is not on this machine")
    return pathlib.Path(command).resolve().parent.parent


def those_below(name: str, below: dict[str, list[str]]) -> dict[str, None]:
    """The crates below one, each once."""
    found: dict[str, None] = {}
    for it in below[name]:
        if it in below:
            found |= those_below(it, below) | {it: None}
    return found


def code_of(file: pathlib.Path) -> str:
    """The code of a source: its lines without comments and without clauses."""
    return "\n".join(line for line in file.read_text().splitlines() if not re.match(r"\s*(//|ghost |ensures |requires )", line))


def others_that_reach(below: dict[str, list[str]]) -> Iterator[str]:
    """A line for each source of another crate of the program that reaches the machine by itself."""
    allowed = {file.name for file in LISTS.iterdir()}
    for name in below:
        if name in allowed or name.startswith(TESTS):
            continue
        for file in sorted((CRATES / name / "src").rglob("*.rt")):
            for found in REACHES.findall(code_of(file)):
                yield f"calls: {file.relative_to(TOP)} has {found.strip()!r}, which society alone may have"


def sum_of(top: pathlib.Path, name: str, below: dict[str, list[str]]) -> str:
    """A sum of the sources of a crate of a checkout and of all crates below it."""
    found = hashlib.sha256(repr(below[name]).encode())
    for it in [*sorted(those_below(name, below)), name]:
        for part in PARTS:
            for file in sorted((top / "crates" / it / part).rglob("*.*")):
                found.update(repr((str(file.relative_to(top)), file.read_bytes())).encode())
    return found.hexdigest()


def words_for(name: str, below: dict[str, list[str]], kit: pathlib.Path, built: pathlib.Path = CRATES) -> Iterator[str]:
    """The prover's words for a crate, over the libraries that are built in a folder of crates."""
    yield from ["check", "--crate-name", name, "src/main.rt" if (CRATES / name / "src/main.rt").exists() else "src/lib.rt"]
    for it in ["std", *below[name]]:
        library = built / it / "out/rlib" if it in below else kit / "rlibs"
        yield from ["--extern", f"{it}={library / it}.rlib"]
    yield from ["-L", f"dependency={kit / 'rlibs'}"]
    for it in those_below(name, below):
        yield from ["-L", f"dependency={built / it / 'out/rlib'}"]
    yield from ["--antt-project", str(kit / "rattle/logic/antt-project.json"), "--logic-built", str(kit / "logic_built")]
    yield from ["--links", f"{name}=", "--jobs", "1", "--list-calls"]


def listed(text: str) -> list[str]:
    """The calls of a report that are to be listed."""
    calls, library = [], False
    for line in text.splitlines():
        if line.startswith("  ") and library:
            calls.append(line.strip())
        else:
            library = bool(LISTED.match(line))
    return sorted(calls)


def calls_of(name: str, below: dict[str, list[str]], kit: pathlib.Path) -> str:
    """What the prover says of a crate and of what it calls."""
    words = [str(kit / "bin/rattle"), *words_for(name, below, kit)]
    ran = subprocess.run(
        words, cwd=CRATES / name, stdout=subprocess.PIPE, stderr=subprocess.STDOUT, text=True, errors="replace", check=False
    )
    return ran.stdout


def compared(name: str, told: str) -> Iterator[str]:
    """A line for each difference of what a crate calls, by what the prover says, from what is listed."""
    if "\nlogic=proved" not in told:
        yield f"calls: {name} is not proved: {told[-600:]}"
        return
    there, wanted = listed(told), (LISTS / name).read_text().split("\n")[:-1]
    yield from (f"calls: {name} calls {it}, which is not on its list" for it in there if it not in wanted)
    yield from (f"calls: {name} does not call {it}, which is on its list" for it in wanted if it not in there)


def checked(kit: pathlib.Path) -> tuple[int, int]:
    """How many looks passed, and how many failed; a line is printed of each that fails."""
    below, names = crates(), sorted(it.name for it in LISTS.iterdir())
    with concurrent.futures.ThreadPoolExecutor() as both:
        told = list(both.map(lambda name: calls_of(name, below, kit), names))
    looks = [list(others_that_reach(below)), *(list(compared(*it)) for it in zip(names, told, strict=True))]
    for line in itertools.chain(*looks):
        print(line, flush=True)
    return looks.count([]), len(looks) - looks.count([])
