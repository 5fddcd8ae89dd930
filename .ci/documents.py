#!/usr/bin/env python3
"""Whether docs/TOUR.md, docs/MAP.md, docs/PROMISES.md and CONTRIBUTING.md speak of what is there.

    .ci/documents.py     a line for each thing that is not there; status 1 where there is one

Of TOUR each part under a heading, and each step, is read by itself: every path in backquotes has to be there, every other word in
backquotes has to stand in one of the files that the part names, and a word in parentheses behind a function in that function's contract
there. Of CONTRIBUTING each path in backquotes has to be there; in a row of a list that begins with a crate's name, in that crate. `{a,b}`
stands for both, `NAME` for any name. Of MAP each file of specs/ in parentheses has to be there. Of PROMISES each word in backquotes has to
stand in src/ or specs/ of some crate. The gate runs this (.ci/timed.py).
"""
import pathlib
import re
import sys
from collections.abc import Iterator

TOP = pathlib.Path(__file__).resolve().parent.parent
TOUR, MAP, PROMISES, CONTRIBUTING = "docs/TOUR.md", "docs/MAP.md", "docs/PROMISES.md", "CONTRIBUTING.md"
QUOTED = re.compile(r"`([^`\n]+)`")
WORD = re.compile(r"[A-Za-z]\w*(?:\.\w+)*")
PATH = re.compile(r"[\w.{},-]+(?:/[\w.{},-]+)*/?")
ROW = re.compile(r"- `(\w+)`: ")
CLAUSE = re.compile(r"`(\w+)` \(`(\w+)`\)")


def expanded(path: str) -> list[str]:
    """The patterns of a path: one for each choice in braces, `*` for NAME."""
    choice = re.search(r"\{([^{}]*)\}", path)
    if not choice:
        return [path.replace("NAME", "*")]
    return [it for part in choice[1].split(",") for it in expanded(path[: choice.start()] + part + path[choice.end() :])]


def absent(path: str, folder: pathlib.Path = TOP) -> list[str]:
    """The patterns of a path to which nothing in a folder belongs."""
    return [it for it in expanded(path) if not any(folder.glob(it.rstrip("/")))]


def is_path(quoted: str) -> bool:
    """Whether a text in backquotes is a path: it has a slash, or the ending of a file."""
    return bool(PATH.fullmatch(quoted)) and ("/" in quoted or re.search(r"\w\.(antt|rt|py|md|txt|edit|toml|sh|conf)$", quoted) is not None)


def parts(text: str) -> Iterator[tuple[int, str]]:
    """The parts of a document: of each heading and each step the number of its line, and the text under it."""
    begins = [it.start() for it in re.finditer(r"^(#+|\d+\.) ", text, re.M)]
    for begin, end in zip(begins, [*begins[1:], len(text)]):
        yield text.count("\n", 0, begin) + 1, text[begin:end]


def contracts(source: str, name: str) -> Iterator[str]:
    """What stands between the heads and the bodies of the functions of a name, without comments."""
    for head in re.finditer(rf"^(\s*)(?:pub(?:\([a-z ]+\))? )?fn {re.escape(name)}\b.*?(?=^\1\{{)", source, re.M | re.S):
        yield re.sub(r"^\s*//.*$", "", head[0], flags=re.M)


def faults_of_part(text: str) -> Iterator[str]:
    """What a part of the tour names that is not there."""
    quoted = QUOTED.findall(text)
    paths = [it for it in quoted if is_path(it)]
    yield from (f"there is no {it}" for path in paths for it in absent(path))
    sources = [(TOP / it).read_text(encoding="utf-8") for it in paths if (TOP / it).is_file()]
    names = [it for it in quoted if not is_path(it) and WORD.fullmatch(it)]
    if paths:
        yield from (
            f"no file named there has the word {it}"
            for it in names
            if not any(re.search(rf"\b{re.escape(it)}\b", source) for source in sources)
        )
    for name, clause in CLAUSE.findall(" ".join(text.split())):
        if not any(re.search(rf"\b{clause}\b", it) for source in sources for it in contracts(source, name)):
            yield f"no function {name} there has the clause {clause}"


def faults_of_tour(text: str) -> Iterator[str]:
    for line, part in parts(text):
        yield from (f"{TOUR}:{line}: {it}" for it in faults_of_part(part))


def faults_of_contributing(text: str) -> Iterator[str]:
    for number, line in enumerate(text.splitlines(), 1):
        row = ROW.match(line)
        folder = TOP / "crates" / row[1] if row else TOP
        for path in filter(is_path, QUOTED.findall(line)):
            yield from (f"{CONTRIBUTING}:{number}: there is no {it} in {folder.relative_to(TOP)}/" for it in absent(path, folder))


def faults_of_map(text: str) -> Iterator[str]:
    for crate, said in re.findall(r"^- \*\*(\w+)\*\*:(.*?)(?=^- |\Z)", text, re.M | re.S):
        for other, name in re.findall(r"(?:(\w+): )?\b([A-Z]\w+)\b", " ".join(re.findall(r"\(([^()]*)\)", said))):
            path = f"crates/{other or crate}/specs/{name}.antt"
            yield from (f"{MAP}: there is no {it}" for it in absent(path))


def faults_of_promises(text: str) -> Iterator[str]:
    sources = [*TOP.glob("crates/*/src/**/*.rt"), *TOP.glob("crates/*/specs/**/*.antt")]
    known = {word for it in sources for word in re.findall(r"\w+", it.read_text(encoding="utf-8"))}
    named = {word for it in QUOTED.findall(text) if re.fullmatch(r"\w+(::\w+)*", it) for word in it.split("::")}
    yield from (f"{PROMISES}: no crate has the word {it}" for it in sorted(named - known))


def faults() -> Iterator[str]:
    """A line for each thing of which the documents speak and that is not there."""
    readers = faults_of_tour, faults_of_map, faults_of_promises, faults_of_contributing
    for name, read in zip((TOUR, MAP, PROMISES, CONTRIBUTING), readers):
        if not (TOP / name).is_file():
            yield f"{name}: is not there"
        else:
            yield from read((TOP / name).read_text(encoding="utf-8"))


def check() -> tuple[int, int]:
    """Tells each fault; gives how many documents passed, and how many faults there were."""
    found = list(faults())
    print(*found, f"documents: {len(found)} names, paths and clauses that are not there", sep="\n", flush=True)
    return 4 - len({it.split(":")[0] for it in found}), len(found)


if __name__ == "__main__":
    sys.exit(int(check()[1] > 0))
