#!/usr/bin/env python3
"""Lists names that files of a crate's specs/ and proofs/ use and no `use` line of theirs brings, names that a `use` or `ghost use` line
asks of a module of this repository that has none such, and files that no `mod` line names. It proves nothing, and takes seconds where a
check takes minutes.

    tools/names.py society_book society_tables

Ends with status 1 where it names one; now and then that is an argument with a capital.
"""
import functools
import pathlib
import re
import sys
from collections.abc import Iterator

CRATES = pathlib.Path(__file__).resolve().parent.parent / "crates"
BUILT_IN = set(
    """use pub abbrev unfoldable opaque record data where let in elim as unfolding module open if then else at from depth fits tt Unit
absurd Type omega search grind cc rw simp hlevel assumption first_of Prim syntax ruleset mutual IsProp IsSet Rattle lib mathlib""".split()
)
USE = re.compile(r"^[ ]*(?:pub )?(?:ghost )?use (\w+\.[\w.+]+?)(?:\.\{(.*?)\}| as (\S+?)|\.?);?$", re.M)
DEFINED = re.compile(
    r"^[ ]*(?:abbrev |unfoldable |opaque )*pub (?:abbrev |unfoldable |record |data |ruleset )*(\S+)|^  (?:pub )?(\S+) :", re.M
)
NAME = re.compile(r"[A-Za-z][\w'\-+×≡≢≤<∷∙]*")


def plain(text: str) -> str:
    """The text without its comments, its texts in quotes and its lines that declare modules."""
    return re.sub(r'"(?:\\.|[^"\\])*"', '""', re.sub(r"(^|\s)--.*|^(?:pub )?mod .*", r"\1", text, flags=re.M))


@functools.cache
def public(module: str) -> set[str] | None:
    """The names that a module of this repository has; None where that is not known here."""
    parts = module.split(".")
    if len(parts) < 4 or not (CRATES / parts[1]).is_dir():
        return None
    if "declared" in parts:
        source = CRATES.joinpath(parts[1], "src", *[it for it in parts[4:] if it[0].islower()]).with_suffix(".rt")
        return set(re.findall(r"\w+", source.read_text())) if source.is_file() else None
    path = CRATES.joinpath(*parts[1:]).with_suffix(".antt")
    if not path.is_file():
        passed_on = (CRATES / parts[1] / "specs/Lib.antt").read_text()
        return None if parts[-1] in ("Goals", "Given") or re.search(rf"\b{parts[-1]}\b", passed_on) else set()
    text = plain(path.read_text())
    return {name for names in DEFINED.findall(text) for name in names} | {name for _, brought, _ in imports(text) for name in brought}


def imports(text: str) -> Iterator[tuple[str, list[str], list[str]]]:
    """Each module that a text uses, with the names that it brings, and those asked of it."""
    for module, names, alias in USE.findall(text):
        asked = [it.strip() for it in names.split(",") if it.strip()]
        yield module, [it.split(" as ")[-1] for it in asked] + [alias or module.split(".")[-1]], [it.split(" as ")[0] for it in asked]


@functools.cache
def brought_somewhere() -> set[str]:
    """The names that a file of this repository brings: a capital one of them in a pattern is a constructor, and no argument."""
    return {name for path in CRATES.glob("*/[sp][pr]*/**/*.antt") for _, names, _ in imports(path.read_text()) for name in names}


def bound(text: str) -> set[str]:
    """The names that a text binds itself: what it defines, arguments, patterns, fields and goals."""
    names = (
        set(re.findall(r"(\S+)[ ]*(?:\{[^}]*\} )?:(?= |$)", text))
        | set(re.findall(r"([\w'-]+) = ", text))
        | set(re.findall(r"(?:data|record|ruleset) (\S+)", text))
    )
    for inside in re.findall(r"[({]([^(){}:=]*?) : |λ ([^.]*?)\.(?=\s)|use \{([^}]*)\}|(?:data|record) \S+ (.*?)where", text):
        names |= set(NAME.findall(" ".join(inside)))
    sides = re.findall(r"^[ ]*(?!let )([^=:\n]*?) =(?:\s|$)", re.sub(r"\{\w+ = (\w+)\}", r"\1", text), re.M)
    for pattern in re.findall(r"[\[|]([^|\[\]↦]*?)↦", text) + sides:
        names |= {it for it in NAME.findall(pattern) if it[0].islower() or it not in brought_somewhere()}
    return names


def faults(path: pathlib.Path) -> Iterator[str]:
    """What is wrong with the names of a file."""
    text = plain(path.read_text()) if path.suffix == ".antt" else path.read_text()
    for module, _, asked in imports(text):
        known = public(module)
        yield from (f"{module} has no {it}" for it in asked if known is not None and it not in known and "◌" not in it)
    if path.suffix == ".antt":
        above = path.parent / "Lib.antt" if path.parent.name in ("specs", "proofs") else path.parent.with_suffix(".antt")
        if (
            path.stem not in ("Answers", "Invariants", "Proof")
            and path.stem[0].isupper()
            and not re.search(rf"mod {path.stem}\b", above.read_text())
        ):
            yield "no mod line names it"
        brought = {name for _, names, _ in imports(text) for name in names}
        used = set(re.findall(r"(?<![\w.'\-◌⊎])" + NAME.pattern, USE.sub("", text)))
        parts = {part for name in brought for part in name.split("◌")}
        yield from (f"nothing brings {it}" for it in sorted(used - brought - bound(USE.sub("", text)) - BUILT_IN - parts))


def main() -> int:
    if not sys.argv[1:] or "-h" in sys.argv or "--help" in sys.argv:
        sys.exit(__doc__)
    files = [
        it
        for name in sys.argv[1:]
        for it in sorted((CRATES / name).rglob("*.*"))
        if it.suffix in (".antt", ".rt") and "out" not in it.parts
    ]
    found = [f"{path.relative_to(CRATES)}: {it}" for path in files if path.name != "Lib.antt" for it in faults(path)]
    print("\n".join(found))
    return int(bool(found))


if __name__ == "__main__":
    sys.exit(main())
