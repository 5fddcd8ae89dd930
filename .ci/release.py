"""What the gate has to do with release/: it compares the program there with the one that it built of the same sources, and where all has
passed it leaves a mark beside the latter, by which bin/release knows that it may be handed out."""
import hashlib
import pathlib
import subprocess

TOP = pathlib.Path(__file__).resolve().parent.parent


def ran(top: pathlib.Path, *words: str) -> tuple[str, int]:
    """What bin/release of a checkout prints with these words, and its status."""
    done = subprocess.run([top / "bin/release", *words], stdin=subprocess.DEVNULL, stdout=subprocess.PIPE, text=True, check=False)
    return done.stdout, done.returncode


def made_from(top: pathlib.Path = TOP) -> str:
    """The lines of release/made-from for the sources and the toolchain as they are now."""
    return ran(top, "--sources")[0]


def built_in(top: pathlib.Path) -> pathlib.Path:
    """The program that the gate builds by LLVM."""
    return top / "crates/society/out/society"


def mark_in(top: pathlib.Path) -> pathlib.Path:
    """The gate's mark: the two lines of `made_from`, and `program ` with the SHA-256 of the program that was built of it."""
    return top / "crates/society/out/gate-passed"


def compared(top: pathlib.Path = TOP) -> tuple[str, bool]:
    """A line that tells how release/society stands to the program that was built, and whether the gate may pass: it may not where they were
    made from the same and are two. A release of other sources, or of another toolchain, is told of and passes; so does none."""
    release, stored = top / "release/society", top / "release/made-from"
    if not release.exists():
        return "release: there is no release/society (bin/release makes it)", True
    if not stored.exists() or made_from(top).splitlines() != stored.read_text().splitlines()[:2]:
        return "release: release/society is of other sources, or made by another toolchain (bin/release renews it)", True
    if release.read_bytes() != built_in(top).read_bytes():
        return "release: FAILED: release/society is not the program that was built, and has the same sources", False
    why, status = ran(top, "--why")
    return (
        f"release: FAILED: {why.strip()}" if status else "release: release/society is the program that was built, byte for byte",
        not status,
    )


def unmark(top: pathlib.Path = TOP) -> None:
    """Takes away what an earlier gate left."""
    mark_in(top).unlink(missing_ok=True)


def mark(begun_with: str, top: pathlib.Path = TOP) -> None:
    """Leaves the mark, where the gate has passed on what it had begun with."""
    if made_from(top) == begun_with:
        mark_in(top).write_text(f"{begun_with}program {hashlib.sha256(built_in(top).read_bytes()).hexdigest()}\n", encoding="ascii")
