#!/usr/bin/env python3
"""Lists what a revision tests: the names of its tests, the values that stand in them, and the edits that the check must refuse.

    tools/cases.py REVISION             each test and each edit by name, with counts for each crate
    tools/cases.py BEFORE AFTER         what BEFORE has and AFTER lacks, by name; then each value that stands in the
                                        tests of AFTER fewer times than in those of BEFORE, with both counts

Run it anywhere in the repository. A value is a number or a text in a file of tests: a module that the root of its crate names
under cfg(test), and the library of sample bodies; a script of trials/ is one too, and each trial a test. "a" and b"a" are one value, and a
text of five bytes or more is not listed where it stands within another of AFTER. The rows over bytes count too, also where they stand in
another folder: each row and each folder of rows is a test by its name, each file is a text, and so is each number in one; a row is listed
too whose requests or answers are other bytes. So do the files of the programs of cases: each group, each course and each stretch of one is
a test by its name, and each line, body, word and number is a value, as is each line that a program with courses has to print. A test is not
listed as lacking where AFTER has a row of its name, in a file or in a table of a test. A value that stands fewer times need not be a case
that was dropped, since several tests may share one table or one sample: read the list.
"""
import ast
import collections
import re
import subprocess
import sys
from collections.abc import Iterator

LIBRARY_OF_BODIES = "test_bodies"
# The files of the rows over bytes, and the file that says of each how many requests are answered: older revisions have a program for rows
# alone.
ROWS = re.compile(r"crates/(test_rows)/data/(.+)\.(http|answers)|crates/(test_desk)/data/rows/(.+)\.(http|answers)")
COUNTS_OF_ROWS = {
    "crates/test_rows/stdout": re.compile(r"^(\S+): (\d+) requests, as wanted$", re.M),
    "crates/test_desk/data/rows.cases": re.compile(r"^serve-row (\S+) -> served (\d+), all$", re.M),
}
# Older revisions have a program for the stops alone.
PROGRAMS_OF_CASES = ("test_cases", "test_desk", "test_tables", "test_stops")
TRIALS = "trials"
# A number, or a text.
Value = int | bytes
TOKEN = re.compile(
    r"""(?P<comment>//[^\n]*)
      |(?P<text>b?"(?:[^"\\]|\\.)*")
      |(?P<byte>b'(?:[^'\\]|\\.)')
      |(?P<number>(?<!\w)(?<!(?<!\.)\.)\d[\d_]*)""",
    re.X | re.S,
)


def git_bytes(*words: str) -> bytes:
    return subprocess.run(["git", *words], capture_output=True, check=True).stdout


def git(*words: str) -> str:
    return git_bytes(*words).decode()


def files(revision: str) -> list[str]:
    return git("ls-tree", "-r", "--name-only", "--full-tree", revision).splitlines()


def test_files(revision: str, names: list[str]) -> Iterator[tuple[str, str]]:
    """The crate and the path of each file of tests."""
    for root in names:
        found = re.fullmatch(r"crates/(\w+)/src/(?:lib|main)\.rt", root)
        if not found:
            continue
        crate = found[1]
        source = f"crates/{crate}/src/"
        if crate == LIBRARY_OF_BODIES:
            modules = re.findall(r"^mod (\w+);", git("show", f"{revision}:{root}"), re.M)
        else:
            modules = re.findall(r"^#\[cfg\(test\)\]\n(?:pub )?mod (\w+);", git("show", f"{revision}:{root}"), re.M)
        for module in modules:
            for name in names:
                if name == f"{source}{module}.rt" or name.startswith(f"{source}{module}/"):
                    yield crate, name


def rows(revision: str, names: list[str]) -> Iterator[tuple[str, str, str, bytes]]:
    """Each file of rows: its crate, the row, its ending, and what it holds."""
    for name in names:
        found = ROWS.fullmatch(name)
        if found:
            crate, row, ending = filter(None, found.groups())
            yield crate, row, ending, git_bytes("show", f"{revision}:{name}")


def counts_of_rows(revision: str, names: list[str]) -> Iterator[tuple[str, str]]:
    """Each row that a program asks, and how many requests of it are answered."""
    for name, said in COUNTS_OF_ROWS.items():
        if name in names:
            yield from said.findall(git("show", f"{revision}:{name}"))


def written(text: str) -> bytes:
    """The bytes that a text of a file of cases writes: those within its quotes, if it has them."""
    inside = text[1:-1] if len(text) > 1 and text[0] == text[-1] == '"' else text
    raw = inside.encode()
    for escape, byte in ((rb"\\n", b"\n"), (rb"\\r", b"\r"), (rb"\\t", b"\t")):
        raw = re.sub(escape, byte, raw)
    return re.sub(rb"\\x([0-9A-F]{2})", lambda digits: bytes([int(digits[1], 16)]), raw)


def case_values(text: str) -> Iterator[Value]:
    """The values of a file of cases: each of its lines, words and numbers, and the bodies that its lines make."""
    body = b""
    for line in [*text.splitlines(), ": "]:
        if line.startswith((":", "==")):
            yield body
            body = b""
        elif line.startswith("|"):
            body += written(line[2:]) + b"\n"
        elif line.startswith("repeat "):
            body += written(line.split(" ", 3)[3])
        yield written(line)
        yield from (written(word) for word in re.findall(r'"[^"]*"|[^\s,;:|]+', line))
        yield from (int(number) for number in re.findall(r"(?<!\w)\d+(?!\w)", line))


def courses(text: str) -> Iterator[str]:
    """The courses of a file, each by its name, and behind each its stretches: what they do, and in which course."""
    course = ""
    for line in text.splitlines():
        if line.startswith("course "):
            course = line.removeprefix("course ")
            yield course
        elif re.match(r"(answers|stops|opens)\b", line):
            yield f"{line}, in: {course}"


def value(token: re.Match[str]) -> Value:
    if token["number"]:
        return int(token["number"].replace("_", ""))
    text = token["text"] or token["byte"]
    if text.startswith("b'"):
        return bytes(ast.literal_eval(text))
    text = re.sub(r"\\u\{(\w+)\}", lambda code: "\\U" + code[1].zfill(8), text)
    text = re.sub(r"\\\n\s*", "", text)
    read = ast.literal_eval(text.replace("\n", "\\n"))
    return read if isinstance(read, bytes) else str(read).encode()


def trial_values(text: str) -> Iterator[Value]:
    """The numbers and texts of a script."""
    for node in ast.walk(ast.parse(text)):
        if isinstance(node, ast.Constant) and isinstance(node.value, (int, str, bytes)):
            yield node.value.encode() if isinstance(node.value, str) else node.value


class Cases:
    def __init__(self, revision: str) -> None:
        names = files(revision)
        self.tests, self.values, self.edits = list[tuple[str, str, str]](), collections.Counter[Value](), list[tuple[str, str]]()
        self.counts: dict[str, collections.Counter[str]] = collections.defaultdict(collections.Counter)
        for crate, name in test_files(revision, names):
            text = git("show", f"{revision}:{name}")
            module = name.split("/src/")[1][:-3].replace("/", "::")
            tests = re.findall(r"#\[test\]\s*(?:#\[[^\]]*\]\s*)*fn (\w+)", text)
            self.tests += [(crate, module, test) for test in tests]
            found = [value(token) for token in TOKEN.finditer(text) if not token["comment"]]
            self.values.update(found)
            self.counts[crate].update(tests=len(tests), values=len(found), asserts=len(re.findall(r"\bassert\w*!\(", text)))
        for name in names:
            script = re.fullmatch(TRIALS + r"/(\w+)\.py", name)
            if script:
                text = git("show", f"{revision}:{name}")
                trials, found = re.findall(r"^@trial\ndef (\w+)", text, re.M), list(trial_values(text))
                self.tests += [(TRIALS, script[1], it) for it in trials]
                self.values.update(found)
                self.counts[TRIALS].update(tests=len(trials), values=len(found))
        self.row_names = {item.decode(errors="replace") for item in self.values if isinstance(item, bytes)}
        # Of each row its requests, its answers, and how many of them there are.
        self.rows: dict[str, dict[str, bytes | str]] = collections.defaultdict(dict)
        self.add_rows(revision, names)
        self.add_sheets(revision, names)
        for name in names:
            edit = re.fullmatch(r"crates/(\w+)/must-fail/(\w+)\.edit", name)
            if edit:
                self.edits.append((edit[1], edit[2]))
                self.counts[edit[1]].update(edits=1)

    def add_rows(self, revision: str, names: list[str]) -> None:
        """Adds the rows over bytes."""
        for crate, row, ending, data in rows(revision, names):
            self.rows[row][ending] = data
            path = row.split("/")
            numbers = [int(number) for number in re.findall(rb"(?<!\w)\d+(?!\w)", data)]
            self.values.update([data, *numbers])
            self.row_names.update(path)
            if ending == "http":
                self.tests.append((crate, "::".join(path[:-1]), path[-1]))
            self.counts[crate].update(tests=ending == "http", values=1 + len(numbers))
        for row, count in counts_of_rows(revision, names):
            self.rows[row]["count"] = count

    def add_sheets(self, revision: str, names: list[str]) -> None:
        """Adds the files of cases and of courses, and the files that they take."""
        for name in names:
            sheet = re.fullmatch(rf"crates/({'|'.join(PROGRAMS_OF_CASES)})/data/(\w+)\.(\w+)", name)
            if not sheet:
                continue
            crate, word, ending = sheet.groups()
            data = git_bytes("show", f"{revision}:{name}")
            if ending not in ("cases", "courses"):
                self.values.update([data])
                continue
            text = data.decode()
            groups, found = re.findall(r"^== (\w+)$", text, re.M), list(case_values(text))
            if ending == "courses":
                groups = list(courses(text))
                found += [line.encode() for line in git("show", f"{revision}:crates/{crate}/stdout").splitlines()]
            self.tests += [(crate, word, group) for group in groups]
            self.values.update(found)
            self.counts[crate].update(tests=len(groups), values=len(found))


def print_counts(cases: Cases) -> None:
    columns = ["tests", "values", "asserts", "edits"]
    print(f"{'crate':16}" + "".join(f"{column:>9}" for column in columns))
    rows = sorted(cases.counts.items())
    total = collections.Counter[str]()
    for crate, counts in rows:
        total.update(counts)
        print(f"{crate:16}" + "".join(f"{counts[column]:9}" for column in columns))
    print(f"{'all':16}" + "".join(f"{total[column]:9}" for column in columns))


def compare_rows(before: Cases, after: Cases) -> None:
    """Prints each row over bytes that AFTER lacks, or has with other requests, other answers or another count; and how many are the
    same."""
    others = [row for row, files in before.rows.items() if after.rows.get(row) != files]
    for row in others:
        seen = after.rows.get(row, {})
        print(f"row {row}: {', '.join(sorted(it for it in {*before.rows[row], *seen} if before.rows[row].get(it) != seen.get(it)))}")
    print(f"rows over bytes: {len(before.rows) - len(others)} of {len(before.rows)} are the same")


def main() -> None:
    if len(sys.argv) not in (2, 3) or sys.argv[1] in ("-h", "--help"):
        sys.exit(__doc__)
    before = Cases(sys.argv[1])
    if len(sys.argv) == 2:
        for crate, module, test in before.tests:
            print(f"test {crate} {module}::{test}")
        for crate, edit in before.edits:
            print(f"edit {crate} {edit}")
        print_counts(before)
        return
    after = Cases(sys.argv[2])
    names = collections.Counter(test for _, _, test in before.tests)
    names.subtract(test for _, _, test in after.tests)
    for crate, module, test in before.tests:
        if names[test] > 0 and test not in after.row_names:
            print(f"test {crate} {module}::{test}")
    compare_rows(before, after)
    edits = collections.Counter(edit for _, edit in before.edits)
    edits.subtract(edit for _, edit in after.edits)
    for crate, edit in before.edits:
        if edits[edit] > 0:
            print(f"edit {crate} {edit}")
    texts = [item for item in after.values if isinstance(item, bytes)]
    fewer = []
    for item, count in before.values.items():
        stands = isinstance(item, bytes) and len(item) > 4 and any(item in text for text in texts)
        if after.values[item] < count and not stands:
            fewer.append((item, count, after.values[item]))
    for item, count, rest in sorted(fewer, key=lambda row: (row[2] > 0, str(row[0]))):
        print(f"value {count} to {rest}: {item!r}"[:200])
    print_counts(before)
    print_counts(after)


if __name__ == "__main__":
    main()
