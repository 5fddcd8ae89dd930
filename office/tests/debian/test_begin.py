"""How society-begin reads the settings of an office, whose name stays for ever, and that it takes away nothing that was answered."""

import pathlib
import subprocess

import pytest
from conftest import OFFICE, ROOT, running
from society_office.offices.program import Office, free_port

BEGIN = ROOT / "debian/bin/society-begin"
# What reads a setting, without what needs root.
READING = """settings=$1; refuse() { echo "refused: $1"; exit 1; }; eval "$(sed -n '/^value_of()/,/^}/p' "$2")"; value_of NAME"""
AROUND = "quotes in NAME that are not around the whole of it"


@pytest.mark.parametrize(
    "line, said",
    [
        ('NAME="EXAMPLE SOCIETY"', "EXAMPLE SOCIETY"),
        ("NAME='EXAMPLE SOCIETY'  ", "EXAMPLE SOCIETY"),
        ("NAME=EXAMPLE SOCIETY", "EXAMPLE SOCIETY"),
        ("NAME=A\r\nNAME=B\r", "B"),
        ("""NAME='THE "GOOD" SOCIETY'""", 'THE "GOOD" SOCIETY'),
        ("NAME=O'NEILL", "O'NEILL"),
        ('NAME=""', "refused: SETTINGS has no NAME"),
        ("#NAME=A", "refused: SETTINGS has no NAME"),
        ("NAME=A\\B", "refused: SETTINGS has a backslash in NAME"),
        *((it, f"refused: SETTINGS has {AROUND}") for it in ('NAME="A" # ours', 'NAME="', 'NAME="A"B"')),
    ],
)
def test_a_setting(line: str, said: str, tmp_path: pathlib.Path) -> None:
    settings = tmp_path / "office.conf"
    settings.write_text(f"# The office.\n{line}\n", newline="")
    done = subprocess.run(["bash", "-euc", READING, "bash", settings, BEGIN], capture_output=True, text=True, check=False)
    assert (done.stdout + done.stderr).replace(str(settings), "SETTINGS") == f"{said}\n"


# In the place of the program: a return is put before the script hears that the office listens.
FASTER = """#!/bin/bash
[ "$1" = serve ] || exec PROGRAM "$@"
coproc PROGRAM "$@"
office=$COPROC_PID
read -r line <&"${COPROC[0]}"
curl -q -s --noproxy '*' -H Expect: -X PUT --data-binary $'isrc,plays,seconds\n' http://127.0.0.1:PORT/v1/returns/TV9/1 > put
wait "$office"
echo "$line"
"""


@pytest.mark.parametrize("is_faster", [True, False])
def test_what_another_has_put_stays(program: str, tmp_path: pathlib.Path, is_faster: bool) -> None:
    port, script, other = free_port(), tmp_path / "begin", tmp_path / "other"
    society, territory, name = OFFICE[1::2]
    (tmp_path / "office.conf").write_text(f"SOCIETY={society}\nTERRITORY={territory}\nNAME={name}\nPORT={port}\n")
    other.write_text(FASTER.replace("PROGRAM", program).replace("PORT", str(port)))
    other.chmod(0o755)
    text = BEGIN.read_text()
    for old, new in {
        "/etc/society": str(tmp_path),
        "/var/lib/society": str(tmp_path),
        'setpriv --reuid "$owner" --regid "$(id -g "$owner")" --clear-groups -- /usr/bin/society': str(other) if is_faster else program,
        '[ "$(id -u)" = 0 ]': "true",
    }.items():
        assert old in text
        text = text.replace(old, new)
    script.write_text(text)
    done = subprocess.run(["bash", script], cwd=tmp_path, capture_output=True, text=True, check=False, timeout=60)
    assert (done.returncode, done.stderr) == (0, "") and done.stdout.startswith(f"begun: society {society}, territory {territory}, {name}")
    with running(program, tmp_path / "office.db", port, "--existing", "--connections", "1"):
        office = Office(f"http://127.0.0.1:{port}")
        assert office.ask("PUT", "/v1/returns/TV9/1", b"isrc,plays,seconds\n").status == (200 if is_faster else 201)
        office.close()


@pytest.mark.parametrize("words, status", [(["--help"], 0), (["-h"], 0), (["--name", "X"], 2), (["x"], 2)])
def test_a_word_begins_no_office(words: list[str], status: int) -> None:
    done = subprocess.run([BEGIN, *words], capture_output=True, text=True, check=False)
    assert (done.returncode, done.stdout) == (status, "") and done.stderr.startswith("usage: society-begin, as root")
