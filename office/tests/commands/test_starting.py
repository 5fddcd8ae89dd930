"""How the command starts: Ctrl-C at any moment of it, and a clock that is out of range, are told in a line at most."""

import os
import pathlib
import signal
import subprocess
import time
from collections.abc import Iterator

import pytest
from conftest import ROOT

LAUNCHER = str(ROOT / "office/society-office")
TRIES = 12


@pytest.fixture(autouse=True)
def heeded() -> Iterator[None]:
    """What is started in the background ignores Ctrl-C; that is not so while a test runs."""
    before = signal.signal(signal.SIGINT, signal.default_int_handler)
    yield
    signal.signal(signal.SIGINT, before)


def interrupted(seconds: float) -> str:
    """What is said where Ctrl-C comes after some seconds."""
    words = [LAUNCHER, "statement", "/nowhere.db", "X"]
    with subprocess.Popen(words, stdout=subprocess.PIPE, stderr=subprocess.STDOUT, text=True) as process:
        time.sleep(seconds)
        process.send_signal(signal.SIGINT)
        said = process.communicate()[0]
        assert process.returncode in (1, -signal.SIGINT)
        return said


def test_ctrl_c_while_it_starts() -> None:
    begun = time.monotonic()
    subprocess.run([LAUNCHER, "--version"], check=True, capture_output=True)
    whole = time.monotonic() - begun
    said = [interrupted(whole * it / TRIES) for it in range(TRIES)]
    assert [it for it in said if len(it.splitlines()) > 1 or "Traceback" in it] == []


def test_what_ignores_ctrl_c_goes_on() -> None:
    """As under nohup, or in the background of a script."""
    words = ["bash", "-c", f"trap '' INT; {LAUNCHER} --version & kill -INT $!; sleep 0.1; kill -INT $!; wait $!"]
    done = subprocess.run(words, capture_output=True, text=True, check=False)
    assert (done.returncode, done.stderr) == (0, "") and done.stdout.startswith("society-office, version ")


def test_a_clock_that_is_out_of_range(tmp_path: pathlib.Path) -> None:
    """Python itself tells no time behind the year 2262."""
    (tmp_path / "sitecustomize.py").write_text(
        "import time\n\ndef late():\n    raise OverflowError('timestamp too large to convert to C _PyTime_t')\n\ntime.time = late\n"
    )
    environment = {**os.environ, "PYTHONPATH": str(tmp_path)}
    done = subprocess.run([LAUNCHER, "--version"], env=environment, capture_output=True, text=True, check=False)
    assert (done.returncode, done.stdout) == (1, "")
    assert done.stderr == "society-office: the machine's clock says a year that is out of range: set it\n"
