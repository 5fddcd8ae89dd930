"""The command `society-office`, run in the process of the tests."""

import os
import re

from click.testing import CliRunner
from society_office.commands.cli import main

# A word of a command that is started.
Word = str | os.PathLike[str]


def run(*words: object, status: int = 0, out: bool = False) -> str:
    """What the command prints on standard output, or where it fails on standard error, but for what is said of the decisions; it has to end
    with this status."""
    ended = CliRunner(mix_stderr=False).invoke(main, [str(it) for it in words], catch_exceptions=False)
    assert ended.exit_code == status, (ended.output, ended.stderr)
    return ended.output if status == 0 or out else re.sub(r"\Adecisions of .* old\n", "", ended.stderr)
