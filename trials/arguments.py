"""Arguments of the program, and what it writes of them. They stand parted by `|`."""
import pathlib
from program import run, run_row, told, trial
from served import Ended

# Arguments that are taken, or whose name is none: the status, and the whole of standard error.
TAKEN = [
    ("replay|--society|900|--territory|40|--name|X", 0, ""),
    ("replay|--name|X|--territory|40|--society|900", 0, ""),
    ("replay|--society=0900|--territory=+40|--name=-X", 0, ""),
    ("replay|--society|900|--territory|00040|--name|X", 0, ""),
    ("replay|--society|900|--territory|40|--name|", 2, "society: bad name\n"),
    ("replay|--society|900|--territory|40|--name|caf\u00e9", 2, "society: bad name\n"),
]

# Arguments that are wrong: how standard error begins, where `clap` says what is wrong. The status is 2.
WRONG = [
    ("", "error: 'society' requires a subcommand but one was not provided\n"),
    ("report", "error: unrecognized subcommand 'report'\n"),
    ("help", "error: unrecognized subcommand 'help'\n"),
    ("replay|--territory|40|--name|X", "error: the following required arguments were not provided:\n  --society <N>\n"),
    ("replay|--society|900|--name|X", "error: the following required arguments were not provided:\n  --territory <N>\n"),
    ("replay|--society|900|--territory|40", "error: the following required arguments were not provided:\n  --name <TEXT>\n"),
    ("replay|--society|900|--society|900|--territory|40|--name|X", "error: the argument '--society <N>' cannot be used multiple times\n"),
    ("replay|--society|1000|--territory|40|--name|X", "error: invalid value '1000' for '--society <N>': 1000 is not in 1..=999\n"),
    ("replay|--society|0|--territory|40|--name|X", "error: invalid value '0' for '--society <N>': 0 is not in 1..=999\n"),
    ("replay|--society|900|--territory|10000|--name|X", "error: invalid value '10000' for '--territory <N>': 10000 is not in 1..=9999\n"),
    ("replay|--society||--territory|40|--name|X", "error: invalid value '' for '--society <N>': cannot parse integer from empty string\n"),
    ("replay|--society|900|--territory|40|--name|X|Y", "error: unexpected argument 'Y' found\n"),
    ("replay|--port|1|--society|900|--territory|40|--name|X", "error: unexpected argument '--port' found\n"),
    (
        "serve|--society|900|--territory|40|--name|X",
        "error: the following required arguments were not provided:\n  --db <PATH>\n  --port <N>\n  --connections <N>\n",
    ),
    (
        "serve|--db|F|--port|0|--connections|1|--society|900|--territory|40|--name|X",
        "error: invalid value '0' for '--port <N>': 0 is not in 1..=65535\n",
    ),
    (
        "serve|--db|F|--port|65536|--connections|1|--society|900|--territory|40|--name|X",
        "error: invalid value '65536' for '--port <N>': 65536 is not in 1..=65535\n",
    ),
    (
        "serve|--db|F|--port|1|--connections|0|--society|900|--territory|40|--name|X",
        "error: invalid value '0' for '--connections <N>': 0 is not in 1..=1000000\n",
    ),
    (
        "serve|--db|F|--port|1|--connections|1|--patience|0|--society|900|--territory|40|--name|X",
        "error: invalid value '0' for '--patience <SECONDS>': 0 is not in 1..=86400\n",
    ),
    (
        "serve|--db|F|--port|1|--connections|1|--patience|86401|--society|900|--territory|40|--name|X",
        "error: invalid value '86401' for '--patience <SECONDS>': 86401 is not in 1..=86400\n",
    ),
    (
        "serve|--db|F|--port|1|--connections|1000001|--society|900|--territory|40|--name|X",
        "error: invalid value '1000001' for '--connections <N>': 1000001 is not in 1..=1000000\n",
    ),
    (
        "replay|--territory|40|--society|900|--territory|40|--name|X",
        "error: the argument '--territory <N>' cannot be used multiple times\n",
    ),
    ("replay|--name|X|--society|900|--territory|40|--name|X", "error: the argument '--name <TEXT>' cannot be used multiple times\n"),
    (
        "serve|--db|F|--port|1|--port|1|--connections|1|--society|900|--territory|40|--name|X",
        "error: the argument '--port <N>' cannot be used multiple times\n",
    ),
    (
        "serve|--db|F|--port|1|--connections|1|--connections|1|--society|900|--territory|40|--name|X",
        "error: the argument '--connections <N>' cannot be used multiple times\n",
    ),
    (
        "serve|--db|F|--connections|1|--society|900|--territory|40|--name|X",
        "error: the following required arguments were not provided:\n  --port <N>\n",
    ),
    (
        "serve|--db|F|--port|1|--society|900|--territory|40|--name|X",
        "error: the following required arguments were not provided:\n  --connections <N>\n",
    ),
    (
        "serve|--db|F|--port||--connections|1|--society|900|--territory|40|--name|X",
        "error: invalid value '' for '--port <N>': cannot parse integer from empty string\n",
    ),
    (
        "serve|--db|F|--port|1|--connections|1|--society|900|--territory|40|--name",
        "error: a value is required for '--name <TEXT>' but none was supplied\n",
    ),
    (
        "serve|--existing|--existing|--db|F|--port|1|--connections|1|--society|900|--territory|40|--name|X",
        "error: the argument '--existing' cannot be used multiple times\n",
    ),
    ("replay|--existing|--society|900|--territory|40|--name|X", "error: unexpected argument '--existing' found\n"),
    ("audit|--society|900|--territory|40|--name|X", "error: the following required arguments were not provided:\n  --db <PATH>\n"),
    ("audit|--db|F|--port|1|--society|900|--territory|40|--name|X", "error: unexpected argument '--port' found\n"),
    ("replay|--society|900|--territory|40|--name|-X", "error: unexpected argument '-X' found\n"),
    # Arguments are looked at before the name.
    ("replay|--society|x|--territory|40|--name|", "error: invalid value 'x' for '--society <N>': invalid digit found in string\n"),
]

# What `--help` tells.
HELP = """\
Works registry and royalty office of an authors' society

Usage: society <COMMAND>

Commands:
  replay  Answer the requests on standard input on standard output
  serve   Listen on this machine and answer the requests of connections
  audit   Tell whether a file holds the office's book, and write nothing to it
  credit  Tell what the orders on standard input would credit, and why

Options:
  -h, --help  Print help
"""

# What `serve --help` tells.
SERVE_HELP = """\
Listen on this machine and answer the requests of connections

Usage: society serve [OPTIONS] --db <PATH> --port <N> --connections <N> --society <N> --territory <N> --name <TEXT>

Options:
      --db <PATH>           File of the office's database, made where there is none
      --existing            Serve only a file that holds an office already
      --port <N>            Port of this machine, 1 to 65535
      --connections <N>     Connections to serve, one after another, 1 to 1000000
      --patience <SECONDS>  Longest wait for a peer in all, and again for each MiB that moves, 1 to 86400, else 300
      --society <N>         Number of the society, 1 to 999
      --territory <N>       Territory of the office, 1 to 9999
      --name <TEXT>         Name of the office, 1 to 45 bytes of printable ASCII
  -h, --help                Print help
"""

# What `audit --help` tells.
AUDIT_HELP = """\
Tell whether a file holds the office's book, and write nothing to it

Usage: society audit --db <PATH> --society <N> --territory <N> --name <TEXT>

Options:
      --db <PATH>      File of the office's database
      --society <N>    Number of the society, 1 to 999
      --territory <N>  Territory of the office, 1 to 9999
      --name <TEXT>    Name of the office, 1 to 45 bytes of printable ASCII
  -h, --help           Print help
"""

# What `credit --help` tells.
CREDIT_HELP = AUDIT_HELP.replace(
    "Tell whether a file holds the office's book, and write nothing to it", "Tell what the orders on standard input would credit, and why"
)
CREDIT_HELP = CREDIT_HELP.replace("society audit", "society credit")

# Arguments that ask for help, and what it tells.
HELPS = [("--help", HELP), ("-h", HELP), ("serve|--help", SERVE_HELP), ("audit|--help", AUDIT_HELP), ("credit|--help", CREDIT_HELP)]


@trial
def words_that_are_taken(program: pathlib.Path, folder: pathlib.Path) -> None:
    for row, status, line in TAKEN:
        ended = run_row(program, folder, row)
        told(row, (ended.err, ended.status), (line.encode(), status))
        told(row, ended.out == b"", status != 0)


@trial
def words_that_are_wrong(program: pathlib.Path, folder: pathlib.Path) -> None:
    for row, line in WRONG:
        ended = run_row(program, folder, row)
        told(row, Ended(ended.out, ended.err[: len(line)], ended.status), Ended(b"", line.encode(), 2))


@trial
def words_that_are_no_text(program: pathlib.Path, folder: pathlib.Path) -> None:
    told("no text", run(program, folder, [b"replay", b"\xff"]), Ended(b"", b"society: bad words\n", 2))


@trial
def help_is_told(program: pathlib.Path, folder: pathlib.Path) -> None:
    for row, text in HELPS:
        told(row, run_row(program, folder, row), Ended(text.encode(), b"", 0))
