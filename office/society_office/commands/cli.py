"""The words of the command `society-office`; each command reads its words here and leaves the work to the module of its subject."""

import contextlib
import errno
import gc
import json
import os
import pathlib
import sys
from collections.abc import Iterator
from typing import Any

import click

from society_office import __version__
from society_office.basics import signals
from society_office.basics.errors import OfficeError
from society_office.basics.terminal import doing, drop_output, prepare_streams, say
from society_office.book.copy import beside
from society_office.book.soundness import need_sound
from society_office.checks import checking, checking_output, why, why_output
from society_office.closings.orders import LAST_POOL
from society_office.closings.pool_ties import ties_of
from society_office.commands import account_commands, closing_commands, decision_commands, dues_commands, money_commands, standby_commands
from society_office.commands import work_commands
from society_office.commands.command_words import COPY_HELP, NUMBER, PATH, POOL, PROGRAM_HELP, WRONG, Command, fail, known_of
from society_office.commands.command_words import looked_up, noted, with_decisions
from society_office.credits import parties, statement_output
from society_office.credits.spans import Span
from society_office.credits.statements import Statements
from society_office.offices.program import Office, ReplayOffice, find_program, open_whole, trial_of
from society_office.payments import every_command as payments
from society_office.printed.pages import write_out
from society_office.printed.site import write_site
from society_office.watch import findings, health

# Objects that are made before rings of them are looked for.
MOST_NEW = 100_000
# How the proxy's users of stations are named.
STATION = "station-"


class Commands(click.Group):
    """A group whose commands end with one line on standard error where something is wrong."""

    def main(self, *words: Any, **extra: Any) -> Any:
        """Runs a command; an OfficeError is printed, and the status is 1."""
        prepare_streams()
        try:
            try:
                with signals.heeded():
                    return super().main(*words, **extra)
            finally:
                # (what can't be written is told here, and not by Python when it ends)
                sys.stdout.flush()
        except OfficeError as error:
            fail(str(error))
        except OSError as error:
            if error.filename is None:
                drop_output()
            # (a reader that has gone away, as head does, is no fault)
            if error.errno == errno.EPIPE:
                sys.exit(WRONG)
            fail(f"{error.filename}: {error.strerror}" if error.filename else f"standard output: {error.strerror or error}")


@click.group(cls=Commands, context_settings={"help_option_names": ["-h", "--help"], "max_content_width": 100})
@click.version_option(__version__)
def main() -> None:
    """Statements, orders, checks and pages for the people of the office.

    Each command reads a copy of the office's file, never the file of an office that runs, or asks the office by its
    own requests. Nothing is ever written to a copy.
    """
    # What is read stays until the end: to look through it for rings of objects every few hundred of them takes a tenth of the time.
    gc.set_threshold(MOST_NEW)


@main.command(cls=Command, epilog=COPY_HELP, short_help="What an account was credited, and for which works.")
@click.argument("copy", type=PATH)
@click.argument("key", required=False)
@click.option("--since", type=POOL, default=1, metavar="POOL", help="Only the pools from this number on.")
@click.option("--until", type=POOL, default=LAST_POOL, metavar="POOL", show_default=False, help="Only the pools up to this number.")
@click.option("--format", "form", type=click.Choice(["table", "csv", "html", "pdf"]), default="table", help="How it is written.")
@click.option("--output", type=PATH, help="The file to write; a PDF needs one. Without it, standard output.")
@click.option(
    "--all", "everybody", is_flag=True, help="A statement for each account and publisher, but for UNCLAIMED, into the folder of --into."
)
@click.option(
    "--into",
    type=PATH,
    metavar="FOLDER",
    help="With --all: writes FOLDER/KEY/index.html and statement.csv for each KEY.",
)
@click.option("--pdf", is_flag=True, help="With --all: writes FOLDER/KEY/statement.pdf too.")
@with_decisions
def statement(
    copy: pathlib.Path,
    key: str | None,
    since: int,
    until: int,
    form: str,
    output: pathlib.Path | None,
    everybody: bool,
    into: pathlib.Path | None,
    pdf: bool,
    folder: pathlib.Path | None,
) -> None:
    """What an account was credited, and for which works.

    KEY is an account (I00000000199, PPB000000012A1, UNCLAIMED) or a sender of files (PB000000012), whose statement tells what its works
    earned for all accounts. Sums stand by pool, by work and in all; where the sum is not the account's balance, that is said and the
    status is 1.
    """
    if everybody == (key is not None):
        raise click.UsageError("give a KEY, or --all without one")
    if everybody != (into is not None):
        raise click.UsageError("--all and --into belong together")
    if everybody and (form != "table" or output):
        raise click.UsageError("--format and --output are of one statement: --all writes pages and CSV, with --pdf also PDF")
    if pdf and not everybody:
        raise click.UsageError("--pdf belongs to --all: one statement is a PDF by --format pdf")
    if form == "pdf" and output is None:
        raise click.UsageError("a PDF needs --output FILE")
    if until < since:
        raise click.UsageError(f"--until {until} is below --since {since}")
    span = Span(since, until)
    with open_whole(copy) as opened:
        known = known_of(noted(opened), folder)
        names = known.pools if known else {}
        if into is not None:
            need_sound(opened, sums=True)
            sys.exit(statement_output.write_each(opened, names, ties_of(opened, known).all_notes(), span, into, pdf))
        statements = Statements(opened)
        if form == "csv":
            found = statement_output.write_csv(statements, key or "", names, span, output)
            if not found.sums.count:
                say(f"{found.key}: {statement_output.verdict(found)}", error=True)
        else:
            found = statements.of(key or "", *span)
            statement_output.write(found, names, ties_of(opened, known).all_notes(), form, output, opened.taken)
    if not found.agrees:
        fail(f"{found.key} has credits of {found.total:,} units, and a balance of {found.balance:,}: ask `society audit` about the copy")


@main.command("parties", cls=Command, epilog=COPY_HELP, short_help="The names of accounts.")
@click.argument("copy", type=PATH)
@click.option("--format", "form", type=click.Choice(["csv", "json"]), default="csv", help="How it is written.")
@click.option("--output", type=PATH, help="The file to write; without it, standard output.")
def list_parties(copy: pathlib.Path, form: str, output: pathlib.Path | None) -> None:
    """The names of accounts: by IPI name number, and by a publisher's own number of a party.

    They come from the records of publishers and writers in the last version of each work. Where an account is written in more than one
    way, the name that most works have comes first.
    """
    with open_whole(copy) as opened:
        found = parties.parties(noted(opened))
    write_out(parties.as_json(found) + "\n" if form == "json" else parties.as_csv(found), output)


@contextlib.contextmanager
def asked_office(
    copy: pathlib.Path | None, address: str | None, access: dict[str, Any], program: str | None, own: tuple[int, int, str]
) -> Iterator[Any]:
    """Where files are tried, with its society and territory: a trial office, one over a throw-away copy, else an empty one."""
    if copy:
        with open_whole(copy) as opened, trial_of(find_program(program), noted(opened)) as trial:
            yield trial.office, opened.society, opened.territory
        return
    society, territory, name = own
    words = ["--society", str(society), "--territory", str(territory), f"--name={name}"]
    office: Any = Office(address, **access) if address else ReplayOffice(find_program(program), words)
    try:
        if address:
            checking.need_trial(office, address)
        yield office, society, territory
    finally:
        office.close()


@main.command(short_help="Every fault of files, before they are sent.")
@click.argument("files", nargs=-1, required=True, type=PATH)
@click.option(
    "--office",
    "address",
    metavar="URL",
    help="A trial office to ask, as https://office.example:8444; not the office itself.",
)
@click.option("--user", default="", help="With --office: the user. The password is asked for, or stands in $SOCIETY_PASSWORD.")
@click.option("--reporter", metavar="NAME", help="The station whose returns are tried (default: that of a user station-NAME).")
@click.option("--authority", type=PATH, metavar="FILE", help="With --office: the certificate to trust, where it is no public one.")
@click.option(
    "--wait",
    type=click.IntRange(1, 86_400),
    default=60,
    show_default=True,
    metavar="SECONDS",
    help="With --office: an answer is waited for no longer.",
)
@click.option("--copy", type=PATH, help="Check against what this copy has registered: the program serves a throw-away copy of it.")
@click.option("--program", metavar="FILE", help=PROGRAM_HELP)
@click.option("--society", default=900, show_default=True, help="Number of the society; of a copy, its own.")
@click.option("--territory", default=40, show_default=True, help="Territory of the office; of a copy, its own.")
@click.option("--name", default="EXAMPLE SOCIETY", show_default=True, help="Name of the office; of a copy, its own.")
@click.option("--brief", is_flag=True, help="A line for each work with its verdict, without the places of faults.")
@click.option("--json", "as_json_text", is_flag=True, help="All of it as JSON.")
def check(
    files: tuple[pathlib.Path, ...],
    address: str | None,
    user: str,
    reporter: str | None,
    authority: pathlib.Path | None,
    wait: int,
    copy: pathlib.Path | None,
    program: str | None,
    society: int,
    territory: int,
    name: str,
    brief: bool,
    as_json_text: bool,
) -> None:
    """Every fault of files, before they are sent: of works (CWR) and of plays (CSV).

    FILES are tried in the order given. Those of works go under the numbers behind what the office has of their sender, or under
    their names by year (CW260001EXA_900.V22), and the ends between the years are stated for them. Without --office and --copy
    the office is an empty one: give all files of a sender from its first one on. Status 1: something was refused, rejected or
    waits.
    """
    if address and copy:
        raise click.UsageError("give --office or --copy, not both")
    access: dict[str, Any] = {"user": user, "authority": str(authority) if authority else None, "seconds": wait}
    if address and user:
        access["password"] = os.environ.get("SOCIETY_PASSWORD") or click.prompt("Password", hide_input=True, err=True)
    read = checking.read_files(files)
    station = user.removeprefix(STATION) if user.startswith(STATION) else ""
    with asked_office(copy, address, access, program, (society, territory, name)) as (office, number, land):
        found = checking.check(office, number, land, read, reporter or station or checking.TRIAL_REPORTER, keeps=bool(address))
    if as_json_text:
        say(json.dumps(checking_output.as_data(found), ensure_ascii=False, indent=1))
    else:
        for line in checking_output.brief_lines(found) if brief else checking_output.full_lines(found):
            say(line)
    if not found.is_clean:
        sys.exit(WRONG)


@main.command("why", epilog=COPY_HELP, short_help="What became of a sender's files.")
@click.argument("copy", type=PATH)
@click.argument("sender")
@click.option("--format", "form", type=click.Choice(list(why_output.FORMS)), default="table", help="How it is written.")
def tell_why(copy: pathlib.Path, sender: str, form: str) -> None:
    """What became of the files that a sender has sent, and what was registered since.

    SENDER is its key, as PB000000012. Files that wait are listed with what they wait for, and rejected works with every fault, its line,
    record and field, its cure, and what is registered under their number now.
    """
    with open_whole(copy) as opened:
        sys.stdout.write(why_output.FORMS[form](why.story(noted(opened), sender)))


@main.command("health", short_help="Whether the office is well.")
@click.option("--office", "address", default="http://127.0.0.1:8080", show_default=True, metavar="URL", help="The office to ask.")
@click.option("--user", default="", help="The user, where a proxy asks for one; the password stands in $SOCIETY_PASSWORD.")
@click.option("--authority", metavar="FILE", help="The certificate to trust, where it is no public one.")
@click.option("--db", "database", type=PATH, metavar="FILE", help="The office's file: whether it is what the office writes, and its start.")
@click.option("--disk", type=PATH, metavar="FOLDER", help="The folder whose disk is looked at (default: that of --db).")
@click.option("--backups", type=PATH, metavar="FOLDER", help="The folder of the backups (*.db).")
@click.option("--state", type=PATH, metavar="FILE", help="Where fronts, and what was said of a backup, are kept for next time.")
@click.option("--certificate", metavar="WHERE", help="The proxy's certificate: a file, or host:port.")
@click.option("--standby", type=PATH, metavar="FILE", help="What `resend --state` keeps of a standby.")
@click.option("--decisions", type=PATH, metavar="FOLDER", help="The folder of decisions, and what a new machine needs.")
@click.option("--program", metavar="FILE", help="The program that audits the backup (default: `society` on the PATH).")
@click.option("--seconds", type=NUMBER, default=5.0, show_default=True, help="An answer takes no longer.")
@click.option("--memory", type=NUMBER, default=67.0, show_default=True, help="A start needs so many percent of the memory it may take.")
@click.option("--free", type=NUMBER, default=10.0, show_default=True, help="The disk has so many percent free.")
@click.option("--hours", type=NUMBER, default=30.0, show_default=True, help="The newest backup is no older.")
@click.option("--days", type=NUMBER, default=14.0, show_default=True, help="The certificate has as many days left.")
@click.option("--minutes", type=NUMBER, default=15.0, show_default=True, help="The standby has been behind for no longer.")
@click.option("--json", "form", flag_value="json", help="As JSON.")
@click.option("--metrics", "form", flag_value="metrics", help="As text for Prometheus.")
def tell_health(**given: Any) -> None:
    """Whether the office is well: a line for each thing that was looked at.

    It answers in time; no front is lower than it was last time or in the newest backup; the office writes the file of --db, its
    log is whole, and its next start has the memory that it needs; the disk has room; the newest backup is young, and the program
    finds it sound, and the office has its returns and pools; the certificate has days left; a standby has all that came; the folder of
    decisions is as its journal says. What is not named is not looked at. Status 0: all is
    well, 1: something is to be looked at, 2: something is wrong.
    """
    password = os.environ.get("SOCIETY_PASSWORD", "")
    names = ("address", "user", "authority", "database", "disk", "backups", "state", "program", "certificate", "standby", "decisions")
    if given["database"] is not None and given["disk"] is None:
        given["disk"] = beside(given["database"], "").parent
    looked = health.Looked(password=password, **{it: given[it] for it in names})
    limits = ("seconds", "memory", "free", "hours", "days", "minutes")
    found = health.look(looked, health.Limits(*(given[it] for it in limits)))
    text = {"json": findings.as_json, "metrics": findings.as_metrics}.get(given["form"], findings.as_lines)(found)
    try:
        sys.stdout.write(text)
        sys.stdout.flush()
    except OSError as error:
        if error.errno == errno.EPIPE:
            raise
        # (status 1 would say that something is to be looked at, which is no failure to those who ask for the status alone)
        drop_output()
        say(f"society-office: standard output: {error.strerror or error}", error=True)
        sys.exit(findings.WRONG)
    sys.exit(findings.worst(found))


@main.command(epilog=COPY_HELP, short_help="Pages of the whole office.")
@click.argument("copy", type=PATH)
@click.option("--into", type=PATH, required=True, metavar="FOLDER", help="The folder of the pages; it is made where it is not there.")
@with_decisions
def site(copy: pathlib.Path, into: pathlib.Path, folder: pathlib.Path | None) -> None:
    """Pages of the whole office: senders with their gaps, rejected works, pools, stations, returns and balances.

    They are static, need no script, and can be read on a phone and printed. Make them every night from the backup.
    """
    with open_whole(copy) as opened, doing("reading") as tell:
        need_sound(noted(opened), sums=True)
        count = write_site(opened, into, looked_up(opened, folder), tell)
    say(f"{count:,} files in {into}; begin with {into / 'index.html'}")


MODULES = (account_commands, closing_commands, decision_commands, dues_commands, money_commands, payments, standby_commands, work_commands)
for module in MODULES:
    for command in module.COMMANDS:
        main.add_command(command)
