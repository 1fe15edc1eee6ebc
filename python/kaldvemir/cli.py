"""The command-line program: a census in a database, opened, worked on, looked at and checked.

Exit status: 0, or 2 where a call was refused or the command line is wrong, 1 where something failed or differs, and 130 after Ctrl-C.
"""

from __future__ import annotations

import functools
import getpass
import os
import socket
import sys
import time
from collections.abc import Callable, Iterator
from typing import Any

import click
from rich.console import Console
from rich.live import Live
from rich.progress import BarColumn, MofNCompleteColumn, Progress, TextColumn, TimeRemainingColumn

from . import __version__
from .book import Book
from .census import Census, Damage, Problem, Snapshot, Store, Unreachable, connect
from .census.audit import audit as audited
from .census.audit import committed
from .census.formats import FORMATS, header, last_line
from .census.report import drawn, headline, plain, report, show
from .census.session import LEASE, Session
from .census.supervisor import Supervisor
from .census.worker import BLOCK, PROGRESS, Stop, Worker, describe
from .diagrams import Diagram
from .lists import at
from .refusals import Refused

DATABASE = "kaldvemir.db"
PATIENCE = 30.0
"""Seconds after which a worker takes a session that it waits for to be stopped; the lease, where that is shorter."""


def _guarded(command: Callable[..., None]) -> Callable[..., None]:
    """Problems and refusals as a line and an exit status."""

    @functools.wraps(command)
    def guarded(**options: Any) -> None:
        try:
            command(**options)
        except Refused as refusal:
            click.echo(f"kaldvemir: {refusal}", err=True)
            sys.exit(2)
        except Problem as problem:
            click.echo(f"kaldvemir: {problem}", err=True)
            sys.exit(1)
        except BrokenPipeError:
            # The reader of standard output has gone: what it has is not whole, and nothing more can be written there.
            os.dup2(os.open(os.devnull, os.O_WRONLY), sys.stdout.fileno())
            click.echo("kaldvemir: standard output was closed before everything was written", err=True)
            sys.exit(1)

    return guarded


def _options(*, census: bool = True) -> Callable[[Callable[..., None]], Callable[..., None]]:
    """The options that say which census of which database is meant."""

    def add(command: Callable[..., None]) -> Callable[..., None]:
        command = _guarded(command)
        if census:
            command = click.option("--census", type=int, metavar="ID", help="The census, where the database has several.")(command)
        return click.option(
            "--db",
            default=DATABASE,
            envvar="KALDVEMIR_DB",
            show_default=True,
            metavar="FILE|postgresql://..",
            help="A file of SQLite, for one machine, or a PostgreSQL server, for several.",
        )(command)

    return add


def _say(line: str) -> None:
    click.echo(time.strftime("%Y-%m-%d %H:%M:%S ") + line)
    sys.stdout.flush()


def _warned(store: Store) -> None:
    for warning in store.warnings():
        click.echo(f"kaldvemir: warning: {warning}", err=True)


@click.group(context_settings={"help_option_names": ["-h", "--help"], "max_content_width": 100})
@click.version_option(__version__, prog_name="kaldvemir")
def main() -> None:
    """A census of rooted trivalent diagrams (subgroups of the modular group), divided among sessions and kept in a database.

    Every decision is the proved library's: each class comes into the table once, and none twice, whatever order sessions claim, wake
    late, commit or release.
    """


@main.command("open")
@click.option("--size", type=int, required=True, help="The size (index) of the diagrams, 1 to 50.")
@click.option("--shares", type=int, required=True, help="The number of shares, 1 to 32: as many sessions can work at a time.")
@click.option("--tick", type=click.FloatRange(min=0.001), default=1.0, show_default=True, help="The length of a tick in seconds.")
@click.option("--resume", is_flag=True, help="Go on with a census of this size and division, where there is one.")
@_options(census=False)
def open_census(db: str, size: int, shares: int, tick: float, resume: bool) -> None:
    """Open a census: a book with its shares, and an empty table."""
    Book.open(size, shares)  # so that a refusal comes before a file is made
    store = connect(db, create=True)
    _warned(store)
    census = store.open(size, shares, round(tick * 1000), resume=resume)
    click.echo(f"census {census.id} in {store.name}: size {census.size}, {census.shares} shares, rows in table {census.table}")


@main.command()
@click.option("--workers", type=click.IntRange(1, 1024), default=1, show_default=True, help="Workers on this machine.")
@click.option("--lease", type=click.FloatRange(min=0.001), default=LEASE, show_default=True, help="Seconds that a claim holds.")
@click.option("--block", type=click.IntRange(1), default=BLOCK, show_default=True, help="Rows of one transaction.")
@click.option("--name", help="What the report calls this worker.  [default: user@machine and the process]")
@click.option("--alone", is_flag=True, hidden=True, help="Work in this process, under a supervisor.")
@click.option("--progress", type=float, default=PROGRESS, hidden=True, help="Seconds between two lines that say how far it is.")
@_options()
def work(db: str, census: int | None, workers: int, lease: float, block: int, name: str | None, alone: bool, progress: float) -> None:
    """Work on a census until it is complete. Ctrl-C gives the tickets back.

    A lease that has less than a quarter left is renewed with the next block, which uses up one of the book's 65,535 tickets. A worker
    that dies leaves its share to others once its lease has lapsed.
    """
    console = Console()
    store = connect(db, patience=min(PATIENCE, lease))
    chosen = store.census(census)
    if not alone:
        _warned(store)
    if alone or (workers == 1 and not console.is_terminal):
        return _work_here(Session(store, chosen, name or _here(), lease), block, progress)
    # At a terminal the bars say how far it is.
    progress = 1e9 if console.is_terminal else progress
    command = ["work", "--alone", "--db", db, "--census", str(chosen.id), "--lease", str(lease), "--block", str(block)]
    command += ["--progress", str(progress)]
    if name:
        command += ["--name", name]
    tell = functools.partial(console.print, highlight=False, markup=False, soft_wrap=True)
    status = Supervisor(command, workers, tell).run(lambda: _looked(store, chosen), console)
    show(report(_looked(store, chosen)), console)
    sys.exit(status)


def _here() -> str:
    return f"{getpass.getuser()}@{socket.gethostname()} process {os.getpid()}"


def _work_here(session: Session, block: int, progress: float) -> None:
    stop = Stop()
    stop.listen()
    try:
        complete = Worker(session, stop, _say, block, progress).work()
    except Refused as refusal:
        raise describe(refusal) from refusal
    _say(f"census {session.census.id} is complete" if complete else "stopped")
    if not complete:
        sys.exit(128 + (stop.signal or 0))


def _looked(store: Store, census: Census) -> Snapshot:
    store.reconnect()
    return store.snapshot(census)


@main.command("report")
@click.option("--watch", is_flag=True, help="Look again every second, until the census is complete.")
@_options()
def report_census(db: str, census: int | None, watch: bool) -> None:
    """Show each share with its holder and the time left, the rate, and the time to go; of several censuses, a line each."""
    store, console = connect(db), Console()
    there = store.censuses()
    if census is None and len(there) > 1 and not watch:
        for each in there:
            click.echo(headline(report(store.snapshot(each))))
        return
    chosen = store.census(census)
    now = report(store.snapshot(chosen))
    if not watch:
        return show(now, console)
    try:
        if console.is_terminal:
            with Live(drawn(now), console=console) as live:
                for now in _watched(store, chosen):
                    live.update(drawn(now))
        else:
            for now in _watched(store, chosen):
                print(plain(now), flush=True)
    except KeyboardInterrupt:
        sys.exit(130)


def _watched(store: Store, census: Census) -> Iterator[Any]:
    while True:
        try:
            now = report(_looked(store, census))
        except Unreachable as problem:
            click.echo(f"kaldvemir: {problem}; trying again", err=True)
        else:
            yield now
            if now.complete:
                return
        time.sleep(1.0)


@main.command()
@click.option("--kept", is_flag=True, help="Only rows marked K: one of each conjugacy class.")
@click.option("--from", "first", type=click.IntRange(1), metavar="P", help="The first position.")
@click.option("--to", "last", type=click.IntRange(1), metavar="Q", help="The last position.")
@click.option("--format", "form", type=click.Choice(list(FORMATS)), default="census", show_default=True)
@_options()
def rows(db: str, census: int | None, kept: bool, first: int | None, last: int | None, form: str) -> None:
    """Print the rows that are in the table, in the order of positions.

    The whole table in the format `census` is what the census program prints, header and last line with it. While the census is not
    complete the last line is missing: a table without it is not whole.
    """
    store = connect(db)
    chosen = store.census(census)
    whole = form == "census" and not kept and first is None and last is None
    with store.reading(chosen) as reading:
        counted = {"listed": 0, "kept": 0}
        stretches = _within(committed(reading, chosen), first or 1, last)
        if whole:
            print(header(chosen.size))
        for line in FORMATS[form](_rows(reading, stretches, kept, counted)):
            print(line)
        if whole and reading.book.report().complete:
            print(last_line(counted["listed"], counted["kept"]))
        sys.stdout.flush()
        if not reading.book.report().complete:
            click.echo("kaldvemir: the census is not complete: these are the rows recorded so far", err=True)


def _within(stretches: list[tuple[int, int]], first: int, last: int | None) -> list[tuple[int, int]]:
    cut = [(max(a, first), b if last is None else min(b, last)) for a, b in stretches]
    return [(a, b) for a, b in cut if a <= b]


def _rows(reading: Any, stretches: list[tuple[int, int]], kept: bool, counted: dict[str, int]) -> Iterator[str]:
    step = 8_192
    for first, last in stretches:
        for start in range(first, last + 1, step):
            end = min(last, start + step - 1)
            lines = reading.text(start, end).decode().splitlines()
            if len(lines) != end - start + 1:
                raise Damage(
                    f"the table has {len(lines)} rows from {start} to {end}, where the book says that all are: run `kaldvemir audit`"
                )
            for line in lines:
                marked = line.endswith(" K")
                counted["listed"] += 1
                counted["kept"] += marked
                if marked or not kept:
                    yield line


@main.command()
@_options()
def audit(db: str, census: int | None) -> None:
    """Compare the whole table with the proved rows, byte for byte, and the book with the table.

    The rows are listed anew. Exits 1 at the first difference and names it. Sessions may go on meanwhile: one moment is compared.
    """
    store = connect(db)
    chosen = store.census(census)
    columns = (TextColumn("{task.description}"), BarColumn(), MofNCompleteColumn(), TimeRemainingColumn())
    with store.reading(chosen) as reading, Progress(*columns, transient=True, disable=not Console().is_terminal) as progress:
        total = sum(last - first + 1 for first, last in committed(reading, chosen))
        task = progress.add_task("rows compared", total=total)
        compared = audited(reading, chosen, lambda done: progress.update(task, completed=done))
        complete = reading.book.report().complete
    state = "complete: the table is the list" if complete else "not complete yet: the table is the part of the list that the book says"
    click.echo(
        f"census {chosen.id}, size {chosen.size}: {compared:,} rows agree with the proved rows, byte for byte, and the book agrees;"
        f" it is {state}"
    )


@main.command()
@click.argument("size", type=int, required=False)
@click.argument("position", type=int, required=False)
@click.option("--s0", metavar="LIST", help="The black list of a diagram, as 2,3,1.")
@click.option("--s1", metavar="LIST", help="Its white list.")
@click.option("--root", type=int, default=1, show_default=True, help="Its root.")
@click.option("-o", "--output", type=click.Path(dir_okay=False), help="The file to write.  [default: standard output]")
@_guarded
def draw(size: int | None, position: int | None, s0: str | None, s1: str | None, root: int, output: str | None) -> None:
    """Draw the diagram at POSITION of SIZE, or the one of --s0 and --s1, as an SVG.

    Edges leave a black vertex counterclockwise in the order of s0. A diagram of genus 0 is drawn in the plane by its own embedding.
    """
    if size is not None and position is not None and s0 is None and s1 is None:
        diagram = at(size, position)
    elif size is None and s0 is not None and s1 is not None:
        diagram = Diagram(_list(s0), _list(s1), root)
    else:
        raise click.UsageError("name a diagram by SIZE and POSITION, or by --s0 and --s1")
    text = diagram.picture()
    if output is None:
        click.echo(text)
    else:
        with open(output, "w", encoding="utf-8") as file:
            file.write(text)


def _list(text: str) -> list[int]:
    try:
        return [int(entry) for entry in text.split(",")]
    except ValueError as error:
        raise click.UsageError(f"{text} is no list of numbers parted by commas") from error
