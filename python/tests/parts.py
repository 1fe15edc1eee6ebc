"""Real parts for the tests: a PostgreSQL server that is started and ended here, and the program as processes."""

from __future__ import annotations

import glob
import itertools
import json
import os
import re
import shutil
import signal
import socket
import sqlite3
import subprocess
import sys
import tempfile
import threading
import time
from collections.abc import Callable
from pathlib import Path
from typing import Any

import psycopg
from click.testing import CliRunner

import kaldvemir
from kaldvemir.census.formats import header, last_line
from kaldvemir.cli import main

PACKAGE = Path(__file__).parents[1]


def postgresql_folder() -> str | None:
    """Where initdb and postgres are: on the PATH, or where Debian puts them."""
    for program in [shutil.which("initdb") or "", *sorted(glob.glob("/usr/lib/postgresql/*/bin/initdb"), reverse=True)]:
        if program:
            return os.path.dirname(os.path.realpath(program))
    return None


def memory_folder() -> str | None:
    """A folder in memory where there is one with room: a database for each test takes long to write to a disk, and to remove."""
    folder = "/dev/shm"
    return folder if os.path.isdir(folder) and shutil.disk_usage(folder).free > 2 << 30 else None


class Server:
    """A PostgreSQL server in a temporary folder, on a free port of this machine."""

    def __init__(self, where: str | None = None) -> None:
        self.programs = postgresql_folder() or ""
        self.folder = tempfile.mkdtemp(prefix="kaldvemir-server-", dir=where)
        self._numbers = itertools.count(1)
        # The server refuses to run as root; Debian's package has made the user postgres.
        self._user = {"user": "postgres", "group": "postgres"} if os.getuid() == 0 else {}
        if self._user:
            shutil.chown(self.folder, "postgres", "postgres")
        with socket.socket() as probe:
            probe.bind(("127.0.0.1", 0))
            self.port = probe.getsockname()[1]
        self._run("initdb", "-D", f"{self.folder}/data", "-U", "kaldvemir", "--auth=trust", "-E", "UTF8", "--locale=C")

    def _run(self, program: str, *arguments: str) -> None:
        command = [os.path.join(self.programs, program), *arguments]
        done = subprocess.run(
            command, cwd=self.folder, stdout=subprocess.PIPE, stderr=subprocess.STDOUT, stdin=subprocess.DEVNULL, text=True, **self._user
        )
        if done.returncode != 0:
            raise RuntimeError(f"{program} failed:\n{done.stdout}")

    def start(self) -> None:
        options = f"-p {self.port} -k {self.folder} -c listen_addresses=127.0.0.1 -c max_connections=60"
        self._run("pg_ctl", "-D", f"{self.folder}/data", "-l", f"{self.folder}/log", "-w", "-o", options, "start")

    def stop(self, mode: str = "immediate") -> None:
        """Stops the server; `immediate` is as a crash: its processes end at once, and it recovers when it is started."""
        self._run("pg_ctl", "-D", f"{self.folder}/data", "-m", mode, "-w", "stop")

    def remove(self) -> None:
        try:
            self.stop()
        except RuntimeError:
            pass  # it was stopped already
        shutil.rmtree(self.folder, ignore_errors=True)

    def url(self, database: str) -> str:
        return f"postgresql://kaldvemir@127.0.0.1:{self.port}/{database}"

    def ask_for_passwords(self, user: str, password: str) -> None:
        """Makes a user of that name whom the server asks for a password."""
        with psycopg.connect(self.url("postgres"), autocommit=True) as connection:
            connection.execute(f"CREATE ROLE {user} LOGIN SUPERUSER PASSWORD '{password}'")
        rules = Path(self.folder) / "data" / "pg_hba.conf"
        rules.write_text(f"host all {user} 127.0.0.1/32 scram-sha-256\n" + rules.read_text())
        self._run("pg_ctl", "-D", f"{self.folder}/data", "reload")

    def new_database(self) -> str:
        name = f"census_{next(self._numbers)}"
        with psycopg.connect(self.url("postgres"), autocommit=True) as connection:
            connection.execute(f"CREATE DATABASE {name}")
        return self.url(name)


def program(*arguments: str, check: bool = True, **options) -> subprocess.CompletedProcess[str]:
    """The command-line program, run to its end."""
    done = subprocess.run(_command(arguments), capture_output=True, text=True, env=_environment(), timeout=300, **options)
    if check and done.returncode != 0:
        raise AssertionError(f"kaldvemir {' '.join(arguments)} ended with {done.returncode}:\n{done.stdout}{done.stderr}")
    return done


def asked(*arguments: str) -> tuple[int, str]:
    """A command of the program, run in this process, which is quicker: its status and all that it says."""
    before = {number: signal.getsignal(number) for number in (signal.SIGINT, signal.SIGTERM)}
    done = CliRunner().invoke(main, arguments)
    for number, handler in before.items():
        signal.signal(number, handler)  # `work` listens to them
    assert done.exception is None or isinstance(done.exception, SystemExit), f"kaldvemir {' '.join(arguments)}: {done.exception!r}"
    return done.exit_code, done.output


def _command(arguments: tuple[str, ...]) -> list[str]:
    return [sys.executable, "-m", "kaldvemir", *arguments]


def _environment() -> dict[str, str]:
    return {**os.environ, "PYTHONPATH": str(PACKAGE), "PYTHONUNBUFFERED": "1"}


class WorkerProcess:
    """A worker as a process of its own, which can be stopped, woken and killed; its lines go to a file."""

    def __init__(self, database: str, folder: Path, *options: str) -> None:
        self.lines = Path(tempfile.mkstemp(prefix="worker-", suffix=".log", dir=folder)[1])
        with self.lines.open("w") as out:
            self.process = subprocess.Popen(
                _command(("work", "--db", database, *options)), stdout=out, stderr=subprocess.STDOUT, env=_environment()
            )

    @property
    def text(self) -> str:
        return self.lines.read_text()

    def says(self, pattern: str, seconds: float = 30.0, since: int = 0) -> str:
        """The first line of it that matches, after so many characters of its text, waited for."""
        end = time.monotonic() + seconds
        while time.monotonic() < end:
            match = re.search(f"^.*(?:{pattern}).*$", self.text[since:], re.MULTILINE)
            if match:
                return match.group(0)
            if self.process.poll() is not None and not re.search(pattern, self.text[since:]):
                break
            time.sleep(0.01)
        raise AssertionError(f"a worker did not say {pattern!r}; it said:\n{self.text}")

    def signal(self, number: int) -> None:
        if self.process.poll() is None:
            self.process.send_signal(number)

    def stop(self) -> None:
        self.signal(signal.SIGSTOP)

    def wake(self) -> None:
        self.signal(signal.SIGCONT)

    def kill(self) -> None:
        self.signal(signal.SIGKILL)
        self.process.wait()

    def end(self, seconds: float = 120.0) -> int:
        """Its exit status, waited for."""
        try:
            return self.process.wait(seconds)
        except subprocess.TimeoutExpired as error:
            raise AssertionError(f"a worker did not end in {seconds:g} s; it said:\n{self.text}") from error

    def remove(self) -> None:
        """Ends it, whatever it is doing; a supervisor ends its workers."""
        self.signal(signal.SIGTERM)
        self.wake()
        try:
            self.process.wait(10.0)
        except subprocess.TimeoutExpired:
            self.kill()


class Sql:
    """The tables of a database by hand, as the program itself never handles them."""

    def __init__(self, database: str) -> None:
        self._file = not database.startswith("postgresql:")
        self._db: Any = sqlite3.connect(database, 30.0, isolation_level=None) if self._file else psycopg.connect(database, autocommit=True)

    def __call__(self, statement: str, *values: Any) -> list[tuple[Any, ...]]:
        if self._file:
            cursor = self._db.execute(statement, [json.dumps(value) if isinstance(value, list) else value for value in values])
        else:
            cursor = self._db.execute(statement.replace("?", "%s"), values or None)
        return cursor.fetchall() if cursor.description else []

    def book(self) -> dict[str, Any]:
        """The numbers of the only book, by name."""
        names = ("size", "shares", "latest", "issued", "next", "ticket", "expiry")
        [row] = self(f"SELECT {', '.join(names)} FROM kaldvemir_census")
        return dict(zip(names, [json.loads(value) if isinstance(value, str) else value for value in row]))

    def put(self, **numbers: Any) -> None:
        """Writes numbers of the only book."""
        self("UPDATE kaldvemir_census SET " + ", ".join(f"{name} = ?" for name in numbers), *numbers.values())

    def everything(self) -> list[list[tuple[Any, ...]]]:
        """All that the tables hold, to be compared with what they hold later."""
        tables = {"kaldvemir_census": "id", "kaldvemir_ticket": "ticket", "kaldvemir_block": '"first"', "kaldvemir_rows_1": "position"}
        return [self(f"SELECT * FROM {table} ORDER BY {key}") for table, key in tables.items()]

    def close(self) -> None:
        self._db.close()


def opened(database: str, size: int, shares: int) -> None:
    """A census with ticks so short that leases of a second lapse within a test."""
    assert asked("open", "--db", database, "--size", str(size), "--shares", str(shares), "--tick", "0.05")[0] == 0


def listed(size: int, claim: Any, number: int = 20) -> tuple[bytes, int]:
    """The claim's next rows, as a session records them."""
    rows = kaldvemir.Run(size, claim.next - 1).rows(number)
    return rows.text, rows.given


def finished(database: str, size: int) -> None:
    """A worker goes on to the end; then the audit agrees, the table is the list, byte for byte, and nothing was recorded late."""
    program("work", "--db", database, "--lease", "5", "--block", "2000")
    status, said = asked("audit", "--db", database)
    assert status == 0 and "complete: the table is the list" in said
    whole = [header(size), *kaldvemir.rows(size), last_line(kaldvemir.count(size), kaldvemir.kept_count(size))]
    assert asked("rows", "--db", database) == (0, "".join(line + "\n" for line in whole))
    tables = Sql(database)
    blocks = tables(
        'SELECT t.share, b."first", b."last", b.ticket FROM kaldvemir_block b'
        ' JOIN kaldvemir_ticket t ON t.census = b.census AND t.ticket = b.ticket ORDER BY b."first"'
    )
    assert [first for _, first, _, _ in blocks] == [1, *(last + 1 for _, _, last, _ in blocks[:-1])]
    assert blocks[-1][2] == kaldvemir.count(size)
    # Along each share tickets only go up: no block was recorded by a ticket after a later one had been issued.
    by_share = sorted((share, first, ticket) for share, first, _, ticket in blocks)
    assert sorted((share, ticket) for share, _, ticket in by_share) == [(share, ticket) for share, _, ticket in by_share]
    assert tables("SELECT count(*) FROM kaldvemir_ticket") == [(tables.book()["issued"],)]
    tables.close()


class Few:
    """Asks a worker in this process to stop after so many blocks, and cuts its pauses short."""

    def __init__(self, blocks: int) -> None:
        self.left = blocks
        self.lines: list[str] = []

    def __bool__(self) -> bool:
        return self.left <= 0

    def pause(self, seconds: float) -> None:
        time.sleep(min(seconds, 0.01))

    def say(self, line: str) -> None:
        self.lines.append(line)
        self.left -= "at position" in line


def asked_at_line(stop: Any, line: int) -> None:
    """Pauses for a moment. At that line of the interpreter's way through the pause the worker is asked to stop, as by a signal."""
    lines = itertools.count(1)

    def trace(*_: Any) -> Any:
        if next(lines) == line:
            stop._asked(signal.SIGTERM, None)
        return trace

    sys.settrace(trace)
    stop.pause(0.01)
    sys.settrace(None)


class Proxy:
    """Stands between a worker and the server. `rule` is handed each part that a client sends and says what becomes of it: "pass",
    "cut" (the connection ends before it), or "lose" (it arrives, and its answer is lost). A connection keeps the rule it began with."""

    def __init__(self, port: int) -> None:
        self._to = port
        self._listener = socket.create_server(("127.0.0.1", 0))
        self.rule: Callable[[bytes], str] = lambda part: "pass"
        threading.Thread(target=self._accept, daemon=True).start()

    def url(self, database: str) -> str:
        """The address of a database through here, in plain text."""
        return database.replace(f":{self._to}/", f":{self._listener.getsockname()[1]}/") + "?sslmode=disable&gssencmode=disable"

    def _accept(self) -> None:
        while True:
            try:
                client, _ = self._listener.accept()
            except OSError:
                return  # closed
            threading.Thread(target=self._serve, args=(client, self.rule), daemon=True).start()

    def _serve(self, client: socket.socket, rule: Callable[[bytes], str]) -> None:
        lost, answered = threading.Event(), threading.Event()
        try:
            with client, socket.create_connection(("127.0.0.1", self._to)) as server:
                back = threading.Thread(target=self._back, args=(client, server, lost, answered), daemon=True)
                back.start()
                self._there(client, server, rule, lost, answered)
                self._end(client, server)
                back.join()
        except OSError:
            pass  # the server is not there

    def _there(
        self, client: socket.socket, server: socket.socket, rule: Callable[[bytes], str], lost: threading.Event, answered: threading.Event
    ) -> None:
        try:
            while part := client.recv(1 << 16):
                verdict = rule(part)
                if verdict == "cut":
                    return
                if verdict == "lose":
                    lost.set()
                server.sendall(part)
                if verdict == "lose":
                    answered.wait(0.3)  # in vain where it is data of a COPY, which is not answered
                    return
        except OSError:
            pass  # one side has ended

    def _back(self, client: socket.socket, server: socket.socket, lost: threading.Event, answered: threading.Event) -> None:
        try:
            while part := server.recv(1 << 16):
                if lost.is_set():
                    answered.set()
                else:
                    client.sendall(part)
        except OSError:
            pass  # one side has ended
        self._end(client, server)

    @staticmethod
    def _end(*sockets: socket.socket) -> None:
        for each in sockets:
            try:
                each.shutdown(socket.SHUT_RDWR)
            except OSError:
                pass  # it has ended already

    def close(self) -> None:
        self._end(self._listener)
        self._listener.close()
