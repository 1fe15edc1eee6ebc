"""The shared census in a file of SQLite, for the workers of one machine.

A turn is a transaction that begins with the file's write lock (BEGIN IMMEDIATE), so turns come one after another. The file is in WAL
mode with synchronous=FULL: a turn that has been committed outlives a crash and a power cut. Readers see one moment and hold nobody up.
"""

from __future__ import annotations

import json
import random
import sqlite3
import time
from collections.abc import Callable, Iterator
from contextlib import contextmanager
from pathlib import Path

from ..book import Book
from .store import COLUMNS, LAYOUT, RECENT, Answer, Census, Clash, Problem, Reading, Snapshot, Store, Turn, Unreachable, book_of

TABLES = """
CREATE TABLE IF NOT EXISTS kaldvemir_census (
    id INTEGER PRIMARY KEY, layout INTEGER NOT NULL, opened REAL NOT NULL, tick_ms INTEGER NOT NULL CHECK (tick_ms > 0),
    size INTEGER NOT NULL, shares INTEGER NOT NULL, latest INTEGER NOT NULL, issued INTEGER NOT NULL,
    next TEXT NOT NULL, ticket TEXT NOT NULL, expiry TEXT NOT NULL) STRICT;
CREATE TABLE IF NOT EXISTS kaldvemir_ticket (
    census INTEGER NOT NULL REFERENCES kaldvemir_census, ticket INTEGER NOT NULL, share INTEGER NOT NULL, holder TEXT NOT NULL,
    claimed REAL NOT NULL, PRIMARY KEY (census, ticket)) STRICT;
CREATE TABLE IF NOT EXISTS kaldvemir_block (
    census INTEGER NOT NULL REFERENCES kaldvemir_census, "first" INTEGER NOT NULL, "last" INTEGER NOT NULL,
    ticket INTEGER NOT NULL, recorded REAL NOT NULL, PRIMARY KEY (census, "first")) STRICT;
"""
ROWS = """
CREATE TABLE {table} (
    position INTEGER PRIMARY KEY, word TEXT NOT NULL, s0 TEXT NOT NULL, s1 TEXT NOT NULL, e2 INTEGER NOT NULL, e3 INTEGER NOT NULL,
    c INTEGER NOT NULL, t INTEGER NOT NULL, level INTEGER NOT NULL, mark TEXT NOT NULL) STRICT
"""
BOOK = "size, shares, latest, issued, next, ticket, expiry"
# The clock in milliseconds since 1970, and in seconds. 'now' is read anew by each statement.
CLOCK_MS = "CAST((julianday('now') - 2440587.5) * 86400000.0 AS INTEGER)"
CLOCK = f"({CLOCK_MS} / 1000.0)"
INSERT = "INSERT INTO {table} VALUES (" + ", ".join("?" * len(COLUMNS)) + ")"
RECENTLY = f"""
SELECT coalesce(sum(b."last" - b."first" + 1), 0), max(min(t.claimed), {CLOCK} - {RECENT}), max(b.recorded)
FROM kaldvemir_block b JOIN kaldvemir_ticket t ON t.census = b.census AND t.ticket = b.ticket
WHERE b.census = ? AND b.recorded > {CLOCK} - {RECENT}
"""


def _book(row: tuple[object, ...]) -> Book:
    lists = []
    for part in row[4:7]:
        try:
            lists.append(json.loads(str(part)))
        except ValueError:
            lists.append(None)
    return book_of([*row[:4], *lists])


class SQLite(Store):
    """A file with censuses."""

    def __init__(self, path: str, patience: float, create: bool) -> None:
        self.name = path
        self._patience = patience
        if not create and not Path(path).exists():
            raise Problem(f"there is no file {path}: open a census with `kaldvemir open --size N --shares K --db {path}`")
        self._db = self._connection()
        with self._errors():
            self._db.execute("PRAGMA journal_mode = WAL")
            if create:
                with self._locked():
                    for statement in TABLES.split(";")[:-1]:
                        self._db.execute(statement)

    def _connection(self) -> sqlite3.Connection:
        try:
            # Transactions are begun and ended here, not by the module. The report's thread uses a connection of its own.
            connection = sqlite3.connect(self.name, timeout=self._patience, isolation_level=None)
            connection.execute("PRAGMA synchronous = FULL")
            return connection
        except sqlite3.Error as error:
            raise Problem(f"{self.name} cannot be used as a file of SQLite: {error}") from error

    @contextmanager
    def _errors(self) -> Iterator[None]:
        try:
            yield
        except sqlite3.IntegrityError as error:
            raise Clash(str(error)) from error
        except sqlite3.OperationalError as error:
            if "locked" in str(error) or "busy" in str(error):
                raise Unreachable(
                    f"another process has held the lock of {self.name} for {self._patience:g} s (is one stopped? `kaldvemir report`"
                    " names the holders)"
                ) from error
            raise Problem(f"{self.name}: {error}") from error
        except sqlite3.DatabaseError as error:
            raise Problem(f"{self.name}: {error}") from error

    def _begin(self) -> None:
        """Waits for the file's write lock. SQLite itself would look for it ten times a second, and a session that does could wait long
        for one that records block after block."""
        end = time.monotonic() + self._patience
        self._db.execute("PRAGMA busy_timeout = 0")
        try:
            while True:
                try:
                    self._db.execute("BEGIN IMMEDIATE")
                    return
                except sqlite3.OperationalError as error:
                    if "locked" not in str(error) or time.monotonic() > end:
                        raise
                    time.sleep(random.uniform(0.001, 0.01))
        finally:
            self._db.execute(f"PRAGMA busy_timeout = {int(self._patience * 1000)}")

    @contextmanager
    def _locked(self) -> Iterator[None]:
        self._begin()
        try:
            yield
            self._db.execute("COMMIT")
        except BaseException:
            if self._db.in_transaction:
                self._db.execute("ROLLBACK")
            raise

    def open(self, size: int, shares: int, tick_ms: int, *, resume: bool = False) -> Census:
        book = Book.open(size, shares)
        marks = ", ".join("?" * 9)
        with self._errors(), self._locked():
            there = self._like(size, shares) if resume else None
            if there is not None:
                return there
            row = self._db.execute(
                f"INSERT INTO kaldvemir_census (opened, layout, tick_ms, {BOOK}) VALUES ({CLOCK}, {marks}) RETURNING id, opened",
                (LAYOUT, tick_ms, *self._stored(book)),
            ).fetchone()
            census = Census(row[0], size, shares, tick_ms, row[1])
            self._db.execute(ROWS.format(table=census.table))
        return census

    @staticmethod
    def _stored(book: Book) -> tuple[object, ...]:
        fields = book.fields()
        return (*fields[:4], *map(json.dumps, fields[4:]))

    def censuses(self) -> list[Census]:
        with self._errors():
            rows = self._db.execute("SELECT layout, id, size, shares, tick_ms, opened FROM kaldvemir_census ORDER BY id").fetchall()
        return [self._known(*row) for row in rows]

    def turn(self, census: Census, decide: Callable[[Turn], Answer], text: bytes | None = None) -> Answer:
        # The text is split into fields before the lock is taken, and by functions of the interpreter, not row by row.
        rows = list(map(str.split, (text or b"").decode("ascii").splitlines()))
        with self._errors(), self._locked():
            turn = Turn(*self._book_and_tick(self._db, census))
            before = turn.book.copy()
            answer = decide(turn)
            self._db.executemany(INSERT.format(table=census.table), rows)
            if turn.book != before:
                self._write(census, turn)
        return answer

    @staticmethod
    def _book_and_tick(db: sqlite3.Connection, census: Census) -> tuple[Book, int]:
        row = db.execute(f"SELECT {BOOK}, {CLOCK_MS} / tick_ms FROM kaldvemir_census WHERE id = ?", (census.id,)).fetchone()
        if row is None:
            raise Problem(f"census {census.id} is no longer there")
        return _book(row), row[7]

    def _write(self, census: Census, turn: Turn) -> None:
        self._db.execute(
            f"UPDATE kaldvemir_census SET ({BOOK}) = (?, ?, ?, ?, ?, ?, ?) WHERE id = ?", (*self._stored(turn.book), census.id)
        )
        for ticket in turn.tickets:
            self._db.execute(f"INSERT INTO kaldvemir_ticket VALUES (?, ?, ?, ?, {CLOCK})", (census.id, *ticket))
        for block in turn.blocks:
            self._db.execute(f"INSERT INTO kaldvemir_block VALUES (?, ?, ?, ?, {CLOCK})", (census.id, *block))

    def snapshot(self, census: Census) -> Snapshot:
        with self._errors():
            self._db.execute("BEGIN")
            try:
                book, tick = self._book_and_tick(self._db, census)
                now = self._db.execute(f"SELECT {CLOCK}").fetchone()[0]
                standing = [ticket for ticket in book.numbers.ticket if ticket]
                holders = dict(
                    self._db.execute(
                        "SELECT ticket, holder FROM kaldvemir_ticket WHERE census = ? AND ticket IN (SELECT value FROM json_each(?))",
                        (census.id, json.dumps(standing)),
                    )
                )
                recent = self._db.execute(RECENTLY, (census.id,)).fetchone()
            finally:
                self._db.execute("COMMIT")
        return Snapshot(census, book, tick, now, holders, *recent)

    def reading(self, census: Census) -> Reading:
        return SQLiteReading(self._connection(), census)

    def close(self) -> None:
        self._db.close()


class SQLiteReading(Reading):
    """A read transaction: in WAL mode it sees the file as it was at its first statement."""

    def __init__(self, db: sqlite3.Connection, census: Census) -> None:
        self._db, self._table = db, census.table
        db.execute("BEGIN")
        self.book = SQLite._book_and_tick(db, census)[0]

    def text(self, first: int, last: int) -> bytes:
        line = " || ' ' || ".join(COLUMNS) + " || char(10)"
        rows = self._db.execute(
            f"SELECT {line} FROM {self._table} WHERE position BETWEEN ? AND ? ORDER BY position", (first, last)
        ).fetchall()
        return "".join([row[0] for row in rows]).encode()

    def positions(self) -> tuple[int, int | None, int | None]:
        rows, least, greatest = self._db.execute(f"SELECT count(*), min(position), max(position) FROM {self._table}").fetchone()
        return rows, least, greatest

    def close(self) -> None:
        self._db.close()
