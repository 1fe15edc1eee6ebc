"""The shared census in a PostgreSQL server, for workers on several machines.

A turn is a transaction at the level READ COMMITTED. The rows of a block go in first, by COPY in the census's own text, seen by nobody
else; then the book's row is locked (SELECT .. FOR UPDATE gives its latest version), the server's clock is read, and the proved
functions decide whether the transaction is committed or everything in it is thrown away. The lock comes last so that several workers
copy at the same time; two that copy the same position wait for each other at the unique key.

A session that keeps a transaction open and does nothing (a stopped process, a machine that sleeps) is ended by the server after
`patience` seconds, or, in the middle of a COPY, by whoever has waited that long for it: its transaction is undone.
"""

from __future__ import annotations

import logging
import os
from collections.abc import Callable, Iterator
from contextlib import contextmanager
from typing import Any

import psycopg
from psycopg import errors
from psycopg.conninfo import conninfo_to_dict, make_conninfo

from ..book import Book
from .store import COLUMNS, LAYOUT, RECENT, Answer, Census, Clash, Problem, Reading, Snapshot, Store, Turn, Unreachable, book_of

TABLES = """
CREATE TABLE IF NOT EXISTS kaldvemir_census (
    id integer GENERATED ALWAYS AS IDENTITY PRIMARY KEY, layout integer NOT NULL, opened timestamptz NOT NULL,
    tick_ms bigint NOT NULL CHECK (tick_ms > 0),
    size bigint NOT NULL, shares bigint NOT NULL, latest bigint NOT NULL, issued bigint NOT NULL,
    next bigint[] NOT NULL, ticket bigint[] NOT NULL, expiry bigint[] NOT NULL) WITH (fillfactor = 50);
CREATE TABLE IF NOT EXISTS kaldvemir_ticket (
    census integer NOT NULL REFERENCES kaldvemir_census, ticket bigint NOT NULL, share bigint NOT NULL, holder text NOT NULL,
    claimed timestamptz NOT NULL, PRIMARY KEY (census, ticket));
CREATE TABLE IF NOT EXISTS kaldvemir_block (
    census integer NOT NULL REFERENCES kaldvemir_census, first bigint NOT NULL, last bigint NOT NULL, ticket bigint NOT NULL,
    recorded timestamptz NOT NULL, PRIMARY KEY (census, first));
"""
ROWS = """
CREATE TABLE {table} (
    position bigint PRIMARY KEY, word text NOT NULL, s0 text NOT NULL, s1 text NOT NULL, e2 smallint NOT NULL, e3 smallint NOT NULL,
    c smallint NOT NULL, t integer NOT NULL, level bigint NOT NULL, mark text NOT NULL)
"""
BOOK = "size, shares, latest, issued, next, ticket, expiry"
# The outer part is computed when the row comes, and it comes when it is locked: so the clock is read under the lock.
LOCKED = f"""
WITH locked AS MATERIALIZED (SELECT {BOOK}, tick_ms FROM kaldvemir_census WHERE id = %s FOR UPDATE)
SELECT {BOOK}, floor(extract(epoch FROM clock_timestamp()) * 1000)::bigint / tick_ms FROM locked
"""
SEEN = f"""
SELECT {BOOK}, floor(extract(epoch FROM clock_timestamp()) * 1000)::bigint / tick_ms,
       extract(epoch FROM clock_timestamp())::double precision
FROM kaldvemir_census WHERE id = %s
"""
RECENTLY = f"""
SELECT coalesce(sum(b.last - b.first + 1), 0)::bigint,
       extract(epoch FROM greatest(min(t.claimed), clock_timestamp() - interval '{RECENT} seconds'))::double precision,
       extract(epoch FROM max(b.recorded))::double precision
FROM kaldvemir_block b JOIN kaldvemir_ticket t USING (census, ticket)
WHERE b.census = %s AND b.recorded > clock_timestamp() - interval '{RECENT} seconds'
"""
WORKER = "kaldvemir work"
# A transaction that cannot be undone because its connection is gone is undone by the server: psycopg's note of it tells nobody anything.
logging.getLogger("psycopg").addHandler(logging.NullHandler())
# Sessions of workers that have kept a transaction open for so long and wait for their client.
STALLED = """
SELECT pid, pg_terminate_backend(pid) FROM pg_stat_activity
WHERE datname = current_database() AND application_name = %s AND pid <> pg_backend_pid()
  AND wait_event_type = 'Client' AND xact_start < clock_timestamp() - make_interval(secs => %s)
"""


class PostgreSQL(Store):
    """A server with censuses, as libpq finds it: by the address, PGHOST and its like, service and password files."""

    def __init__(self, address: str, patience: float) -> None:
        self._patience = patience
        try:
            given = conninfo_to_dict(address)
        except psycopg.Error as error:
            raise Problem(f"{address} is no address of a PostgreSQL server: {error}") from error
        named = {key: str(given.get(key) or os.environ.get("PG" + name, "")) for key, name in (("host", "HOST"), ("dbname", "DATABASE"))}
        self.name = f"postgresql://{named['host']}/{named['dbname']}"
        given["application_name"] = WORKER
        if "PGCONNECT_TIMEOUT" not in os.environ:
            given.setdefault("connect_timeout", 10)
        self._conninfo = make_conninfo(**given)
        self._db = self._connection()

    def _connection(self) -> psycopg.Connection[Any]:
        milliseconds = int(self._patience * 1000)
        try:
            connection = psycopg.connect(self._conninfo, autocommit=True)
            connection.execute(f"SET lock_timeout = {milliseconds}")
            connection.execute(f"SET idle_in_transaction_session_timeout = {milliseconds}")
            connection.execute("SET default_transaction_isolation = 'read committed'")
            connection.execute("SET client_min_messages = 'warning'")
            # A turn that has been answered is on the disk: a server that is set to answer earlier is asked not to.
            connection.execute("SELECT set_config('synchronous_commit', 'on', false) WHERE current_setting('synchronous_commit') = 'off'")
            return connection
        except psycopg.OperationalError as error:
            raise Unreachable(f"{self.name} does not answer: {' '.join(str(error).split())}") from error
        except psycopg.Error as error:
            raise Problem(f"{self.name}: {' '.join(str(error).split())}") from error

    @contextmanager
    def _errors(self) -> Iterator[None]:
        try:
            yield
        except errors.UniqueViolation as error:
            raise Clash(str(error.diag.message_detail or error)) from error
        except (errors.LockNotAvailable, errors.IdleInTransactionSessionTimeout) as error:
            raise Unreachable(f"{self.name}: waited {self._patience:g} s for another session ({error.diag.message_primary})") from error
        except (psycopg.OperationalError, errors.AdminShutdown) as error:
            raise Unreachable(f"{self.name}: {' '.join(str(error).split()) or 'the connection is gone'}") from error
        except errors.UndefinedTable as error:
            raise Problem(f"there is no census in {self.name}: open one with `kaldvemir open --size N --shares K`") from error
        except psycopg.Error as error:
            raise Problem(f"{self.name}: {' '.join(str(error).split())}") from error

    def open(self, size: int, shares: int, tick_ms: int, *, resume: bool = False) -> Census:
        book = Book.open(size, shares)
        marks = ", ".join(["%s"] * 9)
        with self._errors(), self._db.transaction():
            # Sessions that open a census at the same time make the tables once, and find each other's.
            self._db.execute("SELECT pg_advisory_xact_lock(hashtext('kaldvemir'))")
            self._db.execute(TABLES)
            there = self._like(size, shares) if resume else None
            if there is not None:
                return there
            [(number, opened)] = self._db.execute(
                f"INSERT INTO kaldvemir_census (opened, layout, tick_ms, {BOOK}) VALUES (clock_timestamp(), {marks})"
                " RETURNING id, extract(epoch FROM opened)::double precision",
                (LAYOUT, tick_ms, *book.fields()),
            ).fetchall()
            census = Census(number, size, shares, tick_ms, opened)
            self._db.execute(ROWS.format(table=census.table))
        return census

    def censuses(self) -> list[Census]:
        with self._errors():
            rows = self._db.execute(
                "SELECT layout, id, size, shares, tick_ms, extract(epoch FROM opened)::double precision"
                " FROM kaldvemir_census ORDER BY id"
            ).fetchall()
        return [self._known(*row) for row in rows]

    def turn(self, census: Census, decide: Callable[[Turn], Answer], text: bytes | None = None) -> Answer:
        with self._errors(), self._db.transaction():
            if text:
                with self._db.cursor().copy(f"COPY {census.table} FROM STDIN (DELIMITER ' ')") as copy:
                    copy.write(text)
            row = self._db.execute(LOCKED, (census.id,)).fetchone()
            if row is None:
                raise Problem(f"census {census.id} is no longer there")
            turn = Turn(book_of(row[:7]), row[7])
            before = turn.book.copy()
            answer = decide(turn)
            if turn.book != before:
                self._write(census, turn)
        return answer

    def _write(self, census: Census, turn: Turn) -> None:
        self._db.execute(
            f"UPDATE kaldvemir_census SET ({BOOK}) = (%s, %s, %s, %s, %s, %s, %s) WHERE id = %s", (*turn.book.fields(), census.id)
        )
        for ticket in turn.tickets:
            self._db.execute("INSERT INTO kaldvemir_ticket VALUES (%s, %s, %s, %s, clock_timestamp())", (census.id, *ticket))
        for block in turn.blocks:
            self._db.execute("INSERT INTO kaldvemir_block VALUES (%s, %s, %s, %s, clock_timestamp())", (census.id, *block))

    def snapshot(self, census: Census) -> Snapshot:
        with self._errors(), self._db.transaction():
            self._db.execute("SET TRANSACTION ISOLATION LEVEL REPEATABLE READ READ ONLY")
            row = self._db.execute(SEEN, (census.id,)).fetchone()
            if row is None:
                raise Problem(f"census {census.id} is no longer there")
            book = book_of(row[:7])
            standing = [ticket for ticket in book.numbers.ticket if 0 < ticket < 1 << 63]
            holders = dict(
                self._db.execute(
                    "SELECT ticket, holder FROM kaldvemir_ticket WHERE census = %s AND ticket = ANY(%s::bigint[])", (census.id, standing)
                ).fetchall()
            )
            [recent] = self._db.execute(RECENTLY, (census.id,)).fetchall()
        return Snapshot(census, book, row[7], row[8], holders, *recent)

    def reading(self, census: Census) -> Reading:
        return PostgreSQLReading(self._connection(), census, self._errors)

    def reconnect(self) -> None:
        if self._db.closed or self._db.broken:
            self._db = self._connection()

    def stalled(self) -> list[str]:
        try:
            ended = self._db.execute(STALLED, (WORKER, self._patience)).fetchall()
        except psycopg.Error:
            return []
        return [f"ended the session of server process {pid}, which kept a transaction open and did nothing" for pid, done in ended if done]

    def warnings(self) -> list[str]:
        with self._errors():
            rows = self._db.execute(
                "SELECT name FROM pg_settings WHERE name IN ('fsync', 'full_page_writes') AND setting = 'off' ORDER BY name"
            ).fetchall()
        return [f"the server runs with {name} = off: a crash of its machine can lose or damage what it has answered" for (name,) in rows]

    def close(self) -> None:
        self._db.close()


class PostgreSQLReading(Reading):
    """A transaction that sees one moment (REPEATABLE READ), read only."""

    def __init__(self, db: psycopg.Connection[Any], census: Census, guarded: Callable[[], Any]) -> None:
        self._db, self._census, self._errors = db, census, guarded
        with guarded():
            db.execute("SET application_name = 'kaldvemir read'")
            db.execute("SET idle_in_transaction_session_timeout = 0")
            db.execute("BEGIN ISOLATION LEVEL REPEATABLE READ READ ONLY")
            row = db.execute(SEEN, (census.id,)).fetchone()
        if row is None:
            raise Problem(f"census {census.id} is no longer there")
        self.book = book_of(row[:7])

    def text(self, first: int, last: int) -> bytes:
        # The server puts the lines together, which is some five times quicker than to read them one by one.
        query = f"""SELECT string_agg(concat_ws(' ', {', '.join(COLUMNS)}) || chr(10), '' ORDER BY position)
                    FROM {self._census.table} WHERE position BETWEEN %s AND %s"""
        with self._errors():
            [(text,)] = self._db.execute(query, (first, last)).fetchall()
        return (text or "").encode()

    def positions(self) -> tuple[int, int | None, int | None]:
        with self._errors():
            [told] = self._db.execute(f"SELECT count(*), min(position), max(position) FROM {self._census.table}").fetchall()
        rows, least, greatest = told
        return rows, least, greatest

    def close(self) -> None:
        self._db.close()
