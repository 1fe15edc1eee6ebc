"""What the shared census asks of a database.

The book is one row of the table kaldvemir_census, and a turn at it is one transaction: the row is locked, the database's clock is
read, the caller asks the proved functions, and the book is written back together with whatever rows go with it, or nothing is. So
"each call is lent the book as the preceding call left it, and nobody else writes it meanwhile" (document 01) is what the lock gives.

Tables, of one database that may hold several censuses:
- kaldvemir_census: a row a census, which is the book's numbers, the length of a tick and the time of opening;
- kaldvemir_rows_ID: the rows of census ID, a column a field of a row's text, the position a unique key;
- kaldvemir_ticket: who was given which ticket; kaldvemir_block: which ticket recorded which rows, and when. Nothing is decided by
  these two: they tell people who holds what, and how fast it goes.
"""

from __future__ import annotations

from abc import ABC, abstractmethod
from collections.abc import Callable, Sequence
from dataclasses import dataclass, field
from typing import Any, NamedTuple, TypeVar

from ..book import Book
from ..lists import count

LAYOUT = 1
"""The layout of the tables. It goes up where a later version stores a book otherwise."""

COLUMNS = ("position", "word", "s0", "s1", "e2", "e3", "c", "t", "level", "mark")
"""The columns of a table of rows: the fields of a row's text, in their order."""

Answer = TypeVar("Answer")


class Problem(Exception):
    """Something a user is to know of; its text says what to do."""


class Damage(Problem):
    """The database holds what no list of calls can have left there."""


class Clash(Problem):
    """A row with that position is in the table already."""


class Unreachable(Problem):
    """The database did not answer; nothing is known of what it had begun."""


class Census(NamedTuple):
    """A census in a database."""

    id: int
    size: int
    shares: int
    tick_ms: int
    opened: float
    """When it was opened, in seconds since 1970 by the database's clock."""

    @property
    def table(self) -> str:
        """The table with its rows."""
        return f"kaldvemir_rows_{self.id}"

    def ticks(self, seconds: float) -> int:
        """The least number of ticks that last so long."""
        return -int(-seconds * 1000 // self.tick_ms)

    def seconds(self, ticks: int) -> float:
        return ticks * self.tick_ms / 1000

    def stretches(self) -> list[tuple[int, int]]:
        """The first and the last position of each share; the last is before the first where a share is empty.

        A book that has just been opened has each share's first position as its next one.
        """
        book = Book.open(self.size, self.shares)
        firsts = [book.next(share) for share in range(1, self.shares + 1)]
        return list(zip(firsts, [first - 1 for first in firsts[1:]] + [count(self.size)]))


class TicketNote(NamedTuple):
    """Who was given a ticket."""

    ticket: int
    share: int
    holder: str


class BlockNote(NamedTuple):
    """Which rows a ticket recorded."""

    first: int
    last: int
    ticket: int


@dataclass
class Turn:
    """A turn at the book, while its row is locked: the book, the tick of the database's clock, and notes to store with it."""

    book: Book
    tick: int
    tickets: list[TicketNote] = field(default_factory=list)
    blocks: list[BlockNote] = field(default_factory=list)


class Snapshot(NamedTuple):
    """A census as it stood at one moment, read without a lock."""

    census: Census
    book: Book
    tick: int
    now: float
    holders: dict[int, str]
    """The holder of each ticket that stands."""
    recorded: int
    """How many positions were recorded in the last five minutes."""
    since: float | None
    """When the first of these was begun, and when the last was recorded; None where there are none."""
    until: float | None


RECENT = 300.0
"""The seconds by which a rate is told."""


def book_of(values: Sequence[object]) -> Book:
    """The book of a stored row: size, shares, latest, issued and three lists. What is no book at all is damage."""
    try:
        numbers = [_unsigned(value) for value in values[:4]]
        lists = [[_unsigned(value) for value in part] for part in values[4:]]  # type: ignore[attr-defined]
        return Book.of_fields(*numbers, *lists)  # type: ignore[arg-type]
    except (TypeError, ValueError) as error:
        raise Damage(f"the book's row does not hold a book: {error}") from error


def _unsigned(value: object) -> int:
    # A number below 0 is handed on as the library would read its bits: no valid book has it, and the library refuses it, 50.
    if isinstance(value, bool) or not isinstance(value, int):
        raise TypeError(f"{value!r} stands where a number should")
    return value % (1 << 64)


class Store(ABC):
    """A database with censuses."""

    name: str
    """The database as a user would name it, without a password."""

    @abstractmethod
    def open(self, size: int, shares: int, tick_ms: int, *, resume: bool = False) -> Census:
        """Opens a census, by the proved open; with `resume`, finds the latest of this size and division, if there is one: so one of
        several machines that begin at once opens it, and the others find it. Refused 31 and 51."""

    @abstractmethod
    def censuses(self) -> list[Census]:
        """All censuses of the database."""

    @abstractmethod
    def turn(self, census: Census, decide: Callable[[Turn], Answer], text: bytes | None = None) -> Answer:
        """One transaction: the book's row is locked, `decide` asks the proved functions, the book and the rows of `text` are
        written. Where `decide` raises, nothing is."""

    @abstractmethod
    def snapshot(self, census: Census) -> Snapshot:
        """The census as it stands now."""

    @abstractmethod
    def reading(self, census: Census) -> Reading:
        """The book and the rows of one moment, to be read at leisure while others go on."""

    @abstractmethod
    def close(self) -> None:
        """Ends the connection."""

    def reconnect(self) -> None:
        """Makes a connection anew, after Unreachable."""

    def stalled(self) -> list[str]:
        """Ends sessions that keep a lock and do nothing, and says which; where the database can do that."""
        return []

    def warnings(self) -> list[str]:
        """What a user is to know of the database's settings."""
        return []

    def _known(self, layout: int, *values: Any) -> Census:
        if layout != LAYOUT:
            raise Problem(f"{self.name} was written by another version of this program (layout {layout}, this is {LAYOUT}): use that one")
        return Census(*values)

    def _like(self, size: int, shares: int) -> Census | None:
        """The latest census of that size and division."""
        like = [census for census in self.censuses() if (census.size, census.shares) == (size, shares)]
        return like[-1] if like else None

    def census(self, wanted: int | None) -> Census:
        """The census of that number; without a number, the only one."""
        there = self.censuses()
        if not there:
            raise Problem(f"there is no census in {self.name}: open one with `kaldvemir open --size N --shares K`")
        chosen = [census for census in there if wanted in (None, census.id)]
        if len(chosen) == 1:
            return chosen[0]
        names = ", ".join(f"{census.id} (size {census.size}, {census.shares} shares)" for census in there)
        raise Problem(f"say which census of {self.name} is meant, with --census: there are {names}")


class Reading(ABC):
    """A census as it stood at one moment."""

    book: Book

    @abstractmethod
    def text(self, first: int, last: int) -> bytes:
        """The rows of the table with positions first to last, in the order of positions, as text."""

    @abstractmethod
    def positions(self) -> tuple[int, int | None, int | None]:
        """How many rows the table has, and its least and greatest position."""

    @abstractmethod
    def close(self) -> None:
        """Lets the moment go."""

    def __enter__(self) -> Reading:
        return self

    def __exit__(self, *_: object) -> None:
        self.close()


def connect(database: str, *, create: bool = False, patience: float = 30.0) -> Store:
    """The database of that name: `postgresql://..`, or a file of SQLite, which is made where `create` says so.

    Who waits longer than `patience` seconds for another session's lock is told so by Unreachable.
    """
    if database.startswith(("postgresql://", "postgres://")):
        from .postgresql import PostgreSQL

        return PostgreSQL(database, patience)
    from .sqlite import SQLite

    return SQLite(database, patience, create)
