"""The share book: who may work on which stretch of a list, and what has been committed.

A book divides the list of a size into shares (shards), each a stretch of positions. A session claims a share and gets a ticket (the
fencing token of a lease) that holds for so many ticks; with it, it commits the share's positions one after another. Every answer is
that of the proved library: whatever sessions call, in whatever order, each position is committed once, and the report says complete
exactly when all are (crates/theorems/specs/FirstList.antt).

A book is 100 numbers, and who stores them must let nobody else write them between reading and writing.
"""

from __future__ import annotations

from collections.abc import Sequence
from typing import NamedTuple

from . import _library as lib
from .diagrams import Diagram, Word


class Report(NamedTuple):
    """How far a book is."""

    committed: int
    """How many positions have been committed."""
    complete: bool
    """Whether every share is finished."""


class Taken(NamedTuple):
    """What a ticket is to work on next."""

    share: int
    position: int
    diagram: Diagram


class Book:
    """A share book. Each operation alters it only where it is accepted; a refusal is the exception `Refused`.

    >>> book = Book.open(size=6, shares=3)
    >>> ticket = book.claim(tick=1, share=2, length=10)
    >>> book.take(tick=1, ticket=ticket).position
    8
    """

    FIELDS = ("size", "shares", "latest", "issued", "next", "ticket", "expiry")
    """The numbers of a book in their order; the last three are lists of 32, one entry a share."""

    def __init__(self, numbers: lib.BookNumbers) -> None:
        self.numbers = numbers

    @classmethod
    def open(cls, size: int, shares: int) -> Book:
        """A new book for a size, divided into so many shares. Refused 31 and 51."""
        book = cls(lib.BookNumbers())
        lib.call("open", lib.ref(book.numbers), lib.unsigned(size, "size"), lib.unsigned(shares, "shares"))
        return book

    @classmethod
    def of_fields(
        cls, size: int, shares: int, latest: int, issued: int, next: Sequence[int], ticket: Sequence[int], expiry: Sequence[int]
    ) -> Book:
        """A book of the numbers that `fields` gave. They are not looked at here: operations refuse a book that is not valid, 50."""
        book = cls(lib.BookNumbers())
        for name, value in zip(cls.FIELDS[:4], (size, shares, latest, issued)):
            setattr(book.numbers, name, lib.fits(value, 64, name))
        for name, values in zip(cls.FIELDS[4:], (next, ticket, expiry)):
            if len(values) != lib.MAX_SHARES:
                raise ValueError(f"a book's list {name} has {lib.MAX_SHARES} entries, not {len(values)}")
            getattr(book.numbers, name)[:] = [lib.fits(value, 64, name) for value in values]
        return book

    def fields(self) -> tuple[int, int, int, int, list[int], list[int], list[int]]:
        """All numbers of the book, in the order of FIELDS."""
        n = self.numbers
        return n.size, n.shares, n.latest, n.issued, list(n.next), list(n.ticket), list(n.expiry)

    def copy(self) -> Book:
        return Book(lib.BookNumbers.from_buffer_copy(self.numbers))

    @property
    def size(self) -> int:
        return int(self.numbers.size)

    @property
    def shares(self) -> int:
        return int(self.numbers.shares)

    @property
    def latest(self) -> int:
        """The latest tick of an accepted call."""
        return int(self.numbers.latest)

    @property
    def issued(self) -> int:
        """How many tickets have been issued, of 65,535."""
        return int(self.numbers.issued)

    def next(self, share: int) -> int:
        """The share's first position that is not committed yet."""
        return self._entry("next", share)

    def ticket(self, share: int) -> int:
        """The ticket that stands at the share, 0 where none does."""
        return self._entry("ticket", share)

    def expiry(self, share: int) -> int:
        """The tick at which that ticket lapses, 0 without a ticket."""
        return self._entry("expiry", share)

    def _entry(self, name: str, share: int) -> int:
        if not 1 <= share <= lib.MAX_SHARES:
            raise IndexError(f"there is no share {share}: shares are numbered from 1 to {lib.MAX_SHARES}")
        return int(getattr(self.numbers, name)[share - 1])

    def claim(self, tick: int, share: int, length: int) -> int:
        """Claims a share for so many ticks, and gives the ticket; an old one ends. Refused 50, 52 to 57."""
        ticket = lib.number()
        lib.call("claim", self._book, *self._numbers(tick, share, length), lib.ref(ticket))
        return ticket.value

    def take(self, tick: int, ticket: int) -> Taken:
        """The ticket's share, its next position and the diagram there. Refused 50, 52, 58, 59."""
        out, share, position, length = lib.rooms(lib.MAX_LISTED), lib.number(), lib.number(), lib.number()
        lib.call("take", self._book, *self._numbers(tick, ticket), *out, *map(lib.ref, (share, position, length)))
        word = Word(out[4][: length.value])
        diagram = Diagram._given(out[0][: self.size], out[2][: self.size], word=word, position=position.value)
        return Taken(share.value, position.value, diagram)

    def commit(self, tick: int, ticket: int, position: int) -> None:
        """Commits the share's next position. Refused 50, 52, 58, 59, 60."""
        lib.call("commit", self._book, *self._numbers(tick, ticket, position))

    def commit_range(self, tick: int, ticket: int, first: int, last: int) -> None:
        """Commits the positions first to last, all or none, as that many commits would. Refused as these."""
        lib.call("commit_range", self._book, *self._numbers(tick, ticket, first, last))

    def release(self, tick: int, ticket: int) -> None:
        """Gives the ticket back: its share is free. Refused 50, 52, 58, 59."""
        lib.call("release", self._book, *self._numbers(tick, ticket))

    def report(self) -> Report:
        """How many positions are committed, and whether all are. Refused 50."""
        committed, complete = lib.number(), lib.number()
        lib.call("report", self._book, lib.ref(committed), lib.ref(complete))
        return Report(committed.value, complete.value == 1)

    @property
    def _book(self) -> object:
        return lib.ref(self.numbers)

    @staticmethod
    def _numbers(*values: int) -> list[object]:
        return [lib.unsigned(value) for value in values]

    def __eq__(self, other: object) -> bool:
        return isinstance(other, Book) and self.fields() == other.fields()

    __hash__ = None  # type: ignore[assignment]

    def __repr__(self) -> str:
        return f"Book.of_fields{self.fields()!r}"
