"""Lists of diagrams: all of a size in dictionary order of their words, their number, their places, and the rows of a census.

A run is a list's iterator, whose state is the word that it stands at: it can begin at any position, without walking there.
"""

from __future__ import annotations

from collections.abc import Iterator, Sequence
from ctypes import c_uint8, c_uint64
from typing import Any, NamedTuple

from . import _library as lib
from .diagrams import Diagram, Word

BLOCK = 4_096
"""Diagrams that `listing` asks the library for at a time."""


def count(size: int) -> int:
    """How many rooted diagrams of that size there are: subgroups of that index. Refused 31 outside 1..50."""
    return _counted("count", size)


def kept_count(size: int) -> int:
    """How many of them are kept: conjugacy classes of subgroups. It counts by listing, half a second at size 24. Refused 31."""
    return _counted("kept_count", size)


def _counted(operation: str, size: int) -> int:
    value = lib.number()
    lib.call(operation, lib.unsigned(size, "size"), lib.ref(value))
    return value.value


def at(size: int, position: int) -> Diagram:
    """The diagram at a position of a size, in its characteristic labelling. Refused 31; 32 outside the list."""
    out, length = lib.rooms(lib.MAX_LISTED), lib.number()
    lib.call("diagram_at", lib.unsigned(size, "size"), lib.unsigned(position, "position"), *out, lib.ref(length))
    return _written(out, size, length.value, position=position)


def _written(out: tuple[Any, ...], size: int, length: int, **values: Any) -> Diagram:
    return Diagram._given(out[0][:size], out[2][:size], word=Word(out[4][:length]), **values)


class Rows(NamedTuple):
    """Rows of a census as the library wrote them."""

    text: bytes
    """The rows as the census program prints them, each ended by a newline."""
    given: int
    """How many rows there are."""
    kept: int
    """How many of their diagrams are kept."""


class Run:
    """A run through the diagrams of a size: `Run(7)` stands before the first, `Run(7, 10)` has given ten.

    Refused 31 where the size is outside 1..50, 32 where the position is past the list.
    """

    def __init__(self, size: int, given: int = 0) -> None:
        self.numbers = lib.RunNumbers()
        if given == 0:
            lib.call("begin", lib.unsigned(size, "size"), lib.ref(self.numbers))
        else:
            lib.call("begin_at", lib.unsigned(size, "size"), lib.unsigned(given, "position"), lib.ref(self.numbers))
        self._bytes = (c_uint8 * 0)()

    @property
    def size(self) -> int:
        return int(self.numbers.size)

    def step(self) -> Diagram | None:
        """The next diagram; None after the last."""
        out, length = lib.rooms(lib.MAX_LISTED), lib.number()
        lib.call("step", lib.ref(self.numbers), *out, lib.ref(length))
        return _written(out, self.size, length.value) if length.value else None

    def block(self, rows: int, *, marked: bool = True) -> list[Diagram]:
        """The next diagrams, at most so many, with their keep marks if wanted; fewer where the list ends."""
        n = self.size
        out = (*lib.room(rows * n), *lib.room(rows * n), *lib.room(rows * (n + 1)), *lib.room(rows))
        marks, given = (c_uint8 * max(1, rows))(), lib.number()
        name, places = ("list_marked", (marks, rows)) if marked else ("list", ())
        lib.call(name, lib.ref(self.numbers), lib.unsigned(rows), *out, *places, lib.ref(given))
        return list(_block(n, given.value, *out[::2], marks if marked else None))

    def rows(self, rows: int) -> Rows:
        """The text of the next rows, at most so many; none after the last."""
        needed = rows * lib.row_bytes(self.size)
        if len(self._bytes) < needed:
            self._bytes = (c_uint8 * needed)()
        given, written, kept = lib.number(), lib.number(), lib.number()
        lib.call("rows", lib.ref(self.numbers), lib.unsigned(rows), self._bytes, len(self._bytes), *map(lib.ref, (given, written, kept)))
        return Rows(bytes(memoryview(self._bytes)[: written.value]), given.value, kept.value)


def _block(n: int, given: int, s0: Any, s1: Any, words: Any, lengths: Any, marks: Any) -> Iterator[Diagram]:
    # Words lie one after another, each as long as its length says.
    start = 0
    for k in range(given):
        end = start + lengths[k]
        here = slice(k * n, k * n + n)
        known = {} if marks is None else {"kept": marks[k] == 1}
        yield Diagram._given(s0[here], s1[here], word=Word(words[start:end]), **known)
        start = end


def listing(size: int, first: int = 1, last: int | None = None, *, marked: bool = True) -> Iterator[Diagram]:
    """All diagrams of a size, in dictionary order of their words; each has its position and its word at hand, and its keep mark, where it
    is not said that these are not wanted, which is some three times faster.

    `first` and `last` are positions; there is nothing after the last. Refused 31 and 32, at the call and not at the first diagram.

    >>> [str(d.word) for d in listing(4) if d.kept]
    ['UFWW', 'UFJ0']
    """
    run, end = _stretch(size, first, last)
    return _listing(run, first, end, marked)


def _stretch(size: int, first: int, last: int | None) -> tuple[Run, int]:
    total = count(size)
    if first == 0:
        at(size, 0)  # there is no diagram before the first: the library says so
    return Run(size, first - 1), total if last is None else min(last, total)


def _listing(run: Run, position: int, last: int, marked: bool) -> Iterator[Diagram]:
    while position <= last:
        for diagram in run.block(min(BLOCK, last - position + 1), marked=marked):
            diagram.__dict__["position"] = position
            yield diagram
            position += 1


def rows(size: int, first: int = 1, last: int | None = None) -> Iterator[str]:
    """The rows of the census of a size, each a line without its newline, byte for byte as the census program prints them."""
    run, end = _stretch(size, first, last)
    return _rows(run, first, end)


def _rows(run: Run, position: int, last: int) -> Iterator[str]:
    while position <= last:
        block = run.rows(min(BLOCK, last - position + 1))
        yield from block.text.decode("ascii").splitlines()
        position += block.given


class UptoRun:
    """A run through all sizes 1 to a bound, as a single list in dictionary order of words. Refused 31 outside 1..50.

    Going through it gives pairs: a diagram, and the branch visits so far.
    """

    def __init__(self, bound: int) -> None:
        self.numbers, self.visits = lib.RunNumbers(), c_uint64()
        lib.call("upto_begin", lib.unsigned(bound, "bound"), lib.ref(self.numbers), lib.ref(self.visits))

    def step(self) -> Diagram | None:
        """The next diagram; None after the last."""
        out, size, length = lib.rooms(lib.MAX_LISTED), lib.number(), lib.number()
        lib.call("upto_step", lib.ref(self.numbers), lib.ref(self.visits), *out, lib.ref(size), lib.ref(length))
        return _written(out, size.value, length.value) if length.value else None

    def __iter__(self) -> Iterator[tuple[Diagram, int]]:
        while (diagram := self.step()) is not None:
            yield diagram, self.visits.value


def upto(bound: int) -> Iterator[tuple[Diagram, int]]:
    """All diagrams of the sizes 1 to a bound in dictionary order of words, each with the branch visits so far."""
    return iter(UptoRun(bound))


def plain_walk(size: int) -> list[int]:
    """All words of a size, one after another, by the source's backtracking. Refused 35 outside 1..9."""
    words, length = lib.room(1024), lib.number()
    lib.call("plain_walk", lib.unsigned(size, "size"), *words, lib.ref(length))
    return words[0][: length.value]


class Cell(NamedTuple):
    """What a cell of a sheet is answered."""

    refusal: int
    """0, or the number by which the word is refused."""
    position: int
    """The position of the diagram that the word spells; 0 where it is refused."""


def sheet_positions(sheet: Sequence[int]) -> list[Cell]:
    """The positions of the words of a sheet, cells of 52 numbers each: the length, the items, zeros. Refused 61."""
    cells = len(sheet) // lib.CELL
    refusals, positions = lib.room(cells), (c_uint64 * max(1, cells))()
    lib.call("sheet_positions", *lib.items(sheet), *refusals, positions, cells)
    return [Cell(refusals[0][k], positions[k]) for k in range(cells)]


def positions(words: Sequence[Sequence[int]]) -> list[Cell]:
    """The positions of many words in one call, each of at most 51 items; a bad word does not hold up the next."""
    sheet: list[int] = []
    for word in words:
        # A word too long for a cell is put as one whose length is too large: the library refuses that cell, 61.
        cell = [min(len(word), lib.CELL), *word][: lib.CELL]
        sheet += cell + [0] * (lib.CELL - len(cell))
    return sheet_positions(sheet)
