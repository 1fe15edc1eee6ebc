"""The audit: the whole table is compared with the proved rows, byte for byte, and the book with the table.

The rows that belong into the table are those of the positions that the book says are committed: of each share, those from its first
to the one before its next. They are listed anew by the proved library and compared with the table's text as it stands.
"""

from __future__ import annotations

from collections.abc import Callable, Iterator

from ..lists import Run
from ..refusals import Refused
from .store import Census, Problem, Reading

STRETCH = 8_192
"""Rows that are compared at a time."""


class Difference(Problem):
    """The first place where the table, the book and the list do not agree."""


def committed(reading: Reading, census: Census) -> list[tuple[int, int]]:
    """The stretches of committed positions, by the book; a book that is not valid is a difference."""
    try:
        reading.book.report()
    except Refused as refusal:
        raise Difference(f"the book of census {census.id}: {refusal}") from refusal
    firsts = [first for first, _ in census.stretches()]
    nexts = [reading.book.next(share) for share in range(1, census.shares + 1)]
    return [(first, after - 1) for first, after in zip(firsts, nexts) if first < after]


def audit(reading: Reading, census: Census, progress: Callable[[int], None]) -> int:
    """The number of rows, all as they should be; raises Difference at the first that is not. `progress` is told how many were
    compared."""
    if (reading.book.size, reading.book.shares) != (census.size, census.shares):
        raise Difference(f"census {census.id} was opened with size {census.size} in {census.shares} shares, and its book has others")
    stretches = committed(reading, census)
    rows, least, greatest = reading.positions()
    compared, before = 0, min(least or 0, 0) - 1
    for first, last in stretches:
        _nothing_between(reading, census, before + 1, first - 1)
        for start, end, expected in proved_rows(census.size, first, last):
            there = reading.text(start, end)
            if there != expected:
                raise Difference(difference(census.table, expected, there))
            compared += end - start + 1
            progress(compared)
        before = last
    _nothing_between(reading, census, before + 1, greatest or 0)
    told = reading.book.report().committed
    if not rows == compared == told:
        raise Difference(f"table {census.table} has {rows} rows, of which {compared} belong there; the book says {told} are committed")
    return compared


def _nothing_between(reading: Reading, census: Census, first: int, last: int) -> None:
    """No row of the table has a position that the book says is not committed."""
    there = reading.text(first, last) if first <= last else b""
    if there:
        row = there.split(b"\n", 1)[0].decode(errors="replace")
        raise Difference(f"table {census.table} has a row that the book says is not committed: `{row}`")


def proved_rows(size: int, first: int, last: int) -> Iterator[tuple[int, int, bytes]]:
    """The rows of the positions first to last, in stretches: the first and last position of each, and its text."""
    run = Run(size, first - 1)
    while first <= last:
        rows = run.rows(min(STRETCH, last - first + 1))
        yield first, first + rows.given - 1, rows.text
        first += rows.given


def difference(table: str, expected: bytes, there: bytes) -> str:
    """The first row in which two texts differ, in words."""
    wanted, found = expected.decode().splitlines(), there.decode(errors="replace").splitlines()
    for k, row in enumerate(wanted):
        if k >= len(found) or found[k] != row:
            position = row.split(" ", 1)[0]
            other = found[k] if k < len(found) else ""
            if other.split(" ", 1)[0] == position:
                return f"table {table}, position {position}: the table has `{other}`, the list has `{row}`"
            return f"table {table}, position {position}: the row is missing; the list has `{row}`"
    return f"table {table} has a row too many: `{found[len(wanted)]}`"
