"""The rows of a table as text: as the census program prints them, as CSV, as JSON lines, and for GAP.

Each takes the rows as the census prints them, a line each, and gives lines.
"""

from __future__ import annotations

import csv
import io
import json
from collections.abc import Callable, Iterable, Iterator

from .store import COLUMNS

Lines = Iterator[str]
NUMBERS = ("position", "e2", "e3", "c", "t", "level")


def header(size: int) -> str:
    """The first line of a census."""
    return f"rooted trivalent diagrams, size {size}"


def last_line(listed: int, kept: int) -> str:
    """The last line of a census. A table without it is not whole."""
    return f"{listed} listed, {kept} kept"


def as_csv(rows: Iterable[str]) -> Lines:
    """Comma-separated values with a line of names; s0 and s1 stand in quotes."""
    out = io.StringIO()
    writer = csv.writer(out, lineterminator="")
    yield ",".join(COLUMNS)
    for row in rows:
        writer.writerow(row.split(" "))
        yield out.getvalue()
        out.seek(0)
        out.truncate()


def as_json(rows: Iterable[str]) -> Lines:
    """A JSON object a line: numbers as numbers, s0 and s1 as lists, and kept as true or false."""
    for row in rows:
        fields = dict(zip(COLUMNS, row.split(" ")))
        yield json.dumps(
            {
                "position": int(fields["position"]),
                "word": fields["word"],
                "s0": _entries(fields["s0"]),
                "s1": _entries(fields["s1"]),
                **{name: int(fields[name]) for name in NUMBERS[1:]},
                "kept": fields["mark"] == "K",
            }
        )


def _entries(text: str) -> list[int]:
    return [int(entry) for entry in text.split(",")]


def as_gap(rows: Iterable[str]) -> Lines:
    """A list of records that GAP reads, the permutations as permutations: `Read("rows.g"); kaldvemirRows[1].s0;`"""
    yield "kaldvemirRows := ["
    for row in rows:
        fields = dict(zip(COLUMNS, row.split(" ")))
        numbers = ", ".join(f"{name} := {fields[name]}" for name in NUMBERS[1:])
        yield (
            f"rec( position := {fields['position']}, word := \"{fields['word']}\", s0 := PermList([{fields['s0']}]),"
            f" s1 := PermList([{fields['s1']}]), {numbers}, kept := {'true' if fields['mark'] == 'K' else 'false'} ),"
        )
    yield "];"


FORMATS: dict[str, Callable[[Iterable[str]], Lines]] = {"census": iter, "csv": as_csv, "jsonl": as_json, "gap": as_gap}
