"""Rooted trivalent diagrams, that is, subgroups of the modular group: their words, lists and invariants, and the shared census.

    import kaldvemir
    for d in kaldvemir.listing(7):
        print(d.position, d.word, d.invariants.level, d.kept)

Diagrams: `Diagram`, `Word`, `Invariants`, `check`, `compare`, `read_word`, `lesser`.
Lists: `count`, `kept_count`, `at`, `listing`, `rows`, `Run`, `upto`, `positions`, `plain_walk`.
The share book: `Book`. A census in a database: `kaldvemir.census`.

Every answer is the proved library's. A call that it turns away raises `Refused`, with the number and its text.
"""

from .book import Book, Report, Taken
from .diagrams import Diagram, Invariants, Word, all_reached, check, compare, lesser, read_word
from .lists import (
    Cell,
    Rows,
    Run,
    UptoRun,
    at,
    count,
    kept_count,
    listing,
    plain_walk,
    positions,
    rows,
    sheet_positions,
    upto,
)
from .refusals import TEXTS, Refused

__version__ = "1.0.0"

__all__ = [
    "Book", "Cell", "Diagram", "Invariants", "Refused", "Report", "Rows", "Run", "TEXTS", "Taken", "UptoRun", "Word",
    "all_reached", "at", "check", "compare", "count", "kept_count", "lesser", "listing", "plain_walk", "positions",
    "read_word", "rows", "sheet_positions", "upto",
]  # fmt: skip
