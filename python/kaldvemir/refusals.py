"""The refusals: an exception that carries the number of document 01, and its text.

The library decides whether a call is refused and by which number; this file only has the words for the numbers. docs/REFUSALS.md
says of each where its condition is defined.
"""

from __future__ import annotations

TEXTS: dict[int, str] = {
    1: "s0 is empty or has more than 1,024 entries",
    2: "s0 and s1 have different lengths",
    3: "the root is no edge: it is outside 1..n",
    4: "an entry of s0 is outside 1..n",
    5: "an entry of s1 is outside 1..n",
    6: "s0 applied three times moves an edge",
    7: "s1 applied twice moves an edge",
    8: "the diagram is not connected: some edge is not reached from edge 1",
    9: "an output list is too short",
    21: "the word is empty or has more than 1,025 items",
    22: "the first item of the word is not 0 (U) or 1 (T)",
    23: "an item Jd reaches below the bottom of the pending edges",
    24: "the word gives a label above 1,024",
    25: "the word ends while edges are pending",
    26: "the word has an item after its last pending edge is gone",
    31: "the size is outside 1..50",
    32: "the position is outside the list of that size",
    34: "the run is no run of its size: neither fresh, nor at a diagram, nor finished",
    35: "the size is outside 1..9",
    50: "the book is not valid",
    51: "the number of shares is outside 1..32",
    52: "the tick is before the latest tick of the book, or 2^48 or later",
    53: "there is no such share: it is outside 1..k",
    54: "the length of the lease is outside 1..65,535 ticks",
    55: "the share is finished",
    56: "the share is held, and its ticket has not lapsed",
    57: "the book has issued all of its 65,535 tickets",
    58: "the ticket stands at no share",
    59: "the ticket has lapsed",
    60: "the position is not the next one of the ticket's share",
    61: "the sheet is not made of cells of 52 numbers",
    62: "the level is 2^64 or more",
}


class Refused(Exception):
    """A call that the library turned away. Nothing was altered by it.

    `number` is the number of the refusal, `text` its condition in words. Of a comparison, `side` says which of the two diagrams
    was refused, 1 or 2.
    """

    def __init__(self, number: int, side: int | None = None) -> None:
        self.number = number
        self.side = side
        self.text = TEXTS.get(number, "this package has no text for that number: it is older than the library it calls")
        place = "" if side is None else f", diagram {side}"
        super().__init__(f"refused {number}{place}: {self.text}")

    def __reduce__(self) -> tuple[type[Refused], tuple[int, int | None]]:
        return Refused, (self.number, self.side)
