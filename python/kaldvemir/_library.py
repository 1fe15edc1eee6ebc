"""The C library, called by ctypes: the names and types of c/kaldvemir.h, and nothing else.

A function returns 0 or the number of a refusal, which becomes the exception `Refused`. What a function writes it writes into lists
and numbers made here, long enough for every answer, so that 9 never comes up.
"""

from __future__ import annotations

import ctypes
import operator
import os
from collections.abc import Callable, Sequence
from ctypes import POINTER, Array, byref, c_bool, c_int32, c_size_t, c_uint8, c_uint16, c_uint64
from pathlib import Path
from typing import Any

from .refusals import Refused

MAX_SIZE = 1024
MAX_LISTED = 50
MAX_SHARES = 32
MAX_TICKETS = 65_535
MAX_LEASE = 65_535
CELL = 52


def row_bytes(size: int) -> int:
    """Bytes enough for a row of that size: KALDVEMIR_ROW_BYTES of the header."""
    return 9 * size + 40


class RunNumbers(ctypes.Structure):
    """kaldvemir_run: 54 numbers of 16 bits."""

    _fields_ = [("size", c_uint16), ("stage", c_uint16), ("length", c_uint16), ("items", c_uint16 * 51)]


class BookNumbers(ctypes.Structure):
    """kaldvemir_book: 100 numbers of 64 bits."""

    _fields_ = [
        ("size", c_uint64),
        ("shares", c_uint64),
        ("latest", c_uint64),
        ("issued", c_uint64),
        ("next", c_uint64 * MAX_SHARES),
        ("ticket", c_uint64 * MAX_SHARES),
        ("expiry", c_uint64 * MAX_SHARES),
    ]


assert ctypes.sizeof(RunNumbers) == 54 * 2 and ctypes.sizeof(BookNumbers) == 100 * 8

_LIST = [POINTER(c_uint16), c_size_t]
_BYTES = [POINTER(c_uint8), c_size_t]
_NUMBERS = [POINTER(c_uint64), c_size_t]
_NUMBER = POINTER(c_uint64)
_RUN = POINTER(RunNumbers)
_BOOK = POINTER(BookNumbers)
_DIAGRAM = [*_LIST, *_LIST, c_uint64]
_OUT = [*_LIST, *_LIST, *_LIST]

# The arguments of each function, in the order of the header.
_ARGUMENTS: dict[str, list[Any]] = {
    "check": _DIAGRAM,
    "all_reached": _BYTES,
    "relabel": [*_DIAGRAM, *_OUT, _NUMBER],
    "compare_rooted": [*_DIAGRAM, *_DIAGRAM, _NUMBER, _NUMBER],
    "compare_unrooted": [*_DIAGRAM, *_DIAGRAM, _NUMBER, _NUMBER],
    "symmetries": [*_DIAGRAM, _NUMBER],
    "kept": [*_DIAGRAM, _NUMBER],
    "invariants": [*_DIAGRAM, POINTER(c_uint16), POINTER(c_uint16), POINTER(c_uint16), POINTER(c_int32), _NUMBER],
    "read_word": [*_LIST, *_LIST, *_LIST, _NUMBER],
    "lesser": [*_LIST, *_LIST],
    "letters": [*_LIST, *_BYTES, _NUMBER],
    "count": [c_uint64, _NUMBER],
    "kept_count": [c_uint64, _NUMBER],
    "diagram_at": [c_uint64, c_uint64, *_OUT, _NUMBER],
    "position": [*_DIAGRAM, _NUMBER],
    "plain_walk": [c_uint64, *_LIST, _NUMBER],
    "begin": [c_uint64, _RUN],
    "begin_at": [c_uint64, c_uint64, _RUN],
    "step": [_RUN, *_OUT, _NUMBER],
    "list": [_RUN, c_uint64, *_OUT, *_LIST, _NUMBER],
    "list_marked": [_RUN, c_uint64, *_OUT, *_LIST, *_BYTES, _NUMBER],
    "rows": [_RUN, c_uint64, *_BYTES, _NUMBER, _NUMBER, _NUMBER],
    "upto_begin": [c_uint64, _RUN, _NUMBER],
    "upto_step": [_RUN, _NUMBER, *_OUT, _NUMBER, _NUMBER],
    "sheet_positions": [*_LIST, *_LIST, *_NUMBERS],
    "open": [_BOOK, c_uint64, c_uint64],
    "claim": [_BOOK, c_uint64, c_uint64, c_uint64, _NUMBER],
    "take": [_BOOK, c_uint64, c_uint64, *_OUT, _NUMBER, _NUMBER, _NUMBER],
    "commit": [_BOOK, c_uint64, c_uint64, c_uint64],
    "commit_range": [_BOOK, c_uint64, c_uint64, c_uint64, c_uint64],
    "release": [_BOOK, c_uint64, c_uint64],
    "report": [_BOOK, _NUMBER, _NUMBER],
}


class LibraryMissing(ImportError):
    """The shared object is not there, or is not this package's."""


def _load() -> ctypes.CDLL:
    path = os.environ.get("KALDVEMIR_LIBRARY") or str(Path(__file__).with_name("libkaldvemir.so"))
    try:
        library = ctypes.CDLL(path)
        for name, arguments in _ARGUMENTS.items():
            function = getattr(library, "kaldvemir_" + name)
            function.argtypes = arguments
            function.restype = c_bool if name == "all_reached" else c_uint16
    except (OSError, AttributeError) as error:
        raise LibraryMissing(
            f"kaldvemir: the proved library cannot be used ({error}). Build it with python/build.sh at the top of the source, "
            "or name another one in the environment variable KALDVEMIR_LIBRARY."
        ) from error
    return library


LIBRARY = _load()


def function(name: str) -> Callable[..., int]:
    """The C function kaldvemir_NAME as it is: its answer is a number."""
    found: Callable[..., int] = getattr(LIBRARY, "kaldvemir_" + name)
    return found


def call(name: str, *arguments: Any) -> None:
    """Calls kaldvemir_NAME; a refusal becomes an exception."""
    number = function(name)(*arguments)
    if number != 0:
        raise Refused(number)


def number() -> c_uint64:
    """A number for the library to write."""
    return c_uint64()


def ref(value: Any) -> Any:
    return byref(value)


# ctypes cuts off what does not fit without a word, and the library would be asked about another diagram.
def fits(value: int, bits: int, what: str) -> int:
    try:
        whole = operator.index(value)
    except TypeError as error:
        raise TypeError(f"{what} is to be a whole number, not {value!r}") from error
    if not 0 <= whole < 1 << bits:
        raise OverflowError(f"{what} {whole} does not fit {bits} bits without a sign")
    return whole


def unsigned(value: int, what: str = "number") -> c_uint64:
    return c_uint64(fits(value, 64, what))


def items(values: Sequence[int], what: str = "entry") -> tuple[Array[c_uint16], int]:
    """A list of 16-bit numbers as the library takes it: a pointer that is not null, and the length."""
    kept = [fits(value, 16, what) for value in values]
    return (c_uint16 * max(1, len(kept)))(*kept), len(kept)


def room(length: int) -> tuple[Array[c_uint16], int]:
    """An output list of 16-bit numbers."""
    return (c_uint16 * max(1, length))(), length


def rooms(size: int) -> tuple[Any, ...]:
    """The output lists of a diagram of that size: s0, s1 and the word, each with its length."""
    return (*room(size), *room(size), *room(size + 1))
