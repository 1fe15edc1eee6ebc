"""Rooted trivalent diagrams, which stand for subgroups of the modular group, and their words.

A diagram of n edges is a pair of permutations of 1..n: s0 of order dividing 3 (the next edge round the black vertex) and s1 of order
dividing 2 (round the white vertex), such that every edge is reached from edge 1. One edge is the root. Rooted diagrams up to
isomorphism are the subgroups of index n of PSL2(Z), the root being the coset of the subgroup itself; without roots they are the
conjugacy classes of subgroups.

Everything is answered by the proved library; nothing is decided here.
"""

from __future__ import annotations

from collections.abc import Iterable, Sequence
from ctypes import c_int32, c_uint8, c_uint16
from functools import cached_property
from typing import Any, NamedTuple

from . import _library as lib
from .refusals import Refused


class Word(tuple[int, ...]):
    """The word of a rooted diagram: the events of Vidal's labelling as numbers, U = 0 or T = 1, then W = 0, F = 1, B = 2, Jd = 3 + d.

    It is a tuple of its items; `str` gives its letters, as the census prints them. Words stand in dictionary order, as tuples do.
    """

    @property
    def letters(self) -> str:
        """The word in letters: `TWJ0`. Refused 22 where the first item is not 0 or 1."""
        space = 6 * len(self) + 1
        text, length = (c_uint8 * space)(), lib.number()
        lib.call("letters", *lib.items(self, "item"), text, space, lib.ref(length))
        return bytes(text[: length.value]).decode("ascii")

    def __str__(self) -> str:
        return self.letters

    def __repr__(self) -> str:
        return f"Word({tuple(self)!r})"

    def diagram(self) -> Diagram:
        """The diagram that the word spells, in its characteristic labelling, root 1. Refused 21 to 26 where it spells none."""
        return read_word(self)


class Invariants(NamedTuple):
    """The invariants of a diagram, in the terms of its subgroup."""

    e2: int
    """Edges that s1 fixes: elliptic points of order 2."""
    e3: int
    """Edges that s0 fixes: elliptic points of order 3."""
    c: int
    """Cycles of i to s0(s1(i)): cusps."""
    t: int
    """12 + n - 3 e2 - 4 e3 - 6 c, which is 12 times the genus."""
    level: int
    """The least common multiple of these cycles' lengths, which are the cusps' widths."""


class Diagram:
    """A rooted trivalent diagram: `Diagram(s0, s1, root=1)`, lists of 1..n. Refused 1 to 8 where that is none.

    Two diagrams are equal (`==`) where their lists and roots are the same; `is_isomorphic` asks for more.

    >>> d = Diagram([1, 3, 4, 2], [2, 1, 3, 4], root=3)
    >>> str(d.word), d.relabel().s1, d.kept
    ('TBWW', (1, 2, 4, 3), False)
    """

    s0: tuple[int, ...]
    s1: tuple[int, ...]
    root: int

    def __init__(self, s0: Iterable[int], s1: Iterable[int], root: int = 1) -> None:
        self.__dict__.update(s0=tuple(s0), s1=tuple(s1), root=root)
        check(self.s0, self.s1, root)

    @classmethod
    def _given(cls, s0: Sequence[int], s1: Sequence[int], **values: Any) -> Diagram:
        """A diagram that the library has written, with what it has answered of it: it needs no check."""
        diagram = cls.__new__(cls)
        diagram.__dict__.update(s0=tuple(s0), s1=tuple(s1), root=1, **values)
        return diagram

    def __setattr__(self, name: str, value: object) -> None:
        raise AttributeError("a diagram is not altered: make another one")

    def __delattr__(self, name: str) -> None:
        self.__setattr__(name, None)

    @property
    def size(self) -> int:
        """The number of edges: the index of the subgroup."""
        return len(self.s0)

    @cached_property
    def _lent(self) -> tuple[Any, ...]:
        return _lent((self.s0, self.s1, self.root))

    @cached_property
    def _relabelled(self) -> tuple[tuple[int, ...], tuple[int, ...], Word]:
        out, length = lib.rooms(self.size), lib.number()
        lib.call("relabel", *self._lent, *out, lib.ref(length))
        return tuple(out[0][: self.size]), tuple(out[2][: self.size]), Word(out[4][: length.value])

    @cached_property
    def word(self) -> Word:
        """The word: it tells the diagram up to isomorphisms that carry root to root."""
        return self._relabelled[2]

    def relabel(self) -> Diagram:
        """The diagram in its characteristic (canonical) labelling, root 1."""
        s0, s1, word = self._relabelled
        return Diagram._given(s0, s1, word=word)

    def is_isomorphic(self, other: Diagram, *, rooted: bool = True) -> bool:
        """Whether some isomorphism joins the two; with `rooted`, one that carries root to root.

        Rooted: the two are the same subgroup. Without roots: they are conjugate.
        """
        return _compared(self._lent, other._lent, rooted)

    @cached_property
    def invariants(self) -> Invariants:
        """e2, e3, c, t and the level. Refused 62 where the level is 2^64 or more."""
        e2, e3, c, t, level = c_uint16(), c_uint16(), c_uint16(), c_int32(), lib.number()
        lib.call("invariants", *self._lent, *map(lib.ref, (e2, e3, c, t, level)))
        return Invariants(e2.value, e3.value, c.value, t.value, level.value)

    @cached_property
    def symmetries(self) -> int:
        """The number of automorphisms that need not keep the root: the index of the subgroup in its normalizer."""
        return self._number("symmetries")

    @cached_property
    def kept(self) -> bool:
        """Whether the word is the least among those of all rootings: so one of each conjugacy class is kept."""
        return self._number("kept") == 1

    @cached_property
    def position(self) -> int:
        """The place of its word among those of its size, from 1. Refused 31 above 50 edges."""
        return self._number("position")

    def _number(self, operation: str) -> int:
        value = lib.number()
        lib.call(operation, *self._lent, lib.ref(value))
        return value.value

    def picture(self) -> str:
        """An SVG of the diagram: drawn in the plane by its own embedding where the genus is 0."""
        from .picture import svg

        return svg(self.s0, self.s1, self.root, planar=self.invariants.t == 0)

    def _repr_svg_(self) -> str:
        return self.picture()

    def __eq__(self, other: object) -> bool:
        if not isinstance(other, Diagram):
            return NotImplemented
        return (self.s0, self.s1, self.root) == (other.s0, other.s1, other.root)

    def __hash__(self) -> int:
        return hash((self.s0, self.s1, self.root))

    def __repr__(self) -> str:
        return f"Diagram({list(self.s0)}, {list(self.s1)}, root={self.root})"

    def __reduce__(self) -> tuple[type[Diagram], tuple[Any, ...]]:
        return Diagram, (self.s0, self.s1, self.root)


Given = Diagram | tuple[Sequence[int], Sequence[int], int]
"""A diagram, or lists that may be none: s0, s1 and the root."""


def _lent(given: Given) -> tuple[Any, ...]:
    if isinstance(given, Diagram):
        return given._lent
    s0, s1, root = given
    return (*lib.items(s0), *lib.items(s1), lib.unsigned(root, "root"))


def check(s0: Sequence[int], s1: Sequence[int], root: int = 1) -> None:
    """Refused 1 to 8 where the two lists and the root are no rooted diagram."""
    lib.call("check", *_lent((s0, s1, root)))


def _compared(first: tuple[Any, ...], second: tuple[Any, ...], rooted: bool) -> bool:
    same, side = lib.number(), lib.number()
    name = "compare_rooted" if rooted else "compare_unrooted"
    refusal = lib.function(name)(*first, *second, lib.ref(same), lib.ref(side))
    if refusal != 0:
        raise Refused(refusal, side.value)
    return same.value == 1


def compare(first: Given, second: Given, *, rooted: bool = True) -> bool:
    """Whether two diagrams, each a Diagram or (s0, s1, root), are isomorphic. A refusal, 1 to 8, has the side, 1 or 2."""
    return _compared(_lent(first), _lent(second), rooted)


def read_word(word: Sequence[int]) -> Diagram:
    """The diagram that a word spells. Refused 21 to 26 where it spells none."""
    s0, s1, size = lib.room(lib.MAX_SIZE), lib.room(lib.MAX_SIZE), lib.number()
    lib.call("read_word", *lib.items(word, "item"), *s0, *s1, lib.ref(size))
    return Diagram._given(s0[0][: size.value], s1[0][: size.value], word=Word(word))


def lesser(first: Sequence[int], second: Sequence[int]) -> Sequence[int]:
    """The smaller of two words in dictionary order; the first where they are equal."""
    return first if lib.function("lesser")(*lib.items(first), *lib.items(second)) == 1 else second


def all_reached(marks: bytes) -> bool:
    """Whether every mark is 1: the test that ends the search for a connected diagram."""
    marks = bytes(marks)
    return bool(lib.function("all_reached")((c_uint8 * max(1, len(marks)))(*marks), len(marks)))
