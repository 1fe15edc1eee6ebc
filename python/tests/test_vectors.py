"""Every operation through the package, against the answers of an independent implementation; and what a user would try first.

A vector is a file NAME.in of commands, a line each, and NAME.out with the answer to each line. The commands are those of the program
console: its grammar is at the head of crates/console/src/main.rt, and here are its commands that some vector uses. Other vectors are
whole printed lists, and the published numbers of diagrams.
"""

from __future__ import annotations

import copy
import doctest
import importlib
import math
import pickle
import re
from collections.abc import Callable, Iterable, Sequence
from ctypes import c_uint64
from itertools import chain
from pathlib import Path
from typing import Any, NamedTuple

import pytest

import kaldvemir
from kaldvemir import _library as lib
from kaldvemir import Book, Diagram, Refused, Run, UptoRun, Word

VECTORS = Path(__file__).with_name("vectors")
REFUSALS = Path(__file__).parents[2] / "docs" / "REFUSALS.md"
MOST_ENTRIES = 2048


def lines_of(name: str) -> list[str]:
    return (VECTORS / name).read_text(encoding="ascii").removesuffix("\n").split("\n")


# ---- The level. Since request U3 it is the least common multiple of the widths of the cusps; in older vectors it is the largest width.


def widths(d: Diagram) -> list[int]:
    """The lengths of the cycles of i to s0(s1(i)), by going round them."""
    lengths: list[int] = []
    left = set(range(1, d.size + 1))
    while left:
        edge, before = min(left), len(left)
        while edge in left:
            left.remove(edge)
            edge = d.s0[d.s1[edge - 1] - 1]
        lengths.append(before - len(left))
    return lengths


def level_now(d: Diagram) -> int:
    return d.invariants.level


def level_before_u3(d: Diagram) -> int:
    assert d.invariants.level == math.lcm(*widths(d))
    return max(widths(d))


def with_level(row: str, d: Diagram, level: Callable[[Diagram], int]) -> str:
    """A row of the census with the level as the vector has it, in its ninth field; the row's own is that of the diagram."""
    fields = row.split(" ")
    assert fields[8] == str(d.invariants.level)
    return " ".join([*fields[:8], str(level(d)), *fields[9:]])


# ---- The words of a line, and those of an answer


class NoForm(Exception):
    """The line has none of the forms of the grammar: it is answered `error`, and alters nothing."""


def number(word: str, most: int = 2**64 - 1) -> int:
    # int takes signs, spaces and underscores too, and these are no form.
    if not re.fullmatch("[0-9]+", word) or int(word) > most:
        raise NoForm
    return int(word)


def numbers(word: str, most: int = 65_535) -> list[int]:
    entries = [] if word == "-" else [number(entry, most) for entry in word.split(",")]
    if len(entries) > MOST_ENTRIES:
        raise NoForm
    return entries


READ: dict[str, Callable[[str], Any]] = {"N": number, "L": numbers, "B": lambda word: bytes(numbers(word, 255))}


def text(entries: Iterable[int]) -> str:
    return ",".join(map(str, entries)) or "-"


def lists(d: Diagram) -> str:
    return f"{text(d.s0)} {text(d.s1)} {text(d.word)}"


def lists_or_end(d: Diagram | None) -> str:
    return "end" if d is None else lists(d)


def ok(_: None) -> str:
    return "ok"


def yes(answer: bool) -> str:
    return "yes" if answer else "no"


# ---- Lines that name ROOMS. The package's own output lists are always long enough, so its answer is never 9: here it is the C function's.

Rooms = Sequence[int]


def in_rooms(name: str, given: Iterable[Any], outs: list[tuple[Any, int]], count: int) -> tuple[list[Any], list[int]]:
    """Calls kaldvemir_NAME with such output lists and so many output numbers: what is in both."""
    values = [lib.number() for _ in range(count)]
    lib.call(name, *given, *chain.from_iterable(outs), *map(lib.ref, values))
    return [entries for entries, _ in outs], [value.value for value in values]


def places(rooms: Rooms) -> list[tuple[Any, int]]:
    # No answer is longer than that, and a room may be any number of 64 bits.
    return [lib.room(min(room, MOST_ENTRIES)) for room in rooms]


def unsigned(values: Iterable[int]) -> list[c_uint64]:
    return [lib.unsigned(value) for value in values]


def first_entries(out: Sequence[Any], *lengths: int) -> str:
    return " ".join(text(entries[:length]) for entries, length in zip(out, lengths, strict=True))


def relabel_in(rooms: Rooms, s0: list[int], s1: list[int], root: int) -> str:
    out, (length,) = in_rooms("relabel", [*lib.items(s0), *lib.items(s1), lib.unsigned(root)], places(rooms), 1)
    return first_entries(out, len(s0), len(s0), length)


def read_in(rooms: Rooms, word: list[int]) -> str:
    out, (size,) = in_rooms("read_word", lib.items(word), places(rooms), 1)
    return first_entries(out, size, size)


def sheet_in(rooms: Rooms, sheet: list[int]) -> str:
    refusals, (_, length) = places(rooms)
    cells = len(sheet) // lib.CELL
    out, _ = in_rooms("sheet_positions", lib.items(sheet), [refusals, ((c_uint64 * max(1, length))(), length)], 0)
    return first_entries(out, cells, cells)


def at_in(rooms: Rooms, size: int, position: int) -> str:
    out, (length,) = in_rooms("diagram_at", unsigned([size, position]), places(rooms), 1)
    return first_entries(out, size, size, length)


def walk_in(rooms: Rooms, size: int) -> str:
    out, (length,) = in_rooms("plain_walk", unsigned([size]), places(rooms), 1)
    return f"{length} {first_entries(out, length)}"


# ---- The commands


def compared(answer: bool) -> str:
    return "same" if answer else "different"


def read(word: list[int]) -> str:
    d = kaldvemir.read_word(word)
    # The package takes the word that it was given for the diagram's own. The library is to find the same.
    assert Diagram(d.s0, d.s1).word == d.word == tuple(word)
    return f"{text(d.s0)} {text(d.s1)}"


def lesser(first: list[int], second: list[int]) -> str:
    # Which of the two is handed back is told by which object it is: they may be equal.
    least = kaldvemir.lesser(first, second)
    return f"{1 if least is first else 2} {text(least)}"


def sheet(entries: list[int]) -> str:
    cells = kaldvemir.sheet_positions(entries)
    return f"{text(cell.refusal for cell in cells)} {text(cell.position for cell in cells)}"


def walk(size: int) -> str:
    words = kaldvemir.plain_walk(size)
    return f"{len(words)} {text(words)}"


class Console:
    """What is kept from line to line: a run, a run through all sizes, and a book; all numbers are zero at first."""

    def __init__(self, level: Callable[[Diagram], int]) -> None:
        self.level = level
        self.run, self.upto = Run(1), UptoRun(1)
        self.run.numbers, self.upto.numbers = lib.RunNumbers(), lib.RunNumbers()
        self.book = Book.of_fields(0, 0, 0, 0, [0] * 32, [0] * 32, [0] * 32)

    def invariants(self, *lent: Any) -> str:
        d = Diagram(*lent)
        return f"{d.invariants.e2} {d.invariants.e3} {d.invariants.c} {d.invariants.t} {self.level(d)}"

    def row(self, size: int, position: int) -> str:
        (row,) = kaldvemir.rows(size, position, position)
        return with_level(row, kaldvemir.at(size, position), self.level)

    # A refused beginning leaves what was there before.
    def begin(self, size: int, given: int = 0) -> str:
        self.run = Run(size, given)
        return "ok"

    def begin_upto(self, bound: int) -> str:
        self.upto = UptoRun(bound)
        return "ok"

    def open(self, size: int, shares: int) -> str:
        self.book = Book.open(size, shares)
        return "ok"

    def step_in(self, rooms: Rooms) -> str:
        out, (length,) = in_rooms("step", [lib.ref(self.run.numbers)], places(rooms), 1)
        return first_entries(out, self.run.size, self.run.size, length) if length else "end"

    def next(self) -> str:
        d = self.upto.step()
        return "end" if d is None else f"{d.size} {self.upto.visits.value} {lists(d)}"

    def next_in(self, rooms: Rooms) -> str:
        state = [lib.ref(self.upto.numbers), lib.ref(self.upto.visits)]
        out, (size, length) = in_rooms("upto_step", state, places(rooms), 2)
        return f"{size} {self.upto.visits.value} {first_entries(out, size, size, length)}" if length else "end"

    def set_visits(self, visits: int) -> str:
        self.upto.visits.value = visits
        return "ok"

    def take(self, tick: int, ticket: int) -> str:
        share, position, d = self.book.take(tick, ticket)
        return f"share {share} position {position} {lists(d)}"

    def take_in(self, rooms: Rooms, tick: int, ticket: int) -> str:
        size, given = self.book.size, [lib.ref(self.book.numbers), *unsigned([tick, ticket])]
        out, (share, position, length) = in_rooms("take", given, places(rooms), 3)
        return f"share {share} position {position} {first_entries(out, size, size, length)}"

    def report(self) -> str:
        committed, complete = self.book.report()
        return f"{committed} {'complete' if complete else 'open'}"

    def show_book(self) -> str:
        *single, next_positions, tickets, expiries = self.book.fields()
        return " ".join([*map(str, single), text(next_positions), text(tickets), text(expiries)])

    def set_field(self, name: str, *values: int) -> str:
        fields: list[Any] = list(self.book.fields())
        place = Book.FIELDS.index(name)
        if place < 4:
            (fields[place],) = values
        else:
            share, fields[place][share - 1] = values
        self.book = Book.of_fields(*fields)
        return "ok"


class Command(NamedTuple):
    form: str
    """What its words are: N a number, L a list of numbers, B a list of marks."""
    answer: Callable[..., str]
    """Called with the console and the words."""
    rooms: int = 0
    answer_in: Callable[..., str] | None = None
    """Called with the console, the rooms and the words, where rooms are named."""


COMMANDS = {
    "check": Command("LLN", lambda c, *lent: ok(kaldvemir.check(*lent))),
    "reached": Command("B", lambda c, marks: yes(kaldvemir.all_reached(marks))),
    "relabel": Command("LLN", lambda c, *lent: lists(Diagram(*lent).relabel()), 3, lambda c, *words: relabel_in(*words)),
    "compare rooted": Command("LLNLLN", lambda c, *lent: compared(kaldvemir.compare(lent[:3], lent[3:]))),
    "compare unrooted": Command("LLNLLN", lambda c, *lent: compared(kaldvemir.compare(lent[:3], lent[3:], rooted=False))),
    "invariants": Command("LLN", Console.invariants),
    "symmetries": Command("LLN", lambda c, *lent: str(Diagram(*lent).symmetries)),
    "kept": Command("LLN", lambda c, *lent: yes(Diagram(*lent).kept)),
    "position": Command("LLN", lambda c, *lent: str(Diagram(*lent).position)),
    "read": Command("L", lambda c, word: read(word), 2, lambda c, *words: read_in(*words)),
    "sheet": Command("L", lambda c, entries: sheet(entries), 2, lambda c, *words: sheet_in(*words)),
    "lesser": Command("LL", lambda c, first, second: lesser(first, second)),
    "count": Command("N", lambda c, size: str(kaldvemir.count(size))),
    "at": Command("NN", lambda c, size, position: lists(kaldvemir.at(size, position)), 3, lambda c, *words: at_in(*words)),
    "row": Command("NN", Console.row),
    "walk": Command("N", lambda c, size: walk(size), 1, lambda c, *words: walk_in(*words)),
    "begin": Command("N", Console.begin),
    "begin-at": Command("NN", Console.begin),
    "step": Command("", lambda c: lists_or_end(c.run.step()), 3, Console.step_in),
    "upto": Command("N", Console.begin_upto),
    "next": Command("", Console.next, 3, Console.next_in),
    "upto-visits": Command("N", Console.set_visits),
    "open": Command("NN", Console.open),
    "claim": Command("NNN", lambda c, *words: f"ticket {c.book.claim(*words)}"),
    "take": Command("NN", Console.take, 3, Console.take_in),
    "commit": Command("NNN", lambda c, *words: ok(c.book.commit(*words))),
    "commits": Command("NNNN", lambda c, *words: ok(c.book.commit_range(*words))),
    "release": Command("NN", lambda c, *words: ok(c.book.release(*words))),
    "report": Command("", Console.report),
    "book": Command("", Console.show_book),
    "set size": Command("N", lambda c, value: c.set_field("size", value)),
    "set shares": Command("N", lambda c, value: c.set_field("shares", value)),
    "set latest": Command("N", lambda c, value: c.set_field("latest", value)),
    "set issued": Command("N", lambda c, value: c.set_field("issued", value)),
    "set next": Command("NN", lambda c, share, value: c.set_field("next", share, value)),
    "set ticket": Command("NN", lambda c, share, value: c.set_field("ticket", share, value)),
}


def named(line: str) -> tuple[Command, list[str]]:
    """The command, and the words after its name, which is of one word or two."""
    words = line.split(" ")
    for length in (1, 2):
        command = COMMANDS.get(" ".join(words[:length]))
        if command is not None:
            return command, words[length:]
    raise NoForm


def accepted_answer(console: Console, line: str) -> str:
    command, words = named(line)
    plain = len(command.form)
    if len(words) not in (plain, plain + command.rooms):
        raise NoForm
    values = [READ[kind](word) for kind, word in zip(command.form, words)]
    rooms = [number(word) for word in words[plain:]]
    return command.answer_in(console, rooms, *values) if rooms else command.answer(console, *values)


def answer(console: Console, line: str) -> str:
    try:
        return accepted_answer(console, line)
    except NoForm:
        return "error"
    except Refused as refusal:
        return f"refused {refusal.number}" + ("" if refusal.side is None else f" side {refusal.side}")


# ---- The vectors


@pytest.mark.parametrize(
    ("name", "lines", "level"),
    [
        ("console-1", 300, level_before_u3),
        ("book-1", 1500, level_now),
        ("rows-1", 300, level_before_u3),
        ("u1", 400, level_now),
        ("u2", 300, level_now),
        ("u3", 300, level_now),
        ("u8", 300, level_now),
    ],
)
def test_the_answers_are_those_of_the_vector(name, lines, level):
    console = Console(level)
    commands, answers = lines_of(f"{name}.in"), lines_of(f"{name}.out")
    assert len(commands) == len(answers) == lines
    odd = []
    for place, (line, wanted) in enumerate(zip(commands, answers), 1):
        got = answer(console, line)
        if got != wanted:
            odd.append(f"line {place}, {line[:80]!r}: {got[:300]!r}, and the vector has {wanted[:300]!r}")
    assert not odd, f"{len(odd)} differences, the first: {odd[0]}"


def test_each_command_here_is_in_some_vector():
    """Otherwise it is tried nowhere."""
    used = set()
    for line in chain.from_iterable(lines_of(path.name) for path in VECTORS.glob("*.in")):
        words = line.split(" ")
        used |= {words[0], " ".join(words[:2])}
    assert set(COMMANDS) <= used


def printed(d: Diagram) -> str:
    """The row of a diagram, put together of what the package says of it."""
    i = d.invariants
    return f"{d.position} {d.word} {text(d.s0)} {text(d.s1)} {i.e2} {i.e3} {i.c} {i.t} {i.level} {'K' if d.kept else '-'}"


@pytest.mark.parametrize("size", range(1, 9))
def test_the_rows_are_the_printed_list(size):
    title, *wanted, summary = lines_of(f"census-{size}.txt")
    rows, diagrams = list(kaldvemir.rows(size)), list(kaldvemir.listing(size))
    assert title == f"rooted trivalent diagrams, size {size}"
    assert summary == f"{kaldvemir.count(size)} listed, {kaldvemir.kept_count(size)} kept"
    assert [with_level(row, d, level_before_u3) for row, d in zip(rows, diagrams, strict=True)] == wanted
    assert [printed(d) for d in diagrams] == rows
    # Nothing that the list has at hand differs from what the library says of the bare lists.
    assert [printed(Diagram(d.s0, d.s1)) for d in diagrams] == rows


def published() -> list[tuple[int, int, int]]:
    return [tuple(map(int, line.split())) for line in lines_of("published-counts.txt") if not line.startswith("#")]


def test_the_counts_are_the_published_ones():
    assert [(size, kaldvemir.count(size)) for size in range(1, 51)] == [(size, rooted) for size, rooted, _ in published()]


@pytest.mark.parametrize(("size", "kept"), [(size, kept) for size, _, kept in published()[:24]])
def test_the_kept_counts_are_the_published_ones(size, kept):
    assert kaldvemir.kept_count(size) == kept


def refuses(number: int, call: Callable[[], Any], side: int | None = None) -> None:
    with pytest.raises(Refused) as raised:
        call()
    assert (raised.value.number, raised.value.side) == (number, side)
    assert raised.value.text == kaldvemir.TEXTS[number] and f"refused {number}" in str(raised.value)


# ---- Words


def test_a_word_is_written_in_letters():
    assert str(Word((1, 0, 3))) == Word((1, 0, 3)).letters == "TWJ0"
    assert str(Word([0, 1, 2, 65_535])) == "UFBJ65532"
    assert str(Word()) == ""
    assert repr(Word((1, 0, 3))) == "Word((1, 0, 3))"


def test_a_word_is_its_items():
    assert Word((1, 0, 3)) == (1, 0, 3) and hash(Word((1, 0, 3))) == hash((1, 0, 3))
    assert Word((1, 0, 3)).diagram() == kaldvemir.read_word([1, 0, 3]) == Diagram([2, 3, 1], [2, 1, 3])


def test_words_stand_in_the_order_of_the_list():
    words = [d.word for d in kaldvemir.listing(8)]
    assert words == sorted(words)
    # Those of all sizes too, where a word may be the beginning of another.
    words = [d.word for d, _ in kaldvemir.upto(8)]
    assert words == sorted(words) and len(words) == sum(kaldvemir.count(size) for size in range(1, 9))
    assert all(kaldvemir.lesser(second, first) is first for first, second in zip(words, words[1:]))


def test_the_first_of_two_equal_words_is_handed_back():
    first, second = [1, 0, 3], [1, 0, 3]
    assert kaldvemir.lesser(first, second) is first


def test_the_walk_gives_the_words_of_the_list():
    assert kaldvemir.plain_walk(7) == list(chain.from_iterable(d.word for d in kaldvemir.listing(7)))


# ---- Diagrams


@pytest.fixture
def diagram() -> Diagram:
    return Diagram([1, 3, 4, 2], [2, 1, 3, 4], root=3)


def test_diagrams_are_equal_where_their_lists_and_roots_are(diagram):
    assert diagram == Diagram((1, 3, 4, 2), iter([2, 1, 3, 4]), 3) and hash(diagram) == hash(Diagram([1, 3, 4, 2], [2, 1, 3, 4], 3))
    assert diagram != Diagram([1, 3, 4, 2], [2, 1, 3, 4]) and diagram != diagram.relabel() and diagram != "TBWW"
    assert len({diagram, copy.copy(diagram), kaldvemir.at(4, 5), kaldvemir.at(4, 5)}) == 2
    # What it has been asked makes no difference.
    assert list(kaldvemir.listing(6)) == [kaldvemir.at(6, position) for position in range(1, 23)]


def test_isomorphic_diagrams_need_not_be_equal(diagram):
    assert diagram.is_isomorphic(diagram.relabel()) and diagram.relabel() == kaldvemir.at(4, 5)
    other = Diagram(diagram.s0, diagram.s1, root=1)
    assert not diagram.is_isomorphic(other) and diagram.is_isomorphic(other, rooted=False)
    assert (diagram.kept, other.kept) == (False, True)


def test_the_text_of_a_diagram_makes_it_again(diagram):
    assert repr(diagram) == "Diagram([1, 3, 4, 2], [2, 1, 3, 4], root=3)"
    assert eval(repr(diagram)) == diagram


@pytest.mark.parametrize("name", ["s0", "s1", "root", "word", "position", "colour"])
def test_a_diagram_is_not_altered(diagram, name):
    with pytest.raises(AttributeError):
        setattr(diagram, name, 1)
    assert isinstance(diagram.s0, tuple) and isinstance(diagram.s1, tuple)


def test_a_diagram_keeps_its_own_lists():
    s0, s1 = [2, 3, 1], [2, 1, 3]
    d = Diagram(s0, s1)
    s0[0], s1[0] = 9, 9
    assert (d.s0, d.s1) == ((2, 3, 1), (2, 1, 3)) and str(d.word) == "TWJ0"


@pytest.mark.parametrize("asked", [False, True])
def test_a_diagram_goes_through_pickle_and_copy(diagram, asked):
    # After it has been asked something it also holds the arrays that it lends to the library.
    assert not asked or diagram.word
    for d in [diagram, kaldvemir.at(7, 9), *kaldvemir.listing(3)]:
        again = [pickle.loads(pickle.dumps(d)), copy.copy(d), copy.deepcopy(d)]
        assert again == [d] * 3 and [x.word for x in again] == [d.word] * 3


def test_a_diagram_of_the_largest_size():
    # A chain of 341 triangles, which is a tree: a single cusp, as wide as the diagram is large.
    word = [0, *[1, 0] * 341, 0]
    spelt = kaldvemir.read_word(word)
    d = Diagram(spelt.s0, spelt.s1)
    assert d.size == 1024 and d.relabel() == d and d.word == tuple(word)
    assert d.invariants == (342, 1, 1, 0, 1024) and (d.symmetries, d.is_isomorphic(d)) == (1, True)
    refuses(31, lambda: d.position)
    refuses(24, lambda: kaldvemir.read_word([*word[:-1], 2]))


# ---- Lists


def test_the_list_of_size_7():
    positions = []
    kept = 0
    for d in kaldvemir.listing(7):
        positions.append(d.position)
        kept += d.kept
    assert positions == list(range(1, 43)) and kept == 6


@pytest.mark.parametrize(
    ("first", "last", "wanted"),
    [(1, 42, 42), (10, 12, 3), (42, 42, 1), (40, None, 3), (40, 1000, 3), (12, 11, 0), (1, 0, 0)],
)
def test_a_stretch_of_the_list(first, last, wanted):
    whole, rows = list(kaldvemir.listing(7)), list(kaldvemir.rows(7))
    part = list(kaldvemir.listing(7, first, last))
    assert len(part) == wanted and [d.position for d in part] == list(range(first, first + wanted))
    assert part == whole[first - 1 :][:wanted]
    assert list(kaldvemir.rows(7, first, last)) == rows[first - 1 :][:wanted]


def test_a_list_longer_than_a_block_goes_on_where_the_block_ends():
    diagrams = list(kaldvemir.listing(15))
    assert [d.position for d in diagrams] == list(range(1, 5169))
    assert [d.word for d in diagrams] == sorted({d.word for d in diagrams})
    assert [row.split(" ", 2)[:2] for row in kaldvemir.rows(15)] == [[str(d.position), str(d.word)] for d in diagrams]


def test_a_stretch_far_into_the_longest_list():
    last = kaldvemir.count(50)
    stretch = list(kaldvemir.listing(50, last - 2))
    assert [d.position for d in stretch] == [Diagram(d.s0, d.s1).position for d in stretch] == [last - 2, last - 1, last]


def test_blocks_steps_and_rows_of_a_run_are_one_list():
    run, lines = Run(7), list(kaldvemir.rows(7))
    text, given, kept = run.rows(20)
    assert (text.decode("ascii").splitlines(), given, kept) == (lines[:20], 20, sum(line.endswith("K") for line in lines[:20]))
    assert [run.step(), *run.block(9), *run.block(0), run.step()] == list(kaldvemir.listing(7, 21, 31))
    text, given, _ = run.rows(30)
    assert (text.decode("ascii").splitlines(), given) == (lines[31:], 11)
    assert run.step() is None and run.block(5) == [] and run.rows(5) == (b"", 0, 0)


def test_a_run_begins_at_any_position():
    assert Run(7).step() == Run(7, 0).step() == kaldvemir.at(7, 1)
    assert Run(7, 41).step() == kaldvemir.at(7, 42) and Run(7, 42).step() is None


def test_the_list_of_all_sizes_up_to_3_with_the_visits():
    assert [(d.size, visits) for d, visits in kaldvemir.upto(3)] == [(1, 1), (2, 1), (3, 4), (3, 4), (3, 5), (3, 6)]


def test_many_words_in_one_call():
    words = [d.word for d in kaldvemir.listing(8)]
    assert kaldvemir.positions(words) == [(0, position) for position in range(1, 41)]
    assert kaldvemir.positions([[0, 2], [], [1], [5], [0] * 51, [0] * 52, [0, 0]]) == [
        (0, 1), (21, 0), (25, 0), (22, 0), (26, 0), (61, 0), (0, 1),
    ]  # fmt: skip
    assert kaldvemir.positions([]) == []


# ---- Refusals


ONE = ([1], [1], 1)
REFUSED = {
    "no entries": (1, lambda: Diagram([], [])),
    "an edge too many": (1, lambda: kaldvemir.check([1] * 1025, [1] * 1025)),
    "lengths": (2, lambda: kaldvemir.check([1, 2], [2, 1, 3])),
    "no root": (3, lambda: kaldvemir.check(*ONE[:2], root=2)),
    "root 2^64 - 1": (3, lambda: kaldvemir.check(*ONE[:2], root=2**64 - 1)),
    "s0": (4, lambda: kaldvemir.check([2, 3], [2, 1])),
    "s1": (5, lambda: kaldvemir.check([1, 2], [0, 1])),
    "order 3": (6, lambda: kaldvemir.check([2, 1], [2, 1])),
    "order 2": (7, lambda: kaldvemir.check([1, 2, 3], [2, 3, 1])),
    "two parts": (8, lambda: kaldvemir.check([1, 2], [1, 2])),
    "empty word": (21, lambda: kaldvemir.read_word([])),
    "letters of no word": (22, lambda: Word((2, 0)).letters),
    "jump": (23, lambda: kaldvemir.read_word([0, 3])),
    "too many labels": (24, lambda: kaldvemir.read_word([1] * 1025)),
    "unfinished": (25, lambda: Word((1, 0)).diagram()),
    "too long": (26, lambda: kaldvemir.read_word([0, 2, 2, 0])),
    "size 0": (31, lambda: kaldvemir.count(0)),
    "size 51": (31, lambda: kaldvemir.listing(51)),
    "rows of size 51": (31, lambda: kaldvemir.rows(51)),
    "run of size 51": (31, lambda: Run(51)),
    "bound 51": (31, lambda: kaldvemir.upto(51)),
    "before the first": (32, lambda: kaldvemir.listing(7, 0)),
    "past the last": (32, lambda: kaldvemir.at(7, 43)),
    "run past the last": (32, lambda: Run(7, 43)),
    "walk of size 10": (35, lambda: kaldvemir.plain_walk(10)),
    "zeros": (50, lambda: Book.of_fields(0, 0, 0, 0, [0] * 32, [0] * 32, [0] * 32).report()),
    "no shares": (51, lambda: Book.open(7, 0)),
    "tickets used up": (57, lambda: Book.of_fields(7, 1, 0, 65_535, [1] + [0] * 31, [0] * 32, [0] * 32).claim(0, 1, 1)),
    "no ticket": (58, lambda: Book.open(7, 1).take(0, 1)),
    "a cell and a number": (61, lambda: kaldvemir.sheet_positions([0] * 53)),
}


@pytest.mark.parametrize("case", REFUSED)
def test_a_refusal_has_its_number_and_its_text(case):
    refuses(*REFUSED[case])


def test_a_refused_comparison_has_its_side():
    bad = ([1], [1], 2)
    refuses(3, lambda: kaldvemir.compare(bad, ONE), side=1)
    refuses(3, lambda: kaldvemir.compare(ONE, bad), side=2)
    refuses(3, lambda: kaldvemir.compare(bad, ([], [], 1), rooted=False), side=1)
    assert kaldvemir.compare(ONE, ONE) and kaldvemir.compare(ONE, ONE, rooted=False)


def test_a_refusal_goes_through_pickle():
    # As it does where a worker is another process.
    again = pickle.loads(pickle.dumps(Refused(3, 2)))
    assert (again.number, again.side, again.text, str(again)) == (3, 2, kaldvemir.TEXTS[3], str(Refused(3, 2)))


def test_each_number_is_met_here_or_in_a_vector():
    answers = chain.from_iterable(lines_of(path.name) for path in VECTORS.glob("*.out"))
    met = {int(line.split(" ")[1]) for line in answers if line.startswith("refused ")}
    assert met | {number for number, _ in REFUSED.values()} == set(kaldvemir.TEXTS)


TOO_LARGE = {
    "entry": lambda: kaldvemir.check([65_536], [1]),
    "negative entry": lambda: Diagram([1], [-1]),
    "root": lambda: Diagram([1], [1], root=2**64),
    "negative root": lambda: kaldvemir.compare(ONE, ([1], [1], -1)),
    "item": lambda: kaldvemir.read_word([0, 65_536]),
    "item in a sheet": lambda: kaldvemir.positions([[0, 65_536]]),
    "item of a smaller word": lambda: kaldvemir.lesser([0], [65_536]),
    "letters": lambda: str(Word((0, -1))),
    "size": lambda: kaldvemir.count(2**64),
    "negative size": lambda: kaldvemir.kept_count(-1),
    "position": lambda: kaldvemir.at(7, 2**64),
    "first": lambda: kaldvemir.listing(7, -1),
    "block": lambda: Run(7).block(-1),
    "rows": lambda: Run(7).rows(-1),
    "tick": lambda: Book.open(7, 1).claim(2**64, 1, 1),
    "field": lambda: Book.of_fields(2**64, 0, 0, 0, [0] * 32, [0] * 32, [0] * 32),
}


@pytest.mark.parametrize("case", TOO_LARGE)
def test_a_number_that_does_not_fit_is_not_cut_off(case):
    with pytest.raises(OverflowError):
        TOO_LARGE[case]()


@pytest.mark.parametrize("entry", [1.0, "1", None])
def test_an_entry_is_a_whole_number(entry):
    with pytest.raises(TypeError):
        Diagram([entry], [1])
    with pytest.raises(TypeError):
        kaldvemir.count(entry)


# ---- The share book, as a session goes about it


def test_a_book_from_its_opening_to_its_end():
    book, committed = Book.open(size=6, shares=3), []
    for share in (2, 3, 1):
        ticket = book.claim(tick=len(committed), share=share, length=100)
        assert (book.ticket(share), book.expiry(share)) == (ticket, len(committed) + 100)
        while book.ticket(share) == ticket:
            taken = book.take(len(committed), ticket)
            assert (taken.share, taken.position) == (share, book.next(share)) and taken.diagram == kaldvemir.at(6, taken.position)
            book.commit(len(committed), ticket, taken.position)
            committed.append(taken.position)
        assert book.report() == (len(committed), len(committed) == 22)
    assert sorted(committed) == list(range(1, 23)) and book.issued == 3


def test_a_refused_call_leaves_the_book():
    book = Book.open(6, 3)
    ticket = book.claim(5, 2, 10)
    before = book.copy()
    for number, call in [
        (52, lambda: book.claim(4, 1, 10)),
        (56, lambda: book.claim(5, 2, 10)),
        (58, lambda: book.release(5, ticket + 1)),
        (59, lambda: book.commit(15, ticket, 8)),
        (60, lambda: book.commit_range(5, ticket, 9, 10)),
    ]:
        refuses(number, call)
        assert book == before and book is not before
    book.commit_range(5, ticket, 8, 10)
    assert book != before and book.next(2) == 11


def test_the_text_of_a_book_makes_it_again():
    book = Book.open(6, 3)
    book.claim(5, 2, 10)
    assert eval(repr(book)) == book == Book.of_fields(*book.fields())


# ---- What is written about the package


@pytest.mark.parametrize("home", [Diagram, kaldvemir.listing, Book])
def test_the_examples_in_the_docstrings(home):
    # By the module's name: the package may have another thing under it.
    result = doctest.testmod(importlib.import_module(home.__module__))
    assert result.attempted > 0 and result.failed == 0


def test_every_number_of_the_documentation_has_a_text():
    _, _, section = REFUSALS.read_text(encoding="utf-8").partition("## Each number\n")
    table, _, _ = section.partition("\n## ")
    documented = {int(cell) for cell in re.findall(r"^\| (\d+) \|", table, re.MULTILINE)}
    assert documented == set(kaldvemir.TEXTS)


def test_every_public_name_is_there_and_says_what_it_is():
    assert [name for name in kaldvemir.__all__ if name != "TEXTS" and not getattr(kaldvemir, name).__doc__] == []


# ---- Where a number could be cut off, or an entry be another's, without a word


def test_marks_are_bytes():
    assert kaldvemir.all_reached(bytes([1, 1])) and kaldvemir.all_reached([1, 1]) and not kaldvemir.all_reached([1, 2])
    for marks in ([257], [-255]):
        with pytest.raises(ValueError):
            kaldvemir.all_reached(marks)


@pytest.mark.parametrize("share", [0, 33, -1])
def test_a_book_has_entries_for_32_shares_and_no_others(share):
    book = Book.open(6, 32)
    for entry in (book.next, book.ticket, book.expiry):
        with pytest.raises(IndexError):
            entry(share)


def test_a_diagram_loses_nothing():
    d = Diagram([2, 3, 1], [2, 1, 3])
    with pytest.raises(AttributeError):
        del d.root
    assert d.root == 1


def test_a_word_of_any_length_stands_among_others():
    ub = Word((0, 2))
    assert kaldvemir.positions([ub, [0] * 70_000, ub]) == [(0, 1), (61, 0), (0, 1)]


def test_diagrams_and_lists_are_compared_alike():
    d, e = Diagram([2, 3, 1], [2, 1, 3]), Diagram([2, 3, 1], [1, 3, 2])
    assert kaldvemir.compare(d, e, rooted=False) and not kaldvemir.compare(d, (e.s0, e.s1, 1))
    with pytest.raises(Refused) as refused:
        kaldvemir.compare(d, ([1, 2], [1, 2], 1))
    assert (refused.value.number, refused.value.side) == (8, 2)


def test_a_listing_without_keep_marks_is_the_same_list():
    assert [(d, d.word, d.position) for d in kaldvemir.listing(9, marked=False)] == [(d, d.word, d.position) for d in kaldvemir.listing(9)]
    assert list(kaldvemir.listing(9, 121)) == []
    for first in (0, 122):
        with pytest.raises(Refused) as refused:
            kaldvemir.listing(9, first)
        assert refused.value.number == 32
