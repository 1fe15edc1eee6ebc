"""The lists against GAP, a program that nobody here wrote.

GAP's LowIndexSubgroupsFpGroup finds the conjugacy classes of subgroups of PSL2(Z) = < a, b | a^3, b^2 > up to an index. The
package finds the kept diagram of each, and GAP is asked whether the two pairs of permutations are conjugate. The matching is
one to one, so the kept diagrams are GAP's classes, class by class, and no two of them are conjugate.
"""

from __future__ import annotations

import json
import os
import re
import shutil
import subprocess
from collections.abc import Iterable
from dataclasses import dataclass
from itertools import chain
from pathlib import Path

import pytest

import kaldvemir
from kaldvemir.census.formats import as_gap

SCRIPTS = Path(__file__).with_name("gap")
# The numbers of classes of index 1, 2 and so on: two empty lists would agree too.
CLASSES = (1, 1, 2, 2, 1, 8, 6, 7, 14, 27, 26, 80, 133, 170, 348)
INDICES = range(1, len(CLASSES) + 1)
each_index = pytest.mark.parametrize("n", INDICES)


@dataclass(frozen=True)
class GapClass:
    """A conjugacy class of subgroups as GAP found it."""

    index: int
    number: int
    """Its place among those of its index, in GAP's order, from 1."""
    conjugates: int
    """How many subgroups it has."""
    a: tuple[int, ...]
    b: tuple[int, ...]

    def __str__(self) -> str:
        return f"index {self.index}, class {self.number} ({list(self.a)}, {list(self.b)})"


Pair = tuple[GapClass, kaldvemir.Diagram]


def program() -> str:
    found = shutil.which("gap")
    if found is None and os.environ.get("KALDVEMIR_TESTS_REQUIRE_ALL") != "1":
        pytest.skip("no gap on the PATH (Debian: gap-core); KALDVEMIR_TESTS_REQUIRE_ALL=1 makes that a failure")
    assert found is not None, "no gap on the PATH, and KALDVEMIR_TESTS_REQUIRE_ALL is 1"
    return found


def gap(script: str, setting: str) -> tuple[int, list[str]]:
    """The status and the lines of a script, run without the user's settings and packages."""
    options = ["-r", "-q", "-A", "--quitonbreak", "-c", setting]
    command = [program(), *options, str(SCRIPTS / script)]
    run = subprocess.run(command, stdin=subprocess.DEVNULL, capture_output=True, text=True, timeout=300)
    # 2 is a script's own answer that something differs; 1 is an error within GAP.
    assert run.returncode in (0, 2), f"{script}, status {run.returncode}: {run.stdout[-500:]} {run.stderr[-500:]}"
    return run.returncode, run.stdout.splitlines()


def gap_on_file(script: str, path: Path, text: str) -> tuple[int, list[str]]:
    path.write_text(text, encoding="ascii")
    return gap(script, f"kaldvemirFile := {json.dumps(str(path), ensure_ascii=False)};;")


def whole(lines: list[str]) -> list[str]:
    # After a syntax error GAP ends with status 0: only the last line says that the script was gone through.
    assert lines[-1:] == ["end"], f"GAP's answer is cut short: {lines[-3:]}"
    return lines[:-1]


@pytest.fixture(scope="module")
def classes() -> dict[int, list[GapClass]]:
    found: dict[int, list[GapClass]] = {n: [] for n in INDICES}
    _, lines = gap("classes.g", f"kaldvemirLargest := {INDICES[-1]};;")
    for line in whole(lines):
        index, conjugates, *lists = line.split()
        a, b = (tuple(map(int, entries.split(","))) for entries in lists)
        of_index = found[int(index)]
        of_index.append(GapClass(int(index), len(of_index) + 1, int(conjugates), a, b))
    return found


@pytest.fixture(scope="module")
def kept() -> dict[int, list[kaldvemir.Diagram]]:
    return {n: [d for d in kaldvemir.listing(n) if d.kept] for n in INDICES}


def rootings(s0: tuple[int, ...], s1: tuple[int, ...]) -> list[kaldvemir.Diagram]:
    """The diagram with each of its edges as the root, in the order of their words, each word once."""
    diagrams = (kaldvemir.Diagram(s0, s1, root=root) for root in range(1, len(s0) + 1))
    by_word = {d.word: d for d in diagrams}
    return [by_word[word] for word in sorted(by_word)]


def matched(classes: list[GapClass], kept: Iterable[kaldvemir.Diagram]) -> tuple[list[Pair], list[str]]:
    """The classes with their kept diagrams, and in words all that keeps this from being one to one."""
    pairs: list[Pair] = []
    odd: list[str] = []
    waiting: dict[kaldvemir.Diagram, kaldvemir.Diagram] = {}
    for d in kept:
        if d in waiting:
            odd.append(f"index {d.size}: {d} is listed twice")
        waiting[d] = d
    for each in classes:
        least = rootings(each.a, each.b)[0].relabel()
        found = waiting.pop(least, None)
        if found is None:
            odd.append(f"{each}: {least} of word {least.word} is not among the kept, or is another class's too")
        elif not least.kept:
            odd.append(f"{each}: {least} of word {least.word} is among the kept, and asked by itself it is not kept")
        else:
            pairs.append((each, found))
    odd += [f"index {d.size}: {d} is kept, and no class of GAP's" for d in waiting]
    return pairs, odd


def verdicts(path: Path, pairs: Iterable[Pair]) -> dict[tuple[int, int], str]:
    """By index and class: "conjugate" or "different", as GAP finds the pair."""
    rows = (json.dumps([x.index, x.number, x.a, x.b, d.s0, d.s1]) for x, d in pairs)
    text = "kaldvemirPairs := [\n" + ",\n".join(rows) + "\n];\n"
    status, lines = gap_on_file("matched.g", path, text)
    answers = {(int(index), int(number)): verdict for index, number, verdict in map(str.split, whole(lines))}
    assert status == (2 if "different" in answers.values() else 0)
    return answers


@pytest.fixture(scope="module")
def found_conjugate(classes, kept, tmp_path_factory) -> dict[tuple[int, int], str]:
    pairs = list(chain.from_iterable(matched(classes[n], kept[n])[0] for n in INDICES))
    return verdicts(tmp_path_factory.mktemp("gap") / "pairs.g", pairs)


@each_index
def test_each_class_has_one_kept_diagram_and_each_kept_diagram_one_class(n, classes, kept):
    pairs, odd = matched(classes[n], kept[n])
    assert not odd, f"{len(odd)} differences, the first: {odd[0]}"
    assert len(pairs) == len(classes[n]) == len(kept[n]) == CLASSES[n - 1]


@each_index
def test_gap_finds_the_class_and_its_kept_diagram_conjugate(n, found_conjugate):
    every = range(1, CLASSES[n - 1] + 1)
    missing = [number for number in every if found_conjugate.get((n, number)) != "conjugate"]
    assert not missing, f"index {n}: the classes {missing} are not conjugate to a kept diagram"


@each_index
def test_the_subgroups_of_the_classes_are_the_whole_list(n, classes):
    """Not the kept ones alone: each class has as many rootings as GAP counts subgroups in it, and all together are the list."""
    words = []
    for each in classes[n]:
        of_class = [d.word for d in rootings(each.a, each.b)]
        assert len(of_class) == each.conjugates, f"{each}: {len(of_class)} rootings, {each.conjugates} subgroups"
        words += of_class
    listed = [d.word for d in kaldvemir.listing(n)]
    assert sorted(words) == listed, f"index {n}: {sorted(map(str, set(words) ^ set(listed)))} on one side alone"


def mirror(d: kaldvemir.Diagram) -> kaldvemir.Diagram:
    """The mirror image: round the black vertices the other way."""
    return kaldvemir.Diagram([d.s0.index(edge) + 1 for edge in range(1, d.size + 1)], d.s1)


def is_chiral(d: kaldvemir.Diagram) -> bool:
    other = mirror(d)
    return rootings(other.s0, other.s1)[0].word != rootings(d.s0, d.s1)[0].word


def with_one_mirrored(pairs: list[Pair]) -> tuple[list[Pair], GapClass]:
    """The pairs, one of them with the mirror image of its diagram, which is chiral; and the class whose pair it is."""
    place = next(place for place, (_, d) in enumerate(pairs) if is_chiral(d))
    each, d = pairs[place]
    return [*pairs[:place], (each, mirror(d)), *pairs[place + 1 :]], each


# The comparisons above can fail. The numbers of classes are the same in each of these, and only the permutations tell.


@pytest.mark.parametrize("n", [7, 10, 15])
def test_a_mirror_image_in_the_list_is_missed_and_named(n, classes, kept):
    pairs, _ = matched(classes[n], kept[n])
    altered, each = with_one_mirrored(pairs)
    _, odd = matched(classes[n], [d for _, d in altered])
    assert [line for line in odd if line.startswith(f"{each}: ")] and len(odd) == 2, odd


def test_a_class_put_for_another_is_missed_and_named(classes, kept):
    _, odd = matched(classes[6], [kept[6][1], *kept[6][1:]])
    assert len(odd) == 2 and "listed twice" in odd[0] and odd[1].startswith("index 6, class "), odd


def test_gap_tells_mirror_images_though_they_match_one_to_one(classes, kept, tmp_path):
    """A package that took a for its inverse would pass the matching. GAP's answer tells, of the chiral ones and of no others."""
    pairs = matched(classes[10], kept[10])[0]
    answers = verdicts(tmp_path / "pairs.g", [(each, mirror(d)) for each, d in pairs])
    assert answers == {(10, each.number): "different" if is_chiral(d) else "conjugate" for each, d in pairs}
    assert len(answers) == CLASSES[9] and len(set(answers.values())) == 2


def test_gap_tells_two_exchanged_diagrams(classes, kept, tmp_path):
    (first, d), (second, e), *others = matched(classes[9], kept[9])[0]
    answers = verdicts(tmp_path / "pairs.g", [(first, e), (second, d), *others])
    assert len(answers) == CLASSES[8]
    different = [place for place, verdict in answers.items() if verdict != "conjugate"]
    assert different == [(9, first.number), (9, second.number)]


def table_text(n: int) -> str:
    """What `kaldvemir rows --format gap` prints of a size."""
    return "\n".join(as_gap(kaldvemir.rows(n))) + "\n"


@pytest.mark.parametrize(("n", "rows"), [(1, 1), (2, 1), (9, 120)])
def test_gap_reads_the_table(tmp_path, n, rows):
    assert gap_on_file("read_rows.g", tmp_path / "rows.g", table_text(n)) == (0, [f"{rows} rows agree"])


# In row 120 of size 9, what is replaced by what, and what GAP says of it.
WRONG = {
    "e2": (r"e2 := (\d+)", r"e2 := 1\1", "e2 is "),
    "e3": (r"e3 := (\d+)", r"e3 := 1\1", "e3 is "),
    "c": (r"\bc := (\d+)", r"c := 1\1", "c is "),
    "t": (r"\bt := \d+", r"t := -12", "t is -12, by GAP "),
    "level": (r"level := (\d+)", r"level := 1\1", "level is "),
    "position": (r"position := 120", r"position := 121", "the row says position 121"),
    "no permutation": (r"s0 := PermList\(\[\d+,", r"s0 := PermList([9,", "s0 or s1 is no permutation"),
    "orders": (r"s1 := PermList\(.*?\)", "s1 := (1,2,3)", "the order of "),
    "not transitive": (r"s1 := PermList\(.*?\)", "s1 := ()", "not transitive"),
}


@pytest.mark.parametrize("case", WRONG)
def test_gap_names_the_row_that_is_wrong(tmp_path, case):
    pattern, other, answer = WRONG[case]
    *before, row, end = table_text(9).splitlines()
    altered, times = re.subn(pattern, other, row)
    assert times == 1 and altered != row
    status, lines = gap_on_file("read_rows.g", tmp_path / "rows.g", "\n".join([*before, altered, end]) + "\n")
    assert (status, len(lines)) == (2, 1) and lines[0].startswith(f"position 120: {answer}"), lines
