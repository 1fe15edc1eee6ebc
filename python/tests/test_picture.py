"""The pictures are read back: what they show is told from the path data alone, and compared with the diagram."""

from __future__ import annotations

import cmath
import math
import os
import random
import subprocess
import sys
import xml.etree.ElementTree as ElementTree
from functools import cache
from itertools import permutations
from pathlib import Path
from typing import NamedTuple

import numpy as np
import pytest

from kaldvemir import picture

Diagram = tuple[tuple[int, ...], tuple[int, ...]]


# Diagrams, made here: nothing of the library is asked.


def relabelled(s0, s1, root) -> Diagram | None:
    """The diagram with its edges numbered as they are met from the root, or nothing where some are not."""
    number = {root: 1}
    queue = [root]
    for i in queue:
        for j in (s0[i - 1], s1[i - 1]):
            if j not in number:
                number[j] = len(number) + 1
                queue.append(j)
    if len(queue) < len(s0):
        return None
    return tuple(number[s0[i - 1]] for i in queue), tuple(number[s1[i - 1]] for i in queue)


@cache
def rooted(n: int) -> list[Diagram]:
    """All rooted diagrams of size n."""
    lists = list(permutations(range(1, n + 1)))
    blacks = [s for s in lists if all(s[s[s[i - 1] - 1] - 1] == i for i in s)]
    whites = [s for s in lists if all(s[s[i - 1] - 1] == i for i in s)]
    found = {relabelled(s0, s1, 1) for s0 in blacks for s1 in whites}
    return sorted(diagram for diagram in found if diagram is not None)


def chosen(n: int, fixed: int, by: int, chance: random.Random) -> list[int]:
    """A permutation of 1..n with so many fixed edges and else cycles of length `by`."""
    edges = chance.sample(range(1, n + 1), n)
    permutation = list(range(1, n + 1))
    for k in range(fixed, n, by):
        cycle = edges[k : k + by]
        for here, there in zip(cycle, cycle[1:] + cycle[:1]):
            permutation[here - 1] = there
    return permutation


def any_genus(n: int, e2: int, e3: int, seed: int) -> Diagram:
    """A random diagram."""
    chance = random.Random(seed)
    while True:
        diagram = relabelled(chosen(n, e3, 3, chance), chosen(n, e2, 2, chance), 1)
        if diagram is not None:
            return diagram


def of_genus_0(blacks: int, seed: int) -> Diagram:
    """A random diagram of genus 0: a tree of black vertices, of whose free ends then neighbours are joined."""
    chance = random.Random(seed)
    s0: list[int] = []
    s1: list[int] = []
    ends: list[int] = []
    for _ in range(blacks):
        size = 1 if len(ends) > 3 and chance.random() < 0.15 else 3
        new = list(range(len(s0) + 1, len(s0) + size + 1))
        s0 += new[1:] + new[:1]
        s1 += new
        place = chance.randrange(len(ends)) if ends else 0
        if ends:
            s1[ends[place] - 1], s1[new[0] - 1] = new[0], ends[place]
            new = new[1:]
        ends[place : place + 1] = new
    ends = [end for end in ends if chance.random() > 0.15]
    while len(ends) > 1:
        place = chance.randrange(len(ends))
        i, j = ends.pop(place), ends.pop(place % len(ends))
        s1[i - 1], s1[j - 1] = j, i
    diagram = relabelled(s0, s1, 1)
    assert diagram is not None and genus(diagram) == 0
    return diagram


def cycles(permutation) -> list[list[int]]:
    found: list[list[int]] = []
    for start in range(1, len(permutation) + 1):
        if not any(start in cycle for cycle in found):
            cycle = [start]
            while permutation[cycle[-1] - 1] != start:
                cycle.append(permutation[cycle[-1] - 1])
            found.append(cycle)
    return found


def genus(diagram: Diagram) -> int:
    s0, s1 = diagram
    n = len(s0)
    e2, e3 = (sum(s[i - 1] == i for i in range(1, n + 1)) for s in (s1, s0))
    cusps = len(cycles([s0[s1[i - 1] - 1] for i in range(1, n + 1)]))
    t = 12 + n - 3 * e2 - 4 * e3 - 6 * cusps
    assert t % 12 == 0
    return t // 12


def name(diagram: Diagram) -> str:
    return f"size {len(diagram[0])} genus {genus(diagram)}"


SMALL = [diagram for n in range(1, 7) for diagram in rooted(n)]
LARGER = [any_genus(n, n % 2 + e2, n % 3 + e3, seed) for n, e2, e3, seed in ((12, 0, 0, 1), (12, 2, 3, 2), (24, 0, 0, 3), (24, 2, 0, 4))]
LARGER += [any_genus(n, n % 2 + e2, n % 3 + e3, seed) for n, e2, e3, seed in ((24, 4, 3, 5), (50, 0, 0, 6), (50, 4, 3, 7))]
PLANE = [of_genus_0(blacks, seed) for blacks, seed in ((5, 1), (5, 2), (5, 3), (9, 4), (9, 5), (17, 6), (18, 7), (20, 8))]


# Pictures, read back. Points are complex numbers as the document has them: downwards positive.

SVG = "{http://www.w3.org/2000/svg}"


class Seen(NamedTuple):
    """What a document shows."""

    document: ElementTree.Element
    curves: dict[int, list[list[complex]]]
    """For each edge its cubic pieces, four points each."""
    vertices: dict[str, dict[tuple[int, ...], complex]]
    """For each colour the vertices, by their edges."""


def read(text: str) -> Seen:
    document = ElementTree.fromstring(text)
    curves: dict[int, list[list[complex]]] = {}
    for path in document.iter(SVG + "path"):
        if "edge" in path.get("class", "").split():
            edge = int(path.get("data-edge", ""))
            assert edge not in curves, "one path for each edge"
            curves[edge] = pieces(path.get("d", ""))
    vertices: dict[str, dict[tuple[int, ...], complex]] = {"black": {}, "white": {}}
    for circle in document.iter(SVG + "circle"):
        edges = tuple(map(int, circle.get("data-edges", "").split(",")))
        vertices[circle.get("class", "")][edges] = complex(float(circle.get("cx", "")), float(circle.get("cy", "")))
    return Seen(document, curves, vertices)


def pieces(data: str) -> list[list[complex]]:
    """The cubic pieces of a path that is one curve."""
    words = data.split()
    assert words[0] == "M" and set(words[3::7]) == {"C"} and len(words) % 7 == 3
    numbers = [float(word) for word in words if word not in "MC"]
    points = [complex(x, y) for x, y in zip(numbers[::2], numbers[1::2])]
    return [points[k : k + 4] for k in range(0, len(points) - 1, 3)]


def polyline(curve, steps: int = 20):
    """Points along a curve: its two ends, and others, none of them where pieces meet, lest a crossing there be missed."""
    t = (np.arange(steps) + 0.5) / steps
    parts = [(1 - t) ** 3 * p + 3 * t * (1 - t) ** 2 * c + 3 * t**2 * (1 - t) * d + t**3 * q for p, c, d, q in curve]
    return np.concatenate([[curve[0][0]], *parts, [curve[-1][3]]])


def leaving(curve, at_white: bool = False) -> complex:
    """The direction in which a curve leaves a vertex, as the viewer sees it: upwards positive."""
    way = curve[-1][2] - curve[-1][3] if at_white else curve[0][1] - curve[0][0]
    assert abs(way) > 0
    return way.conjugate()


def counterclockwise(ways) -> bool:
    """Whether these directions, from the first on once round counterclockwise, come in this order, all different."""
    turns = [cmath.phase(way / ways[0]) % (2 * math.pi) for way in ways[1:]]
    return all(before + 1e-6 < after for before, after in zip([0.0, *turns], [*turns, 2 * math.pi]))


def keeps_order(seen: Seen, s0) -> bool:
    return all(counterclockwise([leaving(seen.curves[i]) for i in cycle]) for cycle in cycles(s0))


def crossings(seen: Seen) -> int:
    """How often polylines of different edges cross inside their steps."""
    lines = {i: polyline(curve) for i, curve in seen.curves.items()}
    start, end = (np.concatenate([line[part] for line in lines.values()]) for part in (slice(None, -1), slice(1, None)))
    edge = np.concatenate([[i] * (len(line) - 1) for i, line in lines.items()])
    left, right = np.minimum(start.real, end.real), np.maximum(start.real, end.real)
    low, high = np.minimum(start.imag, end.imag), np.maximum(start.imag, end.imag)

    def side(p, q, r):
        return ((q - p).conj() * (r - p)).imag

    found = 0
    for i, line in lines.items():
        near = (edge > i) & (left <= line.real.max()) & (right >= line.real.min()) & (low <= line.imag.max()) & (high >= line.imag.min())
        p, q, r, s = line[:-1, None], line[1:, None], start[near], end[near]
        found += int(((side(p, q, r) * side(p, q, s) < 0) & (side(r, s, p) * side(r, s, q) < 0)).sum())
    return found


def check(diagram: Diagram, text: str) -> Seen:
    """What every picture must show of its diagram."""
    s0, s1 = diagram
    seen = read(text)
    assert sorted(seen.curves) == list(range(1, len(s0) + 1))
    for colour, permutation, end in (("black", s0, lambda curve: curve[0][0]), ("white", s1, lambda curve: curve[-1][3])):
        assert sorted(seen.vertices[colour]) == sorted(map(tuple, cycles(permutation)))
        for edges, point in seen.vertices[colour].items():
            assert all(end(seen.curves[i]) == point for i in edges)
    places = [place for vertices in seen.vertices.values() for place in vertices.values()]
    assert len(set(places)) == len(places)
    assert keeps_order(seen, s0)
    for edges in seen.vertices["white"]:
        assert counterclockwise([leaving(seen.curves[i], at_white=True) for i in edges])
    return seen


@cache
def drawn(diagram: Diagram, root: int = 1) -> str:
    return picture.svg(*diagram, root, planar=genus(diagram) == 0)


# The tests.


def test_the_generator_finds_the_known_numbers():
    """The numbers of subgroups of these indices."""
    assert [len(rooted(n)) for n in range(1, 7)] == [1, 1, 4, 8, 5, 22]
    assert {genus(diagram) for diagram in LARGER} >= {1, 2, 4}
    assert max(len(s0) for s0, _ in PLANE) >= 45


@pytest.mark.parametrize("diagram", SMALL + LARGER + PLANE, ids=name)
def test_edges_leave_black_vertices_in_order_and_cross_only_off_the_plane(diagram):
    seen = check(diagram, drawn(diagram))
    assert genus(diagram) > 0 or crossings(seen) == 0


@pytest.mark.parametrize("diagram", [d for d in SMALL if genus(d)] + LARGER, ids=name)
def test_crossings_are_said_to_be_no_vertices(diagram):
    seen = read(drawn(diagram))
    words = "".join(seen.document.find(SVG + "desc").itertext())
    assert ("crossings are no vertices" in words) == (genus(diagram) > 0)
    assert genus(diagram) == 0 or seen.document.findall(f".//{SVG}text[@class='caption']")


@pytest.mark.parametrize("diagram", [d for d in SMALL[::4] + LARGER[:3] + PLANE[:4] if max(map(len, cycles(d[0]))) == 3], ids=name)
def test_mirror_images_are_told_apart(diagram):
    s0, s1 = diagram
    mirrored = [s0[s0[i - 1] - 1] for i in range(1, len(s0) + 1)]
    assert keeps_order(read(drawn(diagram)), s0)
    assert not keeps_order(read(drawn(diagram)), mirrored)
    image = read(picture.svg(mirrored, s1, planar=genus(diagram) == 0))
    assert keeps_order(image, mirrored) and not keeps_order(image, s0)
    # The measure itself: the picture seen in a mirror.
    seen = read(drawn(diagram))
    turned = {i: [[-point.conjugate() for point in piece] for piece in curve] for i, curve in seen.curves.items()}
    assert not keeps_order(seen._replace(curves=turned), s0)


def test_crossings_are_found_where_there_are_some():
    """The measure itself: pictures off the plane have some, and so has one of the plane with two vertices exchanged."""
    for diagram in SMALL + LARGER:
        seen = read(drawn(diagram))
        gaps = [path for path in seen.document.iter(SVG + "path") if path.get("class") == "gap"]
        assert (0 < crossings(seen) <= len(gaps)) if genus(diagram) else not gaps
    seen = read(drawn(PLANE[-1]))
    swap = dict(zip(seen.vertices["white"].values(), reversed(seen.vertices["white"].values())))
    moved = {i: [[swap.get(point, point) for point in piece] for piece in curve] for i, curve in seen.curves.items()}
    assert crossings(seen._replace(curves=moved))


@pytest.mark.parametrize("diagram", [SMALL[0], SMALL[1], SMALL[2], *SMALL[4:41:9], LARGER[2], PLANE[4]], ids=name)
def test_the_root_is_marked(diagram):
    for root in {1, len(diagram[0])}:
        document = read(drawn(diagram, root)).document
        paths = [path for path in document.iter(SVG + "path") if "edge" in path.get("class").split()]
        marked = [path for path in paths if "root" in path.get("class").split()]
        assert [path.get("data-edge") for path in marked] == [str(root)]
        others = [float(path.get("stroke-width")) for path in paths if path not in marked]
        assert all(float(marked[0].get("stroke-width")) > 2 * width for width in others)
        assert f"root is edge {root}," in "".join(document.find(SVG + "desc").itertext())
        assert f"root edge {root}" in document.find(SVG + "title").text
        assert ".edge.root { stroke: #" in document.find(SVG + "style").text


@pytest.mark.parametrize("diagram", [*SMALL[::8], *LARGER[2:6], *PLANE[3:6]], ids=name)
def test_the_document_is_whole(diagram):
    text = drawn(diagram)
    seen = read(text)
    left, top, width, height = map(float, seen.document.get("viewBox").split())
    assert (float(seen.document.get("width")), float(seen.document.get("height"))) == (width, height)
    shown = [point for curve in seen.curves.values() for point in polyline(curve)]
    assert all(left < point.real < left + width and top < point.imag < top + height for point in shown)
    numbers = [element.text for element in seen.document.iter(SVG + "text") if "number" in element.get("class").split()]
    assert sorted(map(int, numbers)) == sorted(seen.curves)
    blacks = [cycle for cycle in cycles(diagram[0]) if len(cycle) == 3]
    arcs = [path for path in seen.document.iter(SVG + "path") if path.get("class") == "sense"]
    assert len(arcs) == len(blacks)
    # Sweep 0: counterclockwise for the viewer.
    assert all(path.get("d").split()[3] == "A" and path.get("d").split()[6:9] == ["0", "0", "0"] for path in arcs)


def test_the_same_diagram_gives_the_same_bytes():
    diagrams = [SMALL[-1], LARGER[1], PLANE[2]]
    again = [picture.svg(*diagram, planar=genus(diagram) == 0) for diagram in diagrams]
    assert again == [drawn(diagram) for diagram in diagrams]
    call = "import sys; from kaldvemir import picture; sys.stdout.write(picture.svg({0!r}, {1!r}, planar=False))".format(*LARGER[0])
    folder = str(Path(picture.__file__).parents[1])
    for seed in ("1", "2"):
        environment = {**os.environ, "PYTHONHASHSEED": seed, "PYTHONPATH": folder}
        result = subprocess.run([sys.executable, "-c", call], env=environment, capture_output=True, check=True)
        assert result.stdout.decode("utf-8") == picture.svg(*LARGER[0], planar=False)


@pytest.mark.parametrize("diagram", [*SMALL[::6], *LARGER[:4], *PLANE[:6]], ids=name)
def test_the_library_places_the_nodes_where_relaxing_fails(diagram, monkeypatch):
    monkeypatch.setattr(picture, "_relaxed", lambda net: [0j] * len(net.turn))
    seen = check(diagram, picture.svg(*diagram, planar=genus(diagram) == 0))
    assert genus(diagram) > 0 or crossings(seen) == 0


@pytest.mark.parametrize("diagram", [*SMALL[3::6], *LARGER[:4], *PLANE[:6]], ids=name)
def test_curves_that_get_in_each_others_way_are_drawn_tighter(diagram, monkeypatch):
    """Here all edges would leave their black vertices backwards."""
    heading = picture._heading
    monkeypatch.setattr(picture, "_heading", lambda plan, i: -heading(plan, i))
    seen = check(diagram, picture.svg(*diagram, planar=genus(diagram) == 0))
    assert genus(diagram) > 0 or crossings(seen) == 0


@pytest.mark.parametrize("diagram", [*SMALL[::10], LARGER[2], PLANE[3]], ids=name)
def test_relaxing_seldom_fails(diagram, monkeypatch):
    monkeypatch.setattr(picture, "_grid", lambda net: pytest.fail("the library's places were asked for"))
    assert picture.svg(*diagram, planar=genus(diagram) == 0) == drawn(diagram)


def test_a_diagram_of_the_plane_may_be_drawn_as_any_other():
    assert crossings(check(PLANE[0], picture.svg(*PLANE[0], planar=False))) == 0


def test_large_diagrams_are_drawn():
    plane, other = of_genus_0(120, 1), any_genus(1024, 10, 4, 1)
    assert crossings(check(plane, drawn(plane))) == 0
    seen = check(other, drawn(other))
    assert not [element for element in seen.document.iter(SVG + "text") if "number" in element.get("class").split()]
