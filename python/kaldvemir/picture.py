"""Pictures of rooted trivalent diagrams, as SVG documents.

A diagram is drawn as the bipartite graph that it is: a black disc for each cycle of s0, a white circle for each cycle of s1, a curve for
each edge. Edges leave a black vertex counterclockwise in the order of s0.

Where the surface is the sphere, the picture is its own embedding in the plane, without crossings. Where it is not, some white vertices are
cut in two, so that what remains lies in the plane, and their edges go back in as bridges over the edges in their way: the crossings are
few, each is of two edges, and none is a vertex. Where that would take many bridges, the library's springs place the vertices.

Between diagram and picture stands the net: a plane graph whose nodes are the vertices, the crossings, and at least one node inside each
edge, which makes it simple. It is given by its turns, that is, for each node its neighbours counterclockwise. Points are complex numbers,
upwards positive.

Nothing is decided here about diagrams: what is handed in is taken as valid.
"""

from __future__ import annotations

import cmath
import math
import random
from collections import Counter
from collections.abc import Iterable, Sequence
from typing import Any, NamedTuple

HalfEdge = tuple[int, int]
"""Two nodes that are neighbours. It belongs to the face on its right."""

Piece = tuple[complex, complex, complex, complex]
"""A cubic curve: its start, the two control points, its end."""

Curves = dict[int, list[Piece]]
"""For each edge its curve from the black vertex to the white one."""

MOST_BRIDGES = 20
"""With more of them a plane net would show little."""

STEPS = 9
"""Straight steps by which a piece of a curve is followed where curves are compared. They end at no simple fraction of it: there
symmetric curves may cross, and to meet where steps end is not taken for a crossing."""


def svg(s0: Sequence[int], s1: Sequence[int], root: int = 1, *, planar: bool) -> str:
    """The picture of the diagram with black list s0 and white list s1: a whole SVG document.

    `planar` says that its genus is 0: then no two edges cross. The same diagram gives the same text. It may have up to 1,024 edges; above
    120 their numbers are left out.
    """
    look = _look(len(s0))
    choices: list[list[int]] = [[]] if planar else _cuts(s0, s1)
    if len(choices[0]) > MOST_BRIDGES:
        return _document(s0, s1, root, _sprung(s0, s1, look), {}, look, planar)
    net = min((_net(s0, s1, cuts) for cuts in choices), key=lambda net: net.cost)
    curves = _drawing(s0, s1, net, _relaxed(net), look, 0)
    if curves is None:
        look = look._replace(digits=6)
        curves = _drawing(s0, s1, net, _grid(net), look, 3)
    if curves is None:
        raise ArithmeticError("no drawing was found in which the edges keep their order")
    over = {i: [piece for node, piece in zip(net.chain(i), curves[i]) if len(net.turn[node]) == 4] for i in net.bridges}
    return _document(s0, s1, root, curves, over, look, planar)


def _cycles(permutation: Sequence[int]) -> list[list[int]]:
    """Its cycles, each from its least entry."""
    cycles: list[list[int]] = []
    seen: set[int] = set()
    for start in range(1, len(permutation) + 1):
        cycle, i = [], start
        while i not in seen:
            seen.add(i)
            cycle.append(i)
            i = permutation[i - 1]
        if cycle:
            cycles.append(cycle)
    return cycles


# The net: a plane graph with the diagram's own turns.


class _Net:
    """A plane graph, and where the diagram lies in it. A loop is a single path here, since nothing lies inside it."""

    def __init__(self) -> None:
        self.turn: list[list[int]] = []
        """For each node its neighbours, counterclockwise."""
        self.black: dict[int, int] = {}
        """For each edge the node of its black vertex."""
        self.white: dict[int, int] = {}
        """For each edge the node of its white vertex."""
        self.slot: dict[int, int] = {}
        """For each edge its place in the turn of its black vertex."""
        self.bridges: list[int] = []
        """The edges that pass over others, the later over the earlier."""
        self.cost = 0
        """What the crossings cost: the fewer and the wider, the less."""

    def add(self, neighbours: Iterable[int] = ()) -> int:
        """A new node."""
        self.turn.append(list(neighbours))
        return len(self.turn) - 1

    def chain(self, edge: int) -> list[int]:
        """The nodes of an edge from its black vertex to its white one: straight on at every crossing."""
        before = self.black[edge]
        chain = [before, self.turn[before][self.slot[edge]]]
        while chain[-1] != self.white[edge]:
            turn = self.turn[chain[-1]]
            chain.append(turn[(turn.index(chain[-2]) + len(turn) // 2) % len(turn)])
        return chain

    def faces(self) -> list[list[HalfEdge]]:
        """The faces, each as its half-edges in order."""
        faces: list[list[HalfEdge]] = []
        seen: set[HalfEdge] = set()
        for start in ((u, v) for u, turn in enumerate(self.turn) for v in turn):
            face, half = [], start
            while half not in seen:
                seen.add(half)
                face.append(half)
                u, v = half
                half = (v, self.turn[v][(self.turn[v].index(u) + 1) % len(self.turn[v])])
            if face:
                faces.append(face)
        return faces

    def embedding(self) -> Any:
        """The net as networkx has it, which checks that it is plane."""
        import networkx as nx

        embedding = nx.PlanarEmbedding()
        for u, turn in enumerate(self.turn):
            before = None
            for v in turn:
                embedding.add_half_edge_ccw(u, v, before)
                before = v
        embedding.check_structure()
        return embedding


def _net(s0: Sequence[int], s1: Sequence[int], cuts: Sequence[int]) -> _Net:
    """The net of a diagram whose white vertices at the edges `cuts` are cut, and their edges bridges."""
    net = _Net()
    middle: dict[int, int] = {}
    for cycle in _cycles(s0):
        black = net.add()
        for i in cycle:
            loop = s1[i - 1] != i and s1[i - 1] in cycle
            middle[i] = middle[s1[i - 1]] if loop and s1[i - 1] in middle else net.add([black])
            if middle[i] not in net.turn[black]:
                net.turn[black].append(middle[i])
            net.black[i], net.slot[i] = black, net.turn[black].index(middle[i])
    for cycle in _cycles(s1):
        if cycle[0] not in cuts:
            white = net.add(dict.fromkeys(middle[i] for i in cycle))
            for node in net.turn[white]:
                net.turn[node].append(white)
            net.white.update((i, white) for i in cycle)
    for i in cuts:
        j = s1[i - 1]
        net.white[i] = net.white[j] = _bridge(net, middle[i], middle[j])
        net.bridges += [i, j]
    return net


def _cuts(s0: Sequence[int], s1: Sequence[int]) -> list[list[int]]:
    """Lists of white vertices without which the diagram lies in the plane, by their lesser edges: the shortest of many tries."""
    inner = [i for i in range(1, len(s0) + 1) if s1[i - 1] > i]
    chance = random.Random(1)
    tries = [_cuts_in_order(s0, s1, inner)]
    for _ in range(2000 // len(s0)):
        tries.append(_cuts_in_order(s0, s1, chance.sample(inner, len(inner))))
    fewest = min(map(len, tries))
    return [list(cuts) for cuts in dict.fromkeys(tuple(cuts) for cuts in tries if len(cuts) == fewest)][:12]


def _cuts_in_order(s0: Sequence[int], s1: Sequence[int], order: Sequence[int]) -> list[int]:
    """Join white vertices in this order wherever that keeps the surface a sphere; the rest are the cuts.

    Joining two ends keeps it where they are in different parts, or in the same face, which is then divided.
    """
    joined = list(range(1, len(s0) + 1))
    part = {i: cycle[0] for cycle in _cycles(s0) for i in cycle}
    members = {cycle[0]: cycle for cycle in _cycles(s0)}
    cuts = []
    for i in order:
        j = s1[i - 1]
        if part[i] != part[j]:
            moving = members.pop(part[j])
            members[part[i]] += moving
            part.update((k, part[i]) for k in moving)
        else:
            k = s0[i - 1]
            while k not in (i, j):
                k = s0[joined[k - 1] - 1]
            if k == i:
                cuts.append(i)
                continue
        joined[i - 1], joined[j - 1] = j, i
    return sorted(cuts)


def _bridge(net: _Net, start: int, end: int) -> int:
    """Join two ends by a path over the edges in its way, and return its white vertex."""
    gates, widest = _gates(net, start, end)
    # A node in each face that it passes, which keeps the net simple; the one in the widest is the white vertex.
    spans = [net.add() for _ in range(len(gates) + 1)]
    path = [start]
    for span, beyond, (u, v) in zip(spans, spans[1:], gates):
        crossing = net.add([u, span, v, beyond])
        net.turn[u][net.turn[u].index(v)] = crossing
        net.turn[v][net.turn[v].index(u)] = crossing
        path += [span, crossing]
    path += [spans[-1], end]
    for before, span, after in zip(path[::2], path[1::2], path[2::2]):
        net.turn[span] = [before, after]
    net.turn[start].append(spans[0])
    net.turn[end].append(spans[-1])
    return spans[widest]


def _gates(net: _Net, start: int, end: int) -> tuple[list[HalfEdge], int]:
    """The half-edges that a bridge crosses, from right to left, and which of the faces on its way is the widest.

    It crosses as few as possible; but to cross an edge beside which it begins or ends makes a tight knot, and counts more than twice.
    """
    import networkx as nx

    tight = {node for black in (net.turn[start][0], net.turn[end][0]) for node in net.turn[black]}
    faces = net.faces()
    face_of = {half: number for number, face in enumerate(faces) for half in face}
    shared: dict[tuple[int, int], list[HalfEdge]] = {}
    for (u, v), face in face_of.items():
        shared.setdefault((face, face_of[v, u]), []).append((u, v))
    dual = nx.Graph()
    for step, halves in shared.items():
        easy = [half for half in halves if tight.isdisjoint(half)]
        dual.add_edge(*step, weight=2 if easy else 5)
        shared[step] = easy or halves
    way = nx.shortest_path(dual, face_of[start, net.turn[start][0]], face_of[end, net.turn[end][0]], "weight")
    net.cost += sum(dual.edges[step]["weight"] for step in zip(way, way[1:]))
    gates = [shared[step][len(shared[step]) // 2] for step in zip(way, way[1:])]
    return gates, max(range(len(way)), key=lambda place: len(faces[way[place]]))


# Places for the nodes: barycentric ones, or the library's.


def _grid(net: _Net) -> list[complex]:
    """The library's straight-line drawing of the net on a grid: always right, seldom handsome."""
    import networkx as nx

    places = nx.combinatorial_embedding_to_pos(net.embedding())
    return [complex(*places[node]) for node in range(len(net.turn))]


def _relaxed(net: _Net) -> list[complex]:
    """A straight-line drawing of the net with a long face outside from which no node is far: of a few the least crowded."""
    net.embedding()
    faces = sorted(net.faces(), key=len, reverse=True)
    outers = sorted(range(len(faces))[:8], key=lambda number: sum(_depths(net, faces[number]).values()))
    if len(net.turn) > 400:
        return _barycentric(net, faces, outers[0])
    return max((_barycentric(net, faces, outer) for outer in outers[:3]), key=_ease)


def _depths(net: _Net, face: Sequence[HalfEdge]) -> dict[int, int]:
    """How many steps each node is from the face."""
    depths = {node: 0 for node, _ in face}
    queue = list(depths)
    for node in queue:
        for further in net.turn[node]:
            if further not in depths:
                depths[further] = depths[node] + 1
                queue.append(further)
    return depths


def _ease(places: Sequence[complex]) -> float:
    """How far crowded nodes are from their nearest others, the size of the drawing being 1; rounded, so that symmetric ones are equal."""
    import numpy as np

    points = np.array(places)
    nearest = (abs(points[:, None] - points) + np.diag(np.full(len(points), np.inf))).min(0)
    return round(float(np.quantile(nearest, 0.05) / points.std()), 6)


def _barycentric(net: _Net, faces: Sequence[Sequence[HalfEdge]], outer: int) -> list[complex]:
    """A straight-line drawing of the net in which each node is a weighted mean of its neighbours (Tutte, Floater).

    Rings of further nodes in the faces make the net 3-connected, so that any positive weights give a drawing without crossings. They are
    chosen in rounds: links in crowded regions are loosened, links in empty ones tightened, and so are the net's own links where long.
    """
    import numpy as np

    links, rim = _mesh(net, faces, outer)
    # Each link both ways, in the order of the nodes at which they begin.
    tail, head = np.array(sorted([*links, *((v, u) for u, v in links)])).T
    size = tail[-1] + 1
    begins = np.searchsorted(tail, np.arange(size))
    places = np.zeros(size, complex)
    places[list(rim)] = list(rim.values())
    free = np.ones(size)
    free[list(rim)] = 0
    weights = np.ones(len(tail))
    own = np.maximum(tail, head) < len(net.turn)
    for precision in [1e-6] * (11 if len(net.turn) < 1000 else 7) + [1e-10]:
        places = _balanced(places, free, tail, head, begins, weights, precision)
        length = abs(places[tail] - places[head])
        reach = np.add.reduceat(length, begins) / np.diff(begins, append=len(tail))
        width = reach[tail] + reach[head]
        weights *= np.maximum(width / width.mean(), 1e-4) ** 0.5
        weights[own] *= np.maximum(length[own] / length[own].mean(), 1e-4) ** 0.4
        weights = np.clip(weights / np.exp(np.log(weights).mean()), 1e-12, 1e12)
    return [complex(place) for place in places[: len(net.turn)]]


def _mesh(net: _Net, faces: Sequence[Sequence[HalfEdge]], outer: int) -> tuple[list[HalfEdge], dict[int, complex]]:
    """Links of a 3-connected plane graph that contains the net, and the places of its outermost nodes, on a circle."""
    links = [(u, v) for u, turn in enumerate(net.turn) for v in turn if u < v]
    size = len(net.turn)
    rim: dict[int, complex] = {}
    for number, face in enumerate(faces):
        ring = [u for u, _ in face]
        room = _room(net, ring) if number == outer else [1.0] * len(ring)
        # The first ring is woven to the face, then come some as long, then each is half as long as the one before.
        plain, least = (4 if len(net.turn) < 1000 else 2, 16) if number == outer else (1, 12)
        layer = 0
        while layer < plain or len(ring) > least:
            pace = 1 if layer < plain else 2
            inner, ring = ring, list(range(size, size + (len(ring) + pace - 1) // pace))
            room = [sum(room[k : k + pace]) for k in range(0, len(room), pace)]
            links += [(node, ring[k // pace]) for k, node in enumerate(inner)]
            links += [(ring[k - 1], ring[k]) for k in range(len(ring))]
            if layer == 0:
                links += [(node, ring[k - 1]) for k, node in enumerate(inner)]
                room = [(room[k - 1] + room[k]) / 2 for k in range(1 - len(room), 1)]
            size += len(ring)
            layer += 1
        if number == outer:
            turns = [2 * math.pi * (sum(room[:k]) + part / 2) / sum(room) for k, part in enumerate(room)]
            rim = {node: cmath.rect(1, turn) for node, turn in zip(ring, turns)}
        else:
            links += [(node, size) for node in ring]
            size += 1
    return links, rim


def _room(net: _Net, boundary: Sequence[int]) -> list[float]:
    """How much of the circle the corners of the outer face get: the more, the more nodes lie behind them."""
    behind = {node: node for node in boundary}
    queue = list(behind)
    for node in queue:
        for further in net.turn[node]:
            if further not in behind:
                behind[further] = behind[node]
                queue.append(further)
    load, corners = Counter(behind.values()), Counter(boundary)
    return [(load[node] / corners[node]) ** 0.75 for node in boundary]


def _balanced(places: Any, free: Any, tail: Any, head: Any, begins: Any, weights: Any, precision: float) -> Any:
    """Places at which every free node is the weighted mean of its neighbours: conjugate gradients."""
    import numpy as np

    def pull(points: Any) -> Any:
        return free * np.add.reduceat(weights * (points[tail] - points[head]), begins)

    spread = np.add.reduceat(weights, begins)
    rest = -pull(places)
    step = ease = rest / spread
    power = (rest.conj() * ease).real.sum()
    for _ in range(4 * len(places)):
        if abs(ease).max() < precision:
            break
        tension = pull(step)
        length = power / (step.conj() * tension).real.sum()
        places = places + length * step
        rest = rest - length * tension
        ease = rest / spread
        before, power = power, (rest.conj() * ease).real.sum()
        step = ease + power / before * step
    return places


# Curves through the places of the nodes.


class _Look(NamedTuple):
    """What depends on the number of edges, in pixels."""

    length: float
    """Of a short edge."""
    radius: float
    """Of a vertex."""
    line: float
    """The width of an edge."""
    root: float
    """The width of the root."""
    figures: float
    """The height of the edges' numbers, or 0 for none."""
    digits: int
    """Behind the point."""


class _Plan(NamedTuple):
    """A net with its nodes in place, and the diagram of which it is the net."""

    s0: Sequence[int]
    s1: Sequence[int]
    turn: Sequence[Sequence[int]]
    chains: dict[int, list[int]]
    """For each edge its nodes from the black vertex to the white one."""
    places: Sequence[complex]
    digits: int

    def points(self, i: int) -> list[complex]:
        """The places of the nodes of an edge."""
        return [self.places[node] for node in self.chains[i]]


def _look(edges: int) -> _Look:
    """The look of a picture of so many edges."""
    if edges <= 60:
        return _Look(48, 4.5, 1.4, 3.4, 11, 3)
    return _Look(40, 4, 1.2, 3, 9, 3) if edges <= 120 else _Look(20, 2.6, 0.9, 4, 0, 4)


def _drawing(s0: Sequence[int], s1: Sequence[int], net: _Net, places: Sequence[complex], look: _Look, least: int) -> Curves | None:
    """Curves through the places, or nothing where even straight ones would cross or leave a vertex in the wrong order.

    Where they get in each other's way, they are drawn tighter, from tightness `least` on: 0 is smooth, 3 straight from node to node.
    """
    chains = {i: net.chain(i) for i in range(1, len(s0) + 1)}
    if len(set(places)) < len(places):
        return None
    plan = _Plan(s0, s1, net.turn, chains, _scaled(chains, places, look), look.digits)
    if len(set(plan.places)) < len(places):
        return None
    tightness = dict.fromkeys(chains, least)
    while True:
        curves = {i: _curve(plan, i, tightness[i]) for i in chains}
        wrong = _clashes(curves) | _disorder(s0, curves)
        if not wrong:
            return curves
        if all(tightness[i] == 3 for i in wrong):
            return None
        for i in wrong:
            tightness[i] = min(3, tightness[i] + 1)


def _scaled(chains: dict[int, list[int]], places: Sequence[complex], look: _Look) -> list[complex]:
    """The places with the longer side of the picture level, so large that few edges are short, if that is not too large."""
    centre = sum(places) / len(places)
    moment, weight = sum((place - centre) ** 2 for place in places), sum(abs(place - centre) ** 2 for place in places)
    # Rounding must not turn the picture: one without a longer side stays, and the angle's cut lies where no symmetric one has it.
    turn = (cmath.phase(moment * cmath.exp(-1j)) + 1) / 2 if abs(moment) > 0.001 * weight else 0.0
    places = [(place - centre) * cmath.rect(1, -turn) for place in places]
    lengths = sorted(sum(abs(places[v] - places[u]) for u, v in zip(chain, chain[1:])) for chain in chains.values())
    extent = max(max(part) - min(part) for part in ([place.real for place in places], [place.imag for place in places]))
    scale = min(look.length / lengths[len(lengths) // 8], look.length * (1 + 2.6 * math.sqrt(len(chains))) / extent)
    return [_rounded(place * scale, look.digits) for place in places]


def _rounded(point: complex, digits: int) -> complex:
    """The point as it will be written: it is the written curves that are compared."""
    return complex(round(point.real, digits), round(point.imag, digits))


def _unit(vector: complex) -> complex:
    """The direction of a vector, as a vector of length 1."""
    return vector / abs(vector)


def _curve(plan: _Plan, i: int, tightness: int) -> list[Piece]:
    """The curve of edge i through its nodes: smooth there and at its white vertex."""
    chain, points, j = plan.chains[i], plan.points(i), plan.s1[i - 1]
    first = _heading(plan, i) if tightness == 0 else _unit(points[1] - points[0])
    if j != i and chain[:2] == plan.chains[j][:2]:
        side = 1 if plan.s0[j - 1] == i else -1
        return [_half_loop(plan.digits, points[0], points[-1], first, side * 0.6 * 0.4**tightness)]
    if tightness == 3:
        return [_piece(plan.digits, p, _unit(q - p), _unit(q - p), q) for p, q in zip(points, points[1:])]
    last = _unit(points[-1] - points[-2]) if j == i else _tangent(points[-2], points[-1], plan.points(j)[-2])
    ways = [first, *(_way(plan, *nodes) for nodes in zip(chain, chain[1:], chain[2:])), last]
    return [_piece(plan.digits, *part, 0.2 if tightness == 2 else 0.36) for part in zip(points, ways, ways[1:], points[1:])]


def _piece(digits: int, start: complex, way: complex, end_way: complex, end: complex, reach: float = 1 / 3) -> Piece:
    """A cubic curve with these directions at its ends, kept up for this part of the distance."""
    length = reach * abs(end - start)
    return start, _rounded(start + length * way, digits), _rounded(end - length * end_way, digits), end


def _half_loop(digits: int, start: complex, end: complex, way: complex, bulge: float) -> Piece:
    """One side of a loop from its black vertex to its white one: to the left where the bulge is positive."""
    near, far = start + abs(end - start) * way * (0.6 + 1j * bulge), end + 1j * bulge * (end - start)
    return start, _rounded(near, digits), _rounded(far, digits), end


def _heading(plan: _Plan, i: int) -> complex:
    """The direction in which edge i leaves its black vertex: half way to directions that are evenly spread."""
    black, ahead = plan.points(i)[:2]
    second, third = plan.s0[i - 1], plan.s0[plan.s0[i - 1] - 1]
    others = dict.fromkeys(place for place in (plan.points(second)[1], plan.points(third)[1]) if place != ahead)
    # How far each of the others is counterclockwise from edge i, and how far it would be if all were evenly spread.
    turns = [cmath.phase((place - black) / (ahead - black)) % (2 * math.pi) for place in others]
    even = [2 * math.pi * (k + 1) / (len(turns) + 1) for k in range(len(turns))]
    return _unit(ahead - black) * cmath.rect(1, 0.5 * (sum(turns) - sum(even)) / (len(turns) + 1))


def _tangent(before: complex, point: complex, after: complex) -> complex:
    """The direction at a point of the circle through it and its two neighbours."""
    return _unit((point - before) / abs(point - before) ** 2 + (after - point) / abs(after - point) ** 2)


def _way(plan: _Plan, before: int, node: int, after: int) -> complex:
    """The direction of a curve at an inner node; where it crosses another one, both are turned towards a right angle."""
    way = _tangent(plan.places[before], plan.places[node], plan.places[after])
    turn = plan.turn[node]
    if len(turn) < 4:
        return way
    place = turn.index(before)
    other = _tangent(plan.places[turn[place - 3]], plan.places[node], plan.places[turn[place - 1]])
    return way * cmath.rect(1, 0.4 * (cmath.phase(other / way) - math.pi / 2))


def _clashes(curves: Curves) -> set[int]:
    """The edges that cross another one away from the nodes of the net."""
    import numpy as np

    steps = _steps([piece for curve in curves.values() for piece in curve])
    edge = np.repeat([i for i, curve in curves.items() for _ in curve], STEPS)
    start, end = steps[:, :-1].ravel(), steps[:, 1:].ravel()
    order = np.argsort(np.minimum(start.real, end.real), kind="stable")
    start, end, edge = start[order], end[order], edge[order]
    left, right = np.minimum(start.real, end.real), np.maximum(start.real, end.real)
    low, high = np.minimum(start.imag, end.imag), np.maximum(start.imag, end.imag)
    wrong: set[int] = set()
    # Each step against the k-th to its right, until none is near enough.
    for k in range(1, len(start)):
        near = left[k:] <= right[:-k]
        if not near.any():
            break
        near &= (low[k:] <= high[:-k]) & (low[:-k] <= high[k:]) & (edge[k:] != edge[:-k])
        first = near.nonzero()[0]
        first = first[_cross(start[first], end[first], start[first + k], end[first + k])]
        wrong.update(edge[first].tolist(), edge[first + k].tolist())
    return wrong


def _steps(pieces: Sequence[Piece]) -> Any:
    """For each piece the points by which it is followed, from its start to its end."""
    import numpy as np

    t = np.array([0, *(np.arange(1, STEPS) - 0.5) / (STEPS - 1), 1])
    weights = np.array([(1 - t) ** 3, 3 * t * (1 - t) ** 2, 3 * t**2 * (1 - t), t**3])
    return (np.array(pieces)[:, :, None] * weights).sum(1)


def _cross(start: Any, end: Any, other_start: Any, other_end: Any) -> Any:
    """Which of these steps cross those; to meet where one ends is not to cross."""

    def side(p: Any, q: Any, r: Any) -> Any:
        return ((q - p).conj() * (r - p)).imag

    parted = side(start, end, other_start) * side(start, end, other_end) < 0
    return parted & (side(other_start, other_end, start) * side(other_start, other_end, end) < 0)


def _disorder(s0: Sequence[int], curves: Curves) -> set[int]:
    """The edges at black vertices that they do not leave counterclockwise in the order of s0."""
    wrong: set[int] = set()
    for cycle in _cycles(s0):
        ways = [curves[i][0][1] - curves[i][0][0] for i in cycle]
        turns = [cmath.phase(way * ways[0].conjugate()) % (2 * math.pi) for way in ways[1:]]
        if any(after <= before for before, after in zip([0, *turns], turns)):
            wrong.update(cycle)
    return wrong


# Curves without a net.


def _sprung(s0: Sequence[int], s1: Sequence[int], look: _Look) -> Curves:
    """Curves of a diagram of high genus: the library's springs place the black vertices of three edges, the others hang on them."""
    import networkx as nx

    corner = {i: cycle[0] for cycle in _cycles(s0) if len(cycle) == 3 for i in cycle}
    graph = nx.Graph((corner[i], corner[j]) for i, j in enumerate(s1, 1) if i in corner and j in corner and corner[i] != corner[j])
    layout = {node: complex(*place) for node, place in nx.spring_layout(graph, seed=1, iterations=100).items()}
    lengths = sorted(abs(layout[u] - layout[v]) for u, v in graph.edges)
    scale = 5 * look.length / lengths[len(lengths) // 2]
    plain = {i: _rounded(scale * layout[node], look.digits) for i, node in corner.items()}
    mirrored = {i: place.conjugate() for i, place in plain.items()}
    # The one that is nearer to the order of s0.
    _, ways, places = max(((*_stars(s0, s1, places), places) for places in (plain, mirrored)), key=lambda choice: choice[0])
    curves: Curves = {}
    for i, place in places.items():
        j = s1[i - 1]
        if j in places and j != i:
            curves[i] = [_half_way(place, ways[i], places[j], ways[j], look)]
        else:
            white, end = (_rounded(place + part * look.length * ways[i], look.digits) for part in (1, 2))
            curves[i] = [_piece(look.digits, place, ways[i], ways[i], white)]
            curves.setdefault(j, [_piece(look.digits, end, -ways[i], -ways[i], white)])
    return dict(sorted(curves.items()))


def _stars(s0: Sequence[int], s1: Sequence[int], places: dict[int, complex]) -> tuple[float, dict[int, complex]]:
    """Evenly spread directions at each black vertex of three edges, in the order of s0 and as near to the straight ones as can be.

    Before them, how near they are in all.
    """
    fit = 0.0
    ways: dict[int, complex] = {}
    for cycle in (cycle for cycle in _cycles(s0) if len(cycle) == 3):
        spread = [cmath.rect(1, 2 * math.pi * k / 3) for k in range(3)]
        offs = [places.get(s1[i - 1], places[i]) - places[i] for i in cycle]
        lean = sum(off / abs(off) / part for off, part in zip(offs, spread) if off) or 1
        fit += abs(lean)
        ways.update((i, part * _unit(lean)) for i, part in zip(cycle, spread))
    return fit, ways


def _half_way(start: complex, way: complex, end: complex, end_way: complex, look: _Look) -> Piece:
    """The first half of the cubic curve that leaves its start and its end in these directions."""
    reach = max(0.4 * abs(end - start), look.length)
    near, far = start + reach * way, end + reach * end_way
    points = ((start + near) / 2, (start + 2 * near + far) / 4, (start + end + 3 * (near + far)) / 8)
    first, second, white = (_rounded(point, look.digits) for point in points)
    return start, first, second, white


# The document.

STYLE = """
.trivalent .edge, .trivalent .sense { fill: none; stroke-linecap: round; stroke-linejoin: round }
.trivalent .edge { stroke: #1a1a1a }
.trivalent .gap { stroke: #fff }
.trivalent .sense { stroke: #8a8a8a }
.trivalent .arrow { fill: #8a8a8a }
.trivalent .black { fill: #000 }
.trivalent .white { fill: #fff; stroke: #1a1a1a }
.trivalent text { fill: #333; font-family: Helvetica, Arial, "DejaVu Sans", sans-serif }
.trivalent .number { text-anchor: middle; stroke: #fff; stroke-linejoin: round; paint-order: stroke }
.trivalent .edge.root { stroke: #c4161c }
.trivalent .number.root { fill: #c4161c; font-weight: bold }
"""
"""The rules name the class of the document, since several documents may stand in one page."""


def _document(
    s0: Sequence[int], s1: Sequence[int], root: int, curves: Curves, over: dict[int, list[Piece]], look: _Look, planar: bool
) -> str:
    """The SVG of these curves. The edges of `over` pass over all earlier ones where these pieces of them begin."""
    numbers = _numbers(curves, look) if look.figures else {}
    points = _steps([piece for curve in curves.values() for piece in curve]).ravel().tolist()
    paper = _Paper([*points, *numbers.values()], look, root, 0 if planar else 16)
    lines = [
        f'<svg xmlns="http://www.w3.org/2000/svg" class="trivalent" role="img" width="{paper.width}" height="{paper.height}"'
        f' viewBox="0 0 {paper.width} {paper.height}">',
        f"<title>Trivalent diagram of size {len(s0)}, root edge {root}</title>",
        f"<desc>{_description(s0, s1, root, planar)}</desc>",
        f"<style>{STYLE}</style>",
        f'<rect width="{paper.width}" height="{paper.height}" fill="#fff"/>',
        *(paper.sense([curves[i][0] for i in cycle]) for cycle in _cycles(s0) if len(cycle) == 3),
        *(paper.edge(i, curves[i]) for i in curves if i not in over),
    ]
    for i, pieces in over.items():
        lines += [*(paper.gap(piece) for piece in pieces), paper.edge(i, curves[i])]
    lines += [paper.vertex("black", cycle, curves[cycle[0]][0][0]) for cycle in _cycles(s0)]
    lines += [paper.vertex("white", cycle, curves[cycle[0]][-1][3]) for cycle in _cycles(s1)]
    lines += [paper.number(i, point) for i, point in numbers.items()]
    if not planar:
        lines.append(f'<text class="caption" x="8" y="{paper.height - 8}" font-size="10">crossings are no vertices</text>')
    return "\n".join([*lines, "</svg>", ""])


def _description(s0: Sequence[int], s1: Sequence[int], root: int, planar: bool) -> str:
    """What a reader must know of the picture, and the diagram itself."""
    return (
        f"The root is edge {root}, drawn thick and red. Black vertices are the cycles of s0: edges leave them counterclockwise in its"
        " order, as the arrows say. White vertices are the cycles of s1."
        + ("" if planar else " The surface is not the plane: edges pass over one another, and crossings are no vertices.")
        + f" s0 = {','.join(map(str, s0))}; s1 = {','.join(map(str, s1))}."
    )


class _Paper:
    """A sheet for these points, and how things are written on it. On paper, y runs downwards."""

    def __init__(self, points: Sequence[complex], look: _Look, root: int, below: int) -> None:
        self.look, self.root = look, root
        margin = 3 * look.radius + look.figures
        self.left = math.floor(min(point.real for point in points) - margin)
        self.top = math.ceil(max(point.imag for point in points) + margin)
        # What is written below, if anything, wants some width.
        self.width = max(math.ceil(max(point.real for point in points) + margin) - self.left, 9 * below)
        self.height = self.top - math.floor(min(point.imag for point in points) - margin) + below

    def at(self, point: complex) -> str:
        """The coordinates of a point."""
        return " ".join(
            f"{value:.{self.look.digits}f}".rstrip("0").rstrip(".") for value in (point.real - self.left, self.top - point.imag)
        )

    def edge(self, i: int, curve: Sequence[Piece]) -> str:
        """The curve of an edge, from its black vertex to its white one."""
        pieces = " ".join(f"C {self.at(c)} {self.at(d)} {self.at(q)}" for _, c, d, q in curve)
        kind, width = ("edge root", self.look.root) if i == self.root else ("edge", self.look.line)
        return f'<path class="{kind}" data-edge="{i}" stroke-width="{width}" d="M {self.at(curve[0][0])} {pieces}"/>'

    def gap(self, piece: Piece) -> str:
        """A gap in what lies below the start of a piece."""
        half = 3 * self.look.line * _unit(piece[1] - piece[0])
        ends = f"M {self.at(piece[0] - half)} L {self.at(piece[0] + half)}"
        return f'<path class="gap" stroke-width="{6 * self.look.line:g}" d="{ends}"/>'

    def vertex(self, colour: str, cycle: Sequence[int], point: complex) -> str:
        """A vertex with its edges in cyclic order."""
        x, y = self.at(point).split()
        edges = ",".join(map(str, cycle))
        line = f' stroke-width="{self.look.line}"' if colour == "white" else ""
        return f'<circle class="{colour}" data-edges="{edges}" cx="{x}" cy="{y}" r="{self.look.radius}"{line}/>'

    def sense(self, starts: Sequence[Piece]) -> str:
        """An arrowed arc counterclockwise round a black vertex, in the widest sector between its edges."""
        ways = [_unit(piece[1] - piece[0]) for piece in starts]
        angle, way = max(
            ((cmath.phase(ways[k] / ways[k - 1]) % (2 * math.pi), ways[k - 1]) for k in range(3)), key=lambda sector: sector[0]
        )
        centre, radius, size = starts[0][0], 2.3 * self.look.radius, 0.9 * self.look.radius
        start, end = (way * cmath.rect(1, angle / 2 + turn) for turn in (-min(0.36 * angle, 1.2), min(0.3 * angle, 1)))
        arc = f"M {self.at(centre + radius * start)} A {radius:g} {radius:g} 0 0 0 {self.at(centre + radius * end)}"
        corners = (centre + end * (radius + size * corner) for corner in (1j, 0.45, -0.45))
        return (
            f'<path class="sense" stroke-width="{0.7 * self.look.line:g}" d="{arc}"/>'
            f'<path class="arrow" d="M {" L ".join(self.at(corner) for corner in corners)} Z"/>'
        )

    def number(self, i: int, point: complex) -> str:
        """The number of an edge, centred at a point."""
        size = self.look.figures
        x, y = self.at(point - 0.36j * size).split()
        kind = "number root" if i == self.root else "number"
        return f'<text class="{kind}" x="{x}" y="{y}" font-size="{size}" stroke-width="{size / 5:g}">{i}</text>'


def _numbers(curves: Curves, look: _Look) -> dict[int, complex]:
    """Where the edges' numbers stand: beside their edge, near its middle, where nothing else is near."""
    import numpy as np

    tracks = {i: np.concatenate([_steps(curve)[:, :-1].ravel(), [curve[-1][3]]]) for i, curve in curves.items()}
    taken = np.concatenate(list(tracks.values()))
    points: dict[int, complex] = {}
    for i, track in tracks.items():
        half = complex(0.29 * look.figures * len(str(i)), 0.36 * look.figures)
        choices: list[tuple[float, complex]] = []
        for part in (0.5, 0.42, 0.58, 0.34, 0.66, 0.26, 0.74):
            for point in _beside(track, part, half, look):
                off = taken - point
                gap = np.hypot(np.maximum(abs(off.real) - half.real, 0), np.maximum(abs(off.imag) - half.imag, 0)).min()
                choices.append((round(min(float(gap), 0.3 * look.figures) - 4 * abs(part - 0.5), 6), point))
        points[i] = max(choices, key=lambda choice: choice[0])[1]
        box = [points[i] + complex(x * half.real, y * half.imag) for x in (-1, 0, 1) for y in (-1, 0, 1)]
        taken = np.concatenate([taken, box])
    return points


def _beside(track: Any, part: float, half: complex, look: _Look) -> list[complex]:
    """The centres of boxes, of this half width and height, that stand close on the two sides of a part of a track."""
    k = round(part * (len(track) - 1))
    across = 1j * _unit(complex(track[k + 1] - track[k - 1]))
    off = abs(across.real) * half.real + abs(across.imag) * half.imag + 0.3 * look.figures
    return [complex(track[k]) + side * off * across for side in (1, -1)]
