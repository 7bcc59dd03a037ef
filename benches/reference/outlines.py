"""Outlines in the plane: rings, operations on two outlines, and the solid over one."""
from typing import NamedTuple

from faults import Impossible, NotMade, Over
from filling import fill, loops_of, pairs_round
from grid import UNIT
from segments import OPERATIONS, paired_along
from sides import UNMARKED, Corner
from solids import made

MOST_POINTS = 1000000


class Outline(NamedTuple):
    """Points of the plane, and loops of their numbers."""
    points: list
    loops: list

    def edges(self):
        """The edges, loop by loop."""
        return [pair for loop in self.loops for pair in pairs_round(loop)]


class Hit(NamedTuple):
    """A crossing of an edge of the first outline with one of the second."""
    first: int
    second: int
    number: int
    at: tuple


class Numbers(NamedTuple):
    """Winding numbers of the first outline's points in the second, of the second's in the first, and all hits."""
    first_windings: list
    second_windings: list
    hits: list


class Result(NamedTuple):
    """The outline, how many points of each were kept, and how many crossings."""
    outline: Outline
    kept: tuple
    crossings: int


def ring(points):
    """The outline of one loop through these points."""
    return Outline([tuple(p) for p in points], [list(range(len(points)))])


def marks(outline, operation):
    """Of each point on which axes it counts as moved up: outwards for a union, and else inwards; never on z."""
    sign = 1 if operation == "union" else -1
    ups = [UNMARKED] * len(outline.points)
    for loop in outline.loops:
        for k, v in enumerate(loop):
            (ax, ay), (bx, by) = outline.points[loop[k - 1]], outline.points[loop[(k + 1) % len(loop)]]
            ups[v] = (sign * (by - ay) > 0, sign * (ax - bx) > 0, False)
    return ups


def corners_of(outline, ups):
    """The corners of an outline, at height 0."""
    return [Corner(x * UNIT, y * UNIT, 0, up) for (x, y), up in zip(outline.points, ups)]


def numbers_of(operation, p, q, kernels):
    """Winding numbers and hits, by sums over all pairs."""
    pc, qc = corners_of(p, marks(p, operation)), corners_of(q, [UNMARKED] * len(q.points))
    pe, qe = [(pc[a], pc[b]) for a, b in p.edges()], [(qc[a], qc[b]) for a, b in q.edges()]
    hits, settle = [], kernels.rounding.settle
    for i, ab in enumerate(pe):
        for j, cd in enumerate(qe):
            found = kernels.meet(ab, cd)
            if found is not None:
                hits.append(Hit(i, j, found.count, (settle(found.spot.x), settle(found.spot.first_y))))
    return Numbers([sum(kernels.shadow((v,), edge) for edge in qe) for v in pc],
                   [-sum(kernels.shadow(edge, (v,)) for edge in pe) for v in qc], hits)


def copied(counts, places):
    """Of each thing the first number of its copies and their signed count, and the points of all copies."""
    copies, points = [], []
    for n, at in zip(counts, places):
        copies.append((len(points), n))
        points += [at] * abs(n)
    return copies, points


def entries_of(copy, sign):
    """Each copy once, with the weight 1 or -1."""
    first, n = copy
    return [(first + k, sign if n > 0 else -sign) for k in range(abs(n))]


def segments_of(outline, vertices, on_edges, sign, points):
    """The segments along each edge of an outline: its start, less its end, with the hits on it."""
    solid, found = [(x, y, 0) for x, y in points], []
    for k, (a, b) in enumerate(outline.edges()):
        entries = entries_of(vertices[a], 1) + entries_of(vertices[b], -1)
        for copy in on_edges.get(k, []):
            entries += entries_of(copy, sign)
        found += paired_along((*outline.points[a], 0), (*outline.points[b], 0), entries, solid)
    return found


def combine(operation, p, q, kernels, limits=None):
    """The union, intersection or difference of two outlines."""
    one, other, together = OPERATIONS[operation]
    numbers = numbers_of(operation, p, q, kernels)
    counts = ([one + together * n for n in numbers.first_windings], [other + together * n for n in numbers.second_windings],
              [together * hit.number for hit in numbers.hits])
    sums = [sum(map(abs, some)) for some in counts]
    if limits is not None and sum(sums) > min(limits.points, MOST_POINTS):
        raise Over("points", sum(sums))
    copies, points = copied(sum(counts, []), p.points + q.points + [hit.at for hit in numbers.hits])
    first, second = copies[:len(p.points)], copies[len(p.points):len(p.points) + len(q.points)]
    on_first, on_second = {}, {}
    for hit, copy in zip(numbers.hits, copies[len(p.points) + len(q.points):]):
        on_first.setdefault(hit.first, []).append(copy)
        on_second.setdefault(hit.second, []).append(copy)
    loops = loops_of(segments_of(p, first, on_first, 1, points) + segments_of(q, second, on_second, -1, points))
    if any(len(loop) < 3 for loop in loops):
        raise Impossible("a loop of less than three points", loops)
    return Result(Outline(points, loops), (sums[0], sums[1]), sums[2])


def extrude(outline, low, high, limits=None):
    """The solid over an outline between two heights, and how many triangles of its filling were forced."""
    if low >= high:
        raise NotMade(16)
    n = len(outline.points)
    triples, forced = fill(2, outline.loops, [(x, y, 0) for x, y in outline.points])
    faces = [(a, c, b) for a, b, c in triples] + [(a + n, b + n, c + n) for a, b, c in triples]
    for a, b in outline.edges():
        faces += [(a, b, b + n), (a, b + n, a + n)]
    return made([(x, y, z) for z in (low, high) for x, y in outline.points], faces, limits), forced
