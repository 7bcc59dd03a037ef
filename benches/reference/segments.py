"""The vertices of a result, and the segments that bound what is left of each face.

Source faces are the faces of the first mesh, then those of the second."""
from typing import NamedTuple

from faults import Impossible
from limits import keep_within
from mesh import dot, half_edge

# How the number at a place comes of those of the two meshes there: of the first, of the second, and of both.
OPERATIONS = {"union": (1, 1, -1), "intersect": (0, 0, 1), "subtract": (1, 0, -1)}


class Vertices(NamedTuple):
    """The points of a result before its faces are filled, each with where it comes from. Copies of a vertex or of a
    hit are a first number and a signed count."""
    origins: list
    points: list
    kept: tuple
    crossings: int
    halfedges: int
    copies: dict


def included(operation, numbers):
    """How often each vertex and each hit is in the result, with a sign: first and second vertices, both kinds of
    hits."""
    one, other, together = OPERATIONS[operation]
    return ([one + together * n for n in numbers.first_windings],
            [other + together * n for n in numbers.second_windings],
            [together * hit.number for hit in numbers.first_hits],
            [together * hit.number for hit in numbers.second_hits])


def triples_at(mesh):
    """How many triples each vertex has."""
    count = [0] * len(mesh.points)
    for t in mesh.triples:
        for v in t:
            count[v] += 1
    return count


def sources_of(p, q, numbers):
    """Of each kind the names and points of what may be kept."""
    return ([(("first", v), at) for v, at in enumerate(p.mesh.points)],
            [(("second", v), at) for v, at in enumerate(q.mesh.points)],
            [(("first edge", hit.edge, hit.face), hit.at) for hit in numbers.first_hits],
            [(("second edge", hit.edge, hit.face), hit.at) for hit in numbers.second_hits])


def vertices_of(operation, p, q, numbers, limits):
    """All vertices of the result, in order, or the half-edges that exceed their limit."""
    counts = included(operation, numbers)
    sums = [sum(map(abs, some)) for some in counts]
    halfedges = sum(abs(n) * t for n, t in zip(counts[0], triples_at(p.mesh)))
    halfedges += sum(abs(n) * t for n, t in zip(counts[1], triples_at(q.mesh))) + 3 * (sums[2] + sums[3])
    keep_within(limits, "halfedges", halfedges)
    origins, points, copies = [], [], {}
    for some, sources in zip(counts, sources_of(p, q, numbers)):
        for n, (name, at) in zip(some, sources):
            copies[name] = (len(points), n)
            origins += [name] * abs(n)
            points += [at] * abs(n)
    return Vertices(origins, points, (sums[0], sums[1]), sums[2] + sums[3], halfedges, copies)


def entries_of(copies, name, sign):
    """Each copy once, with the weight 1 or -1."""
    first, n = copies.get(name, (0, 0))
    return [(first + k, sign if n > 0 else -sign) for k in range(abs(n))]


def paired(entries, key):
    """Starts and ends in order: the k-th start goes with the k-th end."""
    starts = sorted((v for v, weight in entries if weight > 0), key=key)
    ends = sorted((v for v, weight in entries if weight < 0), key=key)
    if len(starts) != len(ends):
        raise Impossible("a list with more starts than ends", entries)
    return list(zip(starts, ends))


def paired_along(a, b, entries, points):
    """Pairs by how far the points are along an edge, then by number."""
    along = [b[i] - a[i] for i in range(3)]
    return paired(entries, lambda v: (dot(along, points[v]), v))


def paired_by_spread(entries, points):
    """Pairs by the coordinate of the greatest spread, the first such one, then by number."""
    used = [points[v] for v, _ in entries]
    spread = [max(p[i] for p in used) - min(p[i] for p in used) for i in range(3)] if used else [0]
    axis = spread.index(max(spread))
    return paired(entries, lambda v: (points[v][axis], v))


class Segments:
    """The segments of all source faces."""

    def __init__(self, p, q, numbers, vertices):
        self.p, self.q, self.vertices = p, q, vertices
        self.hits = {"first": {}, "second": {}}     # of each lower half-edge the faces that it hits, in order
        for name, hits in (("first", numbers.first_hits), ("second", numbers.second_hits)):
            for hit in hits:
                self.hits[name].setdefault(hit.edge, []).append(hit.face)

    def along(self, name, side, h):
        """The segments on one half-edge: its start, less its end, less its hits."""
        triples = side.mesh.triples
        lower, sign = side.lower(h)
        start, end = half_edge(triples, h)
        copies = self.vertices.copies
        entries = entries_of(copies, (name, start), 1) + entries_of(copies, (name, end), -1)
        for face in self.hits[name].get(lower, []):
            entries += entries_of(copies, (name + " edge", lower, face), -sign)
        a, b = half_edge(triples, lower)
        return paired_along(side.mesh.points[a], side.mesh.points[b], entries, self.vertices.points)

    def between(self, f, g, way):
        """The segments on a pair of faces, seen from the first one's side (1) or from the second one's (-1)."""
        entries = []
        for name, side, face, other, sign in (("first", self.p, f, g, way), ("second", self.q, g, f, -way)):
            for h in (3 * face, 3 * face + 1, 3 * face + 2):
                lower, turn = side.lower(h)
                entries += entries_of(self.vertices.copies, (name + " edge", lower, other), sign * turn)
        return paired_by_spread(entries, self.vertices.points)

    def of(self, x):
        """The segments of a source face: on its three half-edges, then with each face of the other mesh."""
        count = len(self.p.mesh.triples)
        name, side, face = ("first", self.p, x) if x < count else ("second", self.q, x - count)
        found = [s for h in (3 * face, 3 * face + 1, 3 * face + 2) for s in self.along(name, side, h)]
        if name == "first":
            return found + [s for g in range(len(self.q.mesh.triples)) for s in self.between(face, g, 1)]
        return found + [s for f in range(count) for s in self.between(f, face, -1)]
