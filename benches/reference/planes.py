"""Planes of a welded mesh: edges cut at the places inside them, the triangles of each plane, and the chain of their rims."""
from math import gcd

from filling import FLAT, turn
from mesh import cross, dot

ORIGIN = (0, 0, 0)


def minus(p, q):
    """The way from q to p."""
    return tuple(p[i] - q[i] for i in range(3))


def sign(n):
    """The sign of a number: -1, 0 or 1."""
    return (n > 0) - (n < 0)


def pairs_round(loop):
    """The edges round a rim."""
    return list(zip(loop, loop[1:] + loop[:1]))


def are_between(low, p, high):
    """Whether a point lies in the box of two points."""
    return all(min(low[i], high[i]) <= p[i] <= max(low[i], high[i]) for i in range(3))


def path(a, b, points):
    """The places on an edge in order, from one end to the other."""
    way = minus(points[b], points[a])
    on = [v for v, p in enumerate(points) if are_between(points[a], p, points[b])
          and cross(ORIGIN, minus(p, points[a]), way) == ORIGIN]
    return sorted(on, key=lambda v: dot(way, points[v]))


def rim_of(triple, points):
    """The corners of a triangle with the places inside its edges."""
    rim = []
    for a, b in pairs_round(list(triple)):
        rim += path(a, b, points)[:-1]
    return rim


class Plane:
    """A plane by its front normal, and the triangles in it: number, rim, 1 where it faces front or -1, and label."""

    def __init__(self, normal):
        self.normal, self.faces = normal, []
        sizes = [abs(c) for c in normal]
        self.axis = max(axis for axis in range(3) if sizes[axis] == max(sizes))

    def labels(self):
        """The labels in the order of their first triangle."""
        return list(dict.fromkeys(face[3] for face in self.faces))

    def flat(self, points, vertices, side=1):
        """The places in the plane, seen so that triangles that face this side turn left."""
        is_exchanged = (self.normal[self.axis] < 0) == (side > 0)
        at = {v: FLAT[self.axis](points[v]) for v in vertices}
        return {v: (w, u) for v, (u, w) in at.items()} if is_exchanged else at

    def front(self, points):
        """All places of its triangles, seen from the front."""
        return self.flat(points, {v for face in self.faces for v in face[1]})


def planes_of(points, triples, labels):
    """The planes by their first triangle. Flat triangles are in none."""
    planes = {}
    for number, triple in enumerate(triples):
        normal = cross(*[points[v] for v in triple])
        size = gcd(gcd(normal[0], normal[1]), normal[2])
        if size == 0:
            continue
        side = 1 if normal > ORIGIN else -1
        normal = tuple(side * c // size for c in normal)
        plane = planes.setdefault((normal, dot(normal, points[triple[0]])), Plane(normal))
        plane.faces.append((number, rim_of(triple, points), side, labels[number]))
    return list(planes.values())


def chain_of(faces, labels):
    """Of each edge of the rims, label by label, how often it runs from its lesser end less how often back; edges with a
    number that is not 0."""
    chain = {}
    for _, rim, _, label in faces:
        for a, b in pairs_round(rim):
            count = chain.setdefault((min(a, b), max(a, b)), [0] * len(labels))
            count[labels.index(label)] += 1 if a < b else -1
    return {edge: tuple(count) for edge, count in chain.items() if any(count)}


def do_cross(one, other, at):
    """Whether two edges have a point inside both."""
    (a, b), (c, d) = one, other
    return (not {a, b} & {c, d} and sign(turn(at[a], at[b], at[c])) * sign(turn(at[a], at[b], at[d])) < 0
            and sign(turn(at[c], at[d], at[a])) * sign(turn(at[c], at[d], at[b])) < 0)


def crossing_pairs(edges, at):
    """All pairs of edges that cross."""
    edges = list(edges)
    return [(e, f) for k, e in enumerate(edges) for f in edges[:k] if do_cross(e, f, at)]


def grid_point(pair, points, at):
    """Where two edges cross, where that is a point of the grid."""
    (a, b), (c, d) = pair
    one, other = turn(at[c], at[d], at[a]), turn(at[c], at[d], at[b])
    way = [(points[b][i] - points[a][i]) * one for i in range(3)]
    if any(n % (one - other) for n in way):
        return None
    return tuple(points[a][i] + way[i] // (one - other) for i in range(3))


def crossing_points(planes, points):
    """The points of the grid at which edges of a plane's chain cross, in order."""
    found = set()
    for plane in planes:
        at = plane.front(points)
        for pair in crossing_pairs(chain_of(plane.faces, plane.labels()), at):
            found.add(grid_point(pair, points, at))
    return sorted(found - {None})


def without_opposites(kept):
    """Of kept triangles with the same places on their rims as many that face front go as face back, the first ones."""
    groups, gone = {}, set()
    for number, rim, side, _ in kept:
        groups.setdefault(frozenset(rim), {1: [], -1: []})[side].append(number)
    for both in groups.values():
        n = min(len(both[1]), len(both[-1]))
        gone.update(both[1][:n] + both[-1][:n])
    return [face for face in kept if face[0] not in gone]


def free_and_kept(plane, at):
    """The triangles without those that have an edge which crosses another, again and again until none does; and those."""
    free, kept, labels = plane.faces, [], plane.labels()
    while True:
        bad = {e for pair in crossing_pairs(chain_of(free, labels), at) for e in pair}
        if not bad:
            return free, without_opposites(sorted(kept))
        stay = [face for face in free if not any((min(e), max(e)) in bad for e in pairs_round(face[1]))]
        kept += [face for face in free if face not in stay]
        free = stay
