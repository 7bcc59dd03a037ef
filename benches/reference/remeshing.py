"""Remeshing plane by plane: at each point of a plane as many sheets as the triangles that face front, less those that
face back, say. Where edges of a plane cross, the triangles at them are kept."""
from edge_twins import parted
from filling import fill
from mesh import Mesh, cross, without_unused
from planes import ORIGIN, chain_of, crossing_points, free_and_kept, minus, pairs_round, planes_of
from regions import neighbours, regions_of, started, walks_of


def welded(mesh):
    """The places, which are the different points by their first vertex, and the triangles with three of them."""
    place = {}
    names = [place.setdefault(p, len(place)) for p in mesh.points]
    faces = [(tuple(names[v] for v in t), label) for t, label in zip(mesh.triples, mesh.labels)]
    faces = [face for face in faces if len(set(face[0])) == 3]
    return list(place), [t for t, _ in faces], [label for _, label in faces]


def pieces_of(plane, points):
    """What is to be filled in a plane, and how many triangles are kept. A piece has the first triangle of its side, 1 for a
    kept triangle, the label, the plane, the side and the walks."""
    at, labels, pieces = plane.front(points), plane.labels(), []
    free, kept = free_and_kept(plane, at)
    first = {side: min((face[0] for face in plane.faces if face[2] == side), default=-1) for side in (1, -1)}
    regions = regions_of(chain_of(free, labels), free, labels, at)
    for side, k, level in sorted(regions, key=lambda r: (first[r[0]], r[1], r[2])):
        edges = regions[side, k, level]
        seen = plane.flat(points, {v for e in edges for v in e}, side)
        pieces.append((first[side], 0, labels[k], plane, side, walks_of(edges, seen)))
    pieces += [(first[side], 1, label, plane, side, [rim]) for _, rim, side, label in kept]
    return pieces, len(kept)


def needless_places(pieces, points):
    """The places at which the edges of all walks lead to two places only, which lie on one line with it."""
    ends = neighbours([edge for piece in pieces for walk in piece[5] for edge in pairs_round(walk)])
    found = set()
    for v, others in ends.items():
        others = set(others)
        if len(others) == 2:
            p, q = [minus(points[w], points[v]) for w in others]
            if cross(ORIGIN, p, q) == ORIGIN:
                found.add(v)
    return found


def filled(piece, points, gone):
    """The triangles of a piece, and how many were forced."""
    _, _, _, plane, side, walks = piece
    at = plane.flat(points, {v for walk in walks for v in walk}, side)
    loops = sorted(started([v for v in walk if v not in gone], at) for walk in walks)
    return fill(plane.axis, loops, points)


def remesh(mesh):
    """The mesh, the number of planes, and how many triangles were kept."""
    points, triples, labels = welded(mesh)
    planes = planes_of(points, triples, labels)
    more = crossing_points(planes, points)
    if more:
        points = points + more
        planes = planes_of(points, triples, labels)
    pieces, kept = [], 0
    for plane in planes:
        some, count = pieces_of(plane, points)
        pieces += some
        kept += count
    pieces.sort(key=lambda piece: piece[:2])
    gone, new, names = needless_places(pieces, points), [], []
    for piece in pieces:
        more, forced = filled(piece, points, gone)
        if forced:                              # never seen: the mesh stays
            return mesh, len(planes), len(mesh.triples)
        new += more
        names += [piece[2]] * len(more)
    if not new:
        return Mesh([], []), len(planes), kept
    whole = without_unused(points, new, names)
    return parted(whole.points, whole.triples, whole.labels), len(planes), kept
