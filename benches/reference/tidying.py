"""Tidying: edges between points at one place are collapsed, the first one first, until none can be."""
from collections import Counter

from mesh import Mesh, edges_of, half_edge


def can_collapse(mesh, h, count, near):
    """Whether a half-edge of length zero may go without pinching the surface."""
    a, b = half_edge(mesh.triples, h)
    if mesh.points[a] != mesh.points[b] or count[a, b] != 1:
        return False
    twin = mesh.twins[h]
    c, d = mesh.triples[h // 3][(h + 2) % 3], mesh.triples[twin // 3][(twin + 2) % 3]
    if c == d or near[a] & near[b] != {c, d}:
        return False
    return all(count[pair] == 1 for pair in ((a, c), (a, d), (b, c), (b, d)))


def first_collapsible(mesh):
    """The least half-edge that can be collapsed, or none."""
    edges = edges_of(mesh.triples)
    if all(mesh.points[a] != mesh.points[b] for a, b in edges):
        return None
    count, near = Counter(edges), {}
    for a, b in edges:
        near.setdefault(a, set()).add(b)
        near.setdefault(b, set()).add(a)
    return next((h for h in range(len(edges)) if can_collapse(mesh, h, count, near)), None)


def collapsed(mesh, h):
    """The mesh without the two triples of an edge, whose start takes the place of its end."""
    a, b = half_edge(mesh.triples, h)
    gone = {h // 3, mesh.twins[h] // 3}

    def renamed(v):
        """The number of a vertex once the end is dropped."""
        v = a if v == b else v
        return v - 1 if v > b else v
    stay = [t for t in range(len(mesh.triples)) if t not in gone]
    return Mesh(mesh.points[:b] + mesh.points[b + 1:], [tuple(map(renamed, mesh.triples[t])) for t in stay],
                [mesh.labels[t] for t in stay])


def tidy(mesh):
    """The mesh, and how many edges were collapsed."""
    count = 0
    while True:
        h = first_collapsible(mesh)
        if h is None:
            return mesh, count
        mesh, count = collapsed(mesh, h), count + 1
