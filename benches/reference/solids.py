"""Solids that a script makes, motions, and measures."""
from faults import NotMade
from grid import is_on_grid
from limits import keep_within
from mesh import Mesh, components_of

BOX = [(0, 3, 1), (0, 2, 3), (4, 5, 7), (4, 7, 6), (0, 1, 4), (1, 5, 4),
       (1, 3, 7), (1, 7, 5), (3, 2, 6), (3, 6, 7), (0, 4, 6), (0, 6, 2)]
TETRA = [(0, 2, 1), (0, 1, 3), (1, 2, 3), (2, 0, 3)]
PRISM = [(0, 2, 1), (3, 4, 5), (0, 1, 4), (0, 4, 3), (1, 2, 5), (1, 5, 4), (2, 0, 3), (2, 3, 5)]


def made(points, triples, limits):
    """The solid, where it is on the grid and within the limits."""
    if not all(is_on_grid(c) for p in points for c in p):
        raise NotMade(15)
    keep_within(limits, "points", len(points))
    keep_within(limits, "triangles", len(triples))
    return Mesh(points, triples)


def box_points(low, high):
    """The corners: x changes first, then y, then z."""
    return [(x, y, z) for z in (low[2], high[2]) for y in (low[1], high[1]) for x in (low[0], high[0])]


def box(low, high, limits=None):
    """The box between two corners."""
    if any(low[i] >= high[i] for i in range(3)):
        raise NotMade(16)
    return made(box_points(low, high), BOX, limits)


def tetra(at, size, limits=None):
    """The tetrahedron with a right-angled corner at a point."""
    if size <= 0:
        raise NotMade(16)
    x, y, z = at
    return made([(x, y, z), (x + size, y, z), (x, y + size, z), (x, y, z + size)], TETRA, limits)


def prism(at, size, height, limits=None):
    """The upright prism over a triangle with a right-angled corner."""
    if size <= 0 or height <= 0:
        raise NotMade(16)
    x, y, z = at
    base = [(x, y), (x + size, y), (x, y + size)]
    return made([(a, b, c) for c in (z, z + height) for a, b in base], PRISM, limits)


def lattice(n, seed, limits=None):
    """Boxes of four sizes at each hundredth step."""
    keep_within(limits, "points", 8 * n ** 3)
    keep_within(limits, "triangles", 12 * n ** 3)
    points, triples = [], []
    for i, j, k in ((i, j, k) for i in range(n) for j in range(n) for k in range(n)):
        side, low, base = 10 * (1 + (i + 2 * j + 3 * k + seed) % 4), (100 * i, 100 * j, 100 * k), len(points)
        points += box_points(low, [c + side for c in low])
        triples += [tuple(v + base for v in t) for t in BOX]
    return made(points, triples, limits)


def moved(points, mesh):
    """The mesh with other points, where they are on the grid."""
    if not all(is_on_grid(c) for p in points for c in p):
        raise NotMade(15)
    return Mesh(points, mesh.triples, mesh.labels)


def shift(mesh, by):
    """The mesh, moved."""
    return moved([tuple(p[i] + by[i] for i in range(3)) for p in mesh.points], mesh)


def scale(mesh, factor):
    """The mesh with each coordinate multiplied."""
    return moved([tuple(c * factor for c in p) for p in mesh.points], mesh)


def mirror(mesh, axis):
    """The mirror image: the outside stays outside, since each triple is turned over."""
    points = [tuple(-c if i == axis else c for i, c in enumerate(p)) for p in mesh.points]
    return Mesh(points, [(a, c, b) for a, b, c in mesh.triples], mesh.labels)


def turn(mesh, axis):
    """A quarter turn about an axis."""
    ways = [lambda x, y, z: (x, -z, y), lambda x, y, z: (z, y, -x), lambda x, y, z: (-y, x, z)]
    return Mesh([ways[axis](*p) for p in mesh.points], mesh.triples, mesh.labels)


def volume6(mesh):
    """Six times the volume: the sum of the determinants of the points of each triple."""
    total = 0
    for t in mesh.triples:
        a, b, c = [mesh.points[v] for v in t]
        total += sum(a[i] * (b[(i + 1) % 3] * c[(i + 2) % 3] - b[(i + 2) % 3] * c[(i + 1) % 3]) for i in range(3))
    return total


def measure(mesh):
    """Numbers of points, triangles and components, Euler characteristic, and six times the volume."""
    points, triangles = len(mesh.points), len(mesh.triples)
    components = len(set(components_of(points, mesh.triples)))
    return points, triangles, components, points - 3 * triangles // 2 + triangles, volume6(mesh)
