"""Random closed meshes and rings, small so that ties abound. Each function takes a random.Random."""
import solids
from grid import GRID
from mesh import Mesh, boundary_of, edges_of, half_edge, without_unused


def point(draw, top):
    """A random point."""
    return tuple(draw.randint(0, top) for _ in range(3))


def two(draw, top):
    """Two different numbers, the lower one first."""
    return sorted(draw.sample(range(top + 1), 2))


def octahedron(at, size):
    """An octahedron round a point."""
    x, y, z = at
    points = [(x + size, y, z), (x - size, y, z), (x, y + size, z), (x, y - size, z), (x, y, z + size), (x, y, z - size)]
    corners = [(i, j, k) for i in (0, 1) for j in (2, 3) for k in (4, 5)]
    return Mesh(points, [(i, j, k) if (i + j + k) % 2 == 0 else (i, k, j) for i, j, k in corners])


def solid(draw, top):
    """A box, tetrahedron, prism or octahedron, maybe turned."""
    kind = draw.choice(["box", "box", "tetra", "prism", "octahedron"])
    if kind == "box":
        mesh = solids.box(*zip(*[two(draw, top) for _ in range(3)]))
    elif kind == "tetra":
        mesh = solids.tetra(point(draw, top), draw.randint(1, top))
    elif kind == "prism":
        mesh = solids.prism(point(draw, top), draw.randint(1, top), draw.randint(1, top))
    else:
        mesh = octahedron(point(draw, top), draw.randint(1, max(1, top // 2)))
    for _ in range(draw.randint(0, 2)):
        mesh = solids.turn(mesh, draw.randrange(3))
    if draw.random() < 0.15:
        mesh = solids.mirror(mesh, draw.randrange(3))
    low = [min(p[i] for p in mesh.points) for i in range(3)]
    return solids.shift(mesh, [draw.randint(-1, 1) - min(0, low[i]) for i in range(3)])


def with_point_on_edge(draw, mesh):
    """A point near the middle of an edge, which halves its two triples."""
    h = draw.randrange(3 * len(mesh.triples))
    a, b = half_edge(mesh.triples, h)
    at = tuple((mesh.points[a][i] + mesh.points[b][i]) // 2 for i in range(3))
    n, triples = len(mesh.points), []
    for t, triple in enumerate(mesh.triples):
        here = [g % 3 for g in (h, mesh.twins[h]) if g // 3 == t]
        if here:
            p, q, s = (triple + triple)[here[0]:here[0] + 3]
            triples += [(p, n, s), (n, q, s)]
        else:
            triples.append(triple)
    return Mesh(mesh.points + [at], triples)


def with_point_in_face(draw, mesh, top):
    """A point in the middle of a triple, or anywhere, which cuts it in three."""
    t = draw.randrange(len(mesh.triples))
    a, b, c = mesh.triples[t]
    middle = tuple(sum(mesh.points[v][i] for v in (a, b, c)) // 3 for i in range(3))
    n = len(mesh.points)
    rest = mesh.triples[:t] + mesh.triples[t + 1:]
    at = middle if draw.random() < 0.5 else point(draw, top)
    return Mesh(mesh.points + [at], rest + [(a, b, n), (b, c, n), (c, a, n)])


def with_other_diagonal(draw, mesh):
    """Two triples at an edge cut along the other diagonal."""
    h = draw.randrange(3 * len(mesh.triples))
    g = mesh.twins[h]
    a, b = half_edge(mesh.triples, h)
    c, d = mesh.triples[h // 3][(h + 2) % 3], mesh.triples[g // 3][(g + 2) % 3]
    if c == d:
        return mesh
    triples = list(mesh.triples)
    triples[h // 3], triples[g // 3] = (c, a, d), (d, b, c)
    return Mesh(mesh.points, triples)


def with_points_joined(draw, mesh):
    """Two points that have no triple in common become one."""
    if len(mesh.points) < 4:
        return mesh
    a, b = draw.sample(range(len(mesh.points)), 2)
    if any(a in t and b in t for t in mesh.triples):
        return mesh
    return without_unused(mesh.points, [tuple(a if v == b else v for v in t) for t in mesh.triples])


def worked(draw, mesh, top, steps):
    """Random points, diagonals, joins and moves."""
    for _ in range(steps):
        kind = draw.random()
        if kind < 0.25:
            mesh = with_point_on_edge(draw, mesh)
        elif kind < 0.45:
            mesh = with_point_in_face(draw, mesh, top)
        elif kind < 0.7:
            mesh = with_other_diagonal(draw, mesh)
        elif kind < 0.8:
            mesh = with_points_joined(draw, mesh)
        else:
            mesh = Mesh([tuple(c + draw.choice([-1, 0, 0, 1]) for c in p) for p in mesh.points], mesh.triples)
    return mesh


def tetrahedra(draw, top):
    """Random tetrahedra over few points, all in one: edges used many times, pinched points, opposite triples."""
    n, triples = draw.randint(4, 7), []
    for _ in range(draw.randint(1, 4)):
        a, b, c, d = draw.sample(range(n), 4)
        triples += [(a, c, b), (a, b, d), (b, c, d), (c, a, d)]
    draw.shuffle(triples)
    return without_unused([point(draw, top) for _ in range(n)], triples)


def coned(draw, top):
    """Loose triples closed by a cone from one more point."""
    n = draw.randint(3, 6)
    triples = [tuple(draw.sample(range(n), 3)) for _ in range(draw.randint(1, 4))]
    triples += [(b, a, n) for (a, b), k in boundary_of(edges_of(triples)).items() for _ in range(k)]
    draw.shuffle(triples)
    return without_unused([point(draw, top) for _ in range(n + 1)], triples)


def back_to_back(draw, top):
    """Triples with their opposites."""
    n, triples = draw.randint(3, 5), []
    for _ in range(draw.randint(1, 3)):
        a, b, c = draw.sample(range(n), 3)
        triples += [(a, b, c), draw.choice([(a, c, b), (c, b, a), (b, a, c)])]
    draw.shuffle(triples)
    return without_unused([point(draw, top) for _ in range(n)], triples)


def together(draw, one, other):
    """Two meshes as one, sometimes with a common point."""
    base = len(one.points)
    triples = one.triples + [tuple(v + base for v in t) for t in other.triples]
    if draw.random() < 0.3 and one.points and other.points:
        a, b = draw.randrange(base), base + draw.randrange(len(other.points))
        triples = [tuple(a if v == b else v for v in t) for t in triples]
    return without_unused(one.points + other.points, triples)


def repeated(draw, mesh):
    """Triples repeated, turned over or begun elsewhere, so that the mesh stays closed."""
    triples, kind = list(mesh.triples), draw.random()
    if kind < 0.3:
        a, b, c = draw.choice(triples)
        triples += [(a, b, c), (a, c, b)]
    elif kind < 0.5:
        triples = triples * 2
    elif kind < 0.7:
        triples = [(a, c, b) for a, b, c in triples]
    elif kind < 0.8:
        triples = triples + [(a, c, b) for a, b, c in triples]
    if draw.random() < 0.5:
        triples = [t[k:] + t[:k] for t in triples for k in [draw.randrange(3)]]
    if draw.random() < 0.3:
        draw.shuffle(triples)
    return without_unused(mesh.points, triples)


def any_kind(draw, top, most):
    """One of the kinds above, of whatever size."""
    kind = draw.random()
    if kind < 0.3:
        return solid(draw, top)
    if kind < 0.5:
        return worked(draw, solid(draw, top), top, draw.randint(1, 5))
    if kind < 0.62:
        return tetrahedra(draw, top)
    if kind < 0.74:
        return coned(draw, top)
    if kind < 0.78:
        return back_to_back(draw, top)
    if kind < 0.86:
        mesh = worked(draw, solid(draw, top), top, draw.randint(0, 3))
        return Mesh([point(draw, top) for _ in mesh.points], mesh.triples)
    if kind < 0.95:
        return together(draw, closed(draw, top, most), closed(draw, top, most))
    return Mesh([], []) if kind < 0.97 else Mesh([(0, 0, 0)] * 4, solids.TETRA)


def closed(draw, top=3, most=40):
    """A closed mesh of at most that many triples."""
    while True:
        mesh = any_kind(draw, top, most)
        if draw.random() < 0.2 and mesh.triples:
            mesh = repeated(draw, mesh)
        if len(mesh.triples) <= most:
            return mesh


def far(draw, mesh):
    """The mesh blown up so that some coordinates stand at the ends of the grid."""
    size = max((abs(c) for p in mesh.points for c in p), default=0) or 1
    points = []
    for p in mesh.points:
        q = [c * (GRID // size) + draw.randint(-3, 3) for c in p]
        if draw.random() < 0.5:
            q = [2 * c - GRID for c in q]
        points.append(tuple(max(-GRID, min(GRID, c)) for c in q))
    return Mesh(points, mesh.triples)


def of_any_size(draw, most=40):
    """A closed mesh of few steps, of some, or as large as the grid."""
    kind = draw.random()
    if kind < 0.1:
        return far(draw, closed(draw, 3, most))
    return closed(draw, 30 if kind < 0.3 else draw.choice([2, 3, 5, 9]), most)


def ring(draw, top):
    """A loop of points of the plane, sometimes a rectangle, either way round."""
    if draw.random() < 0.4:
        (a, b), (c, d) = two(draw, top), two(draw, top)
        points = [(a, c), (b, c), (b, d), (a, d)]
    else:
        points = [(draw.randint(0, top), draw.randint(0, top)) for _ in range(draw.randint(3, 7))]
    return points[::-1] if draw.random() < 0.3 else points
