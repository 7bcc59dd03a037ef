"""Which simplex of the first mesh lies above which of the second, where they meet, and where they cross.

A simplex is a tuple of one, two or three corners. Of a pair the count is a signed sum of the counts of pairs of less
dimension. The two kernels differ only in how they decide which of the two is above."""
from typing import NamedTuple

from faults import Impossible
from grid import UNIT, rounded
from mesh import cross, dot


class Spot(NamedTuple):
    """Where a pair meets: x, then y of the first and of the second, z of both, and the marks."""
    x: int
    first_y: int
    second_y: int
    first_z: int
    second_z: int
    up: tuple


class Meet(NamedTuple):
    """The count of a pair, whether the first is above there, and where."""
    count: int
    is_above: bool
    spot: Spot


class Crossing(NamedTuple):
    """How often, with its sign, an edge of one mesh goes through a face of the other, and the point of the grid."""
    number: int
    at: tuple


class Nearest:
    """The rounding of the program. The others are for tests: any rule that stays between the two numbers does."""

    @staticmethod
    def between(u, v, a, b):
        """The number from u to v that is away from u as a is to a + b."""
        return u if a + b == 0 else u + rounded((v - u) * a, a + b)

    @staticmethod
    def settle(fine):
        """The step of the grid for a number of fine steps."""
        return rounded(fine, UNIT)


class Low:
    """The first of the two numbers, but the second where it is hit; the step below."""

    @staticmethod
    def between(u, v, a, b):
        """The number from u to v for the weights a and b."""
        return v if b == 0 and a != 0 else u

    @staticmethod
    def settle(fine):
        """The step of the grid for a number of fine steps."""
        return fine // UNIT


class High:
    """The second of the two numbers, but the first where it is hit; the step above."""

    @staticmethod
    def between(u, v, a, b):
        """The number from u to v for the weights a and b."""
        return u if a == 0 else v

    @staticmethod
    def settle(fine):
        """The step of the grid for a number of fine steps."""
        return -(-fine // UNIT)


def edges_round(face):
    """The edges round a face."""
    a, b, c = face
    return ((a, b), (b, c), (c, a))


def boundary_pairs(p, q):
    """The pairs on the boundary of a pair, each with its sign."""
    kind = (len(p), len(q))
    if kind == (2, 2):
        return [(1, p[1:], q), (-1, p[:1], q), (1, p, q[1:]), (-1, p, q[:1])]
    if kind == (1, 3):
        return [(1, p, edge) for edge in edges_round(q)]
    if kind == (3, 1):
        return [(1, edge, q) for edge in edges_round(p)]
    if kind == (2, 3):
        return [(-1, p[:1], q), (1, p[1:], q)] + [(-1, p, edge) for edge in edges_round(q)]
    return [(-1, p, q[:1]), (1, p, q[1:])] + [(-1, edge, q) for edge in edges_round(p)]


def both(one, other):
    """The marks that both have."""
    return (one[0] and other[0], one[1] and other[1], one[2] and other[2])


class Kernels:
    """Counts and crossings over a rule of rounding. What was asked before is kept."""

    def __init__(self, rounding=Nearest):
        self.rounding = rounding
        self.known = {}

    def is_right_of(self, p, q):
        """Whether a vertex of the first mesh has the greater x."""
        raise NotImplementedError

    def is_above(self, p, q, spot):
        """Whether the first simplex is above the second where they meet."""
        raise NotImplementedError

    def meet(self, p, q):
        """The answer for a pair; none exactly where its count is 0."""
        if (p, q) not in self.known:
            found = {(1, 1): self.of_vertices, (1, 2): self.of_vertex_and_edge, (2, 1): self.of_edge_and_vertex}.get(
                (len(p), len(q)), self.of_more)(p, q)
            self.known[p, q] = found and Meet(found[0], self.is_above(p, q, found[1]), found[1])
        return self.known[p, q]

    def shadow(self, p, q):
        """The count where the first is above, and else 0."""
        found = self.meet(p, q)
        return found.count if found and found.is_above else 0

    def of_vertices(self, p, q):
        """Two vertices: 1."""
        (v,), (w,) = p, q
        return 1, Spot(v.x, v.y, w.y, v.z, w.z, v.up)

    def of_vertex_and_edge(self, p, q):
        """A vertex and an edge: whether the vertex is right of its start less whether it is right of its end."""
        v, (c, d) = p[0], q
        count = self.is_right_of(v, c) - self.is_right_of(v, d)
        if count == 0:
            return None
        left, right = (c, d) if c.x < d.x else (d, c)
        a, b = v.x - left.x, right.x - v.x
        between = self.rounding.between
        return count, Spot(v.x, v.y, between(left.y, right.y, a, b), v.z, between(left.z, right.z, a, b), v.up)

    def of_edge_and_vertex(self, p, q):
        """An edge and a vertex: whether its end is right of the vertex less whether its start is."""
        (a, b), w = p, q[0]
        count = self.is_right_of(b, w) - self.is_right_of(a, w)
        if count == 0:
            return None
        left, right = (a, b) if (a.x, a.up[0]) < (b.x, b.up[0]) else (b, a)
        up = left.up if w.x == left.x else right.up if w.x == right.x else both(left.up, right.up)
        m, n = w.x - left.x, right.x - w.x
        between = self.rounding.between
        return count, Spot(w.x, between(left.y, right.y, m, n), w.y, between(left.z, right.z, m, n), w.z, up)

    def boundary_of(self, p, q):
        """The count of the boundary, and the first pair of it that is below and the first that is above."""
        count, below, above = 0, None, None
        for sign, bp, bq in boundary_pairs(p, q):
            found = self.meet(bp, bq)
            if found and found.is_above:
                count += sign * found.count
                above = above or found
            elif found:
                below = below or found
        if count != 0 and not (below and above):
            raise Impossible("a pair whose boundary is on one side", p, q)
        return count, below, above

    def of_more(self, p, q):
        """Two edges, or a vertex and a face: the boundary's count; the spot lies between the two of the boundary."""
        count, below, above = self.boundary_of(p, q)
        if count == 0:
            return None
        d, u = below.spot, above.spot
        a, b = abs(d.first_y - d.second_y), abs(u.first_y - u.second_y)
        up = d.up if a == 0 else u.up if b == 0 else both(d.up, u.up)
        return count, Spot(*[self.rounding.between(d[i], u[i], a, b) for i in range(5)], up)

    def cross(self, p, q):
        """The crossing of an edge and a face; none exactly where its number is 0. The point lies on the edge's mesh
        where the edge is of the first, and on the face's where it is of the second."""
        number, below, above = self.boundary_of(p, q)
        if number == 0:
            return None
        d, u = below.spot, above.spot
        a, b = abs(d.first_z - d.second_z), abs(u.first_z - u.second_z)
        axes = (0, 1, 3) if len(p) == 2 else (0, 2, 4)
        return Crossing(number, tuple(self.rounding.settle(self.rounding.between(d[i], u[i], a, b)) for i in axes))


class Grid(Kernels):
    """Rounded coordinates are compared, and where they are equal the mark decides."""

    def is_right_of(self, p, q):
        """Whether a vertex of the first mesh has the greater x."""
        return p.x > q.x or (p.x == q.x and p.up[0])

    def is_above(self, p, q, spot):
        """Whether the first simplex is above the second where they meet."""
        size = len(p) + len(q)
        if size == 2:
            return self.is_right_of(p[0], q[0])
        if size == 3:
            return spot.first_y > spot.second_y or (spot.first_y == spot.second_y and spot.up[1])
        return spot.first_z > spot.second_z or (spot.first_z == spot.second_z and spot.up[2])


def sign_of(n):
    """The sign of a number: -1, 0 or 1."""
    return (n > 0) - (n < 0)


class Exact(Kernels):
    """Signs of determinants decide; the first mesh counts as moved up by less than any number, on x most of all."""

    def is_right_of(self, p, q):
        """Whether a vertex of the first mesh has the greater x."""
        return p.x >= q.x

    def is_above(self, p, q, spot):
        """Whether the first simplex is above the second where they meet."""
        size = len(p) + len(q)
        if size == 2:
            return self.is_right_of(p[0], q[0])
        return self.is_beside(p, q) if size == 3 else self.is_over(p, q)

    def is_beside(self, p, q):
        """A vertex and an edge, or an edge and a vertex, seen from above: the sign of the turn."""
        edge, v, sign = (q, p[0], 1) if len(q) == 2 else (p, q[0], -1)
        left, right = edge if edge[0].x < edge[1].x else edge[::-1]
        turn = sign * ((v.y - left.y) * (right.x - left.x) - (v.x - left.x) * (right.y - left.y))
        return turn > 0 or (turn == 0 and right.y <= left.y)

    def is_over(self, p, q):
        """Two edges, or a vertex and a face: the sign of the distance from the plane of both, along z."""
        if len(p) == 2:
            along = [tuple(e[1][i] - e[0][i] for i in range(3)) for e in (p, q)]
            n = cross((0, 0, 0), *along)
        else:
            n = cross(*(q if len(q) == 3 else p))
        distance = dot(n, [p[0][i] - q[0][i] for i in range(3)])
        if distance == 0:                   # the first coordinate of the normal that is not 0 leads
            distance = next((c for c in n if c != 0), 0)
        return sign_of(n[2]) * sign_of(distance) > 0
