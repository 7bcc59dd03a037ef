"""The two meshes of an operation, ready to be compared: corners in fine steps, with a mark for each axis.

A mark says that on this axis the corner counts as moved up by less than a step, and else down."""
from typing import NamedTuple

from grid import UNIT
from mesh import cross, half_edge

UNMARKED = (False, False, False)


class Corner(NamedTuple):
    """A point in fine steps, and whether it counts as moved up, on each axis."""
    x: int
    y: int
    z: int
    up: tuple


def marks(mesh, operation):
    """Of each vertex on which axes the cross products of its triples add up to more than 0, for a union, or to less."""
    normal = [[0, 0, 0] for _ in mesh.points]
    for t in mesh.triples:
        n = cross(*[mesh.points[v] for v in t])
        for v in t:
            normal[v] = [normal[v][i] + n[i] for i in range(3)]
    sign = 1 if operation == "union" else -1
    return [tuple(sign * c > 0 for c in n) for n in normal]


class Side:
    """A mesh with its corners. Faces are triples of corners, and edges pairs of them."""

    def __init__(self, mesh, ups):
        self.mesh = mesh
        self.corners = [Corner(x * UNIT, y * UNIT, z * UNIT, up) for (x, y, z), up in zip(mesh.points, ups)]

    def face(self, f):
        """The three corners of a face."""
        return tuple(self.corners[v] for v in self.mesh.triples[f])

    def edge(self, h):
        """The two corners of a half-edge."""
        return tuple(self.corners[v] for v in half_edge(self.mesh.triples, h))

    def faces(self):
        """All faces."""
        return [self.face(f) for f in range(len(self.mesh.triples))]

    def lower_half_edges(self):
        """Of each edge the lesser of its two half-edges, which stands for it."""
        return [h for h, twin in enumerate(self.mesh.twins) if h < twin]

    def lower(self, h):
        """The half-edge that stands for the edge of this one, and the sign of this one against it."""
        twin = self.mesh.twins[h]
        return (h, 1) if h < twin else (twin, -1)


def first_side(mesh, operation):
    """The first mesh of an operation: it has the marks."""
    return Side(mesh, marks(mesh, operation))


def second_side(mesh):
    """The second mesh, or the one of which winding numbers are asked."""
    return Side(mesh, [UNMARKED] * len(mesh.points))


def box_of(corners):
    """The least and the greatest of each coordinate."""
    return [(min(c[i] for c in corners), max(c[i] for c in corners)) for i in range(3)]


def are_apart(one, other, axes=(0, 1, 2)):
    """Whether two boxes have no point in common, looked at along these axes. Such a pair has no shadow or crossing."""
    return any(one[i][1] < other[i][0] or other[i][1] < one[i][0] for i in axes)
