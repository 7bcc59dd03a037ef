"""One operation on two meshes, and whether a mesh is what one gives."""
from typing import NamedTuple

from faults import Impossible
from filling import dropped_axis, fill, loops_of
from mesh import (Mesh, boundary_of, edges_of, has_one_fan_each, least_open_edge, reduced, split, twins_of)
from segments import Segments, Vertices, vertices_of
from sides import first_side, second_side
from windings import numbers_of


class Outcome(NamedTuple):
    """The result, its vertices before splitting, the old vertex of each new one, the source face of each triple, and
    how many triples were forced."""
    mesh: Mesh
    vertices: Vertices
    origin: list
    source: list
    forced: int


class Setting:
    """The two reduced meshes of an operation, their numbers and the segments of all source faces."""

    def __init__(self, operation, p, q, kernels, limits):
        self.p, self.q = first_side(reduced(p), operation), second_side(reduced(q))
        self.numbers = numbers_of(self.p, self.q, kernels)
        self.vertices = vertices_of(operation, self.p, self.q, self.numbers, limits)
        self.segments = Segments(self.p, self.q, self.numbers, self.vertices)

    def count(self):
        """How many source faces there are."""
        return len(self.p.mesh.triples) + len(self.q.mesh.triples)

    def face(self, x):
        """The mesh of a source face, and its number there."""
        first = len(self.p.mesh.triples)
        return (self.p.mesh, x) if x < first else (self.q.mesh, x - first)

    def label(self, x):
        """The label of a source face."""
        mesh, f = self.face(x)
        return mesh.labels[f]

    def filled(self, x):
        """The triples of a source face, and how many were forced."""
        loops = loops_of(self.segments.of(x))
        if any(len(loop) < 3 for loop in loops):
            raise Impossible("a loop of less than three vertices", x, loops)
        mesh, f = self.face(x)
        return fill(dropped_axis(*[mesh.points[v] for v in mesh.triples[f]]), loops, self.vertices.points)


def combine(operation, p, q, kernels, limits=None):
    """The union, intersection or difference of two closed meshes."""
    setting = Setting(operation, p, q, kernels, limits)
    triples, source, forced = [], [], 0
    for x in range(setting.count()):
        more, count = setting.filled(x)
        triples += more
        source += [x] * len(more)
        forced += count
    whole = Mesh(setting.vertices.points, triples, [setting.label(x) for x in source])
    mesh, origin = split(whole)
    return Outcome(mesh, setting.vertices, origin, source, forced)


def stands_on_vertices(outcome):
    """Whether each point of the result is the place of the vertex that it comes from, and all vertices occur."""
    origin, vertices = outcome.origin, outcome.vertices
    return (len(origin) == len(outcome.mesh.points) and set(origin) == set(range(len(vertices.points)))
            and all(outcome.mesh.points[v] == vertices.points[old] for v, old in enumerate(origin)))


def is_bounded_by_segments(setting, before, source):
    """Whether the triples of each source face are bounded by just its segments."""
    if len(source) != len(before) or not all(0 <= x < setting.count() for x in source):
        return False
    return all(boundary_of(edges_of([t for t, y in zip(before, source) if y == x]))
               == boundary_of(setting.segments.of(x)) for x in range(setting.count()))


def audit(operation, p, q, kernels, outcome):
    """Whether the outcome is one of the operation, whichever triangles its faces are filled with."""
    setting = Setting(operation, p, q, kernels, None)
    if outcome.vertices != setting.vertices or not stands_on_vertices(outcome):
        return False
    mesh = outcome.mesh
    before = [tuple(outcome.origin[v] for v in t) for t in mesh.triples]
    if any(len(set(t)) != 3 for t in before) or not is_bounded_by_segments(setting, before, outcome.source):
        return False
    if least_open_edge(mesh.triples) or least_open_edge(before) or not has_one_fan_each(mesh):
        return False
    return twins_of(before) == mesh.twins and mesh.labels == [setting.label(x) for x in outcome.source]
