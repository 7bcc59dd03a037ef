"""Crossings of the edges of each mesh with the faces of the other, and winding numbers of all vertices.

Pairs whose boxes are apart have no number. They are left out for speed alone: where ALL_PAIRS is 1 in the environment
they are asked too."""
import os
from typing import NamedTuple

from kernels import Grid, Nearest
from sides import Corner, UNMARKED, are_apart, box_of, second_side
from grid import UNIT

ASKS_ALL = os.environ.get("ALL_PAIRS") == "1"


class Hit(NamedTuple):
    """A crossing of an edge, named by its lower half-edge, with a face."""
    edge: int
    face: int
    number: int
    at: tuple


class Numbers(NamedTuple):
    """Hits of first edges with second faces, of second edges with first faces, winding numbers of both's vertices."""
    first_hits: list
    second_hits: list
    first_windings: list
    second_windings: list


def hits_of(edges_of, faces_of, cross):
    """All pairs of an edge and a face whose number is not 0, by edge, then by face."""
    found = []
    faces = [(face, box_of(face)) for face in faces_of.faces()]
    for h in edges_of.lower_half_edges():
        edge = edges_of.edge(h)
        box = box_of(edge)
        for f, (face, around) in enumerate(faces):
            crossing = None if are_apart(box, around) and not ASKS_ALL else cross(edge, face)
            if crossing is not None:
                found.append(Hit(h, f, crossing.number, crossing.at))
    return found


def winding(corner, faces, shadow):
    """How often faces go round a corner: minus the sum of the shadows of all of them."""
    box = box_of([corner])
    return -sum(shadow(corner, face) for face, around in faces if ASKS_ALL or not are_apart(box, around, (0, 1)))


def windings_of(corners, faces_of, shadow):
    """The winding numbers of all corners of one mesh in the other."""
    faces = [(face, box_of(face)) for face in faces_of.faces()]
    return [winding(corner, faces, shadow) for corner in corners]


def numbers_of(p, q, kernels):
    """Everything that an operation asks of the two meshes' places."""
    return Numbers(
        hits_of(p, q, kernels.cross),
        hits_of(q, p, lambda edge, face: kernels.cross(face, edge)),
        windings_of(p.corners, q, lambda v, face: kernels.shadow((v,), face)),
        windings_of(q.corners, p, lambda v, face: kernels.shadow(face, (v,))))


def inside(mesh, point):
    """How often a mesh goes round a point of the grid."""
    corner = Corner(*[c * UNIT for c in point], UNMARKED)
    kernels = Grid(Nearest)
    return windings_of([corner], second_side(mesh), lambda v, face: kernels.shadow((v,), face))[0]
