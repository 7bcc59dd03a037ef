"""How much of each thing a run may have."""
from typing import NamedTuple

from faults import Over


class Limits(NamedTuple):
    """The most bytes of a file, points and triangles of a mesh, and half-edges that an operation needs."""
    file_bytes: int = 2147483648
    points: int = 15000000
    triangles: int = 10000000
    halfedges: int = 6000000


def keep_within(limits, what, seen):
    """Refuses a number that exceeds its limit. Without limits there are none."""
    if limits is not None and seen > getattr(limits, what):
        raise Over(what, seen)
