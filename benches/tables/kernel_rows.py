"""Rows of crates/kernel_tests: pairs of corners, edges and faces, and winding numbers of pairs of meshes."""
from grid import UNIT
from kernels import Exact, Grid, Low, Nearest
from row_words import corner_of, crossing_word, meshes_of, marks_word, numbers_line
from sides import first_side, second_side
from windings import numbers_of

KINDS = ((1, 1), (1, 2), (2, 1), (2, 2), (1, 3), (3, 1))


def crossings(kernels):
    """Of a line with three corners of either: the edge with the other's face, and the face with the other's edge."""
    def answered(line):
        """The row of a line."""
        words = line.split()[:6]
        corners = [corner_of(word, UNIT) for word in words]
        p, q = tuple(corners[:3]), tuple(corners[3:])
        return " ".join(words + [crossing_word(kernels().cross(p[:2], q)), crossing_word(kernels().cross(p, q[:2]))])
    return answered


def meet_word(found):
    """An answer: the count, ^ for above or _ for below, x, both y and both z in fine steps, and the marks."""
    if found is None:
        return "..........."
    return "%+d%s%d%d%d%d%d%s" % (found.count, "^" if found.is_above else "_", *found.spot[:5], marks_word(found.spot.up))


def meets(kernels, p, q):
    """The answers of the six pairs."""
    return [kernels.meet(p[:m], q[:n]) for m, n in KINDS]


def shadows(kernels):
    """Of a line with three corners of either, in fine steps: the answers of the six pairs of their first ones."""
    def answered(line):
        """The row of a line."""
        words = line.split()[:6]
        corners = [corner_of(word, 1) for word in words]
        return " ".join(words + [meet_word(m) for m in meets(kernels(), tuple(corners[:3]), tuple(corners[3:]))])
    return answered


def windings(lines):
    """Two meshes, and their numbers to the nearest and rounded low."""
    operation, p, q = meshes_of(lines[0])
    p, q = first_side(p, operation), second_side(q)
    return [lines[0]] + [numbers_line(numbers_of(p, q, Grid(rounding))) for rounding in (Nearest, Low)]


TABLES = {
    "shadows": ("kernel_tests/src/shadows/rows.rt", ["ROWS"], 1, shadows(Grid)),
    "more shadows": ("kernel_tests/src/shadows/more_rows.rt", ["MORE_ROWS"], 1, shadows(Grid)),
    "exact shadows": ("kernel_tests/src/exact/rows.rt", ["ANSWERS"], 1, shadows(Exact)),
    "exact crossings": ("kernel_tests/src/exact/rows.rt", ["CROSSINGS"], 1, crossings(Exact)),
    "crossings": ("kernel_tests/src/edges_and_faces/rows.rt", ["ROWS"], 1, crossings(Grid)),
    "windings": ("kernel_tests/src/windings/table/first.rt", ["FIRST_PAIRS"], 3, windings),
    "more windings": ("kernel_tests/src/windings/table/second.rt", ["SECOND_PAIRS"], 3, windings),
}
