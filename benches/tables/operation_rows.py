"""Rows of crates/operation_tests: what numbers prescribe, segments and loops of faces, and results of operations."""
from filling import loops_of
from kernels import Exact, Grid, High, Low, Nearest
from operations import Setting, combine
from row_words import DIGITS, LETTERS, digits, flat, hits_of, meshes_of, numbers, numbers_line, vertex_words
from segments import vertices_of
from sides import second_side
from solids import volume6
from windings import Numbers


def given_numbers(line):
    """The winding numbers and hits that a line has."""
    first, second, *words = line.split(" ")
    bar = words.index("|")
    return Numbers(hits_of(words[:bar]), hits_of(words[bar + 1:]), numbers(first), numbers(second))


def prescribed(lines):
    """Two meshes and numbers, whichever; then what these prescribe."""
    operation, p, q = meshes_of(lines[0])
    p, q = second_side(p), second_side(q)
    found = vertices_of(operation, p, q, given_numbers(lines[1]), None)
    counts = "%d %d %d %d" % (*found.kept, found.crossings, found.halfedges)
    return lines[:2] + [" ".join([counts] + vertex_words(found))]


def faces(lines):
    """Two meshes; then their numbers, and the vertices, segments and loops of all source faces."""
    operation, p, q = meshes_of(lines[0])
    setting = Setting(operation, p, q, Grid(), None)
    words = []
    for x in range(setting.count()):
        segments = setting.segments.of(x)
        words.append("".join([digits(flat(segments))] + ["/" + digits(loop) for loop in loops_of(segments)]) or ".")
    return [lines[0], numbers_line(setting.numbers), " ".join(vertex_words(setting.vertices) + ["|"] + words)]


def long_digits(numbers):
    """Numbers from 0 on, each a digit, with a Z before it for each 61."""
    return "".join("Z" * (n // 61) + DIGITS[n % 61] for n in numbers)


def outcome_line(done):
    """All that an operation gives, with a bar after each part."""
    vertices = done.vertices
    counts = [*vertices.kept, vertices.crossings, vertices.halfedges, done.forced]
    origins = "".join(LETTERS[kind] + long_digits(name) for kind, *name in vertices.origins)
    parts = [flat(vertices.points), flat(done.mesh.points), flat(done.mesh.triples), done.origin, done.source]
    return "|".join([long_digits(counts), origins] + [long_digits(part) for part in parts]) + "|"


def results(kernels, *roundings):
    """Two meshes; then what the operation gives under each rounding."""
    def answered(lines):
        """The lines of a pair."""
        operation, p, q = meshes_of(lines[0])
        return [lines[0]] + [outcome_line(combine(operation, p, q, kernels(rounding))) for rounding in roundings]
    return answered


def worked(lines):
    """Two meshes; then kept points of either, crossings, forced, points, triangles, and six times the volume."""
    operation, p, q = meshes_of(lines[1].strip()[1:-2])
    done = combine(operation, p, q, Grid())
    answer = [*done.vertices.kept, done.vertices.crossings, done.forced, len(done.mesh.points), len(done.mesh.triples),
              volume6(done.mesh)]
    return lines[:2] + ["        [%s]," % ", ".join(map(str, answer)), lines[3]]


TABLES = {
    "prescribed": ("operation_tests/src/prescribed/table.rt", ["PAIRS"], 3, prescribed),
    "faces": ("operation_tests/src/faces/table.rt", ["PAIRS"], 3, faces),
    "solids": ("operation_tests/src/results/table/solids.rt", ["SOLIDS"], 3, results(Grid, Nearest, Low)),
    "loose parts": ("operation_tests/src/results/table/loose.rt", ["LOOSE"], 3, results(Grid, Nearest, Low)),
    "farthest": ("operation_tests/src/results/table/farthest.rt", ["FARTHEST"], 3, results(Grid, Low, High)),
    "worked": ("operation_tests/src/results/table/worked.rt", ["WORKED"], 4, worked),
    "exact results": ("operation_tests/src/exact/table.rt", ["PAIRS"], 4, results(Exact, Nearest, Low, High)),
}
