"""Rows of crates/mesh_tests, crates/text_tests and crates/outline_tests."""
from faults import NotANumber, OffGrid
from grid import read_number, written
from inspections import inspect
from kernels import Exact, Grid
from mesh import reduced, split
import outlines
from remeshing import remesh
from row_words import flat, mesh_of, small_numbers, word


def acceptance(line):
    """A mesh; then what is left without opposite triangles."""
    words = line.split(" ")[:2]
    left = reduced(mesh_of(*words))
    return " ".join(words + [word(left.points), word(left.triples)])


def pinches(line):
    """A mesh; then that with one point for each fan."""
    words = line.split(" ")[:2]
    done, _ = split(mesh_of(*words))
    return " ".join(words + [word(done.points), word(done.triples)])


def remeshed(line):
    """A mesh; then that remeshed, the planes, and the triangles that were kept."""
    words = line.split(" ")[:2]
    done, planes, kept = remesh(mesh_of(*words))
    return " ".join(words + [word(done.points), word(done.triples), str(planes), str(kept)])


def inspections(line):
    """A mesh, and the same one the other way round; then the four counts of both."""
    words = line.split(" ")[:4]
    mesh = mesh_of(*words[:2])
    return " ".join(words + [str(count) for count in inspect(mesh.points, mesh.triples)[2:]])


def read(line):
    """The digits, what the text reads as, and the text, in which some blanks are written as escapes."""
    digits, _, text = line.split(" ", 2) if line.count(" ") > 1 else line.split(" ") + [""]
    if line.endswith("none\\x20"):
        text, shown = "", "none\\x20"
    else:
        shown = None
    plain = text.replace("\\x20", " ").replace("\\t", "\t").replace("\\\\", "\\")
    try:
        value = str(read_number(plain.encode(), int(digits)))
    except NotANumber:
        value = "none"
    except OffGrid:
        value = "beyond"
    return "%s %s" % (digits, shown or "%s %s" % (value, text))


def shown(line):
    """The digits and a value; then what is written of it."""
    digits, value = line.split(" ")[:2]
    return "%s %s %s" % (digits, value, written(int(value), int(digits)).decode())


def with_length(numbers):
    """A list, and before it how many it has."""
    return [len(numbers)] + list(numbers)


def rings_of(numbers):
    """The rings of a list, each with its number of places."""
    while numbers:
        count = numbers[0]
        places, numbers = numbers[1:1 + 2 * count], numbers[1 + 2 * count:]
        yield outlines.ring(list(zip(places[::2], places[1::2])))


def outline_numbers(found):
    """Winding numbers and hits of two outlines as one list."""
    hits = [[hit.first, hit.second, hit.number, *hit.at] for hit in found.hits]
    return with_length(found.first_windings) + with_length(found.second_windings) + [len(hits)] + flat(hits)


def outline(line):
    """Two operations, the kernels and three rings; then what comes of the first two with the third, and the solid."""
    question = line.split(" = ")[0]
    first, second, is_exact, *places = small_numbers(question)
    a, b, c = rings_of(places)
    kernels, names = Exact() if is_exact else Grid(), ("union", "intersect", "subtract")
    p = outlines.combine(names[first], a, b, kernels).outline
    found = outlines.numbers_of(names[second], p, c, kernels)
    done = outlines.combine(names[second], p, c, kernels)
    solid, forced = outlines.extrude(done.outline, -1, 4)
    answer = outline_numbers(found) + [*done.kept, done.crossings, len(done.outline.points)] + flat(done.outline.points)
    answer += [len(done.outline.loops)] + flat(map(with_length, done.outline.loops))
    answer += [forced, len(solid.triples)] + flat(solid.triples)
    return question + " = " + " ".join(map(str, answer))


TABLES = {
    "acceptance": ("mesh_tests/src/acceptance/table.rt", ["ROWS"], 1, acceptance),
    "pinches": ("mesh_tests/src/pinches/table.rt", ["ROWS"], 1, pinches),
    "inspections": ("mesh_tests/src/inspections/table.rt", ["ROWS"], 1, inspections),
    "remeshing": ("mesh_tests/src/remeshing/table.rt", ["ROWS"], 1, remeshed),
    "numbers read": ("text_tests/src/decimals/table.rt", ["READ"], 1, read),
    "numbers written": ("text_tests/src/decimals/table.rt", ["WRITTEN"], 1, shown),
    "outlines": ("outline_tests/src/table.rt", ["FIRST", "SECOND", "THIRD", "FOURTH"], 1, outline),
}
