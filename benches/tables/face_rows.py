"""Rows of crates/face_tests: segments in pairs, loops, holes that are joined, rings that are cut, and fillings."""
from filling import FLAT, area, cut_ring, fill, join_holes, loops_of
from row_words import flat, small_numbers
from segments import paired_along, paired_by_spread


def joined(parts):
    """The parts of a line."""
    return " : ".join(parts)


def listed(numbers):
    """Numbers with blanks between."""
    return " ".join(map(str, numbers))


def places_of(numbers, size):
    """Numbers as points of so many coordinates."""
    return list(zip(*[iter(numbers)] * size))


def cutting(line):
    """Whether u and v are exchanged, the places, the ring; then the triangles, and how many were forced."""
    parts = line.split(" : ")[:3]
    places = places_of(small_numbers(parts[1]), 2)
    at = [(v, u) for u, v in places] if parts[0] == "1" else places
    triples, forced = cut_ring(small_numbers(parts[2]), at)
    return joined(parts + [listed(flat(triples)), str(forced)])


def joining(line):
    """The axis, the points, the loops; then whether u and v are exchanged, and the rings."""
    parts = line.split(" : ")[:3]
    points = places_of(small_numbers(parts[1]), 3)
    loops = [small_numbers(loop) for loop in parts[2].split("/")]
    at = [FLAT[int(parts[0])](p) for p in points]
    is_turned = sum(area(loop, at) for loop in loops) < 0
    rings = join_holes(loops, [(v, u) for u, v in at] if is_turned else at)
    return joined(parts + [str(int(is_turned)), " / ".join(map(listed, rings))])


def letters_of(text):
    """The numbers of letters, a for 0."""
    return [ord(letter) - ord("a") for letter in text]


def filling(line):
    """The axis, the points, the loops; then three letters for each triangle, and how many were forced."""
    parts = line.split(" : ")[:3]
    points = [tuple(small_numbers(p)) for p in parts[1].split(";")]
    triples, forced = fill(int(parts[0]), [letters_of(loop) for loop in parts[2].split("/")], points)
    return joined(parts + ["".join(chr(ord("a") + v) for v in flat(triples)), str(forced)])


def loops(line):
    """The ends of segments; then the length and the vertices of each loop."""
    part = line.split(" : ")[0]
    found = loops_of(places_of(small_numbers(part), 2))
    return joined([part, listed(flat([[len(loop)] + loop for loop in found]))])


def entries_of(part):
    """Entries with 1 for a start and 0 for an end."""
    return [(v, 1 if is_start else -1) for v, is_start in places_of(small_numbers(part), 2)]


def pairing_along(line):
    """The ends of an edge, the entries, the points; then the ends of the segments."""
    parts = line.split(" : ")[:3]
    a, b = places_of(small_numbers(parts[0]), 3)
    pairs = paired_along(a, b, entries_of(parts[1]), places_of(small_numbers(parts[2]), 3))
    return joined(parts + [listed(flat(pairs))])


def pairing_across(line):
    """The entries and the points; then the ends of the segments."""
    parts = line[2:].split(" : ")[:2]
    pairs = paired_by_spread(entries_of(parts[0]), places_of(small_numbers(parts[1]), 3))
    return ": " + joined(parts + [listed(flat(pairs))])


TABLES = {
    "cutting": ("face_tests/src/cutting/table.rt", ["ROWS"], 1, cutting),
    "joining": ("face_tests/src/filling/joined_rows.rt", ["ROWS", "RANDOM_ROWS", "MANY_HOLES"], 1, joining),
    "filling": ("face_tests/src/filling/rows.rt", ["HARD", "RANDOM"], 1, filling),
    "loops": ("face_tests/src/loops/table.rt", ["ROWS"], 1, loops),
    "pairing along": ("face_tests/src/pairing/table.rt", ["EDGES"], 1, pairing_along),
    "pairing across": ("face_tests/src/pairing/table.rt", ["PAIRS"], 1, pairing_across),
}
