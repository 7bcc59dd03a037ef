"""Reading and writing ASCII STL files."""
from faults import NotANumber, OffGrid, TextFault
from grid import read_number, written
from limits import keep_within
from mesh import without_unused
from texts import lines_of, without_mark, words_of


class Words:
    """The words of a text with their lines, taken one after the other."""

    def __init__(self, data):
        self.words = [(word, number) for number, line in enumerate(lines_of(without_mark(data)), 1)
                      for word in words_of(line)]
        self.at = 0
        self.last_line = 1 + data.count(b"\n")

    def is_next(self, keyword):
        """Whether this keyword comes next."""
        return self.at < len(self.words) and self.words[self.at][0].lower() == keyword

    def take(self):
        """The next word and its line."""
        if self.at == len(self.words):
            raise TextFault(self.last_line, 10)
        self.at += 1
        return self.words[self.at - 1]

    def expect(self, *keywords):
        """Takes these words, in upper or lower case."""
        for keyword in keywords:
            word, number = self.take()
            if word.lower() != keyword:
                raise TextFault(number, 10)

    def expect_line(self, keyword):
        """Takes this word and passes over the rest of its line."""
        self.expect(keyword)
        number = self.words[self.at - 1][1]
        while self.at < len(self.words) and self.words[self.at][1] == number:
            self.at += 1

    def number(self, digits):
        """The next word as a number of steps."""
        word, line = self.take()
        try:
            return read_number(word, digits)
        except NotANumber:
            raise TextFault(line, 3)
        except OffGrid:
            raise TextFault(line, 4)


def read_corner(words, digits, numbers, limits):
    """The number of a corner's point: corners at one point of the grid are one."""
    words.expect(b"vertex")
    point = tuple(words.number(digits) for _ in range(3))
    if point not in numbers:
        numbers[point] = len(numbers)
        keep_within(limits, "points", len(numbers))
    return numbers[point]


def read_facet(words, digits, numbers, limits):
    """The triple of a facet. Its normal is not looked at."""
    words.expect(b"facet", b"normal")
    for _ in range(3):
        words.take()
    words.expect(b"outer", b"loop")
    triple = tuple(read_corner(words, digits, numbers, limits) for _ in range(3))
    words.expect(b"endloop", b"endfacet")
    return triple


def read_stl(data, digits, limits):
    """The mesh of a text of one or more solids, which need not be closed, or its first fault."""
    words, numbers, triples = Words(data), {}, []
    while True:
        words.expect_line(b"solid")
        while words.is_next(b"facet"):
            triple = read_facet(words, digits, numbers, limits)
            if len(set(triple)) == 3:
                triples.append(triple)
                keep_within(limits, "triangles", len(triples))
        words.expect_line(b"endsolid")
        if words.at == len(words.words):
            return without_unused(list(numbers), triples)


def stl_text(mesh, digits):
    """The text of a mesh, with normals that say nothing."""
    out = [b"solid manifold\n"]
    for triple in mesh.triples:
        out.append(b"facet normal 0 0 0\nouter loop\n")
        for v in triple:
            out.append(b"vertex %s %s %s\n" % tuple(written(c, digits) for c in mesh.points[v]))
        out.append(b"endloop\nendfacet\n")
    out.append(b"endsolid manifold\n")
    return b"".join(out)
