"""The words of rows: numbers of one digit, points, triples, corners, crossings, hits and vertices."""
import re

from mesh import Mesh
from sides import Corner
from windings import Hit

DIGITS = "0123456789abcdefghijklmnopqrstuvwxyzABCDEFGHIJKLMNOPQRSTUVWXYZ"
DIGIT = re.compile("-?[0-9a-zA-Z]")


def digit(number):
    """A number as one digit, with a sign before it where it is below 0."""
    return ("-" if number < 0 else "") + DIGITS[abs(number)]


def digits(numbers):
    """Numbers as digits, one after the other."""
    return "".join(map(digit, numbers))


def flat(rows):
    """All numbers of some lists, one list after the other."""
    return [number for row in rows for number in row]


def word(rows):
    """All numbers of some lists as digits; a dot stands for none."""
    return digits(flat(rows)) or "."


def numbers(text):
    """The numbers of a word of digits."""
    return [DIGITS.index(one[-1]) * (-1 if one[0] == "-" else 1) for one in DIGIT.findall(text)]


def threes(text):
    """The numbers of a word, three by three."""
    found = numbers(text)
    return list(zip(found[::3], found[1::3], found[2::3]))


def mesh_of(points, triples):
    """The mesh of two words."""
    return Mesh(threes(points), threes(triples))


def meshes_of(line):
    """The operation and the two meshes of a line; a dot stands for an empty word."""
    operation, *words = line.split(" ")
    return operation, mesh_of(*words[:2]), mesh_of(*words[2:])


def corner_of(text, unit):
    """A corner of three digits and the axes on which it is marked."""
    x, y, z = (int(c) * unit for c in text[:3])
    return Corner(x, y, z, tuple(mark != "-" for mark in text[3:]))


def marks_word(up):
    """The axes of marks, a dash for each that is none."""
    return "".join(axis if is_up else "-" for axis, is_up in zip("xyz", up))


def crossing_word(crossing):
    """A crossing, or dots for none."""
    return "......" if crossing is None else "%+d:%s" % (crossing.number, digits(crossing.at))


def hits_words(hits):
    """A word for each hit."""
    return [digits([hit.edge, hit.face, hit.number, *hit.at]) for hit in hits]


def numbers_line(found):
    """Winding numbers of both meshes, and the hits of either's edges with a bar between."""
    return " ".join([digits(found.first_windings) or ".", digits(found.second_windings) or ".", *hits_words(found.first_hits), "|",
                     *hits_words(found.second_hits)])


def hits_of(words):
    """The hits of words."""
    return [Hit(edge, face, number, tuple(at)) for edge, face, number, *at in map(numbers, words)]


LETTERS = {"first": "p", "second": "q", "first edge": "e", "second edge": "f"}


def vertex_words(vertices):
    """A word for each vertex: where it comes from, and its point."""
    return [LETTERS[kind] + digits(name) + digits(at)
            for (kind, *name), at in zip(vertices.origins, vertices.points)]


def small_numbers(text):
    """The whole numbers of a text, with blanks, commas or strokes between."""
    return [int(word) for word in re.split("[ ,]+", text.strip()) if word]
