"""Reading and writing OBJ files."""
import re

from faults import NotANumber, OffGrid, TextFault
from grid import read_number, written
from limits import keep_within
from mesh import without_unused
from texts import lines_of, without_comment, without_mark, words_of

ITEM = re.compile(rb"(-?[0-9]+)(?:/(-?[0-9]+)(?:/(-?[0-9]+))?|//(-?[0-9]+))?")
PASSED_OVER = {b"vt", b"vn", b"o", b"s", b"usemtl", b"mtllib", b"l", b"p"}


def joined_lines(data):
    """The lines with their numbers, each with those that it goes on in, and without its comment.

    A line goes on where its last byte is a backslash, but not where its first word begins with #."""
    number, begun = 0, b""
    lines = lines_of(without_mark(data))
    for k, line in enumerate(lines, 1):
        number = number or k
        words = words_of(line)
        goes_on = line.endswith(b"\\") and not (words and words[0].startswith(b"#"))
        begun += line[:-1] + b" " if goes_on else line
        if not goes_on or k == len(lines):
            yield number, without_comment(words_of(begun))
            number, begun = 0, b""


def label_of(words):
    """The label that the words of a g line give."""
    cleaned = [bytes(95 if b < 33 or b in (92, 127) else b for b in word) for word in words]
    label = b" ".join(cleaned)[:64]
    return label[:-1] if label.endswith(b" ") else label


def read_point(words, number, digits):
    """The point of a v line: its first three words, whatever the up to four others are."""
    if not 3 <= len(words) <= 7:
        raise TextFault(number, 2)
    try:
        return tuple(read_number(word, digits) for word in words[:3])
    except NotANumber:
        raise TextFault(number, 3)
    except OffGrid:
        raise TextFault(number, 4)


def read_item(item, number, count):
    """The point that an item of a face names, of so many so far."""
    found = ITEM.fullmatch(item)
    if found is None:
        raise TextFault(number, 5)
    index = int(found.group(1))
    if index == 0 or abs(index) > count:
        raise TextFault(number, 6)
    return index - 1 if index > 0 else count + index


def read_face(words, number, count):
    """The triples of a face: the first item with each two that follow one another after it."""
    if len(words) < 3:
        raise TextFault(number, 5)
    named = [read_item(item, number, count) for item in words]
    if len(set(named)) != len(named):
        raise TextFault(number, 7)
    return [(named[0], a, b) for a, b in zip(named[1:], named[2:])]


def read_obj(data, digits, limits):
    """The mesh of a text, which need not be closed, or its first fault."""
    points, triples, labels, label = [], [], [], b""
    for number, words in joined_lines(data):
        first, rest = words[:1], words[1:]
        if first == [b"v"]:
            points.append(read_point(rest, number, digits))
            keep_within(limits, "points", len(points))
        elif first == [b"f"]:
            triples += read_face(rest, number, len(points))
            labels += [label] * (len(triples) - len(labels))
            keep_within(limits, "triangles", len(triples))
        elif first == [b"g"]:
            label = label_of(rest)
        elif first and first[0] not in PASSED_OVER:
            raise TextFault(number, 1)
    return without_unused(points, triples, labels)


def obj_text(mesh, digits):
    """The text of a mesh: points, then triples, with a g line wherever the label changes."""
    out = [b"v %s %s %s\n" % tuple(written(c, digits) for c in p) for p in mesh.points]
    label = b""
    for (a, b, c), own in zip(mesh.triples, mesh.labels):
        if own != label:
            label = own
            out.append((b"g " + own).rstrip(b" ") + b"\n")
        out.append(b"f %d %d %d\n" % (a + 1, b + 1, c + 1))
    return b"".join(out)
