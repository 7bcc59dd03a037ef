"""Writes the triangles of an OBJ file, or of a binary STL file, as ASCII STL, in which no points are named: manifold_tool then welds the corners.

Usage: to_stl.py IN.obj|IN.stl OUT.stl

Numbers of an OBJ file are copied as they are written, those of a binary STL file in full. Faces of an OBJ file are cut as manifold_tool cuts them."""
import struct, sys


def of_obj(text):
    points = []
    for line in text.replace("\r\n", "\n").replace("\\\n", " ").split("\n"):
        words = line.split("#")[0].split()
        if words and words[0] == "v":
            points.append(words[1:4])
        elif words and words[0] == "f":
            items = [int(word.split("/")[0]) for word in words[1:]]
            items = [points[i - 1 if i > 0 else i] for i in items]
            for a, b in zip(items[1:], items[2:]):
                yield items[0], a, b


def of_stl(data):
    if len(data) < 84 or len(data) != 84 + 50 * struct.unpack_from("<I", data, 80)[0]:
        raise ValueError("this is no binary STL file")
    (count,) = struct.unpack_from("<I", data, 80)
    for k in range(count):
        numbers = [repr(n) for n in struct.unpack_from("<12f", data, 84 + 50 * k)[3:]]
        yield numbers[0:3], numbers[3:6], numbers[6:9]


def main(words):
    if len(words) != 2:
        sys.exit(__doc__)
    with open(words[0], "rb") as file:
        data = file.read()
    is_stl = words[0].lower().endswith(".stl")
    triangles = list(of_stl(data) if is_stl else of_obj(data.decode("utf-8", "replace")))
    if not triangles and not is_stl:
        raise ValueError("this OBJ file has no face; an STL file is named .stl")
    with open(words[1], "w") as out:
        out.write("solid welded\n")
        for corners in triangles:
            out.write("facet normal 0 0 0\nouter loop\n")
            out.writelines("vertex %s %s %s\n" % tuple(corner) for corner in corners)
            out.write("endloop\nendfacet\n")
        out.write("endsolid welded\n")


if __name__ == "__main__":
    try:
        main(sys.argv[1:])
    except (OSError, ValueError, TypeError, IndexError) as error:
        sys.exit("to_stl.py: %s" % error)
