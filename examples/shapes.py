"""Solids that manifold_tool has no word for, as OBJ files: each is closed, with its outside outwards. Plain Python 3, without packages.

Usage: shapes.py OUT.obj SHAPE NUMBERS.. [MOTION NUMBERS..]..

Shapes, which stand on z = 0 or round the origin; SIDES is the number of sides of each circle, and the corners lie on it:
  cylinder RADIUS HEIGHT SIDES         cone BELOW ABOVE HEIGHT SIDES (two radii, one of them may be 0)
  sphere RADIUS SIDES                  torus RADIUS TUBE SIDES TUBE_SIDES
  revolve SIDES R,Z R,Z ..             an outline beside the axis z, turned round it; R is 0 or more
  extrude HEIGHT X,Y X,Y ..            an outline that does not cross itself, made HEIGHT high
  text WORDS SIZE HEIGHT               block letters, SIZE from foot to head: A to Z, 0 to 9, + - . : and blanks; a to z are drawn as capitals
  read FILE.obj                        a mesh that is there, without its groups
Motions, as many as wanted, each after the one before:
  shift X Y Z      turn AXIS DEGREES (x, y or z)      turn X,Y,Z DEGREES (any axis through the origin)      scale FACTOR or X,Y,Z

As a module: import shapes; shapes.write("peg.obj", shapes.shift(shapes.turn(shapes.cylinder(3, 20, 32), "x", 30), 5, 0, 2)).
A shape is a pair of lists: points (x, y, z), and faces, each a list of point numbers from 0, counter-clockwise as seen from outside."""
import math, sys

FONT = {
    "A": "0E11111F111111", "B": "1E11111E11111E", "C": "0E11101010110E", "D": "1E11111111111E", "E": "1F10101E10101F", "F": "1F10101E101010",
    "G": "0E11101711110F", "H": "1111111F111111", "I": "0E04040404040E", "J": "0702020202120C", "K": "11121418141211", "L": "1010101010101F",
    "M": "111B1515111111", "N": "11191513111111", "O": "0E11111111110E", "P": "1E11111E101010", "Q": "0E11111115120D", "R": "1E11111E141211",
    "S": "0F10100E01011E", "T": "1F040404040404", "U": "1111111111110E", "V": "11111111110A04", "W": "1111111515150A", "X": "11110A040A1111",
    "Y": "11110A04040404", "Z": "1F01020408101F", "0": "0E11131519110E", "1": "040C040404040E", "2": "0E11010204081F", "3": "1F02040201110E",
    "4": "02060A121F0202", "5": "1F101E0101110E", "6": "0608101E11110E", "7": "1F010204080808", "8": "0E11110E11110E", "9": "0E11110F01020C",
    "+": "0004041F040400", "-": "0000001F000000", ".": "00000000000C0C", ":": "000C0C000C0C00", " ": "00000000000000",
}


def circle(radius, sides):
    """The outline of a regular polygon with its corners on the circle; a side faces each way along x where sides can be divided by 4."""
    return [(radius * math.cos(2 * math.pi * (k + 0.5) / sides), radius * math.sin(2 * math.pi * (k + 0.5) / sides)) for k in range(sides)]


def turning(a, b, c):
    """Above 0 where the way from a by b to c turns left."""
    return (b[0] - a[0]) * (c[1] - a[1]) - (b[1] - a[1]) * (c[0] - a[0])


def counter_clockwise(outline):
    outline = [tuple(p) for p in outline]
    area = sum(a[0] * b[1] - a[1] * b[0] for a, b in zip(outline, outline[1:] + outline[:1]))
    if len(outline) < 3 or area == 0:
        raise ValueError("an outline has three corners or more, and an area")
    return outline if area > 0 else outline[::-1]


def cut(outline):
    """Faces that fill a counter-clockwise outline: the whole where it is convex, else triangles, ear by ear."""
    left = list(range(len(outline)))
    if all(turning(outline[k - 1], outline[k], outline[(k + 1) % len(outline)]) >= 0 for k in left):
        return [left]
    faces = []
    while len(left) > 3:
        for k in range(len(left)):
            ear = (left[k - 1], left[k], left[(k + 1) % len(left)])
            a, b, c = (outline[v] for v in ear)
            others = (outline[v] for v in left if outline[v] not in (a, b, c))
            if turning(a, b, c) > 0 and not any(turning(a, b, p) >= 0 and turning(b, c, p) >= 0 and turning(c, a, p) >= 0 for p in others):
                break
        else:
            raise ValueError("the outline crosses itself")
        faces.append(list(ear))
        del left[k]
    return faces + [left]


def extrude(outline, height):
    """The outline, made height high."""
    outline = counter_clockwise(outline)
    n = len(outline)
    faces = cut(outline)
    walls = [[k, (k + 1) % n, n + (k + 1) % n, n + k] for k in range(n)]
    points = [(x, y, 0.0) for x, y in outline] + [(x, y, height) for x, y in outline]
    return points, [face[::-1] for face in faces] + [[n + v for v in face] for face in faces] + walls


def revolve(outline, sides):
    """The outline of points (r, z), turned round the axis z."""
    outline = counter_clockwise(outline)
    if min(r for r, _ in outline) < 0:
        raise ValueError("an outline that is revolved lies on one side of the axis")
    points, rings = [], []
    for r, z in outline:
        rings.append([len(points) + (k if r else 0) for k in range(sides)])
        points += [(x, y, z) for x, y in circle(r, sides)] if r else [(0.0, 0.0, z)]
    faces = []
    for below, above in zip(rings, rings[1:] + rings[:1]):
        for k in range(sides):
            n = (k + 1) % sides
            face = [below[k], below[n], above[n], above[k]]
            face = [v for i, v in enumerate(face) if v not in face[:i]]
            faces += [face] if len(face) > 2 else []
    return points, faces


def cylinder(radius, height, sides):
    return extrude(circle(radius, sides), height)


def cone(below, above, height, sides):
    outline = [(0.0, 0.0), (below, 0.0), (above, height), (0.0, height)]
    return revolve([p for i, p in enumerate(outline) if p not in outline[:i]], sides)


def sphere(radius, sides):
    half = max(2, sides // 2)
    turns = [math.pi * (k / half - 0.5) for k in range(half + 1)]
    return revolve([(radius * math.cos(t) if abs(t) < 1.5 else 0.0, radius * math.sin(t)) for t in turns], sides)


def torus(radius, tube, sides, tube_sides):
    return revolve([(radius + r, z) for r, z in circle(tube, tube_sides)], sides)


def text(words, size, height):
    """Block letters of five by seven squares. Where two meet in a corner alone a neck joins them: a triangle in each of the two others there."""
    lit = set()
    for place, letter in enumerate(words.upper()):
        if letter not in FONT:
            raise ValueError("there is no letter %r" % letter)
        for row in range(7):
            bits = int(FONT[letter][2 * row : 2 * row + 2], 16)
            lit |= {(6 * place + 4 - k, 6 - row) for k in range(5) if bits >> k & 1}
    numbers, faces, unit, neck = {}, [], size / 7.0, 0.25

    def add(*corners):
        faces.append([numbers.setdefault(corner, len(numbers)) for corner in corners])

    def lids(*outline):
        add(*(p + (0,) for p in outline[::-1]))
        add(*(p + (1,) for p in outline))

    def wall(a, b):
        add(a + (0,), b + (0,), b + (1,), a + (1,))

    def has_neck(x, y):
        """The squares round a corner are lit, dark, lit, dark."""
        return ((x, y) in lit) == ((x - 1, y - 1) in lit) != ((x - 1, y) in lit) == ((x, y - 1) in lit)

    for x, y in sorted(lit):
        rim, corners = [], [(x, y), (x + 1, y), (x + 1, y + 1), (x, y + 1)]
        for k, beside in enumerate([(x, y - 1), (x + 1, y), (x, y + 1), (x - 1, y)]):
            a, b = corners[k], corners[(k + 1) % 4]
            along = (neck * (b[0] - a[0]), neck * (b[1] - a[1]))
            start, end, rim = a, b, rim + [a]
            if has_neck(*a):
                start, out = (a[0] + along[0], a[1] + along[1]), (a[0] + along[1], a[1] - along[0])
                rim.append(start)
                lids(a, out, start)
                wall(out, start)
            if has_neck(*b):
                end = (b[0] - along[0], b[1] - along[1])
                rim.append(end)
            if beside not in lit:
                wall(start, end)
        if len(rim) == 4:
            lids(*rim)
        else:  # round the middle, since some of its corners lie on a line
            for a, b in zip(rim, rim[1:] + rim[:1]):
                lids(a, b, (x + 0.5, y + 0.5))
    return [(x * unit, y * unit, z * height) for x, y, z in numbers], faces


def shift(shape, x, y, z):
    return [(a + x, b + y, c + z) for a, b, c in shape[0]], shape[1]


def turn(shape, axis, degrees):
    """Turned about an axis through the origin, "x", "y", "z" or a direction: counter-clockwise as seen from the axis' tip."""
    if isinstance(axis, str):
        axis = {"x": (1, 0, 0), "y": (0, 1, 0), "z": (0, 0, 1)}[axis]
    size = math.sqrt(sum(c * c for c in axis))
    u, v, w = (c / size for c in axis)
    cos, sin = math.cos(math.radians(degrees)), math.sin(math.radians(degrees))

    def turned(p):
        x, y, z = p
        along = (u * x + v * y + w * z) * (1 - cos)
        return (x * cos + (v * z - w * y) * sin + u * along, y * cos + (w * x - u * z) * sin + v * along, z * cos + (u * y - v * x) * sin + w * along)

    return [turned(p) for p in shape[0]], shape[1]


def scale(shape, x, y=None, z=None):
    """Multiplied about the origin, by one factor or by one for each axis; where it mirrors, the outside stays outside."""
    y, z = (x, x) if y is None else (y, z)
    if x * y * z == 0:
        raise ValueError("a factor is 0")
    return [(a * x, b * y, c * z) for a, b, c in shape[0]], [face[::-1] if x * y * z < 0 else face for face in shape[1]]


def together(*shapes):
    """One mesh of several, which is no union: where they overlap, the winding number is 2."""
    points, faces = [], []
    for more, others in shapes:
        faces += [[len(points) + v for v in face] for face in others]
        points += more
    return points, faces


def read(name):
    points, faces = [], []
    with open(name, encoding="utf-8", errors="replace") as file:
        for line in file.read().replace("\\\n", " ").split("\n"):
            words = line.split("#")[0].split()
            if words and words[0] == "v":
                points.append(tuple(float(word) for word in words[1:4]))
            elif words and words[0] == "f":
                items = [int(word.split("/")[0]) for word in words[1:]]
                faces.append([i - 1 if i > 0 else len(points) + i for i in items])
    if not faces:
        sys.exit("%s: no face; OBJ files are read, and an STL file goes through `copy` first" % name)
    return points, faces


def write(name, shape):
    with open(name, "w") as out:
        out.writelines("v %.6f %.6f %.6f\n" % tuple(p) for p in shape[0])
        out.writelines("f %s\n" % " ".join(str(v + 1) for v in face) for face in shape[1])


def numbers(words, many):
    """The numbers of a word or of several, where commas may stand between them."""
    found = [float(n) for word in words for n in word.split(",")]
    if many is not None and len(found) != many:
        raise ValueError("%d numbers in place of %d" % (len(found), many))
    return found


def made(kind, words):
    if kind == "read":
        return read(*words)
    if kind == "text":
        return text(words[0], *numbers(words[1:], 2))
    if kind in ("revolve", "extrude"):
        first, *outline = numbers(words, None)
        outline = list(zip(outline[::2], outline[1::2]))
        return revolve(outline, int(first)) if kind == "revolve" else extrude(outline, first)
    if kind == "torus":
        a, b, c, d = numbers(words, 4)
        return torus(a, b, int(c), int(d))
    makers = {"cylinder": (cylinder, 3), "cone": (cone, 4), "sphere": (sphere, 2)}
    if kind not in makers:
        raise ValueError("there is no shape %s" % kind)
    maker, many = makers[kind]
    found = numbers(words, many)
    return maker(*found[:-1], int(found[-1]))


def moved(shape, kind, words):
    if kind == "shift":
        return shift(shape, *numbers(words, 3))
    if kind == "turn":
        axis = words[0] if words[0] in ("x", "y", "z") else numbers(words[:1], 3)
        return turn(shape, axis, *numbers(words[1:], 1))
    return scale(shape, *numbers(words, 1 if len(words) == 1 and "," not in words[0] else 3))


def main(words):
    parts = [[]]
    for word in words[1:]:
        if word in ("shift", "turn", "scale"):
            parts.append([])
        parts[-1].append(word)
    if len(words) < 3:
        sys.exit(__doc__)
    if words[0].lower().endswith(".stl"):
        sys.exit("shapes.py: what it writes is OBJ, and a name in .stl would be read as STL; `copy` makes STL of it")
    try:
        shape = made(parts[0][0], parts[0][1:])
        for part in parts[1:]:
            shape = moved(shape, part[0], part[1:])
    except (ValueError, TypeError, IndexError, OSError) as error:
        sys.exit("shapes.py: %s" % error)
    try:
        write(words[0], shape)
    except OSError as error:
        sys.exit("shapes.py: %s" % error)


if __name__ == "__main__":
    main(sys.argv[1:])
