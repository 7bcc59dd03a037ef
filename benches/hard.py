"""Jobs that a fast program finds hard: many holes in one face, long rims, layers over one another, faces that cross everywhere, long chains of operations. Each makes its
files in the current folder and gives the number of triangles that go in, the files and the lines of its script, as operations.py wants them."""
import math

from meshes import turned, write_mesh


class Parts:
    """Solids side by side in one mesh."""

    def __init__(self):
        self.points, self.faces = [], []

    def prism(self, outline, low, high):
        """An upright prism over an outline that turns left round its middle, each of its ends a fan round a point in the middle."""
        n, base = len(outline), len(self.points)
        middle = tuple(sum(place[axis] for place in outline) / n for axis in (0, 1))
        for z in (low, high):
            self.points += [(x, y, z) for x, y in outline]
        self.points += [middle + (low,), middle + (high,)]
        for i in range(n):
            a, b = base + i, base + (i + 1) % n
            self.faces += [(a, b, b + n), (a, b + n, a + n), (base + 2 * n, b, a), (base + 2 * n + 1, a + n, b + n)]

    def write(self, name):
        write_mesh(name, self.points, self.faces)
        return len(self.faces)


def circle(x, y, radius, sides):
    return [(x + radius * math.cos(2 * math.pi * i / sides), y + radius * math.sin(2 * math.pi * i / sides)) for i in range(sides)]


def star(x, y, outer, inner, corners):
    out = []
    for i in range(corners):
        radius, angle = (outer, inner)[i % 2], 2 * math.pi * i / corners
        out.append((x + radius * math.cos(angle), y + radius * math.sin(angle)))
    return out


def plate_less(outlines, edge, depth):
    """A plate less prisms over outlines, which go through it or half as deep."""
    parts = Parts()
    for outline in outlines:
        parts.prism(outline, depth, 1500)
    count = parts.write("a.obj")
    return count + 12, ["a.obj"], ["box b -5000 -5000 0 %d %d 1000" % (edge, edge), "subtract u b a", "save u out.obj"]


def posts(side):
    places = [(1000 * i, 1000 * j) for i in range(side) for j in range(side)]
    return plate_less([circle(x, y, 300, 12) for x, y in places], 1000 * side + 5000, -500)


def stars(side, corners):
    places = [(20_000 * i, 20_000 * j) for i in range(side) for j in range(side)]
    return plate_less([star(x, y, 9000, 7000, corners) for x, y in places], 20_000 * side + 15_000, 500)


def stacks(count):
    """Two stacks of thin plates, the plates of one between those of the other."""
    made = 0
    for name, reach, start in (("a.obj", 0, 0), ("b.obj", 3000, 5)):
        parts = Parts()
        for k in range(count):
            x, y, z = reach, reach, start + 10 * k
            parts.prism([(x, y), (x + 100_000, y), (x + 100_000, y + 100_000), (x, y + 100_000)], z, z + 2)
        made += parts.write(name)
    return made, ["a.obj", "b.obj"], ["union u a b", "save u out.obj"]


def field(name, side, seed):
    """A solid under a rough surface over a square of side * side fields."""
    state, heights = seed, []
    for _ in range((side + 1) * (side + 1)):
        state = (1103515245 * state + 12345) % 2 ** 31
        heights.append(state // 65536 % 2000)
    n = side + 1
    points = [(1000 * i, 1000 * j, heights[n * i + j]) for i in range(n) for j in range(n)]
    points += [(1000 * i, 1000 * j, -5000 - seed) for i in range(n) for j in range(n)]
    faces, under = [], n * n
    for i in range(side):
        for j in range(side):
            a, b, c, d = n * i + j, n * (i + 1) + j, n * (i + 1) + j + 1, n * i + j + 1
            faces += [(a, b, c), (a, c, d), (under + a, under + c, under + b), (under + a, under + d, under + c)]
    rim = [n * i for i in range(side)] + [n * side + j for j in range(side)] + [n * i + side for i in range(side, 0, -1)] + list(range(side, 0, -1))
    for a, b in zip(rim, rim[1:] + rim[:1]):
        faces += [(under + a, under + b, b), (under + a, b, a)]
    write_mesh(name, points, faces)
    return len(faces)


def fields(side):
    count = field("a.obj", side, 1) + field("b.obj", side, 77)
    return count, ["a.obj", "b.obj"], ["union u a b", "save u out.obj"]


CUBE = [(x, y, z) for z in (-1, 1) for y in (-1, 1) for x in (-1, 1)]
CUBE_FACES = [(0, 3, 1), (0, 2, 3), (4, 5, 7), (4, 7, 6), (0, 1, 4), (1, 5, 4), (1, 3, 7), (1, 7, 5), (3, 2, 6), (3, 6, 7), (0, 4, 6), (0, 6, 2)]


def cubes(count):
    """Cubes turned about one centre, each united with all before. The files are named by letters."""
    names = [chr(97 + k) for k in range(count)]
    for k, name in enumerate(names):
        write_mesh(name + ".obj", [turned(tuple(100_000 * c for c in p), (0.37 * k, 0.23 * k, 0.11 * k)) for p in CUBE], CUBE_FACES)
    lines = ["union U a b"] + ["union U U " + name for name in names[2:]]
    return 12 * count, [name + ".obj" for name in names], lines + ["save U out.obj"]


def cylinder(name, sides, radius, half, axis):
    parts = Parts()
    parts.prism(circle(0, 0, radius, sides), -half, half)
    parts.points = [p[-axis:] + p[:-axis] for p in parts.points]
    return parts.write(name)


def pipes(sides):
    """Two cylinders that cross at a right angle."""
    count = cylinder("a.obj", sides, 1_000_000, 3_000_000, 0) + cylinder("b.obj", sides, 700_000, 2_500_000, 1)
    return count, ["a.obj", "b.obj"], ["union u a b", "save u out.obj"]


def screw(faces):
    """A rod with a thread: a triangle along a helix."""
    steps, points, made = faces // 6, [], []
    for i in range(steps + 1):
        angle = 2 * math.pi * 20 * i / steps
        for radius, rise in ((90_000, -15_000), (130_000, 0), (90_000, 15_000)):
            points.append((radius * math.cos(angle), radius * math.sin(angle), 2_000_000 * i / steps + rise))
    for i in range(steps):
        for k in range(3):
            a, b = 3 * i + k, 3 * i + (k + 1) % 3
            made += [(a, a + 3, b + 3), (a, b + 3, b)]
    made += [(0, 1, 2), (3 * steps, 3 * steps + 2, 3 * steps + 1)]
    write_mesh("a.obj", points, made)
    parts = Parts()
    parts.prism(circle(0, 0, 100_000, 64), -200_000, 2_200_000)
    return len(made) + parts.write("b.obj"), ["a.obj", "b.obj"], ["union u b a", "save u out.obj"]


def cones(sides):
    """Two cones, one a little beside the other: each face of one near each of the other."""
    made = 0
    for name, x in (("a.obj", 0), ("b.obj", 50_000)):
        base = circle(x, x / 3, 1_000_000, sides)
        points = [(u, v, 0) for u, v in base] + [(x, x / 3, 0), (x, x / 3, 3_000_000 + x)]
        faces = []
        for i in range(sides):
            j = (i + 1) % sides
            faces += [(i, j, sides + 1), (j, i, sides)]
        write_mesh(name, points, faces)
        made += len(faces)
    return made, ["a.obj", "b.obj"], ["union u a b", "save u out.obj"]


JOBS = {
    "posts_400": lambda: posts(20),
    "posts_1600": lambda: posts(40),
    "posts_7056": lambda: posts(84),
    "stars_200": lambda: stars(12, 200),
    "stars_2000": lambda: stars(4, 2000),
    "stacks": lambda: stacks(2000),
    "fields": lambda: fields(400),
    "cubes_8": lambda: cubes(8),
    "cubes_16": lambda: cubes(16),
    "pipes": lambda: pipes(20_000),
    "screw": lambda: screw(24_000),
    "cones": lambda: cones(2000),
}
