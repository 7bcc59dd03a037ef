"""Random small meshes, inspected by benches/reference/inspections.py: results of chains of operations, as they are and remeshed, and meshes with flat triangles,
folds, points at one place, sheets that touch and triangles that cut one another.

Usage: inspect_rows.py PROGRAM COUNT [SEED] has PROGRAM inspect them, and compares its lines.
       inspect_rows.py --table COUNT [SEED] prints rows for crates/mesh_tests/src/inspections/table.rt, of made meshes alone.
       inspect_rows.py --draw PROGRAM COUNT SEED FOLDER writes them to files, and beside each the numbers that are wanted."""
import os
import random
import sys
import tempfile

sys.path.insert(1, os.path.join(os.path.dirname(os.path.abspath(__file__)), "reference"))
import remesh_rows
from inspections import inspect

FIGURES = [
    [(0, 2, 1), (0, 1, 3), (1, 2, 3), (2, 0, 3)],                                                       # a tetrahedron
    [(0, 2, 4), (2, 1, 4), (1, 3, 4), (3, 0, 4), (2, 0, 5), (1, 2, 5), (3, 1, 5), (0, 3, 5)],           # two pyramids
    [(0, 3, 1), (0, 2, 3), (4, 5, 7), (4, 7, 6), (0, 1, 4), (1, 5, 4), (1, 3, 7), (1, 7, 5), (3, 2, 6), (3, 6, 7), (0, 4, 6), (0, 6, 2)],
    [(0, 1, 2), (0, 2, 1)],                                                                             # a triangle and its back
    [(0, 2, 1), (0, 1, 3), (1, 2, 3), (2, 0, 3), (0, 1, 4), (0, 4, 1)],                                 # a tetrahedron with a folded triangle
    [(0, 2, 1), (0, 1, 3), (1, 2, 3), (2, 0, 3), (0, 4, 1), (0, 1, 5), (1, 4, 5), (4, 0, 5)],           # two that share an edge
]


def figure(draw, reach):
    """The points and triangles of a figure whose points lie anywhere, in a plane now and then."""
    triples = draw.choice(FIGURES)
    plane = draw.random() < 0.2
    points = [tuple(draw.randint(-reach, reach) * (0 if plane and axis == 2 else 1) for axis in range(3)) for _ in range(1 + max(v for t in triples for v in t))]
    return points, triples


def welded(points, triples):
    """Points at one place become the first of them, and triangles that then have one twice go."""
    first = [points.index(p) for p in points]
    return [t for t in (tuple(first[v] for v in t) for t in triples) if len(set(t)) == 3]


def used(points, triples):
    """The points that are used, and the triangles over them."""
    kept = sorted({v for t in triples for v in t})
    return [points[v] for v in kept], [tuple(kept.index(v) for v in t) for t in triples]


def made(draw):
    """A few figures side by side, welded now and then, in a random order."""
    reach = draw.choice([1, 1, 2, 2, 3, 5])
    points, triples = [], []
    for _ in range(draw.choice([1, 1, 2, 3])):
        more, faces = figure(draw, reach)
        triples = triples + [tuple(v + len(points) for v in t) for t in faces]
        points = points + more
    if draw.random() < 0.5:
        triples = welded(points, triples)
    if not triples:
        return made(draw)
    draw.shuffle(triples)
    return used(points, [t[i:] + t[:i] for t in triples for i in [draw.randrange(3)]])


def obj(points, triples):
    return "".join("v %d %d %d\n" % p for p in points) + "".join("f %d %d %d\n" % tuple(v + 1 for v in t) for t in triples)


def texts(program, folder, count, seed):
    """The meshes as OBJ files: two of five results of operations, every other of these remeshed."""
    for k in range(count):
        draw = random.Random("%d %d" % (seed, k))
        if k % 5 < 2:
            again = ["remesh a a"] if k % 2 else []
            remesh_rows.run(program, folder, remesh_rows.chain(draw) + again + ["save a a.obj"])
            yield remesh_rows.read(folder, "a.obj")
        else:
            yield obj(*made(draw))


def counts_of(points, triples):
    low, high, *counts = inspect(points, triples)
    return "low %d %d %d, high %d %d %d, flat %d, doubled %d, touching %d, cuts %d" % (*low, *high, *counts)


def wanted(text):
    lines = [[int(word) for word in line.split()[1:]] for kind in "vf" for line in text.splitlines() if line.startswith(kind)]
    count = sum(line.startswith("v") for line in text.splitlines())
    return counts_of([tuple(p) for p in lines[:count]], [tuple(v - 1 for v in t) for t in lines[count:]])


def compare(program, count, seed):
    different = 0
    with tempfile.TemporaryDirectory() as folder:
        for k, text in enumerate(texts(program, folder, count, seed)):
            with open(os.path.join(folder, "m.obj"), "w") as file:
                file.write(text)
            line = remesh_rows.run(program, folder, ["load m m.obj", "inspect m"])[-1]
            if line != "m: " + wanted(text):
                different += 1
                print("mesh %d of seed %d\n%sprogram: %s\nwanted: m: %s" % (k, seed, text, line, wanted(text)))
    print("%d meshes, %d different" % (count, different))


def draw_files(program, count, seed, folder):
    with tempfile.TemporaryDirectory() as other:
        for k, text in enumerate(texts(program, other, count, seed)):
            with open(os.path.join(folder, "m%d.obj" % k), "w") as file:
                file.write(text)
            with open(os.path.join(folder, "m%d.wanted" % k), "w") as file:
                file.write(wanted(text) + "\n")


def row(points, triples):
    """The mesh moved to coordinates that are not below 0, then the same one with its points and triangles the other way round, and the four counts."""
    low = [min(axis) for axis in zip(*points)]
    moved = [tuple(a - b for a, b in zip(p, low)) for p in points]
    last = len(points) - 1
    counts = [str(count) for count in inspect(points, triples)[2:]]
    back = [tuple(last - v for v in t) for t in reversed(triples)]
    return " ".join([remesh_rows.word(moved), remesh_rows.word(triples), remesh_rows.word(reversed(moved)), remesh_rows.word(back), *counts])


def table(count, seed):
    for k in range(count):
        print(row(*made(random.Random("%d %d" % (seed, k)))))


if __name__ == "__main__":
    if sys.argv[1] == "--table":
        table(int(sys.argv[2]), int((sys.argv + ["1"])[3]))
    elif sys.argv[1] == "--draw":
        draw_files(sys.argv[2], int(sys.argv[3]), int(sys.argv[4]), sys.argv[5])
    else:
        compare(sys.argv[1], int(sys.argv[2]), int((sys.argv + ["1"])[3]))
