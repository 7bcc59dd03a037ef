"""The count of pairs of triangles that cut one another, as `inspect` says it, against CGAL's self_intersections of the same mesh, welded and without its flat triangles.

The meshes are those of inspect_rows.py; two spheres in one file, some of whose triangles cut one another; and two spheres united, as they came and remeshed. A mesh of
which CGAL makes no polygon mesh, since an edge has more than two triangles or a vertex several fans, is passed over. Where the counts differ, the pairs are printed that one
of CGAL and benches/reference/inspections.py has and the other has not.

Usage: inspect_cgal.py PROGRAM COUNT [SEED]. Needs g++, and CGAL's headers with GMP and MPFR, as the package libcgal-dev of Debian has them."""
import os
import subprocess
import sys
import tempfile
from itertools import combinations

import inspect_rows
import meshes
import remesh_rows
from inspections import cut, is_flat

HERE = os.path.dirname(os.path.abspath(__file__))


def compiled(folder):
    to = os.path.join(folder, "inspect_cgal")
    subprocess.run(["g++", "-O2", "-std=c++17", os.path.join(HERE, "inspect_cgal.cpp"), "-o", to, "-lgmp", "-lmpfr"], check=True)
    return to


def parsed(text):
    """The points and triangles of an OBJ file of whole numbers."""
    lines = [line.split() for line in text.splitlines()]
    numbers = {kind: [tuple(map(int, line[1:])) for line in lines if line and line[0] == kind] for kind in "vf"}
    return numbers["v"], [tuple(v - 1 for v in t) for t in numbers["f"]]


def cut_pairs(triangles):
    """The pairs that cut one another, by all pairs."""
    full = [(number, t) for number, t in enumerate(triangles) if not is_flat(t)]
    return {(s, t) for (s, first), (t, second) in combinations(full, 2) if cut(first, second)}


def sphere(folder, angles, centre):
    """A sphere of some 400 triangles, with a radius of 30 steps."""
    meshes.sphere(os.path.join(folder, "s.obj"), 400, (0, 0, 0), angles)
    points, triples = parsed(remesh_rows.read(folder, "s.obj"))
    return [tuple(round(a / 10_000_000) + b for a, b in zip(p, centre)) for p in points], triples


def spheres(program, folder):
    """Two spheres in one mesh; and the two united, as the union comes and remeshed, on a grid so rough that rounding shows."""
    p, q = sphere(folder, (0.1, 0.2, 0.3), (0, 0, 0)), sphere(folder, (1.1, 0.7, 2.3), (17, 9, 4))
    yield inspect_rows.obj(p[0] + q[0], p[1] + [tuple(v + len(p[0]) for v in t) for t in q[1]])
    for name, of in ("p.obj", p), ("q.obj", q):
        with open(os.path.join(folder, name), "w") as file:
            file.write(inspect_rows.obj(*of))
    for lines in [], ["remesh u u"]:
        remesh_rows.run(program, folder, ["load p p.obj", "load q q.obj", "union u p q"] + lines + ["save u u.obj"])
        yield remesh_rows.read(folder, "u.obj")


def drawn(program, folder, seed):
    yield from spheres(program, folder)
    while True:
        yield from inspect_rows.texts(program, folder, 20, seed)
        seed += 1


def compare(program, count, seed):
    met = passed = different = total = 0
    with tempfile.TemporaryDirectory() as folder:
        cgal = compiled(folder)
        for text in drawn(program, folder, seed):
            if met == count:
                break
            with open(os.path.join(folder, "m.obj"), "w") as file:
                file.write(text)
            lines = subprocess.run([cgal, "m.obj"], cwd=folder, check=True, capture_output=True, text=True).stdout.splitlines()
            if lines == ["none"]:
                passed += 1
                continue
            met += 1
            theirs = {tuple(map(int, line.split())) for line in lines}
            cuts = int(remesh_rows.run(program, folder, ["load m m.obj", "inspect m"])[-1].split()[-1])
            total += cuts
            if cuts != len(theirs):
                different += 1
                points, triples = parsed(text)
                triangles = [tuple(points[v] for v in t) for t in triples]
                ours = cut_pairs(triangles)
                print("mesh %d: cuts %d, CGAL %d" % (met, cuts, len(theirs)))
                for s, t in sorted(ours ^ theirs):
                    print("%s alone: %s %s" % ("reference" if (s, t) in ours else "CGAL", triangles[s], triangles[t]))
    print("%d meshes with %d cuts, %d different; %d were passed over" % (met, total, different, passed))


if __name__ == "__main__":
    compare(sys.argv[1], int(sys.argv[2]), int((sys.argv + ["1"])[3]))
