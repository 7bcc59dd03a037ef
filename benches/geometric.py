#!/usr/bin/env python3
"""Random pairs of small closed meshes under exact kernels: how often the program keeps their vertices, against rays in plain Python.

Each pair goes through `union`, `intersect` and `subtract` of one script after the line `exact`. Where no vertex of either mesh lies on the other, the counts that
the program says are compared with those that geometric winding numbers give: the faces that a ray in a random direction leaves, less those that it enters. The sum
of shadows and the tetrahedra from an apex are compared with the same rays, and crossing numbers with the signs of five volumes, without the program.

Usage: benches/geometric.py PROGRAM PAIRS SEED [RANGE]"""
import os, random, subprocess, sys, tempfile

OPERATIONS = {"union": (1, 1, -1), "intersect": (0, 0, 1), "subtract": (1, 0, -1)}
AT_ONCE = 50


def minus(a, b):
    return (a[0] - b[0], a[1] - b[1], a[2] - b[2])


def cross(a, b):
    return (a[1] * b[2] - a[2] * b[1], a[2] * b[0] - a[0] * b[2], a[0] * b[1] - a[1] * b[0])


def dot(a, b):
    return a[0] * b[0] + a[1] * b[1] + a[2] * b[2]


def volume(p, u, v, t):
    return dot(cross(minus(v, u), minus(t, u)), minus(u, p))


def one_sign(numbers):
    return 1 if all(x > 0 for x in numbers) else -1 if all(x < 0 for x in numbers) else 0


def is_in_triangle(p, u, v, t):
    n = cross(minus(v, u), minus(t, u))
    if n != (0, 0, 0):
        return dot(n, minus(p, u)) == 0 and all(dot(n, cross(minus(b, a), minus(p, a))) >= 0 for a, b in ((u, v), (v, t), (t, u)))
    return any(cross(minus(b, a), minus(p, a)) == (0, 0, 0) and dot(minus(p, a), minus(p, b)) <= 0 for a, b in ((u, v), (v, t), (t, u)))


def by_rays(rng, p, faces):
    """How often the faces wind round p, which is on none of them; by a ray that meets no edge."""
    while True:
        way = tuple(rng.randint(-10**6, 10**6) for _ in range(3))
        q = (p[0] + way[0], p[1] + way[1], p[2] + way[2])
        count = 0
        for u, v, t in faces:
            n = cross(minus(v, u), minus(t, u))
            if n == (0, 0, 0):
                continue
            if any(cross(minus(b, a), minus(p, a)) == (0, 0, 0) for a, b in ((u, v), (v, t), (t, u))):
                continue  # the ray begins on the line of an edge, outside of the triangle, so it misses that
            sides = (volume(p, q, u, v), volume(p, q, v, t), volume(p, q, t, u))
            if dot(n, way) == 0 or 0 in sides:
                break
            if one_sign(sides) and (dot(n, minus(u, p)) > 0) == (dot(n, way) > 0):
                count += 1 if dot(n, way) > 0 else -1
        else:
            return count


def by_tetrahedra(p, faces, reach):
    """The same, from the apex that the theorem names."""
    o = (p[0] + 1, p[1] + reach, p[2] + reach * reach)
    return sum(one_sign((volume(p, u, v, t), volume(p, o, t, v), volume(p, o, u, t), volume(p, o, v, u))) for u, v, t in faces)


# The exact kernels, from their rules: P counts as moved by a hair.
def is_over(v, left, right):
    return v > 0 or (v == 0 and right <= left)


def is_above(n, h):
    lead = h or n[0] or n[1] or n[2]
    return lead * n[2] > 0


def shadow01(p, c, d):
    count = (p[0] >= c[0]) - (p[0] >= d[0])
    if count == 0:
        return 0
    l, r = (c, d) if count > 0 else (d, c)
    return count if is_over((p[1] - l[1]) * (r[0] - l[0]) - (p[0] - l[0]) * (r[1] - l[1]), l[1], r[1]) else 0


def shadow10(a, b, q):
    count = (b[0] >= q[0]) - (a[0] >= q[0])
    if count == 0:
        return 0
    l, r = (a, b) if count > 0 else (b, a)
    return count if is_over((l[1] - q[1]) * (r[0] - l[0]) + (q[0] - l[0]) * (r[1] - l[1]), l[1], r[1]) else 0


def shadow02(p, u, v, t):
    n = cross(minus(v, u), minus(t, u))
    return (shadow01(p, u, v) + shadow01(p, v, t) + shadow01(p, t, u)) * is_above(n, dot(n, minus(p, u)))


def shadow20(u, v, t, q):
    n = cross(minus(v, u), minus(t, u))
    return (shadow10(u, v, q) + shadow10(v, t, q) + shadow10(t, u, q)) * is_above(n, dot(n, minus(u, q)))


def shadow11(a, b, c, d):
    n = cross(minus(b, a), minus(d, c))
    return (shadow01(b, c, d) - shadow01(a, c, d) + shadow10(a, b, d) - shadow10(a, b, c)) * is_above(n, dot(n, minus(a, c)))


def crossing12(a, b, u, v, t):
    return shadow02(b, u, v, t) - shadow02(a, u, v, t) - shadow11(a, b, u, v) - shadow11(a, b, v, t) - shadow11(a, b, t, u)


def crossing21(u, v, t, c, d):
    return shadow20(u, v, t, d) - shadow20(u, v, t, c) - shadow11(u, v, c, d) - shadow11(v, t, c, d) - shadow11(t, u, c, d)


def lead(h, n):
    return h or n[0] or n[1] or n[2]


def through(a, b, u, v, t, turn):
    """The sign with which the segment goes through the face, by five volumes, where the segment (turn 1), or the face (-1), is moved by a hair."""
    n = cross(minus(v, u), minus(t, u))
    n = (-turn * n[0], -turn * n[1], -turn * n[2])
    back = (-n[0], -n[1], -n[2])
    sides = [lead(volume(a, u, v, t), n), lead(-volume(b, u, v, t), back)]
    for c, d in ((u, v), (v, t), (t, u)):
        m = cross(minus(b, a), minus(d, c))
        sides.append(lead(volume(a, b, c, d), (turn * m[0], turn * m[1], turn * m[2])))
    return one_sign(sides)


# Meshes.
def solid(rng, reach):
    """A small closed mesh with any corners: a tetrahedron, an octahedron or a box; perhaps turned over."""
    point = lambda: tuple(rng.randint(-reach, reach) for _ in range(3))
    kind = rng.randrange(3)
    if kind == 0:
        points, faces = [point() for _ in range(4)], [(0, 2, 1), (0, 1, 3), (1, 2, 3), (2, 0, 3)]
    elif kind == 1:
        points = [point() for _ in range(6)]
        faces = [(0, 2, 4), (2, 1, 4), (1, 3, 4), (3, 0, 4), (2, 0, 5), (1, 2, 5), (3, 1, 5), (0, 3, 5)]
    else:
        low, high = point(), point()
        points = [(x, y, z) for z in (low[2], high[2]) for y in (low[1], high[1]) for x in (low[0], high[0])]
        faces = [(0, 3, 1), (0, 2, 3), (4, 5, 7), (4, 7, 6), (0, 1, 4), (1, 5, 4), (1, 3, 7), (1, 7, 5), (3, 2, 6), (3, 6, 7), (0, 4, 6), (0, 6, 2)]
    if rng.randrange(3) == 0:
        faces = [(a, c, b) for a, b, c in faces]
    return points, faces


def mesh(rng, reach):
    points, faces = [], []
    for _ in range(rng.choice((1, 1, 2, 3))):
        more, over = solid(rng, reach)
        faces += [tuple(len(points) + i for i in f) for f in over]
        points += more
    return points, faces


def write(name, points, faces):
    with open(name, "w", encoding="utf-8") as file:
        file.write("".join("v %d %d %d\n" % p for p in points) + "".join("f %d %d %d\n" % tuple(i + 1 for i in f) for f in faces))


def numbers(rng, own, other, bound):
    """The geometric winding number of each vertex of one mesh in the other, or None where it lies on that."""
    faces = [tuple(other[0][i] for i in f) for f in other[1]]
    found = []
    for p in own[0]:
        if any(is_in_triangle(p, *f) for f in faces):
            return None
        n = by_rays(rng, p, faces)
        assert n == by_tetrahedra(p, faces, bound), (p, faces)
        assert n == -sum(shadow02(p, *f) for f in faces) == -sum(shadow20(*f, p) for f in faces), (p, faces)
        found.append(n)
    return found


def batch(program, rng, count, reach, folder):
    lines, wanted = ["exact"], []
    bound = 8 * reach * reach + 2 * reach + 2
    for at in range(count):
        p, q = mesh(rng, reach), mesh(rng, reach)
        names = ("p%d" % at, "q%d" % at)
        for name, m in zip(names, (p, q)):
            write(os.path.join(folder, name + ".obj"), *m)
            lines.append("load %s %s.obj" % (name, name))
        one, two = numbers(rng, p, q, bound), numbers(rng, q, p, bound)
        for operation, (c1, c2, c3) in OPERATIONS.items():
            lines.append("%s r %s %s" % (operation, *names))
            if one is not None and two is not None:
                kept = (sum(abs(c1 + c3 * n) for n in one), sum(abs(c2 + c3 * n) for n in two))
                wanted.append((len(lines), "r = %s %s %s: kept %d %d," % (operation, *names, *kept), any(one) or any(two)))
    with open(os.path.join(folder, "script"), "w", encoding="utf-8") as file:
        file.write("\n".join(lines) + "\n")
    done = subprocess.run([program, "run", "script"], cwd=folder, capture_output=True, text=True)
    assert done.returncode == 0, done.stderr
    said = [line for line in done.stdout.split("\n") if " kept " in line]
    made = [at for at, line in enumerate(lines, 1) if line.split()[0] in OPERATIONS]
    assert len(said) == len(made), (len(said), len(made))
    by_line = dict(zip(made, said))
    for at, start, _ in wanted:
        assert by_line[at].startswith(start), (folder, at, start, by_line[at])
    return len(wanted), sum(some for _, _, some in wanted)


def crossings(rng, count, reach):
    point = lambda: tuple(rng.randint(-reach, reach) for _ in range(3))
    some = 0
    for _ in range(count):
        a, b, u, v, t = (point() for _ in range(5))
        n = crossing12(a, b, u, v, t)
        assert n == through(a, b, u, v, t, 1), (a, b, u, v, t)
        assert crossing21(u, v, t, a, b) == through(a, b, u, v, t, -1), (a, b, u, v, t)
        some += n != 0
    return some


def main():
    program, pairs, seed = os.path.abspath(sys.argv[1]), int(sys.argv[2]), int(sys.argv[3])
    reach = int(sys.argv[4]) if len(sys.argv) > 4 else 6
    rng = random.Random(seed)
    compared = inside = 0
    for at in range(0, pairs, AT_ONCE):
        with tempfile.TemporaryDirectory() as folder:
            found = batch(program, rng, min(AT_ONCE, pairs - at), reach, folder)
            compared, inside = compared + found[0], inside + found[1]
    print("operations on %d pairs: %d with no vertex on the other mesh, all kept as geometry has it; %d of them with a number other than 0" % (pairs, compared, inside))
    print("crossings of %d edges and faces: all as five volumes have it; %d of them other than 0" % (2 * pairs, crossings(rng, pairs, min(reach, 3))))


if __name__ == "__main__":
    main()
