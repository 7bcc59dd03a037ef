"""Parts that lie flush: each is made by a script in every order of its parts, on the grid and under exact kernels, remeshed, and measured.

Sizes are whole, or have four digits. What a part is to be, its components, Euler number and volume, is counted over the cells into which the sides of its boxes cut
space, without the program. `inspect` has to count nothing; and where a C++ compiler and CGAL's headers are there, as the package libcgal-dev of Debian has them, CGAL
is also asked whether the mesh is closed, has no flat triangle and does not cut itself.

Usage: flush.py PROGRAM [PARTS [SEED]] tries so many parts of each kind, 4 where nothing is said, and prints a table."""
import itertools
import os
import random
import re
import shutil
import subprocess
import sys
import tempfile

HERE = os.path.dirname(os.path.abspath(__file__))
STEPS = 10_000


class Part:
    """Boxes that are united, then boxes that are taken away, each by its least and its greatest corner; and how many of the first make one group that is united
    before the others come."""

    def __init__(self, united, taken=()):
        self.united, self.taken = list(united), list(taken)


def sizes(r, count):
    """So many lengths in steps of the grid: all whole units, or all with four digits."""
    whole = r.random() < 0.5
    return [r.randint(1, 9) * STEPS if whole else r.randint(STEPS, 10 * STEPS) for _ in range(count)]


def number(steps):
    """A length as it is written."""
    return "%d.%04d" % divmod(steps, STEPS)


def box(x, y, z, a, b, c):
    """A box from a corner, by its lengths."""
    return ((x, y, z), (x + a, y + b, z + c))


def side_by_side(r):
    a, b, c, d = sizes(r, 4)
    return Part([box(0, 0, 0, a, b, c), box(a, 0, 0, d, b, c)])


def on_part_of_a_side(r):
    a, b, c, d, e, f = sizes(r, 6)
    return Part([box(0, 0, 0, a, b + e, c + f), box(a, 0, 0, d, b, c)])


def in_a_row(r):
    a, b, c, d, e = sizes(r, 5)
    return Part([box(0, 0, 0, a, b, c), box(a, 0, 0, d, b, c), box(a + d, 0, 0, e, b, c)])


def bars_lengthwise(r):
    a, b, c, d, e = sizes(r, 5)
    return Part([box(0, 0, 0, a + d, b, c), box(a, 0, 0, d + e, b, c)])


def an_l(r):
    a, b, c, d = sizes(r, 4)
    return Part([box(0, 0, 0, a + c, b, d), box(0, 0, 0, a, b + c, d)])


def a_t(r):
    a, b, c, d, e = sizes(r, 5)
    return Part([box(0, 0, 0, a + b + c, d, e), box(a, 0, 0, b, d + c, e)])


def a_cross(r):
    a, b, c, d, e = sizes(r, 5)
    return Part([box(0, b, 0, a + d + c, d, e), box(a, 0, 0, d, b + d + c, e)])


def a_u(r):
    a, b, c, d, e = sizes(r, 5)
    return Part([box(0, 0, 0, a, b + c, e), box(0, 0, 0, a + d + a, b, e), box(a + d, 0, 0, a, b + c, e)])


def a_frame(r):
    a, b, c, d = sizes(r, 4)
    x, y = a + b + a, a + c + a
    return Part([box(0, 0, 0, x, a, d), box(0, y - a, 0, x, a, d), box(0, 0, 0, a, y, d), box(x - a, 0, 0, a, y, d)])


def wall_in_base(r):
    a, b, c, d, e = sizes(r, 5)
    return Part([box(0, 0, 0, a, b + c, d), box(0, 0, 0, a, b, d + e)])


def wall_on_base(r):
    a, b, c, d, e = sizes(r, 5)
    return Part([box(0, 0, 0, a, b + c, d), box(0, 0, d, a, b, e)])


def stairs(r):
    a, b, c, d, e, f = sizes(r, 6)
    return Part([box(0, 0, 0, a + b + c, d, e), box(0, 0, 0, a + b, d, e + f), box(0, 0, 0, a, d, e + f + e)])


def box_in_a_corner(r):
    a, b, c, d, e, f = sizes(r, 6)
    return Part([box(0, 0, 0, a + d, b + e, c + f), box(0, 0, 0, a, b, c)])


def pocket(r):
    a, b, c, d, e, f = sizes(r, 6)
    return Part([box(0, 0, 0, a + d + a, b + e + b, c + f)], [box(a, b, c, d, e, f)])


def bore(r):
    a, b, c, d, e = sizes(r, 5)
    return Part([box(0, 0, 0, a + d + a, b + e + b, c)], [box(a, b, 0, d, e, c)])


def notch(r):
    a, b, c, d, e, f = sizes(r, 6)
    return Part([box(0, 0, 0, a + d, b + e, c + f)], [box(a, b, c, d, e, f)])


def slot(r):
    a, b, c, d, e = sizes(r, 5)
    return Part([box(0, 0, 0, a + d + a, b, c + e)], [box(a, 0, c, d, b, e)])


def two_pockets(r):
    a, b, c, d, e, f, g = sizes(r, 7)
    return Part([box(0, 0, 0, a + d + g + a, b + e + b, c + f)], [box(a, b, c, d, e, f), box(a + d, b, c, g, e, f)])


def two_bores(r):
    a, b, c, d, e, g = sizes(r, 6)
    return Part([box(0, 0, 0, a + d + g + a, b + e + b, c)], [box(a, b, 0, d, e, c), box(a + d, b, 0, g, e, c)])


def four_pockets(r):
    a, d, e, c, f = sizes(r, 5)
    taken = [box(a + i * d, a + j * e, c, d, e, f) for i in (0, 1) for j in (0, 1)]
    return Part([box(0, 0, 0, 2 * (a + d), 2 * (a + e), c + f)], taken)


def a_lid(r):
    a, b, c, d, e = sizes(r, 5)
    x, y = 2 * a + b, 2 * a + c
    ground = [box(0, 0, 0, x, y, e), box(0, 0, e, x, a, d), box(0, y - a, e, x, a, d), box(0, a, e, a, y - 2 * a, d), box(x - a, a, e, a, y - 2 * a, d)]
    return Part(ground + [box(0, 0, e + d, x, y, e)])


KINDS = [side_by_side, on_part_of_a_side, in_a_row, bars_lengthwise, an_l, a_t, a_cross, a_u, a_frame, wall_in_base, wall_on_base, stairs, box_in_a_corner, pocket, bore,
         notch, slot, two_pockets, two_bores, four_pockets, a_lid]


def is_in(cell, boxes):
    """Whether a cell, by its middle, is in one of the boxes."""
    return any(all(low[i] < cell[i] < high[i] for i in range(3)) for low, high in boxes)


def measures(part):
    """The components of the surface of a part, its Euler number and six times its volume, by the cells between the sides of its boxes."""
    cuts = [sorted({corner[i] for it in part.united + part.taken for corner in it}) for i in range(3)]
    middles = [[(a + b) / 2 for a, b in zip(c, c[1:])] for c in cuts]
    counts = [len(m) for m in middles]
    full = {at for at in itertools.product(*map(range, counts))
            if is_in([middles[i][at[i]] for i in range(3)], part.united) and not is_in([middles[i][at[i]] for i in range(3)], part.taken)}
    volume, squares = 0, []
    for at in full:
        size = 1
        for i in range(3):
            size *= cuts[i][at[i] + 1] - cuts[i][at[i]]
        volume += size
        for i in range(3):
            for step in (-1, 1):
                beside = at[:i] + (at[i] + step,) + at[i + 1:]
                if beside not in full:
                    j, k = [n for n in range(3) if n != i]
                    corner = list(at)
                    corner[i] += step > 0
                    square = []
                    for u, v in ((0, 0), (1, 0), (1, 1), (0, 1)):
                        p = list(corner)
                        p[j] += u
                        p[k] += v
                        square.append(tuple(p))
                    squares.append(square)
    edges = {frozenset(pair) for s in squares for pair in zip(s, s[1:] + s[:1])}
    points = {p for s in squares for p in s}
    parent = {p: p for p in points}

    def root(p):
        while parent[p] != p:
            parent[p] = parent[parent[p]]
            p = parent[p]
        return p

    for edge in edges:
        a, b = edge
        parent[root(a)] = root(b)
    return len({root(p) for p in points}), len(points) - len(edges) + len(squares), 6 * volume


def script(part, order, exact, turned):
    """A script that makes a part by its boxes in this order."""
    lines = ["exact"] if exact else []
    united = [part.united[i] for i in order]
    for i, (low, high) in enumerate(united):
        lines.append("box u%d %s" % (i, " ".join(map(number, low + high))))
    for i, (low, high) in enumerate(part.taken):
        lines.append("box t%d %s" % (i, " ".join(map(number, low + high))))
    names = ["u%d" % i for i in range(len(united))] + ["t%d" % i for i in range(len(part.taken))]
    lines += ["turn %s %s %s" % (name, name, axis) for axis in turned for name in names]
    lines.append("shift m u0 0 0 0")
    lines += ["union m m u%d" % i for i in range(1, len(united))] + ["subtract m m t%d" % i for i in range(len(part.taken))]
    return "\n".join(lines + ["remesh m m", "measure m", "inspect m", "save m m.obj"]) + "\n"


CLEAN = b", flat 0, doubled 0, touching 0, cuts 0\n"
MEASURED = re.compile(rb"^m: points \d+, triangles (\d+), components (\d+), euler (-?\d+), volume6 (-?\d+)$", re.M)


class Judge:
    """CGAL's answer on a mesh, where there is one."""

    def __init__(self, folder):
        self.program = os.path.join(folder, "clean")
        compiler = shutil.which("g++")
        done = compiler and subprocess.run([compiler, "-O2", "-o", self.program, os.path.join(HERE, "flush.cpp"), "-lgmp", "-lmpfr"], stderr=subprocess.DEVNULL)
        self.is_there = bool(done) and done.returncode == 0

    def faults(self, name):
        """What is wrong with a mesh; nothing where it is clean or nobody can say."""
        if not self.is_there:
            return ""
        return subprocess.run([self.program, name], stdout=subprocess.PIPE, check=True).stdout.decode().strip()


def ways(part):
    """Orders of the boxes that are united, kernels, and quarter turns."""
    orders = list(itertools.permutations(range(len(part.united))))
    for order in orders[:: max(1, len(orders) // 6)]:
        for exact in (False, True):
            yield order, exact, ""
    yield orders[0], False, "xy"
    yield orders[-1], True, "zx"


def try_kind(kind, program, parts, seed, judge, folder):
    """How many meshes of a kind are right and clean, of how many; and what is wrong with the others."""
    good = tried = triangles = 0
    wrong = []
    r = random.Random("%s %d" % (kind.__name__, seed))
    for _ in range(parts):
        part = kind(r)
        wanted = measures(part)
        for way in ways(part):
            text = script(part, *way)
            with open(os.path.join(folder, "s.txt"), "w", encoding="ascii") as file:
                file.write(text)
            done = subprocess.run([program, "run", "s.txt"], cwd=folder, stdout=subprocess.PIPE, stderr=subprocess.PIPE, check=False)
            found = MEASURED.search(done.stdout)
            tried += 1
            numbers = found and tuple(int(it) for it in found.groups()[1:])
            fault = done.stderr.decode() or ("" if numbers == wanted else "%s in place of %s" % (numbers, wanted))
            fault = fault or ("" if CLEAN in done.stdout else "inspect counts something") or judge.faults(os.path.join(folder, "m.obj"))
            if fault:
                wrong.append((fault, text))
            else:
                good += 1
                triangles += int(found.group(1))
    return good, tried, triangles, wrong


def main(words):
    """Tries all kinds."""
    program, parts, seed = os.path.abspath(words[0]), int(words[1]) if len(words) > 1 else 4, int(words[2]) if len(words) > 2 else 1
    bad = 0
    with tempfile.TemporaryDirectory(prefix="manifold-flush-") as folder:
        judge = Judge(folder)
        print("CGAL is asked" if judge.is_there else "CGAL is not there: measure and inspect alone")
        print("| Parts | made | clean | triangles |\n|---|---|---|---|")
        for kind in KINDS:
            good, tried, triangles, wrong = try_kind(kind, program, parts, seed, judge, folder)
            print("| %s | %d | %d | %d |" % (kind.__name__.replace("_", " "), tried, good, triangles), flush=True)
            bad += len(wrong)
            for fault, text in wrong[:1]:
                print("  %s\n%s" % (fault, "".join("    " + line + "\n" for line in text.splitlines())), end="")
    return 1 if bad else 0


if __name__ == "__main__":
    sys.exit(main(sys.argv[1:]))
