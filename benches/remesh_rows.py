"""Random chains of operations on small solids, remeshed by benches/reference/remeshing.py.

Usage: remesh_rows.py PROGRAM COUNT [SEED] has PROGRAM do the operations and the remeshing, and compares byte for byte.
       remesh_rows.py --table PROGRAM COUNT [SEED] has it do the operations alone, and prints rows for crates/mesh_tests/src/remeshing/table.rt."""
import os
import random
import subprocess
import sys
import tempfile

sys.path.insert(0, os.path.join(os.path.dirname(os.path.abspath(__file__)), "reference"))
from limits import Limits
from mesh import cross
from obj import obj_text, read_obj
from remeshing import remesh

DIGITS = "0123456789abcdefghijklmnopqrstuvwxyzABCDEFGHIJKLMNOPQRSTUVWXYZ"


def solid(draw, top, name):
    low = [draw.randint(0, top - 1) for _ in range(3)]
    kind = draw.random()
    if kind < 0.6:
        return "box %s %d %d %d %d %d %d" % (name, *low, *[c + draw.randint(1, top) for c in low])
    if kind < 0.8:
        return "tetra %s %d %d %d %d" % (name, *low, draw.randint(1, top))
    return "prism %s %d %d %d %d %d" % (name, *low, draw.randint(1, top), draw.randint(1, top))


def chain(draw):
    """Up to four operations on solids of a few steps."""
    top = draw.choice([2, 3, 3, 4, 6])
    lines = ["exact"] if draw.random() < 0.3 else []
    lines.append(solid(draw, top, "a"))
    for _ in range(draw.randint(1, 4)):
        lines += [solid(draw, top, "b"), "%s a a b" % draw.choice(["union", "union", "subtract", "subtract", "intersect"])]
        if draw.random() < 0.1:
            lines.append("tidy a a")
    return lines


def run(program, folder, lines):
    with open(os.path.join(folder, "s.txt"), "w") as file:
        file.write("\n".join(lines) + "\n")
    done = subprocess.run([program, "run", "s.txt", "--digits", "0"], cwd=folder, capture_output=True, text=True)
    if done.returncode != 0:
        sys.exit("%s\n%s" % ("\n".join(lines), done.stderr))
    return done.stdout.splitlines()


def read(folder, name):
    with open(os.path.join(folder, name)) as file:
        return file.read()


def mesh_in(folder, name):
    return read_obj(read(folder, name).encode(), 0, Limits())


def word(rows):
    return "".join(DIGITS[number] for row in rows for number in row)


def compare(program, count, seed):
    kept = triangles = 0
    with tempfile.TemporaryDirectory() as folder:
        for k in range(count):
            lines = chain(random.Random("%d %d" % (seed, k))) + ["save a a.obj", "remesh r a", "save r r.obj"]
            said = run(program, folder, lines)
            mesh = mesh_in(folder, "a.obj")
            done, planes, stayed = remesh(mesh)
            if said[-2] != "r = remesh a: planes %d, kept %d" % (planes, stayed) or read(folder, "r.obj").encode() != obj_text(done, 0):
                sys.exit("another mesh:\n" + "\n".join(lines))
            kept += stayed
            triangles += len(mesh.triples)
    print("%d meshes of %d triangles are the same, %d triangles were kept" % (count, triangles, kept))


def table(program, count, seed):
    """Rows of meshes with something to do, whose numbers have one digit each. Half of the meshes in which nothing is kept and no triangle was flat go."""
    made, k = 0, 0
    with tempfile.TemporaryDirectory() as folder:
        while made < count:
            draw = random.Random("%d %d" % (seed, k))
            k += 1
            run(program, folder, chain(draw) + ["save a a.obj"])
            mesh = mesh_in(folder, "a.obj")
            done, planes, kept = remesh(mesh)
            flat = sum(cross(*[mesh.points[v] for v in t]) == (0, 0, 0) for t in mesh.triples)
            numbers = [c for p in mesh.points for c in p] + [len(mesh.points) - 1]
            if not done.triples or min(numbers) < 0 or max(numbers) > 61 or (kept == 0 and flat == 0 and draw.random() < 0.5):
                continue
            print("%s %s %s %s %d %d" % (word(mesh.points), word(mesh.triples), word(done.points), word(done.triples), planes, kept))
            made += 1


if __name__ == "__main__":
    words = sys.argv[1:]
    what = table if words[:1] == ["--table"] else compare
    words = words[words[:1] == ["--table"]:]
    if len(words) not in (2, 3):
        sys.exit("usage: remesh_rows.py [--table] PROGRAM COUNT [SEED]")
    what(os.path.abspath(words[0]), int(words[1]), int(words[2]) if len(words) == 3 else 1)
