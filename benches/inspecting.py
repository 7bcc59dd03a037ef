"""What inspecting costs: a lattice of a million triangles; two spheres of a million triangles united; a sphere whose triangles stand in a random order; a fan, all of
whose triangles share two points; and the plates and posts of the other tables.

Usage: inspecting.py PROGRAM, in a folder that it may fill; prints a table. A mesh is first made by a script; the seconds are those of one that reads it, and of one that
reads and inspects it, with the bytes a triangle that the second needs beyond the first. Of the two spheres the seconds of the union stand beside them."""
import random
import sys

import operations
from labels import least
from meshes import sphere, write_mesh


def shuffled():
    count = sphere("a.obj", 500_000, (0, 0, 0), (0.1, 0.2, 0.3))
    lines = open("a.obj").read().splitlines()
    faces = [line for line in lines if line.startswith("f")]
    random.Random(1).shuffle(faces)
    with open("a.obj", "w") as file:
        file.write("\n".join([line for line in lines if not line.startswith("f")] + faces) + "\n")
    return count, ["a.obj"], ["load a a.obj", "save a out.obj"]


def fan():
    """A thousand triangles and their backs about one edge: each pair has it, and no other point, in common."""
    points = [(0, 0, -1000), (0, 0, 1000)] + [(1000 + k, 7 * k, 0) for k in range(1000)]
    write_mesh("a.obj", points, [(0, 1, k) for k in range(2, 1002)] + [(1, 0, k) for k in range(2, 1002)])
    return 2000, ["a.obj"], ["load a a.obj", "save a out.obj"]


def lattice():
    return 12 * 44 ** 3, [], ["lattice g 44 7", "save g out.obj"]


def spheres():
    count, files, lines = operations.spheres(1_000_000)
    return count, files, ["load a a.obj", "load b b.obj"] + lines


JOBS = {
    "a lattice of 44 boxes along each axis": lattice,
    "two spheres, united": spheres,
    "a sphere, its triangles in a random order": shuffled,
    "a thousand triangles and their backs about an edge": fan,
}


def table(program):
    print("| Mesh | Triangles | made, seconds | read | read and inspected | inspected | bytes a triangle |")
    print("|---|---|---|---|---|---|---|")
    for name, make in JOBS.items():
        _, _, lines = make()
        with open("make.txt", "w") as script:
            script.write("\n".join(lines) + "\n")
        made = least(program, ["run", "make.txt", "--digits", "0"], 1)
        with open("read.txt", "w") as script:
            script.write("load t out.obj\n")
        with open("seen.txt", "w") as script:
            script.write("load t out.obj\ninspect t\n")
        count = sum(1 for line in open("out.obj") if line.startswith("f"))
        read = least(program, ["run", "read.txt", "--digits", "0"])
        seen = least(program, ["run", "seen.txt", "--digits", "0"])
        row = (name, count, made[0], read[0], seen[0], seen[0] - read[0], 1_000_000 * (seen[1] - read[1]) / count)
        print("| %s | %d | %.2f | %.2f | %.2f | %.2f | %d |" % row, flush=True)


if __name__ == "__main__":
    if len(sys.argv) != 2:
        sys.exit("usage: inspecting.py PROGRAM")
    table(sys.argv[1])
