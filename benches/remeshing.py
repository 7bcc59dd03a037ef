"""What remeshing costs: a mesh with nothing flat, plates with many holes in two faces, and flush boxes united one after the other.

Usage: remeshing.py PROGRAM, in a folder that it may fill; prints a table. A mesh is first made by a script; the seconds are those of one that reads it and writes
it, and of one that remeshes it between."""
import sys

import operations
from labels import least


def flush():
    script = ["box u 0 0 0 100 100 100"]
    for i in range(1, 50):
        low, high = 100 * i, 100 * i + 100
        script += ["box b %d %d 0 %d %d 100" % (low, 50 * (i % 2), high, 50 * (i % 2) + 100), "union u u b"]
    return 600, [], script + ["save u out.obj"]


JOBS = {
    "two spheres, united": lambda: operations.spheres(770_000),
    "a plate less 1,600 posts of four sides": lambda: operations.plate(40),
    "a plate less 1,600 posts of twelve sides": operations.JOBS["posts_1600"],
    "fifty flush boxes in a row": flush,
}


def table(program):
    print("| Mesh | Triangles | remeshed | read and written, seconds | remeshed as well | MB |")
    print("|---|---|---|---|---|---|")
    for name, make in JOBS.items():
        _, files, lines = make()
        with open("make.txt", "w") as script:
            script.write("\n".join(["load %s %s" % (file[0], file) for file in files] + lines) + "\n")
        operations.run(program, ["run", "make.txt", "--digits", "0"])
        with open("copy.txt", "w") as script:
            script.write("load t out.obj\nsave t again.obj\n")
        with open("remesh.txt", "w") as script:
            script.write("load t out.obj\nremesh t t\nsave t again.obj\n")
        plain = least(program, ["run", "copy.txt", "--digits", "0"])
        done = least(program, ["run", "remesh.txt", "--digits", "0"])
        counts = [sum(1 for line in open(file) if line.startswith("f")) for file in ("out.obj", "again.obj")]
        print("| %s | %d | %d | %.2f | %.2f | %d |" % (name, *counts, plain[0], *done), flush=True)


if __name__ == "__main__":
    if len(sys.argv) != 2:
        sys.exit("usage: remeshing.py PROGRAM")
    table(sys.argv[1])
