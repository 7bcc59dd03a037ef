"""Makes meshes and scripts in the current folder, runs a program on each, and prints a table: processor seconds and peak memory of the script, of `copy` of its
operands one after the other, the ratio of the two, and the triangles that went in and came out. Usage: operations.py PROGRAM [JOB..]; all jobs where none is named."""
import math, os, sys

import hard
from meshes import BOX, sphere, strip, write_mesh


def spiral(name, turns, steps, low, high):
    line = []
    for width in (0, 12_000):
        side = []
        for i in range(steps + 1):
            angle = 2 * math.pi * turns * i / steps
            reach = 100_000 + 30_000 * angle / (2 * math.pi) + width
            side.append((reach * math.cos(angle), reach * math.sin(angle)))
        line.append(side)
    return strip(name, line[0], line[1], low, high)


def posts(name, side):
    """side * side upright boxes, all in one mesh."""
    points, faces = [], []
    for i in range(side):
        for j in range(side):
            x, y = 1000 * i + 17 * j, 1000 * j + 31 * i
            base = len(points)
            points += [(x + u, y + v, w) for w in (-500, 1500) for v in (0, 400) for u in (0, 400)]
            faces += [(base + a, base + b, base + c) for a, b, c in BOX]
    write_mesh(name, points, faces)
    return len(faces)


def spheres(triangles):
    count = sphere("a.obj", triangles, (0, 0, 0), (0.1, 0.2, 0.3))
    count += sphere("b.obj", triangles, (170_000_000, 90_000_000, 40_000_000), (1.1, 0.7, 2.3))
    return count, ["a.obj", "b.obj"], ["union u a b", "save u out.obj"]


def lattice(n):
    reach = 100 * n
    script = ["lattice g %d 7" % n, "box c %d -100 -150 %d %d %d" % (reach // 2 + 5, reach + 1000, reach + 100, reach + 50)]
    return 12 * n ** 3 + 12, [], script + ["subtract u g c", "save u out.obj"]


def itself():
    count = sphere("a.obj", 150_000, (0, 0, 0), (0.1, 0.2, 0.3))
    return count, ["a.obj"], ["union u a a", "save u out.obj"]


def wall():
    count = spiral("a.obj", 8, 1000, -50_000, 50_000)
    return count + 12, ["a.obj"], ["box b -2000000 -2000000 -900000 2000000 2000000 0", "union u b a", "save u out.obj"]


def plate(side):
    count = posts("a.obj", side)
    return count + 12, ["a.obj"], ["box b -5000 -5000 0 90000 70000 1000", "subtract u b a", "save u out.obj"]


def chain():
    script = ["box u 0 0 0 10 10 10"]
    for i in range(1, 32):
        script += ["box b %d 0 0 %d 10 10" % (10 * i, 10 * i + 10), "union u u b"]
    return 12 * 32, [], script + ["save u out.obj"]


JOBS = {
    "spheres_10k": lambda: spheres(10_000),
    "spheres_100k": lambda: spheres(100_000),
    "spheres_1m": lambda: spheres(1_000_000),
    "lattice_20": lambda: lattice(20),
    "lattice_30": lambda: lattice(30),
    "itself": itself,
    "spiral": wall,
    "plate_400": lambda: plate(20),
    "chain": chain,
    **hard.JOBS,
}


def run(program, words):
    """Processor seconds and peak MB of one run."""
    pid = os.fork()
    if pid == 0:
        quiet = os.open("log.txt", os.O_WRONLY | os.O_CREAT | os.O_TRUNC)
        os.dup2(quiet, 1)
        os.execv(program, [program] + words)
    _, status, used = os.wait4(pid, 0)
    if status != 0:
        sys.exit("%s: status %d" % (" ".join(words), os.waitstatus_to_exitcode(status)))
    return used.ru_utime + used.ru_stime, used.ru_maxrss // 1024


def table(program, names):
    print("| Job | Triangles in | out | Seconds | MB | `copy` of the operands | Ratio |")
    print("|---|---|---|---|---|---|---|")
    for name in names:
        count, files, lines = JOBS[name]()
        with open("s.txt", "w") as script:
            for file in files:
                script.write("load %s %s\n" % (file[0], file))
            script.write("\n".join(lines) + "\n")
        seconds, memory = run(program, ["run", "s.txt", "--digits", "0"])
        with open("out.obj") as out:
            made = sum(1 for line in out if line.startswith("f"))
        copied = sum(run(program, ["copy", file, "copy.obj", "--digits", "0"])[0] for file in files)
        ratio = "%.1f" % (seconds / copied) if files else ""
        print("| %s | %d | %d | %.2f | %d | %s | %s |" % (name, count, made, seconds, memory, "%.2f" % copied if files else "", ratio), flush=True)


if __name__ == "__main__":
    if len(sys.argv) < 2 or any(name not in JOBS for name in sys.argv[2:]):
        sys.exit("usage: operations.py PROGRAM [JOB..]; jobs: " + " ".join(JOBS))
    table(sys.argv[1], sys.argv[2:] or list(JOBS))
