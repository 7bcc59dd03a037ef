"""What tidying costs: a torus of quadrilaterals cut in two, each fifth of whose edges has length zero, and the same without such edges.

Usage: tidying.py PROGRAM [TRIANGLES], in a folder that it may fill; prints a table."""
import math
import sys

from labels import least

# Of five columns of vertices one after the other, how many lie at one place: of the three edges a vertex has, the one along its row has then length zero for
# all but one of these.
FORMS = {"each fifth edge of length zero": 4, "no edge of length zero": 1}


def torus(name, count, together):
    """A torus of about so many triangles, in steps of the grid."""
    columns = max(10, 5 * round(math.sqrt(count / 2) / 5))
    rows = max(10, round(count / 2 / columns))
    with open(name, "w") as out:
        for i in range(columns):
            block, at = divmod(i, 5)
            u = 2 * math.pi * (5 * block + max(0, at - (together - 1))) / columns
            for j in range(rows):
                v = 2 * math.pi * j / rows
                far = 300_000_000 + 100_000_000 * math.cos(v)
                out.write("v %d %d %d\n" % (round(far * math.cos(u)), round(far * math.sin(u)), round(100_000_000 * math.sin(v))))
        for i in range(columns):
            for j in range(rows):
                a, b = i * rows + j + 1, (i + 1) % columns * rows + j + 1
                c, d = (i + 1) % columns * rows + (j + 1) % rows + 1, i * rows + (j + 1) % rows + 1
                out.write("f %d %d %d\nf %d %d %d\n" % (a, b, c, a, c, d))


def table(program, count):
    print("| Torus | read and written, seconds | tidied as well | MB | collapsed |")
    print("|---|---|---|---|---|")
    for form, together in FORMS.items():
        torus("t.obj", count, together)
        with open("copy.txt", "w") as script:
            script.write("load t t.obj\nsave t out.obj\n")
        with open("tidy.txt", "w") as script:
            script.write("load t t.obj\ntidy t t\nsave t out.obj\n")
        plain = least(program, ["run", "copy.txt", "--digits", "0"])
        tidied = least(program, ["run", "tidy.txt", "--digits", "0"])
        with open("log.txt") as said:
            collapsed = next(line.split()[-1] for line in said if " = tidy " in line)
        print("| %s | %.2f | %.2f | %d | %s |" % (form, plain[0], *tidied, collapsed), flush=True)


if __name__ == "__main__":
    if len(sys.argv) not in (2, 3):
        sys.exit("usage: tidying.py PROGRAM [TRIANGLES]")
    table(sys.argv[1], int(sys.argv[2]) if len(sys.argv) == 3 else 1_000_000)
