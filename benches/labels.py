"""What groups of faces cost: a sphere, and the union of two, whose triangles have no label, one, a thousand runs, or each its own.

Usage: labels.py PROGRAM [TRIANGLES], in a folder that it may fill; prints a table."""
import sys

from meshes import sphere
from operations import run

# Of a number of triangles, how many have one label after the other; None for no `g` line at all.
FORMS = {
    "no groups": lambda count: None,
    "one group": lambda count: count,
    "1,000 groups": lambda count: max(1, count // 1000),
    "a group for each triangle": lambda count: 1,
}


def grouped(plain, name, step):
    """The file `plain` with a `g` line before each `step` faces, of a label of ten bytes."""
    with open(plain) as lines, open(name, "w") as out:
        face = 0
        for line in lines:
            if line.startswith("f"):
                if step and face % step == 0:
                    out.write("g %010d\n" % (face // step))
                face += 1
            out.write(line)


def least(program, words, times=3):
    runs = [run(program, words) for _ in range(times)]
    return min(r[0] for r in runs), max(r[1] for r in runs)


def table(program, count):
    sphere("p.obj", count, (0, 0, 0), (0.1, 0.2, 0.3))
    sphere("q.obj", count, (170_000_000, 90_000_000, 40_000_000), (1.1, 0.7, 2.3))
    print("| Labels | `copy`, seconds | MB | union, seconds | MB |")
    print("|---|---|---|---|---|")
    for form, step_of in FORMS.items():
        for name in ("p", "q"):
            grouped(name + ".obj", name + "_g.obj", step_of(count))
        with open("s.txt", "w") as script:
            script.write("load p p_g.obj\nload q q_g.obj\nunion u p q\nsave u out.obj\n")
        copied = least(program, ["copy", "p_g.obj", "copy.obj", "--digits", "0"])
        united = least(program, ["run", "s.txt", "--digits", "0"])
        print("| %s | %.2f | %d | %.2f | %d |" % (form, *copied, *united), flush=True)


if __name__ == "__main__":
    if len(sys.argv) not in (2, 3):
        sys.exit("usage: labels.py PROGRAM [TRIANGLES]")
    table(sys.argv[1], int(sys.argv[2]) if len(sys.argv) == 3 else 1_000_000)
