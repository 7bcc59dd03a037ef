"""A part made from Python: a wheel whose spokes are turned by any angle, and a keyway in its hub. Usage: part.py [PROGRAM]

Shapes come from shapes.py, the script is written line by line, and manifold_tool does it; what it says is read back as a check."""
import os, subprocess, sys

sys.path.insert(0, os.path.dirname(os.path.abspath(__file__)))
import shapes

PROGRAM = sys.argv[1] if len(sys.argv) > 1 else "bin/manifold_tool" if os.path.exists("bin/manifold_tool") else "manifold_tool"
SPOKES = 5


def run(lines, name):
    """Does the lines of a script; what the program said, line by line."""
    with open(name, "w") as file:
        file.write("\n".join(lines) + "\n")
    done = subprocess.run([PROGRAM, "run", name], capture_output=True, text=True)
    if done.returncode:
        sys.exit("status %d: %s" % (done.returncode, done.stderr.strip()))
    return done.stdout.splitlines()


shapes.write("rim.obj", shapes.revolve([(26, 0), (30, 0), (30, 8), (28, 6), (26, 8)], 40))
shapes.write("hub.obj", shapes.revolve([(3, 0), (8, 0), (8, 10), (3, 10)], 20))
shapes.write("key.obj", shapes.extrude([(-1, 0), (1, 0), (1, 4), (-1, 4)], 14))
spoke = shapes.extrude([(5, -2), (27, -1.2), (27, 1.2), (5, 2)], 5)

lines = ["load wheel rim.obj", "load hub hub.obj", "load key key.obj", "shift key key 0 0 -2", "union wheel wheel hub"]
for k in range(SPOKES):
    shapes.write("spoke%d.obj" % k, shapes.shift(shapes.turn(spoke, "z", 360 * k / SPOKES + 10), 0, 0, 1))
    lines += ["load spoke spoke%d.obj" % k, "union wheel wheel spoke"]
lines += ["subtract wheel wheel key", "remesh wheel wheel", "measure wheel", "save wheel wheel.obj"]

said = run(lines, "wheel.txt")
forced = sum(int(line.rsplit(" ", 1)[1]) for line in said if ", forced " in line)
print("\n".join(said[-2:]))
print("forced %d, volume %.2f" % (forced, int(said[-2].rsplit(" ", 1)[1]) / 6 / 10**12))
