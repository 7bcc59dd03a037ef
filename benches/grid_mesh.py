"""Writes a closed mesh to standard output: two sheets of side * side squares, glued at their rim. Usage: grid_mesh.py SIDE."""
import sys

side = int(sys.argv[1])
top = {}
lines = []
count = 0
for i in range(side + 1):
    for j in range(side + 1):
        count += 1
        top[i, j] = count
        lines.append("v %d %d 0" % (i, j))
bottom = {}
for i in range(side + 1):
    for j in range(side + 1):
        if 0 < i < side and 0 < j < side:
            count += 1
            bottom[i, j] = count
            lines.append("v %d %d -1" % (i, j))
        else:
            bottom[i, j] = top[i, j]
for i in range(side):
    for j in range(side):
        a, b, c, d = top[i, j], top[i + 1, j], top[i + 1, j + 1], top[i, j + 1]
        lines.append("f %d %d %d" % (a, b, c))
        lines.append("f %d %d %d" % (a, c, d))
        a, b, c, d = bottom[i, j], bottom[i + 1, j], bottom[i + 1, j + 1], bottom[i, j + 1]
        lines.append("f %d %d %d" % (a, c, b))
        lines.append("f %d %d %d" % (a, d, c))
sys.stdout.write("\n".join(lines) + "\n")
