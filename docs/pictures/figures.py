"""Draws the flat figures of docs/GUIDE.md and docs/METHOD.md. Usage: figures.py FOLDER BEFORE AFTER

BEFORE and AFTER are the plate of "A part for the printer" without and with its line `remesh`, OBJ files of triangles."""
import math, os, sys

INK, SOFT, P, Q, GOOD, BAD = "#1d2733", "#8a94a0", "#2f6db3", "#c07a1e", "#3d8b40", "#d00000"


class Figure:
    def __init__(self, width, height):
        head = '<svg xmlns="http://www.w3.org/2000/svg" viewBox="0 0 %d %d" width="%d" height="%d" font-family="sans-serif" font-size="14">'
        self.out = [head % (width, height, width, height)]
        self.out.append('<rect width="%d" height="%d" fill="#ffffff"/>' % (width, height))

    def line(self, points, colour=INK, width=1.5, dash="", fill="none", closed=False):
        path = "M" + "L".join("%.1f %.1f" % p for p in points) + ("Z" if closed else "")
        dashes = ' stroke-dasharray="%s"' % dash if dash else ""
        self.out.append('<path d="%s" stroke="%s" stroke-width="%s" fill="%s"%s stroke-linejoin="round"/>' % (path, colour, width, fill, dashes))

    def arrow(self, a, b, colour=INK, width=1.5, at=1.0):
        """A line from a to b with a head at that part of it."""
        self.line([a, b], colour, width)
        turn = math.atan2(b[1] - a[1], b[0] - a[0])
        tip = (a[0] + (b[0] - a[0]) * at, a[1] + (b[1] - a[1]) * at)
        head = [(tip[0] - 9 * math.cos(turn + side), tip[1] - 9 * math.sin(turn + side)) for side in (0.4, -0.4)]
        self.line([head[0], tip, head[1]], colour, width, "", colour, True)

    def dot(self, at, colour=INK, size=4):
        self.out.append('<circle cx="%.1f" cy="%.1f" r="%s" fill="%s"/>' % (at[0], at[1], size, colour))

    def text(self, at, words, colour=INK, size=14, anchor="middle", bold=False):
        how = ' font-weight="bold"' if bold else ""
        self.out.append('<text x="%.1f" y="%.1f" fill="%s" font-size="%d" text-anchor="%s"%s>%s</text>' % (at[0], at[1], colour, size, anchor, how, words))

    def save(self, folder, name):
        with open(os.path.join(folder, name), "w") as file:
            file.write("\n".join(self.out + ["</svg>", ""]))


def outline(figure, corners, colour):
    """A closed outline with an arrow in the middle of each side."""
    for a, b in zip(corners, corners[1:] + corners[:1]):
        figure.arrow(a, b, colour, 2, 0.56)


def box(x, y, w, h, back=False):
    """Once round with the inside on the left as it is seen, or back."""
    corners = [(x, y + h), (x + w, y + h), (x + w, y), (x, y)]
    return corners[::-1] if back else corners


def winding(folder):
    f = Figure(760, 230)
    f.text((85, 22), "a solid", size=15, bold=True)
    outline(f, box(25, 50, 120, 120), P)
    f.text((85, 116), "1", P, 22)
    f.text((85, 200), "0", SOFT, 22)

    f.text((280, 22), "two that overlap", size=15, bold=True)
    outline(f, box(190, 45, 110, 90), P)
    outline(f, box(255, 85, 110, 90), Q)
    f.text((222, 98), "1", P, 22)
    f.text((278, 118), "2", INK, 22)
    f.text((335, 142), "1", Q, 22)
    f.text((222, 200), "0", SOFT, 22)

    f.text((490, 22), "a solid with a hollow", size=15, bold=True)
    outline(f, box(420, 45, 140, 130), P)
    outline(f, box(462, 82, 58, 56, True), P)
    f.text((441, 116), "1", P, 22)
    f.text((491, 118), "0", SOFT, 22)
    f.text((490, 200), "0", SOFT, 22)

    f.text((670, 22), "inside out", size=15, bold=True)
    outline(f, box(610, 50, 120, 120, True), P)
    f.text((670, 116), "-1", P, 22)
    f.text((670, 200), "0", SOFT, 22)
    f.text((380, 222), "Cuts through meshes: along an arrow the inside of a solid lies on the left.", SOFT, 13)
    f.save(folder, "winding.svg")


def axes(f, x, y, across, upright, width=46):
    f.arrow((x, y), (x + width, y), SOFT, 1)
    f.arrow((x, y), (x, y - width), SOFT, 1)
    f.text((x + width + 10, y + 5), across, SOFT, 13)
    f.text((x, y - width - 6), upright, SOFT, 13)


def shadow_of_edge(folder):
    f = Figure(760, 300)
    axes(f, 30, 270, "x", "y")
    c, d = (170, 210), (590, 110)

    def on(x):
        return (x, c[1] + (d[1] - c[1]) * (x - c[0]) / (d[0] - c[0]))

    for end in (c, d):
        f.line([(end[0], 40), (end[0], 270)], SOFT, 1, "2 5")
    f.arrow(c, d, Q, 2.5, 0.5)
    f.dot(c, Q)
    f.dot(d, Q)
    f.text((c[0] - 12, c[1] + 20), "c", Q, 16)
    f.text((d[0] + 14, d[1] - 6), "d", Q, 16)
    for at, words, colour, below in (
        ((290, 80), "count 1, beyond: shadow 1", GOOD, False),
        ((470, 235), "count 1, not beyond: shadow 0", INK, True),
        ((85, 130), "count 0: no answer", SOFT, True),
        ((675, 190), "count 0: no answer", SOFT, True),
    ):
        if c[0] < at[0] < d[0]:
            f.line([at, on(at[0])], colour, 1.2, "4 3")
            spot = on(at[0])
            f.line([(spot[0] - 4, spot[1] - 4), (spot[0] + 4, spot[1] + 4)], colour, 1.5)
            f.line([(spot[0] - 4, spot[1] + 4), (spot[0] + 4, spot[1] - 4)], colour, 1.5)
            f.text((spot[0] + 10, spot[1] + (20 if not below else -8)), "spot", colour, 12, "start")
        f.dot(at, P)
        f.text((at[0] - 12, at[1] - 4), "p", P, 16)
        f.text((at[0], at[1] + 22) if below else (at[0] + 20, at[1] - 26), words, colour, 13)
    f.text((400, 290), "A vertex p of P and an edge from c to d of Q, as seen along z.", SOFT, 13)
    f.save(folder, "shadow_edge.svg")


def shadow_of_face(folder):
    f = Figure(760, 330)
    axes(f, 30, 290, "x", "y")
    u, v, w = (90, 240), (350, 200), (190, 50)
    f.line([u, v, w], Q, 2.5, "", "#f6e7cf", True)
    for a, b in ((u, v), (v, w), (w, u)):
        f.arrow(a, b, Q, 2.5, 0.5)
    x = 230
    low = (x, u[1] + (v[1] - u[1]) * (x - u[0]) / (v[0] - u[0]))
    high = (x, v[1] + (w[1] - v[1]) * (x - v[0]) / (w[0] - v[0]))
    p = (x, 160)
    f.line([(x, 30), (x, 280)], SOFT, 1, "2 5")
    f.line([p, low], GOOD, 1.5, "4 3")
    f.line([p, high], INK, 1.5, "4 3")
    for at, name, colour, shift in ((low, "U: p is beyond, shadow 1", GOOD, 24), (high, "D: p is not, shadow 0", INK, -12)):
        f.dot(at, colour)
        f.text((at[0] + 10, at[1] + shift), name, colour, 13, "start")
    f.dot(p, P)
    f.text((p[0] - 12, p[1] + 5), "p", P, 16)
    f.text((200, 318), "as seen along z: the count is 1", SOFT, 13)

    f.line([(430, 20), (430, 300)], SOFT, 1)
    axes(f, 460, 290, "y", "z")
    a, b = (510, 235), (715, 150)
    f.line([a, b], Q, 2.5)
    at = (590, a[1] + (b[1] - a[1]) * (590 - a[0]) / (b[0] - a[0]))
    p = (590, 95)
    f.line([p, at], GOOD, 1.5, "4 3")
    f.dot(a, GOOD)
    f.dot(b, INK)
    f.text((a[0], a[1] + 22), "U", GOOD, 14)
    f.text((b[0] + 4, b[1] - 10), "D", INK, 14)
    f.dot(p, P)
    f.text((p[0] - 14, p[1] + 5), "p", P, 16)
    f.dot(at, Q, 3)
    f.text((at[0] + 8, at[1] + 22), "spot, between D and U", Q, 13, "start")
    f.text((p[0] + 12, p[1] - 12), "beyond in z: shadow 1", GOOD, 13)
    f.text((600, 318), "in the upright plane through p: z decides", SOFT, 13)
    f.save(folder, "shadow_face.svg")


def apex(folder):
    """The triangles of an apex and the edges of a loop, in a plane: those that turn left, those that turn right, and both."""
    f = Figure(760, 330)
    o = (60, 290)
    loop = [(150, 130), (300, 215), (235, 60)]

    def turn(a, b):
        return (a[0] - o[0]) * (b[1] - o[1]) - (a[1] - o[1]) * (b[0] - o[0])

    inside, outside = (235, 130), (165, 205)
    for left, words, wanted in ((0, "turn left: 1", True), (240, "turns right: -1", False), (480, "together: inside 1, outside 0", None)):
        moved = lambda at: (at[0] + left - 30, at[1])
        for a, b in zip(loop, loop[1:] + loop[:1]):
            left_turn = turn(a, b) < 0
            if wanted is None or left_turn == wanted:
                colour = GOOD if left_turn else BAD
                if wanted is not None:
                    f.line([moved(o), moved(a), moved(b)], colour, 1, "", "#e3f0e3" if left_turn else "#f8dddd", True)
        outline(f, [moved(at) for at in loop], P)
        for at in loop if wanted is None else ():
            f.line([moved(o), moved(at)], SOFT, 1, "3 4")
        f.dot(moved(o))
        f.text((moved(o)[0] - 14, moved(o)[1] + 4), "o", INK, 16)
        for at, name in ((inside, "p"), (outside, "q")):
            f.dot(moved(at))
            f.text((moved(at)[0] + 12, moved(at)[1] + 5), name, INK, 16)
        f.text((moved((170, 0))[0], 24), words, INK, 15, bold=True)
    f.text((380, 320), "In space these are tetrahedra of the apex and the faces.", SOFT, 13)
    f.save(folder, "apex.svg")


def hair(folder):
    f = Figure(760, 240)
    f.text((190, 24), "where it lies", size=15, bold=True)
    f.text((560, 24), "where it counts", size=15, bold=True)
    for left, shift in ((0, 0), (370, 1)):
        a, b, c = (60 + left, 200), (330 + left, 160), (150 + left, 50)
        f.line([a, b, c], Q, 2, "", "#f6ead9", True)
        on = ((a[0] + c[0]) / 2, (a[1] + c[1]) / 2)
        at = (on[0] + 58 * shift, on[1] - 16 * shift)
        if shift:
            f.arrow(on, (on[0] + 58, on[1]), SOFT, 1.2)
            f.arrow((on[0] + 58, on[1]), at, SOFT, 1.2)
            f.text((on[0] + 30, on[1] + 18), "x", SOFT, 13)
            f.text((on[0] + 68, on[1] - 2), "y", SOFT, 13)
        f.dot(at, P)
        f.text((at[0] - 14 + 28 * shift, at[1] - 6), "p", P, 16)
    f.text((380, 228), "On an edge p counts as moved by a hair in x, by a lesser one in y, and by a still lesser one in z, out of the plane.", SOFT, 13)
    f.save(folder, "hair.svg")


def tie(folder):
    f = Figure(760, 240)
    for left, name, out, words in (
        (40, "union", 1, "P counts as beyond: they overlap"),
        (420, "subtract, intersect", -1, "P counts as not beyond: they are apart"),
    ):
        p = [(left, 170), (left + 130, 170), (left + 130, 60), (left, 60)]
        q = [(left + 130, 190), (left + 260, 190), (left + 260, 80), (left + 130, 80)]
        f.line(p, P, 2.5, "", "#dbe8f6", True)
        f.line(q, Q, 2.5, "", "#f6e7cf", True)
        f.line([(left + 130, 80), (left + 130, 170)], INK, 4)
        for k, (x, y) in enumerate(p):
            f.dot((x, y), P)
            right, down = (1 if k in (1, 2) else -1), (1 if k < 2 else -1)
            f.arrow((x, y), (x + 16 * right * out, y + 16 * down * out), P, 1.5)
        f.text((left + 45, 118), "P", P, 18)
        f.text((left + 215, 138), "Q", Q, 18)
        f.text((left + 130, 30), name, size=15, bold=True)
        f.text((left + 130, 222), words, SOFT, 13)
    f.save(folder, "tie.svg")


def pairing(folder):
    f = Figure(760, 250)
    f.text((190, 24), "on a half-edge from a to b", size=15, bold=True)
    line = 110
    f.line([(30, line), (350, line)], SOFT, 1.5, "5 4")
    for x, name, start in ((40, "a", True), (140, "x", False), (240, "y", True), (340, "b", False)):
        f.dot((x, line), GOOD if start else P, 5)
        f.text((x, line - 14), name, INK, 16)
        f.text((x, line + 26), "start" if start else "end", GOOD if start else P, 13)
    for a, b in ((40, 140), (240, 340)):
        f.arrow((a + 6, line), (b - 6, line), INK, 3, 0.6)
    f.line([(140, 45), (140, 170)], Q, 1.5, "2 4")
    f.line([(240, 45), (240, 170)], Q, 1.5, "2 4")
    f.text((190, 60), "inside Q", Q, 14)
    f.text((190, 196), "P without Q: a starts, the edge goes into Q at x,", SOFT, 13)
    f.text((190, 214), "comes out at y, and ends at b: two segments", SOFT, 13)

    f.line([(380, 20), (380, 230)], SOFT, 1)
    f.text((570, 24), "on the line of two faces", size=15, bold=True)
    f.line([(400, line), (740, line)], SOFT, 1.5, "5 4")
    for x, name, start in ((420, "s", True), (510, "t", True), (620, "u", False), (720, "v", False)):
        f.dot((x, line), GOOD if start else P, 5)
        f.text((x, line + (26 if x in (510, 620) else -14)), name, INK, 16)
    for a, b, level, words in ((420, 620, line - 34, "first start, first end"), (510, 720, line + 52, "second start, second end")):
        f.line([(a, line), (a, level)], INK, 1, "2 3")
        f.line([(b, line), (b, level)], INK, 1, "2 3")
        f.arrow((a, level), (b, level), INK, 3, 0.55)
        f.text(((a + b) / 2, level + (-10 if level < line else 20)), words, SOFT, 13)
    f.text((570, 214), "in order along the line, whatever lies between", SOFT, 13)
    f.save(folder, "pairing.svg")


def filling(folder):
    f = Figure(760, 300)
    rim = [(40, 230), (330, 230), (330, 60), (40, 60)]
    hole = [(160, 180), (125, 115), (205, 110)]
    f.text((185, 30), "a ring, a hole, and the bridge", size=15, bold=True)
    f.line(rim, P, 2, "", "#dbe8f6", True)
    f.line(hole, P, 2, "", "#ffffff", True)
    for corners in (rim, hole):
        outline(f, corners, P)
    f.line([hole[1], rim[3]], GOOD, 3)
    for k, (x, y) in enumerate(rim + hole):
        f.dot((x, y), INK, 3.5)
        f.text((x + (-14 if x < 60 else 14 if x > 300 else (10, -4, 16)[k - 4]), y + ((18, 18, -8, -8) + (20, 22, -6))[k]), str(k), INK, 14)
    f.text((185, 265), "the ring afterwards: 0 1 2 3 5 6 4 5 3", SOFT, 13)
    f.text((185, 284), "the bridge from 3 to 5 is used both ways", SOFT, 13)

    f.line([(380, 20), (380, 290)], SOFT, 1)
    f.text((570, 30), "a ring is cut, ear by ear", size=15, bold=True)
    ring = [(420, 230), (600, 230), (720, 150), (640, 60), (490, 170), (440, 60)]
    f.line([ring[5], ring[0], ring[1]], Q, 0.5, "", "#f6e7cf", True)
    f.line([ring[0], ring[1], ring[2]], GOOD, 0.5, "", "#d5ead6", True)
    outline(f, ring, P)
    f.line([ring[5], ring[1]], Q, 1.5, "5 4")
    f.line([ring[0], ring[2]], GOOD, 1.5, "5 4")
    for k, (x, y) in enumerate(ring):
        f.dot((x, y), INK, 3.5)
        f.text((x + (-14, 6, 14, 14, 14, -14)[k], y + (8, 20, 4, 0, 6, 0)[k]), "ABCDEF"[k], INK, 14)
    f.text((452, 150), "no ear", Q, 13)
    f.text((628, 203), "ear", GOOD, 14)
    f.text((570, 265), "A is no ear, since E lies in its triangle; B is the first", SOFT, 13)
    f.text((570, 284), "that is one: its triangle is cut off, and B is gone", SOFT, 13)
    f.save(folder, "filling.svg")


def pinching(folder):
    f = Figure(760, 230)

    def fan(middle, turn, colour, paint):
        rim = [(middle[0] + 85 * math.cos(turn + k * 0.42), middle[1] - 85 * math.sin(turn + k * 0.42)) for k in range(5)]
        for a, b in zip(rim, rim[1:]):
            f.line([middle, a, b], colour, 1.5, "", paint, True)

    f.text((185, 24), "one vertex, two fans", size=15, bold=True)
    fan((185, 120), -0.84, P, "#dbe8f6")
    fan((185, 120), math.pi - 0.84, Q, "#f6e7cf")
    f.dot((185, 120), INK, 5)
    f.text((185, 104), "v", INK, 16)
    f.arrow((340, 120), (420, 120), SOFT, 2)
    f.text((570, 24), "one vertex for each fan", size=15, bold=True)
    fan((585, 120), -0.84, P, "#dbe8f6")
    fan((555, 120), math.pi - 0.84, Q, "#f6e7cf")
    f.dot((585, 120), P, 5)
    f.dot((555, 120), Q, 5)
    f.text((592, 104), "v", P, 16)
    f.text((548, 104), "w", Q, 16)
    f.text((380, 222), "Parts of two fans, each of which goes on behind. v and w have the same point; they are apart here to be seen.", SOFT, 13)
    f.save(folder, "pinching.svg")


def read(name):
    """The points and the triangles of an OBJ file."""
    with open(name) as file:
        lines = [line.split() for line in file]
    points = [tuple(map(float, words[1:])) for words in lines if words[:1] == ["v"]]
    return points, [tuple(int(word) - 1 for word in words[1:]) for words in lines if words[:1] == ["f"]]


def turns_up(a, b, c):
    """Whether a triangle in a plane of one height turns its outside upwards."""
    return (b[0] - a[0]) * (c[1] - a[1]) > (b[1] - a[1]) * (c[0] - a[0])


def underside(f, left, top, unit, name):
    """The lowest face of a mesh, as it is seen from below: its triangles, those that are turned over in red, and its points."""
    points, triangles = read(name)
    low = min(p[2] for p in points)
    face = [t for t in triangles if all(points[v][2] == low for v in t)]
    at = [(left + p[0] * unit, top + p[1] * unit) for p in points]
    for is_over, colour, fill in ((False, INK, "#dbe8f6"), (True, BAD, "#ee9c9c")):
        for t in face:
            if turns_up(*(points[v] for v in t)) == is_over:
                f.line([at[v] for v in t], colour, 1.5, "", fill, True)
    for v in sorted({v for t in face for v in t}):
        f.dot(at[v], INK, 3)


def printer(folder, before, after):
    f = Figure(760, 350)
    for left, name, words in ((50, before, "after subtract"), (430, after, "after remesh")):
        f.text((left + 140, 24), words, size=15, bold=True)
        underside(f, left, 40, 7, name)
    f.text((380, 342), "The underside of the plate, seen from below. In red: two triangles that lie over half of the hole, turned over.", SOFT, 13)
    f.save(folder, "printer.svg")


if __name__ == "__main__":
    if len(sys.argv) != 4:
        sys.exit(__doc__)
    for figure in (winding, shadow_of_edge, shadow_of_face, apex, hair, tie, pairing, filling, pinching):
        figure(sys.argv[1])
    printer(*sys.argv[1:])
