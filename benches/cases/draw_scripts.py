"""Random scripts, with the files that they load."""
import draw_meshes
import draw_texts
from grid import GRID
from mesh import Mesh

NAMES = ["a", "b", "c", "d", "e", "A", "x_1", "long_name_of_thirty_two_bytes_ab"]
BAD_LINES = [
    "cut a b", "Union a a b", "load", "load a", "load a b c.obj", "load 1a m0.obj", "load a m0.ply", "load a m0",
    "load a .obj", "load a none.obj", "save zz o.obj", "measure zz", "measure", "measure a b", "inspect zz", "inspect", "inspect a b", "union zz a nope",
    "union u 9 a", "box a 0 0 0 1 1", "box a 0 0 0 1 1 x", "box a 0 0 0 1 1 99999999999", "box a 0 0 0 0 1 1",
    "box a 1 1 1 0 0 0", "box a 0 0 0 1 1 1.5e", "tetra a 0 0 0 0", "tetra a 0 0 0 -1", "tetra a 1073741824e-6 0 0 1",
    "prism a 0 0 0 1 0", "prism a 0 0 0 0 1", "lattice a 0 0", "lattice a 61 0", "lattice a 1 1000000", "lattice a +1 0",
    "lattice a 00000001 0", "lattice a 0000001 0", "lattice a 1 -1", "scale a a 0", "scale a a 1000001",
    "scale a a 1000000", "scale a a 1.0", "mirror a a X", "mirror a a w", "turn a a xy", "shift a a 1 2",
    "shift a a 1 2 3 4", "exact now", "exact", "tidy a", "remesh a", "remesh a zz", "remesh a a a", "polygon a 0 0 1 1",
    "polygon a 0 0 1 0 1", "polygon a 0 0 1 0 1 y", "polygon", "polygon a " + "1 " * 128, "polygon a " + "1 " * 130,
    "union2 a a a", "extrude a a 0 1", "extrude a a 1 1", "name_that_is_much_too_long_for_this 1",
    "measure name_that_is_much_too_long_for_this_", "measure a#b", "inspect 1", "# only a comment", "measure a # tail", "tidy zz zz",
]


class Script:
    """A script that is put together line by line. Of each name it knows what it has, and about how much of it."""

    def __init__(self, draw):
        self.draw, self.files, self.lines = draw, {}, []
        self.holds, self.weight = {}, {}
        self.digits = draw.choice([0, 0, 0, 0, 0, 0, 1, 4])
        self.top = draw.choice([2, 3, 3, 4, 6, 10])
        self.by = draw.choice([1, 1, 1, 1, 100]) if self.digits == 0 else 10 ** self.digits

    def numbers(self, *values):
        """Numbers of units as words."""
        return " ".join(draw_texts.spelled(self.draw, v * self.by, self.digits, self.draw.random() < 0.2).decode()
                        for v in values)

    def some(self, count, low=1):
        """So many random numbers."""
        return [self.draw.randint(low, self.top) for _ in range(count)]

    def old(self, kind="mesh", most=150):
        """A name that has this kind of thing, and not too much of it."""
        known = [n for n, k in self.holds.items() if k == kind and self.weight[n] <= most]
        return self.draw.choice(known) if known else None

    def give(self, line, name, weight, kind="mesh"):
        """A line that gives a name."""
        self.lines.append(line)
        self.holds[name], self.weight[name] = kind, weight

    def name(self):
        """Any of a few names, so that many are given again."""
        return self.draw.choice(NAMES)

    def load(self):
        """A file, and the line that loads it."""
        draw, name = self.draw, self.name()
        mesh = draw_meshes.of_any_size(draw, 30) if draw.random() < 0.4 else draw_meshes.closed(draw, self.top, 30)
        if draw.random() < 0.7:
            mesh = draw_meshes.closed(draw, self.top, 30)
            mesh = Mesh([tuple(max(-GRID, min(GRID, c * self.by)) for c in p) for p in mesh.points], mesh.triples)
        kind = "stl" if draw.random() < 0.15 else "obj"
        file = "%s%d.%s" % (draw.choice(["m", "part"]), len(self.files), kind)
        self.files[file] = draw_texts.stl(draw, mesh, self.digits) if kind == "stl" else \
            draw_texts.obj(draw, mesh, self.digits, 0.3)
        self.give("load %s %s" % (name, file), name, len(mesh.triples))

    def make(self):
        """A solid."""
        draw, name, low = self.draw, self.name(), self.some(3, 0)
        kind = draw.choice(["box"] * 11 + ["tetra"] * 4 + ["prism"] * 4 + ["lattice"])
        if kind == "box":
            words = self.numbers(*low, *[c + n for c, n in zip(low, self.some(3))])
        elif kind == "lattice":
            words = "%d %d" % (draw.choice([1, 1, 2]), draw.choice([0, 7, 999999]))
        else:
            words = self.numbers(*low, *self.some(1 if kind == "tetra" else 2))
        self.give("%s %s %s" % (kind, name, words), name, 96 if kind == "lattice" else 12)

    def move(self):
        """A motion of a mesh."""
        draw, name, old = self.draw, self.name(), self.old(most=2000)
        if old is None:
            return self.make()
        kind = draw.choice(["shift"] * 5 + ["scale"] + ["mirror"] * 2 + ["turn"] * 3)
        if kind == "shift":
            words = self.numbers(*self.some(3, -self.top))
        else:
            words = str(draw.choice([1, 2, 3, 2, 7])) if kind == "scale" else draw.choice("xyz")
        self.give("%s %s %s %s" % (kind, name, old, words), name, self.weight[old])

    def combine(self):
        """An operation on two meshes."""
        p, q, name = self.old(), self.old(), self.name()
        if p is None:
            return self.make()
        line = "%s %s %s %s" % (self.draw.choice(["union", "intersect", "subtract"]), name, p, q)
        self.give(line, name, 2 * (self.weight[p] + self.weight[q]))

    def rework(self):
        """A mesh tidied or remeshed."""
        old, name = self.old(most=300), self.name()
        if old is None:
            return self.make()
        self.give("%s %s %s" % (self.draw.choice(["tidy", "remesh", "remesh"]), name, old), name, self.weight[old])

    def tell(self):
        """A mesh measured, inspected or saved."""
        draw, old = self.draw, self.old(most=5000)
        if old is None:
            self.make()
        elif draw.random() < 0.4 and self.weight[old] <= 300:
            self.lines.append("inspect " + old)
        elif draw.random() < 0.6:
            self.lines.append("measure " + old)
        else:
            self.lines.append("save %s %s" % (old, draw.choice(["o.obj", "o2.obj", "o.stl", "q.OBJ"])))

    def outline(self):
        """A polygon, an operation on two outlines, or the solid over one."""
        draw, kind, name = self.draw, self.draw.random(), self.name()
        p, q = self.old("outline", 40), self.old("outline", 40)
        if kind < 0.4 or p is None:
            points = draw_meshes.ring(draw, self.top)
            if draw.random() < 0.05:
                points = [self.some(2, 0) for _ in range(draw.choice([3, 64, 20]))]
            self.give("polygon %s %s" % (name, self.numbers(*[c for at in points for c in at])), name, len(points),
                      "outline")
        elif kind < 0.75:
            command = draw.choice(["union2", "intersect2", "subtract2"])
            self.give("%s %s %s %s" % (command, name, p, q), name, 2 * (self.weight[p] + self.weight[q]), "outline")
        else:
            low = draw.randint(-2, 2)
            self.give("extrude %s %s %s" % (name, p, self.numbers(low, low + draw.randint(1, 4))), name,
                      4 * self.weight[p])

    def pins(self):
        """A big box and pins or tubes through its faces: faces with holes, and rings within holes."""
        draw, big, last = self.draw, self.draw.choice([20, 40]), None
        self.give("box a %s" % self.numbers(0, 0, 0, big, big, big), "a", 12)
        for _ in range(draw.randint(1, 5)):
            x, y, z = draw.randint(1, big - 4), draw.randint(1, big - 4), draw.choice([-5, 3, big // 2])
            most = draw.choice([big // 3, big // 8, big // 8])
            w, d, top = draw.randint(1, most), draw.randint(1, most), big + 5
            if draw.random() < 0.7:
                self.lines.append("box b %s" % self.numbers(x, y, z, x + w, y + d, top))
            else:
                self.lines.append("prism b %s" % self.numbers(x, y, z, w + 1, top - z))
            if draw.random() < 0.3 and w > 2 and d > 2:
                self.lines.append("box c %s" % self.numbers(x + 1, y + 1, z - 1, x + w - 1, y + d - 1, top + 1))
                self.lines.append("subtract b b c")
            if last:
                self.lines.append("union b b e")
            self.lines.append("shift e b 0 0 0")
            last = "e"
        if draw.random() < 0.3:
            axis = draw.choice("xyz")
            self.lines += ["turn e e " + axis, "turn a a " + axis]
        self.holds["e"], self.weight["e"] = "mesh", 60
        operation = draw.choice(["union", "intersect", "subtract", "subtract"])
        self.give("%s d %s" % (operation, draw.choice(["a e", "a e", "e a"])), "d", 150)

    def flush(self):
        """Boxes that share faces with the first one."""
        draw, n = self.draw, self.top
        self.give("box a %s" % self.numbers(0, 0, 0, n, n, n), "a", 12)
        for _ in range(draw.randint(1, 3)):
            low = [draw.choice([0, 0, draw.randint(0, n - 1)]) for _ in range(3)]
            axis = draw.randrange(3)
            low[axis] = draw.choice([-1, 0, n])
            high = [n if draw.random() < 0.6 else c + draw.randint(1, n) for c in low]
            high = [max(c + 1, h) for c, h in zip(low, high)]
            self.give("box b %s" % self.numbers(*low, *high), "b", 12)
            self.give("%s a a b" % draw.choice(["union", "union", "subtract"]), "a", self.weight["a"] * 2)
        self.give("remesh a a", "a", self.weight["a"])

    def text(self):
        """The whole script."""
        draw = self.draw
        if draw.random() < 0.3:
            self.lines.append("exact")
        draw.choice([self.pins, self.flush, self.load, self.make, self.make, self.make])()
        draw.choice([self.load, self.make, self.make])()
        for _ in range(draw.randint(2, 9)):
            draw.choice([self.combine] * 3 + [self.tell] * 3 + [self.outline] * 2
                        + [self.move, self.make, self.load, self.rework, self.rework])()
            if draw.random() < 0.03:
                self.lines.append("exact")
        for name, kind in self.holds.items():
            if kind == "mesh" and draw.random() < 0.7 and self.weight[name] <= 5000:
                self.lines.append("measure " + name)
                if self.weight[name] <= 300:
                    self.lines.append("inspect " + name)
                self.lines.append("save %s end_%s.%s" % (name, name, "obj" if draw.random() < 0.9 else "stl"))
        if draw.random() < 0.08:
            self.lines.insert(draw.randint(0, len(self.lines)), draw.choice(BAD_LINES))
        text = "".join(line + "\n" for line in self.lines).encode()
        return text if draw.random() < 0.9 else text.replace(b"\n", draw.choice([b"\r\n", b" # c\n", b"\n\n", b" \t\n"]))


def script(draw):
    """A script as s.txt with its files, and the digits."""
    made = Script(draw)
    text = made.text()
    return dict(made.files, **{"s.txt": text}), made.digits


def damaged_script(draw):
    """A script with lines that are at fault."""
    files, digits = script(draw)
    text = files["s.txt"]
    for _ in range(draw.choice([0, 1, 1, 2, 3])):
        text = draw_texts.damaged(draw, text)
    for _ in range(draw.choice([0, 0, 1, 2])):
        lines = text.split(b"\n")
        lines.insert(draw.randint(0, len(lines)), draw.choice(BAD_LINES).encode())
        text = b"\n".join(lines)
    return dict(files, **{"s.txt": draw_texts.MARK + text if draw.random() < 0.05 else text}), digits
