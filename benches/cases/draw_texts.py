"""Random texts of meshes, in one of the many forms that a reader takes, and damaged ones."""
from grid import GRID, written
from obj import obj_text
from stl import stl_text
from texts import MARK

LABELS = [b"red", b"blue", b"body", b"a b", b"a  b", b"", b"x" * 70, b"x" * 63 + b" yy", b"w\\v", b"p\x7fq",
          b"t\x01u", b"\xc3\xa9", b"\xff\xfe", b"a # b", b"#c", b"default", b"x" * 64, b"x" * 65, b"ab " * 30]
ASIDE = [[b"vn", b"0", b"0", b"1"], [b"vt", b"0.5", b"x"], [b"s", b"off"], [b"o", b"part"], [b"usemtl", b"m"],
         [b"mtllib", b"a.mtl"], [b"l", b"1", b"2"], [b"p", b"1"], [b"#", b"comment", b"\\"]]
NASTY = [b"", b"#", b"\\", b"/", b"//", b"1/", b"1//", b"1/2/", b"0", b"-0", b"-1", b"-99", b"+1", b"1e", b"1e+", b".",
         b"-.", b".5", b"5.", b"1e-5", b"1E5", b"1e999", b"1e-999", b"0e99999999999999999999", b"nan", b"inf", b"0x10",
         b"1_0", b"99999999999", b"107374.1824", b"107374.18245", b"-107374.18244", b"107374.18244999", b"1073741824",
         b"1073741824.4", b"1073741824.5", b"1073741825", b"-1073741824.5", b"v", b"f", b"g", b"\xff", b"\x00",
         b"1\x0b2", b"\xc2\xa0", b"1,5", b"--1", b"1-", b"1e1.5", b"1.2.3", b"99999999999999999999999999",
         b"-99999999999999999999999999", b"1\r"]
BYTES = [b" ", b"\t", b"\r", b"\n", b"\\", b"#", b"/", b"-", b"0", b"9", b".", b"e", MARK, b"x", b"\x0c", b"\x00"]
BAD_LINES = [b"vp 1 2", b"curv 1", b"V 0 0 0", b"v 0 0", b"v", b"f", b"f 1 2", b"v 0 0 0 1 1 1 1", b"v 0 0 0 1 1 1 1 1",
             b"f 1 2 1", b"f 1 2 0", b"f 1 2 3 4 5 6 7", b"f -1 -2 -3", b"f 1 1 2", b"#\\", b"\\", b"bevel on",
             b"usemap x", b"gg", b"g", b"endsolid", b"solid", b"facet", b"vertex 0 0 0", b"facet normal 0 0 0 outer loop"]


def with_all_digits(size, digits):
    """The text of a number above 0 with all its digits after a point."""
    whole, rest = divmod(size, 10 ** digits)
    return b"%d.%s" % (whole, b"%0*d" % (digits, rest) if digits else b"")


def with_exponent(draw, size, digits):
    """The text of a number above 0 with an exponent."""
    more = draw.randint(0, 3)
    return b"%d%s%s%d" % (size * 10 ** more, draw.choice([b"e", b"E"]), draw.choice([b"-", b"-0"]), digits + more)


def rounded_to(draw, size, digits):
    """A text with more digits that is rounded to the number, which is above 0."""
    if size and draw.random() < 0.5:
        return with_all_digits(size - 1, digits) + draw.choice([b"5", b"51", b"9"])
    return with_all_digits(size, digits) + draw.choice([b"4", b"49", b"0001"])


def spelled(draw, value, digits, is_fancy=True):
    """A text of a number of steps."""
    kind = draw.random()
    if not is_fancy or kind < 0.6:
        return written(value, digits)
    sign = b"-" if value < 0 else draw.choice([b"", b"", b"+"])
    size = abs(value)
    if kind < 0.7:
        return sign + with_all_digits(size, digits) + b"0" * draw.randint(0, 3)
    if kind < 0.8:
        return sign + with_exponent(draw, size, digits)
    if kind < 0.9 and size < GRID:
        return sign + rounded_to(draw, size, digits)
    return sign + b"0" * draw.randint(1, 3) + written(size, digits)


class ObjText:
    """An OBJ text that is put together line by line."""

    def __init__(self, draw, mesh, digits):
        self.draw, self.mesh, self.digits = draw, mesh, digits
        self.ends = draw.choice([[b"\n"], [b"\n"], [b"\r\n"], [b"\n", b"\r\n"]])
        self.is_fancy, self.has_spares = draw.random() < 0.7, draw.random() < 0.3
        self.out, self.place, self.count = [], {}, 0

    def blank(self):
        """Blanks between two words."""
        return self.draw.choice([b" "] * 4 + [b"  ", b"\t", b" \t "]) if self.is_fancy else b" "

    def emit(self, words):
        """A line of these words, which may go on in the next one and may have a comment."""
        draw, line = self.draw, words[0]
        for word in words[1:]:
            if self.is_fancy and draw.random() < 0.05:
                line += self.blank() + b"\\" + draw.choice(self.ends) + draw.choice([b"", b" "])
            else:
                line += self.blank()
            line += word
        if self.is_fancy and draw.random() < 0.05:
            line += self.blank() + b"# " + draw.choice([b"note", b"v 1", b"\\x", b""])
        if self.is_fancy and draw.random() < 0.05:
            line = self.blank() + line
        self.out.append(line + draw.choice(self.ends))

    def vertex(self, v):
        """The line of a point, once, maybe after one of a point that nothing uses."""
        draw = self.draw
        if v in self.place:
            return
        if self.has_spares and draw.random() < 0.1:
            self.emit([b"v", b"%d" % draw.randint(0, 9), b"0", b"1"])
            self.count += 1
        words = [b"v"] + [spelled(draw, c, self.digits, self.is_fancy) for c in self.mesh.points[v]]
        if self.is_fancy and draw.random() < 0.1:
            words += [draw.choice([b"1", b"0.5", b"junk", b"nan"])] * draw.randint(1, 4)
        self.emit(words)
        self.place[v] = self.count
        self.count += 1

    def item(self, v):
        """A point as a face names it."""
        draw, n = self.draw, self.place[v] + 1
        item = b"%d" % n
        if self.is_fancy and draw.random() < 0.2:
            item = b"-%d" % (self.count - n + 1)
        elif self.is_fancy and draw.random() < 0.05:
            item = b"00" + item
        if self.is_fancy and draw.random() < 0.2:
            item += draw.choice([b"/1", b"//1", b"/1/1", b"/-2/0", b"//-7", b"/999999999999"])
        return item

    def aside(self):
        """A line that is passed over, or a group."""
        draw = self.draw
        if self.is_fancy and draw.random() < 0.15:
            self.emit(draw.choice(ASIDE))
            if draw.random() < 0.2:
                self.out.append(draw.choice([b"\n", b" \n", b"\t\r\n", b"#\\\n", b"#note \\\n"]))

    def corners_from(self, t):
        """The corners of a face that begins with a triple, and goes on over those that form a fan with it."""
        named = list(self.mesh.triples[t])
        for a, b, c in self.mesh.triples[t + 1:]:
            if not self.is_fancy or (a, b) != (named[0], named[-1]) or c in named or self.draw.random() < 0.3:
                break
            named.append(c)
        return named

    def text(self):
        """The whole text: points before all faces, or each before its first face."""
        draw, t = self.draw, 0
        if draw.random() < 0.5:
            for v in range(len(self.mesh.points)):
                self.vertex(v)
        has_groups = draw.random() < 0.5
        while t < len(self.mesh.triples):
            self.aside()
            if has_groups and draw.random() < 0.3:
                self.emit([b"g", draw.choice(LABELS)])
            named = self.corners_from(t)
            t += len(named) - 2
            for v in named:
                self.vertex(v)
            self.emit([b"f"] + [self.item(v) for v in named])
        return b"".join(self.out)


def obj(draw, mesh, digits, wild=0.7):
    """An OBJ text of a mesh."""
    if draw.random() > wild:
        return obj_text(mesh, digits)
    text = ObjText(draw, mesh, digits).text()
    if draw.random() < 0.1:
        text = MARK + text
    if draw.random() < 0.2:
        text = text.rstrip(b"\r\n") + draw.choice([b"", b"", b"\r", b"\\", b" \\", b" "])
    return text


def cased(draw, word):
    """A word in whichever case."""
    return word if draw.random() < 0.8 else bytes(draw.choice([c, c ^ 32]) for c in word)


def facet(draw, mesh, triple, digits):
    """The lines of a facet."""
    lines = [cased(draw, b"facet") + b" " + cased(draw, b"normal") + b" "
             + draw.choice([b"0 0 0", b"nan nan nan", b"1e9 x y", b"vertex vertex vertex"]),
             cased(draw, b"outer") + b" " + cased(draw, b"loop")]
    for v in triple:
        lines.append(b" ".join([cased(draw, b"vertex")] + [spelled(draw, c, digits) for c in mesh.points[v]]))
    return lines + [cased(draw, b"endloop"), cased(draw, b"endfacet")]


def stl(draw, mesh, digits):
    """An STL text of a mesh."""
    if draw.random() < 0.3:
        return stl_text(mesh, digits)
    end = draw.choice([b"\n", b"\r\n"])
    out = [cased(draw, b"solid") + draw.choice([b"", b" name", b" solid facet", b" endsolid"]) + end]
    for triple in mesh.triples:
        if draw.random() < 0.05:
            out.append(cased(draw, b"endsolid") + draw.choice([b"", b" x solid y"]) + end + b"solid again" + end)
        between = draw.choice([end, end, end, b" ", end + end, b"\t"])
        out.append(between.join(facet(draw, mesh, triple, digits)) + end)
    out.append(cased(draw, b"endsolid") + draw.choice([b"", b" name"]) + draw.choice([b"", end, end + end]))
    return (MARK if draw.random() < 0.05 else b"") + b"".join(out)


def damaged_line(draw, lines):
    """One damage to the words or the order of lines."""
    at, kind = draw.randrange(len(lines)), draw.random()
    if kind < 0.5:
        words = lines[at].split(b" ")
        words[draw.randrange(len(words))] = draw.choice(NASTY)
        lines[at] = b" ".join(words)
    elif kind < 0.6:
        del lines[at]
    elif kind < 0.7:
        lines.insert(at, draw.choice(lines))
    elif kind < 0.8:
        lines[at] += draw.choice([b" ", b" ", b""]) + draw.choice(NASTY + [b"\\", b" \\", b"#c \\"])
    elif kind < 0.9:
        other = draw.randrange(len(lines))
        lines[at], lines[other] = lines[other], lines[at]
    else:
        lines.insert(at, draw.choice(BAD_LINES))
    return lines


def damaged(draw, text):
    """One damage to a text: of its bytes, words or lines."""
    kind = draw.random()
    if kind < 0.2 and text:
        at = draw.randrange(len(text))
        return text[:at] + text[at + 1:]
    if kind < 0.35:
        at = draw.randint(0, len(text))
        return text[:at] + draw.choice(BYTES) + text[at:]
    if kind < 0.45 and text:
        return text[:draw.randrange(len(text))]
    return b"\n".join(damaged_line(draw, text.split(b"\n")))


def nasty(draw):
    """A text of nothing but odd words."""
    words = NASTY + [b"v", b"v", b"f", b"0 0 0", b"1 2 3"]
    return b"\n".join(b" ".join(draw.choice(words) for _ in range(draw.randint(1, 5)))
                      for _ in range(draw.randint(1, 12)))
