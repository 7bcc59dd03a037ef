"""Draws OBJ files as one SVG picture, seen from afar: fills from far to near, then the parts of lines that nothing hides, one light.

Usage: draw.py OUT.svg [--turn DEGREES] [--tilt DEGREES] [--width PIXELS] [--unit PIXELS] [--all] [--flat] [--groups] [--on FILE.obj[=COLOUR]].. FILE.obj[=COLOUR]..

The picture turns about the upright axis z by --turn and is seen from --tilt above the level. It is --width wide, or has --unit pixels for a unit
of the file. Lines are drawn where faces meet at an angle; --all draws those of all triangles. --flat draws triangles
without area, which are lines, in red. COLOUR is six hexadecimal digits. --groups gives each group of
faces a colour of its own, in the order in which they come; faces without one have the file's. --on gives a colour to the faces that lie on those of a file:
so a cut shows whose tool made it. Where a mesh is open, its insides are drawn too, in red, and its open edges thick.

Triangles that overlap in the picture are found by a grid over it and put in order pair by pair; one that cuts another is cut along the other's plane."""
import heapq, math, sys

COLOURS = ["8fb3d9", "e3b565", "9cc38a", "c79fcf", "d98f8f"]
GROUPS = ["8fb3d9", "9cc38a", "e3b565", "d98f8f", "c79fcf", "7fbfb5", "d9a0bf", "b5b56a"]
CUT = "e3b565"
LIGHT = (-0.35, 0.55, 0.76)  # right, up, to the eye
INSIDE = "c0504d"


def sub(a, b):
    return (a[0] - b[0], a[1] - b[1], a[2] - b[2])


def dot(a, b):
    return a[0] * b[0] + a[1] * b[1] + a[2] * b[2]


def cross(a, b):
    return (a[1] * b[2] - a[2] * b[1], a[2] * b[0] - a[0] * b[2], a[0] * b[1] - a[1] * b[0])


def unit(a):
    size = math.sqrt(dot(a, a))
    return (a[0] / size, a[1] / size, a[2] / size) if size else None


def read(name):
    """The points and triangles of an OBJ file, and the group of each triangle; a face of n items is n - 2 triangles."""
    points, triangles, groups, group = [], [], [], ""
    text = open(name, encoding="utf-8", errors="replace").read().replace("\\\n", " ")
    for line in text.split("\n"):
        words = line.split()
        words = words[:next((k for k, word in enumerate(words) if word.startswith("#")), len(words))]
        if words and words[0] == "v":
            points.append(tuple(float(word) for word in words[1:4]))
        elif words and words[0] == "f":
            items = [int(word.split("/")[0]) for word in words[1:]]
            items = [i - 1 if i > 0 else len(points) + i for i in items]
            triangles += [(items[0], a, b) for a, b in zip(items[1:], items[2:])]
            groups += [group] * (len(items) - 2)
        elif words and words[0] == "g":
            group = " ".join(words[1:])
    return points, triangles, groups


def seen(point, turn, tilt):
    """The point as it is seen: x to the right, y up, z to the eye."""
    x, y, z = point
    x, y = x * math.cos(turn) - y * math.sin(turn), x * math.sin(turn) + y * math.cos(turn)
    return (x, z * math.cos(tilt) + y * math.sin(tilt), z * math.sin(tilt) - y * math.cos(tilt))


def normal_of(a, b, c, least):
    """None for a triangle whose corners lie on a line, or nearly so."""
    whole = cross(sub(b, a), sub(c, a))
    longest = max(dot(d, d) for d in (sub(b, a), sub(c, b), sub(a, c)))
    return unit(whole) if dot(whole, whole) > longest * least * least else None


def longest(points, triangle):
    """The longest edge of a triangle."""
    edges = [(min(a, b), max(a, b)) for a, b in zip(triangle, triangle[1:] + triangle[:1])]
    return max(edges, key=lambda e: dot(sub(points[e[0]], points[e[1]]), sub(points[e[0]], points[e[1]])))


def open_edges(triangles):
    count = {}
    for t in triangles:
        for a, b in zip(t, t[1:] + t[:1]):
            count[a, b] = count.get((a, b), 0) + 1
            count[b, a] = count.get((b, a), 0) - 1
    return {edge for edge, n in count.items() if n}


def lines_of(points, triangles, normals, every):
    """The edges to draw, as pairs of vertices in either order: 1 where faces meet at an angle, 2 where one is open."""
    beside = {}
    for t, n in zip(triangles, normals):
        for a, b in zip(t, t[1:] + t[:1]):
            beside.setdefault((min(a, b), max(a, b)), []).append(n)
    # A flat triangle has no normal: its longest edge lies on the other two, so what is beside the one is beside the others.
    for t, n in zip(triangles, normals):
        if not n:
            three = [(min(a, b), max(a, b)) for a, b in zip(t, t[1:] + t[:1])]
            three.sort(key=lambda e: dot(sub(points[e[0]], points[e[1]]), sub(points[e[0]], points[e[1]])))
            before = [[m for m in beside[e] if m] for e in three]
            for e, others in zip(three, (before[2], before[2], before[0] + before[1])):
                beside[e] = beside[e] + others
    drawn = {}
    for edge, around in beside.items():
        around = [n for n in around if n]
        is_sharp = any(dot(around[0], n) < 0.92 for n in around[1:])
        is_rim = any(n[2] > 1e-9 for n in around) and any(n[2] <= 1e-9 for n in around)
        is_seen = any(n[2] > 1e-9 for n in around)
        if is_seen and (every or is_sharp or is_rim):
            drawn[edge] = 1
    for a, b in open_edges(triangles):
        drawn[min(a, b), max(a, b)] = 2
    return drawn


class Faces:
    """The triangles of a mesh, asked whether a point lies on one of them; they are gathered by their planes."""

    def __init__(self, points, triangles, near):
        self.near, self.planes = near, {}
        for t in triangles:
            a, b, c = (points[v] for v in t)
            n = normal_of(a, b, c, 1e-9)
            if n:
                plane = tuple(round(u, 4) + 0.0 for u in n)
                self.planes.setdefault(plane, []).append((n, a, b, c))

    def have(self, corners, normal):
        """Whether a triangle lies on one of these faces, whichever way it looks."""
        middle = tuple(sum(p[i] for p in corners) / 3 for i in range(3))
        for plane, faces in self.planes.items():
            if abs(dot(plane, normal)) < 0.999:
                continue
            for n, a, b, c in faces:
                if all(abs(dot(n, sub(p, a))) < self.near for p in corners):
                    if all(dot(n, cross(sub(v, u), sub(middle, u))) >= -self.near * self.near for u, v in ((a, b), (b, c), (c, a))):
                        return True
        return False


class Piece:
    """A convex part of a face as it is seen: its corners counter-clockwise in the picture, its plane, and its colour."""

    def __init__(self, corners, normal, shade):
        self.corners, self.normal, self.shade = corners, normal, shade
        self.level = dot(normal, corners[0])
        self.low = (min(p[0] for p in corners), min(p[1] for p in corners))
        self.high = (max(p[0] for p in corners), max(p[1] for p in corners))

    def depth(self, x, y):
        return (self.level - self.normal[0] * x - self.normal[1] * y) / self.normal[2]


def pieces_of(file, colour, on, turn, tilt, every, flat, colours):
    """What there is to draw of one mesh: pieces, and lines as pairs of points with a kind. Colours of groups are in the map, to which new ones are added."""
    points, triangles, groups = read(file)
    for group in groups if colours is not None else ():
        if group and group not in colours:
            colours[group] = GROUPS[len(colours) % len(GROUPS)]
    points = [seen(p, turn, tilt) for p in points]
    least = 2e-5 * max(abs(c) for p in points for c in p) if points else 0
    normals = [normal_of(points[a], points[b], points[c], least) for a, b, c in triangles]
    drawn = lines_of(points, triangles, normals, every)
    is_open = any(n == 2 for n in drawn.values())
    pieces = []
    for t, n, group in zip(triangles, normals, groups):
        if not n or abs(n[2]) < 1e-6 or (n[2] < 0 and not is_open):
            continue
        corners = [points[v] for v in t]
        shade = (colours or {}).get(group, colour) if n[2] > 0 else INSIDE
        for faces, its in on:
            shade = its if n[2] > 0 and faces.have(corners, n) else shade
        facing, corners = (n, corners) if n[2] > 0 else ((-n[0], -n[1], -n[2]), corners[::-1])
        lit = 0.55 + 0.45 * max(0.0, dot(facing, unit(LIGHT)))
        pieces.append(Piece(corners, facing, "".join("%02x" % min(255, round(int(shade[i : i + 2], 16) * lit)) for i in (0, 2, 4))))
    if flat:
        drawn.update((longest(points, t), 2) for t, n in zip(triangles, normals) if not n)
    return pieces, [(points[a], points[b], kind) for (a, b), kind in drawn.items()]


class Cells:
    """A grid over the picture: which things lie in which of its cells."""

    def __init__(self, low, high, many):
        self.low = low
        self.size = max(high[0] - low[0], high[1] - low[1], 1e-9) / max(1.0, math.sqrt(many))
        self.held = {}

    def of(self, corners):
        """The cells that a convex outline or a line touches, row by row."""
        rows = [int((p[1] - self.low[1]) // self.size) for p in corners]
        for row in range(min(rows), max(rows) + 1):
            foot = self.low[1] + row * self.size
            found = []
            for p, q in zip(corners, corners[1:] + corners[:1]):
                if p[1] > q[1]:
                    p, q = q, p
                if q[1] < foot or p[1] > foot + self.size:
                    continue
                for level in (max(foot, p[1]), min(foot + self.size, q[1])):
                    part = (level - p[1]) / (q[1] - p[1]) if q[1] > p[1] else 0.0
                    found.append(p[0] + (q[0] - p[0]) * part)
                found += [p[0], q[0]] if q[1] == p[1] else []
            if found:
                first, last = (int((x - self.low[0]) // self.size) for x in (min(found), max(found)))
                for column in range(first, last + 1):
                    yield row, column

    def put(self, corners, number):
        for cell in self.of(corners):
            self.held.setdefault(cell, []).append(number)


def both(a, b, least):
    """What two pieces have in common in the picture, as an outline; None where that is nothing or a line."""
    if a.high[0] - b.low[0] < least or b.high[0] - a.low[0] < least or a.high[1] - b.low[1] < least or b.high[1] - a.low[1] < least:
        return None
    left = [p[:2] for p in a.corners]
    for p, q in zip(b.corners, b.corners[1:] + b.corners[:1]):
        size = math.hypot(q[0] - p[0], q[1] - p[1])
        if size < least:
            continue
        heights = [((q[0] - p[0]) * (c[1] - p[1]) - (q[1] - p[1]) * (c[0] - p[0])) / size for c in left]
        if max(heights) < least:
            return None
        if min(heights) >= 0:
            continue
        kept = []
        for i, (c, h) in enumerate(zip(left, heights)):
            d, k = left[(i + 1) % len(left)], heights[(i + 1) % len(left)]
            if h >= 0:
                kept.append(c)
            if h * k < 0:
                kept.append((c[0] + (d[0] - c[0]) * h / (h - k), c[1] + (d[1] - c[1]) * h / (h - k)))
        left = kept
    return left if len(left) > 2 else None


def compared(a, b, least):
    """1 where a is before b, -1 where b is before a, 2 where they cut one another, 0 where neither hides the other."""
    common = both(a, b, least)
    if not common:
        return 0
    gaps = [a.depth(x, y) - b.depth(x, y) for x, y in common]
    is_before, is_behind = max(gaps) > 10 * least, min(gaps) < -10 * least
    if is_before and is_behind:
        return 2
    return 1 if is_before else -1 if is_behind else 0


def cut(piece, plane, least):
    """The parts of a piece on either side of another's plane, without those that are too small."""
    heights = [dot(plane.normal, p) - plane.level for p in piece.corners]
    heights = [0.0 if abs(h) < least else h for h in heights]
    parts = []
    for side in (1, -1):
        kept = []
        for i, (p, h) in enumerate(zip(piece.corners, heights)):
            q, k = piece.corners[(i + 1) % len(heights)], heights[(i + 1) % len(heights)]
            if h * side >= 0:
                kept.append(p)
            if h * k < 0:
                kept.append(tuple(u + (v - u) * h / (h - k) for u, v in zip(p, q)))
        if len(kept) > 2 and any(h * side > 0 for h in heights):
            parts.append(Piece(kept, piece.normal, piece.shade))
    return parts


def in_order(pieces, cells, least):
    """The pieces from far to near, cut where they cut one another."""
    pairs = {(a, b) for held in cells.held.values() for i, a in enumerate(held) for b in held[:i]}
    before, parts = [], [[piece] for piece in pieces]
    found = [(a, b, compared(pieces[a], pieces[b], least)) for a, b in sorted(pairs)]
    for a, b, how in found:
        if how == 2:
            parts[a] = [part for whole in parts[a] for part in (cut(whole, pieces[b], least) if compared(whole, pieces[b], least) == 2 else [whole])]
    places, done = [], []
    for of in parts:
        places.append(range(len(done), len(done) + len(of)))
        done += of
    for a, b, how in found:
        if how in (1, -1) and len(parts[a]) == len(parts[b]) == 1:
            before.append((places[a][0], places[b][0]) if how == 1 else (places[b][0], places[a][0]))
        elif how:
            for i in places[a]:
                for j in places[b]:
                    part = compared(done[i], done[j], least)
                    if part:
                        before.append((i, j) if part > 0 else (j, i))
    return drawn_in_order(done, before)


def drawn_in_order(pieces, before):
    """Each piece after all that it hides. Of pieces that may come next, those of the last one's colour come first; in a ring of pieces the farthest does."""
    hides, waits = [[] for _ in pieces], [0] * len(pieces)
    for near, far in before:
        hides[far].append(near)
        waits[near] += 1
    middle = [sum(p[2] for p in piece.corners) / len(piece.corners) for piece in pieces]
    ready, left, done = {}, sorted(range(len(pieces)), key=lambda k: -middle[k]), []
    is_done, shades = [False] * len(pieces), []

    def release(k):
        held = ready.setdefault(pieces[k].shade, [])
        if not held:
            heapq.heappush(shades, (k, pieces[k].shade))
        held.append(k)

    for k in range(len(pieces)):
        if not waits[k]:
            release(k)
    last = None
    while len(done) < len(pieces):
        if not ready.get(last):
            while shades and not ready.get(shades[0][1]):
                heapq.heappop(shades)
            if not shades:
                while is_done[left[-1]] or waits[left[-1]] <= 0:
                    left.pop()
                waits[left[-1]] = 0
                release(left[-1])
            last = shades[0][1]
        k = ready[last].pop()
        if is_done[k]:
            continue
        is_done[k] = True
        done.append(pieces[k])
        for near in hides[k]:
            waits[near] -= 1
            if not waits[near]:
                release(near)
    return done


def hidden(p, q, piece, least, gap):
    """The part of the line from p to q that lies behind the piece, from and to in parts of it; None where there is none."""
    start, end = 0.0, 1.0
    sides = [((d[0] - c[0]), (d[1] - c[1]), c) for c, d in zip(piece.corners, piece.corners[1:] + piece.corners[:1])]
    limits = []
    for dx, dy, c in sides:
        size = math.hypot(dx, dy)
        if size > least:
            limits.append(tuple((dx * (r[1] - c[1]) - dy * (r[0] - c[0])) / size - least for r in (p, q)))
    limits.append(tuple(piece.depth(r[0], r[1]) - r[2] - gap for r in (p, q)))
    for h, k in limits:
        if h <= 0 and k <= 0:
            return None
        if h < 0:
            start = max(start, h / (h - k))
        elif k < 0:
            end = min(end, h / (h - k))
    return (start, end) if end > start else None


def seen_parts(line, pieces, cells, least, gap):
    """The parts of a line that no piece hides, without specks: parts that are shorter than three gaps, of a line that is longer."""
    p, q, kind = line
    numbers = {k for cell in cells.of([p, q]) for k in cells.held.get(cell, ())}
    covered = sorted(it for it in (hidden(p, q, pieces[k], least, gap) for k in numbers) if it)
    at, parts = 0.0, []
    for start, end in covered + [(1.0, 1.0)]:
        if start - at > min(0.99, 3 * gap / max(gap, math.hypot(q[0] - p[0], q[1] - p[1]))):
            parts.append(tuple(tuple(u + (v - u) * s for u, v in zip(p, q)) for s in (at, start)))
        at = max(at, end)
    return [(a, b, kind) for a, b in parts]


def picture(pieces, lines, width, factor):
    corners = [p for piece in pieces for p in piece.corners]
    low = [min(p[i] for p in corners) for i in (0, 1)]
    high = [max(p[i] for p in corners) for i in (0, 1)]
    size = max(high[0] - low[0], high[1] - low[1]) or 1.0
    factor, rim = factor or (width - 20) / size, 10.0
    height = (high[1] - low[1]) * factor + 2 * rim
    width = (high[0] - low[0]) * factor + 2 * rim
    least = size * 1e-6
    cells = Cells(low, high, len(pieces))
    for k, piece in enumerate(pieces):
        cells.put(piece.corners, k)

    def at(p):
        return "%.1f %.1f" % ((p[0] - low[0]) * factor + rim, (high[1] - p[1]) * factor + rim)

    out = ['<svg xmlns="http://www.w3.org/2000/svg" viewBox="0 0 %.0f %.0f" width="%.0f" height="%.0f">' % (width, height, width, height)]
    out.append('<g stroke-linejoin="round" stroke-linecap="round">')
    paths = []
    for piece in in_order(pieces, cells, least):
        if not paths or paths[-1][0] != piece.shade:
            paths.append((piece.shade, []))
        paths[-1][1].append("M" + "L".join(at(p) for p in piece.corners) + "Z")
    out += ['<path d="%s" fill="#%s" stroke="#%s" stroke-width="0.7"/>' % ("".join(path), shade, shade) for shade, path in paths]
    parts = [part for line in lines for part in seen_parts(line, pieces, cells, least, size * 1e-3)]
    for kind, how in ((1, 'stroke="#1d2733" stroke-width="1"'), (2, 'stroke="#d00000" stroke-width="3"')):
        ends = ["M%sL%s" % (at(p), at(q)) for p, q, its in parts if its == kind and at(p) != at(q)]
        if ends:
            out.append('<path d="%s" fill="none" %s/>' % ("".join(ends), how))
    return "\n".join(out + ["</g>", "</svg>", ""])


def main(words):
    options = {"--turn": "-30", "--tilt": "28", "--width": "480", "--unit": "0"}
    every, flat, colours, files, tools = False, False, None, [], []
    words = iter(words)
    for word in words:
        if word == "--all":
            every = True
        elif word == "--flat":
            flat = True
        elif word == "--groups":
            colours = {}
        elif word == "--on":
            tools.append(next(words, ""))
        elif word in options:
            options[word] = next(words, "")
        else:
            files.append(word)
    if len(files) < 2:
        sys.exit(__doc__)
    turn, tilt = math.radians(float(options["--turn"])), math.radians(float(options["--tilt"]))
    on, pieces, lines = [], [], []
    for tool in tools:
        name, _, colour = tool.partition("=")
        points, triangles, _ = read(name)
        points = [seen(p, turn, tilt) for p in points]
        on.append((Faces(points, triangles, 1e-4 * max(abs(c) for p in points for c in p)), colour or CUT))
    for k, file in enumerate(files[1:]):
        name, _, colour = file.partition("=")
        its, edges = pieces_of(name, colour or COLOURS[k % len(COLOURS)], on, turn, tilt, every, flat, colours)
        pieces += its
        lines += edges
    if not pieces:
        sys.exit("draw.py: there is nothing to draw")
    with open(files[0], "w") as out:
        out.write(picture(pieces, lines, int(options["--width"]), float(options["--unit"])))


if __name__ == "__main__":
    try:
        main(sys.argv[1:])
    except (OSError, ValueError, TypeError, IndexError) as error:
        sys.exit("draw.py: %s" % error)
