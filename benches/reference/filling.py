"""Loops of segments, and how they are filled with triangles: holes are joined to rings, and rings are cut by ears."""
from faults import Impossible
from mesh import cross

# The coordinates that are left where one axis is dropped.
FLAT = {2: lambda p: (p[0], p[1]), 1: lambda p: (p[2], p[0]), 0: lambda p: (p[1], p[2])}


def loops_of(segments):
    """The loops: the first segment that is left begins one, which goes on until it is back."""
    leaving = {}
    for start, end in segments:
        if start in leaving:
            raise Impossible("a vertex that starts two segments", segments)
        leaving[start] = end
    used, loops = set(), []
    for start, _ in segments:
        loop, v = [], start
        while v not in used:
            used.add(v)
            loop.append(v)
            v = leaving[v]
        if loop:
            loops.append(loop)
    return loops


def dropped_axis(a, b, c):
    """The axis that a face faces most; z before y before x."""
    sizes = [abs(n) for n in cross(a, b, c)]
    return max(axis for axis in range(3) if sizes[axis] == max(sizes))


def turn(a, b, c):
    """Twice the area of three places in the plane, above 0 where they turn left."""
    return (b[0] - a[0]) * (c[1] - a[1]) - (b[1] - a[1]) * (c[0] - a[0])


def pairs_round(loop):
    """The segments of a loop."""
    return list(zip(loop, loop[1:] + loop[:1]))


def area(loop, at):
    """Twice the area of a loop, above 0 where it runs to the left."""
    return sum(at[a][0] * at[b][1] - at[b][0] * at[a][1] for a, b in pairs_round(loop))


def have_common_point(a, b, c, d):
    """Whether two segments, with their ends, have one."""
    for i in (0, 1):
        if max(a[i], b[i]) < min(c[i], d[i]) or max(c[i], d[i]) < min(a[i], b[i]):
            return False

    def on_one_side(s, t):
        """Whether two turns go the same way."""
        return (s > 0 and t > 0) or (s < 0 and t < 0)
    return not on_one_side(turn(a, b, c), turn(a, b, d)) and not on_one_side(turn(c, d, a), turn(c, d, b))


def in_cone(p, s, n, t):
    """Whether the way from s to t goes inside the corner p, s, n."""
    if turn(p, s, n) >= 0:
        return turn(s, t, p) > 0 and turn(t, s, n) > 0
    return not (turn(s, t, n) >= 0 and turn(t, s, p) >= 0)


def from_rightmost(hole, at):
    """The hole from its rightmost vertex on; of several the highest, then the least."""
    k = hole.index(max(hole, key=lambda v: (at[v], -v)))
    return hole[k:] + hole[:k]


def is_clear(hole, ring, j, at, asked):
    """Whether the bridge from the hole's first vertex to a place of a ring runs inside and meets no other segment."""
    h, r = hole[0], ring[j]
    return (in_cone(at[hole[-1]], at[h], at[hole[1 % len(hole)]], at[r])
            and in_cone(at[ring[j - 1]], at[r], at[ring[(j + 1) % len(ring)]], at[h])
            and not any(have_common_point(at[h], at[r], at[a], at[b]) for a, b in asked
                        if h not in (a, b) and r not in (a, b)))


def best_bridge(hole, rings, at, asked):
    """The ring and the place that are clear and nearest, the first such ones; where none is clear, the nearest."""
    ranked = []
    for i, ring in enumerate(rings):
        for j, r in enumerate(ring):
            far = sum((at[hole[0]][k] - at[r][k]) ** 2 for k in (0, 1))
            ranked.append((far, i, j))
    ranked.sort()
    clear = ((i, j) for _, i, j in ranked if is_clear(hole, rings[i], j, at, asked))
    return next(clear, ranked[0][1:])


def join_holes(loops, at):
    """The loops of area at least 0, with each of the others joined by a bridge that is used both ways."""
    rings = [list(loop) for loop in loops if area(loop, at) >= 0]
    holes = [from_rightmost(list(loop), at) for loop in loops if area(loop, at) < 0]
    holes.sort(key=lambda hole: (-at[hole[0]][0], -at[hole[0]][1], hole[0]))
    for k, hole in enumerate(holes):
        asked = [pair for loop in rings + holes[k:] for pair in pairs_round(loop)]
        i, j = best_bridge(hole, rings, at, asked)
        ring = rings[i]
        rings[i] = ring[:j + 1] + hole + [hole[0], ring[j]] + ring[j + 1:]
    return rings


def is_allowed(ring, i):
    """Whether three different vertices are left without this place, and its neighbours differ."""
    return ring[i - 1] != ring[(i + 1) % len(ring)] and len(set(ring[:i] + ring[i + 1:])) > 2


def is_ear(ring, i, at):
    """Whether the triangle at an allowed place turns left and no other vertex lies in it or on its rim."""
    p, x, n = ring[i - 1], ring[i], ring[(i + 1) % len(ring)]
    a, b, c = at[p], at[x], at[n]
    if not is_allowed(ring, i) or turn(a, b, c) <= 0:
        return False
    return not any(v not in (p, x, n) and turn(a, b, at[v]) >= 0 and turn(b, c, at[v]) >= 0 and turn(c, a, at[v]) >= 0
                   for v in ring)


def cut_ring(ring, at):
    """The triangles of a ring, the first ear first, and how many were forced since there was no ear."""
    triples, forced = [], 0
    while len(ring) > 3:
        places = range(len(ring))
        i = next((i for i in places if is_ear(ring, i, at)), None)
        if i is None:
            forced += 1
            i = next(i for i in places if is_allowed(ring, i))
        triples.append((ring[i - 1], ring[i], ring[(i + 1) % len(ring)]))
        ring = ring[:i] + ring[i + 1:]
    return triples + [tuple(ring)], forced + (turn(*[at[v] for v in ring]) <= 0)


def fill_flat(loops, at):
    """The triangles of loops in the plane, and how many were forced. Loops that run to the right as a whole are seen
    from the other side."""
    if sum(area(loop, at) for loop in loops) < 0:
        at = {v: (at[v][1], at[v][0]) for loop in loops for v in loop}
    triples, forced = [], 0
    for ring in join_holes(loops, at):
        more, count = cut_ring(ring, at)
        triples += more
        forced += count
    return triples, forced


def fill(axis, loops, points):
    """The triangles of loops in space, seen along an axis."""
    return fill_flat(loops, {v: FLAT[axis](points[v]) for loop in loops for v in loop})
