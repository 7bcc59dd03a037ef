"""What another program will see in a mesh: its least box, flat triangles, points at one place, edges of more than two triangles, and pairs of triangles that cut
one another; by all pairs, in whole numbers and fractions."""
from fractions import Fraction
from itertools import combinations


def less(p, q):
    return tuple(a - b for a, b in zip(p, q))


def cross(e, f):
    return (e[1] * f[2] - e[2] * f[1], e[2] * f[0] - e[0] * f[2], e[0] * f[1] - e[1] * f[0])


def scalar(e, f):
    return sum(a * b for a, b in zip(e, f))


def normal(corners):
    return cross(less(corners[1], corners[0]), less(corners[2], corners[0]))


def is_flat(corners):
    """Whether three places lie on a line."""
    return normal(corners) == (0, 0, 0)


def low_high(points):
    """The corners of the least box that holds all points."""
    if not points:
        return (0, 0, 0), (0, 0, 0)
    axes = list(zip(*points))
    return tuple(map(min, axes)), tuple(map(max, axes))


def doubled(points):
    """How many points have an earlier one at their place."""
    return len(points) - len(set(points))


def touching(full):
    """How many pairs of places are an edge of more than two of some triangles, none of them flat."""
    uses = {}
    for corners in full:
        for edge in combinations(sorted(corners), 2):
            uses[edge] = uses.get(edge, 0) + 1
    return sum(count > 2 for count in uses.values())


def part_within(p, q, corners):
    """The part of an edge that lies in a closed triangle: the least and the greatest s, from 0 to 1, of p + s (q - p), or None."""
    n, way = normal(corners), less(q, p)
    rise, height = scalar(n, way), scalar(n, less(p, corners[0]))
    low, high = Fraction(0), Fraction(1)
    if rise == 0:
        if height != 0:
            return None
    else:
        low = high = Fraction(-height, rise)
        if not 0 <= low <= 1:
            return None
    for i in range(3):
        u, v = corners[i], corners[(i + 1) % 3]
        inwards = cross(n, less(v, u))
        start, grow = scalar(inwards, less(p, u)), scalar(inwards, way)
        if grow == 0:
            if start < 0:
                return None
        elif grow > 0:
            low = max(low, Fraction(-start, grow))
        else:
            high = min(high, Fraction(-start, grow))
    return (low, high) if low <= high else None


def along(p, q, s):
    return tuple(a + s * (b - a) for a, b in zip(p, q))


def in_hull(point, places):
    """Whether a point lies in the hull of at most two places."""
    if len(places) < 2:
        return point in places
    p, q = places
    way, there = less(q, p), less(point, p)
    return cross(way, there) == (0, 0, 0) and 0 <= scalar(way, there) <= scalar(way, way)


def has_edge_point(first, second, shared):
    """Whether an edge of the first has a point in the second that is not in the hull of what both share. The hull is convex, so
    it is enough to look at both ends of the part of the edge."""
    for i in range(3):
        p, q = first[i], first[(i + 1) % 3]
        part = part_within(p, q, second)
        if part and not all(in_hull(along(p, q, s), shared) for s in part):
            return True
    return False


def are_apart(first, second):
    """Whether on some axis all of one lies below all of the other, so that they have no common point."""
    return any(max(p) < min(q) or max(q) < min(p) for p, q in zip(zip(*first), zip(*second)))


def cut(first, second):
    """Whether two triangles, neither of them flat, have a common point beyond what they share."""
    if are_apart(first, second):
        return False
    shared = sorted(set(first) & set(second))
    return len(shared) == 3 or has_edge_point(first, second, shared) or has_edge_point(second, first, shared)


def inspect(points, triples):
    """The corners of the box; then the counts of flat triangles, doubled points, edges that touch, and pairs that cut one another."""
    all_corners = [tuple(points[v] for v in t) for t in triples]
    full = [corners for corners in all_corners if not is_flat(corners)]
    low, high = low_high(points)
    cuts = sum(cut(s, t) for s, t in combinations(full, 2))
    return low, high, len(all_corners) - len(full), doubled(points), touching(full), cuts
