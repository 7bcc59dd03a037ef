"""Twins where more than two triangles meet in an edge, by the angle round it, and one vertex for each fan."""
from functools import cmp_to_key

from mesh import Mesh, cross, dot, fans_in_order, fans_of, half_edge
from planes import ORIGIN, minus, sign


def round_edge(points, triples, x, y, halves):
    """The half-edges between x and y in the order of their triangles' angle about the axis from x to y."""
    axis = minus(points[y], points[x])
    third = {h: minus(points[triples[h // 3][(h + 2) % 3]], points[x]) for h in halves}
    zero = cross(ORIGIN, axis, third[halves[0]])

    def quarter(h):
        """Where a triangle lies: with the first one, before the half of the way round, at it, or after."""
        side = dot(zero, third[h])
        if side:
            return 1 if side > 0 else 3
        here = cross(ORIGIN, axis, third[h])
        i = next(i for i in range(3) if zero[i])
        return 0 if sign(here[i]) == sign(zero[i]) else 2

    def compare(g, h):
        """The order of two half-edges by angle, then by number."""
        return quarter(g) - quarter(h) or -sign(dot(cross(ORIGIN, axis, third[g]), third[h])) or g - h
    return sorted(halves, key=cmp_to_key(compare))


def matched(halves, triples, end):
    """Half-edges that come back with those that go, as brackets match, twice round."""
    twin, entered = {}, []
    for h in halves * 2:
        if h in twin:
            continue
        if half_edge(triples, h)[0] == end:
            if h not in entered:
                entered.append(h)
        elif entered:
            g = entered.pop()
            twin[h], twin[g] = g, h
    return twin


def twins_by_angle(points, triples):
    """Each half-edge with its twin: where an edge has more than two, those between which the solid lies."""
    at_edge, twins = {}, [None] * (3 * len(triples))
    for h in range(3 * len(triples)):
        a, b = half_edge(triples, h)
        at_edge.setdefault((min(a, b), max(a, b)), []).append(h)
    for (x, y), halves in at_edge.items():
        order = round_edge(points, triples, x, y, halves) if len(halves) > 2 else halves
        for h, g in matched(order, triples, y).items():
            twins[h] = g
    return twins


def first_repeated(triples):
    """The first half-edge that runs as one before it, and that one; or none."""
    first = {}
    for h in range(3 * len(triples)):
        g = first.setdefault(half_edge(triples, h), h)
        if g != h:
            return g, h
    return None


def parted(points, triples, labels):
    """One vertex for each fan. While two half-edges then run between the same two vertices, they exchange their twins."""
    twins = twins_by_angle(points, triples)
    while True:
        least = fans_of(triples, twins)
        order = fans_in_order(triples, least)
        number = {h: k for k, h in enumerate(order)}
        renamed = [tuple(number[least[3 * t + i]] for i in range(3)) for t in range(len(triples))]
        pair = first_repeated(renamed)
        if pair is None:
            return Mesh([points[half_edge(triples, h)[0]] for h in order], renamed, labels)
        g, h = pair
        twins[g], twins[h] = twins[h], twins[g]
        twins[twins[g]], twins[twins[h]] = g, h
