"""How many sheets a plane has at each side of its edges, and the walks round the regions that have so many."""
from functools import cmp_to_key

from filling import area, in_cone, turn
from planes import pairs_round, sign


def neighbours(edges):
    """Of each place those to which edges lead, in the order of the edges."""
    ends = {}
    for a, b in edges:
        ends.setdefault(a, []).append(b)
        ends.setdefault(b, []).append(a)
    return ends


def around(s, ends, at):
    """The neighbours of a place by direction, to the left from that of u."""
    def half(n):
        """Whether the direction is in the first half of the way round, or in the second."""
        u, v = at[n][0] - at[s][0], at[n][1] - at[s][1]
        return 0 if v > 0 or (v == 0 and u > 0) else 1
    return sorted(ends, key=cmp_to_key(lambda m, n: half(m) - half(n) or -sign(turn(at[s], at[m], at[n]))))


def covers(rim, side, a, b, at):
    """Whether a triangle covers the place just left of the middle of a to b, and a little nearer to b."""
    (au, av), (bu, bv) = at[a], at[b]
    du, dv = bu - au, bv - av
    for p, q in pairs_round(rim):
        (pu, pv), (qu, qv) = at[p], at[q]
        eu, ev = qu - pu, qv - pv
        way = eu * (av + bv - 2 * pv) - ev * (au + bu - 2 * pu) or eu * dv - ev * du or eu * du + ev * dv
        if sign(way) != side:
            return False
    return True


def net_numbers(a, b, faces, labels, at):
    """Of each label how many triangles that face front cover the place just left of the middle of a to b, less those that
    face back."""
    net = [0] * len(labels)
    for _, rim, side, label in faces:
        if covers(rim, side, a, b, at):
            net[labels.index(label)] += side
    return net


def sheets(net):
    """How many sheets of each label lie where the net numbers are these: as many as their sum says, of the labels with its
    sign, the first ones first."""
    way, rest, result = sign(sum(net)), abs(sum(net)), []
    for number in net:
        take = min(max(way * number, 0), rest)
        rest -= take
        result.append(way * take)
    return result


def regions_of(chain, faces, labels, at):
    """Of each side, label and number the edges of the region where at least so many sheets of the label face that side,
    directed so that it lies at their left as that side is seen."""
    regions = {}
    for a, b in chain:
        left = sheets(net_numbers(a, b, faces, labels, at))
        right = sheets(net_numbers(b, a, faces, labels, at))
        for k in range(len(labels)):
            for side in (1, -1):
                x, y = max(side * left[k], 0), max(side * right[k], 0)
                ahead = (a, b) if (x > y) == (side > 0) else (b, a)
                for level in range(min(x, y) + 1, max(x, y) + 1):
                    regions.setdefault((side, k, level), []).append(ahead)
    return regions


def walks_of(edges, at):
    """The closed walks round the parts of a region: from an edge on to the first one on the way to the right round its end."""
    follow = {}
    for s, ends in neighbours(edges).items():
        order = around(s, ends, at)
        for k, p in enumerate(order):
            follow[p, s] = order[k - 1]
    walks, used = [], set()
    for edge in edges:
        walk = []
        while edge not in used:
            used.add(edge)
            walk.append(edge[0])
            edge = edge[1], follow[edge]
        if walk:
            walks.append(walk)
    return walks


def started(walk, at):
    """A walk from its first place on: a ring's least, with the least next one; a hole's rightmost, where it sees the way of
    u."""
    n = len(walk)
    if area(walk, at) >= 0:
        k = min(range(n), key=lambda i: (walk[i], walk[(i + 1) % n]))
    else:
        h = max(walk, key=lambda v: at[v])
        ahead = (at[h][0] + 1, at[h][1])
        k = next(i for i in range(n) if walk[i] == h and in_cone(at[walk[i - 1]], at[h], at[walk[(i + 1) % n]], ahead))
    return walk[k:] + walk[:k]
