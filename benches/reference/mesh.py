"""Meshes: points, triples of their numbers with labels, half-edges, twins, fans; closed, reduced and split ones.

Half-edge 3 t + i runs from the i-th vertex of triple t to the next one round."""
from collections import Counter

from faults import OpenEdge


class Mesh:
    """Points, triples of point numbers, one label for each triple, and how many points a reader dropped."""

    def __init__(self, points, triples, labels=None, unused=0):
        self.points = [tuple(p) for p in points]
        self.triples = [tuple(t) for t in triples]
        self.labels = list(labels) if labels is not None else [b""] * len(self.triples)
        self.unused = unused
        self._twins = None

    @property
    def twins(self):
        """Of each half-edge its twin; found once."""
        if self._twins is None:
            self._twins = twins_of(self.triples)
        return self._twins

    def parts(self):
        """What two equal meshes have alike."""
        return self.points, self.triples, self.labels


def without_unused(points, triples, labels=None):
    """The mesh of the points that some triple uses, in their order."""
    used = sorted({v for t in triples for v in t})
    number = {v: k for k, v in enumerate(used)}
    renamed = [tuple(number[v] for v in t) for t in triples]
    return Mesh([points[v] for v in used], renamed, labels, len(points) - len(used))


def half_edge(triples, h):
    """The vertices at which a half-edge starts and ends."""
    t, i = divmod(h, 3)
    return triples[t][i], triples[t][(i + 1) % 3]


def next_half(h):
    """The next half-edge round its triple."""
    return h - 2 if h % 3 == 2 else h + 1


def edges_of(triples):
    """Start and end of all half-edges."""
    return [(t[i], t[(i + 1) % 3]) for t in triples for i in range(3)]


def least_open_edge(triples):
    """The least pair with more half-edges one way than back, or none."""
    count = Counter(edges_of(triples))
    return min((pair for pair, n in count.items() if n > count[pair[1], pair[0]]), default=None)


def checked(mesh):
    """The mesh, where it is closed."""
    pair = least_open_edge(mesh.triples)
    if pair is not None:
        raise OpenEdge(*pair)
    return mesh


def twins_of(triples):
    """Of each half-edge its twin: the k-th from a to b has the k-th from b to a."""
    edges, places = edges_of(triples), {}
    for h, edge in enumerate(edges):
        places.setdefault(edge, []).append(h)
    rank = {h: k for some in places.values() for k, h in enumerate(some)}
    return [places[edge[1], edge[0]][rank[h]] for h, edge in enumerate(edges)]


def fans_of(triples, twins):
    """Of each half-edge the least one of its fan, which "twin, then next" goes round."""
    least = [None] * len(twins)
    for h in range(len(twins)):
        g = h
        while least[g] is None:
            least[g] = h
            g = next_half(twins[g])
    return least


def fans_in_order(triples, least):
    """The least half-edge of each fan, by the vertex at which the fan starts, then by its number."""
    return sorted(set(least), key=lambda h: (half_edge(triples, h)[0], h))


def has_one_fan_each(mesh):
    """Whether the triples round each vertex are one fan."""
    return len(set(fans_of(mesh.triples, mesh.twins))) == len(mesh.points)


def split(mesh):
    """One vertex for each fan, and of each new vertex the old one."""
    least = fans_of(mesh.triples, mesh.twins)
    order = fans_in_order(mesh.triples, least)
    number = {h: k for k, h in enumerate(order)}
    origin = [half_edge(mesh.triples, h)[0] for h in order]
    triples = [tuple(number[least[3 * t + i]] for i in range(3)) for t in range(len(mesh.triples))]
    return Mesh([mesh.points[v] for v in origin], triples, mesh.labels), origin


def turned_least_first(triple):
    """The rotation of a triple that begins with its least vertex."""
    k = triple.index(min(triple))
    return triple[k:] + triple[:k]


def reduced(mesh):
    """Of the triples on the same three vertices as many of each turn go, the first ones, as the rarer turn has."""
    turned = [turned_least_first(t) for t in mesh.triples]
    count, seen, stay = Counter(turned), Counter(), []
    for t, (a, b, c) in enumerate(turned):
        seen[a, b, c] += 1
        if seen[a, b, c] > count[a, c, b]:
            stay.append(t)
    return without_unused(mesh.points, [mesh.triples[t] for t in stay], [mesh.labels[t] for t in stay])


def components_of(count, triples):
    """Of each vertex the least one that triples join it to."""
    near = [set() for _ in range(count)]
    for t in triples:
        for v in t:
            near[v].update(t)
    least = [None] * count
    for v in range(count):
        reached = [v] if least[v] is None else []
        for a in reached:
            if least[a] is None:
                least[a] = v
                reached += near[a]
    return least


def cross(a, b, c):
    """The cross product of b - a and c - a."""
    p, q = [b[i] - a[i] for i in range(3)], [c[i] - a[i] for i in range(3)]
    return (p[1] * q[2] - p[2] * q[1], p[2] * q[0] - p[0] * q[2], p[0] * q[1] - p[1] * q[0])


def dot(n, p):
    """The scalar product."""
    return n[0] * p[0] + n[1] * p[1] + n[2] * p[2]


def boundary_of(pairs):
    """Of each two vertices how many more of the pairs run one way than back."""
    count = Counter()
    for a, b in pairs:
        count[a, b] += 1
        count[b, a] -= 1
    return {pair: n for pair, n in count.items() if n}
