"""Rows of changed outcomes in crates/operation_tests: whether an audit still says yes."""
from faults import OpenEdge
from kernels import Grid
from mesh import Mesh, checked
from operations import audit, combine
from row_words import meshes_of


class Changed:
    """The lists of an outcome, which a word and numbers change in one way."""

    def __init__(self, done, first):
        vertices = done.vertices
        self.done, self.first = done, first
        self.origins, self.places = list(vertices.origins), list(vertices.points)
        self.counts = {"kept": list(vertices.kept), "crossings": vertices.crossings, "halfedges": vertices.halfedges}
        self.points, self.triples = list(done.mesh.points), list(done.mesh.triples)
        self.origin, self.source, self.forced = list(done.origin), list(done.source), done.forced

    def change(self, word, *numbers):
        """One change of those of vertices, counts, lists, triples or points."""
        for ways in (self.of_vertices, self.of_counts, self.of_lists, self.of_triples, self.of_order, self.of_points):
            way = ways(*numbers).get(word)
            if way is not None:
                way()

    def of_vertices(self, a=0, b=0):
        """Changes of the vertices before splitting."""
        return {"origins": lambda: exchange(self.origins, a, b), "places": lambda: exchange(self.places, a, b),
                "place": lambda: step(self.places, a, 0), "less": lambda: (self.origins.pop(), self.places.pop()),
                "more": lambda: (self.origins.append(self.origins[-1]), self.places.append(self.places[-1]))}

    def of_counts(self, a=0, b=0):
        """Changes of one count by one."""
        def raise_kept():
            """One more point of either mesh is kept."""
            self.counts["kept"][a] += 1

        def raise_one(name):
            """One more of what has this name."""
            self.counts[name] += 1

        def force():
            """One more triple was forced."""
            self.forced += 1
        return {"kept": raise_kept, "crossings": lambda: raise_one("crossings"),
                "halfedges": lambda: raise_one("halfedges"), "forced": force}

    def of_lists(self, a=0, b=0):
        """Changes of where points and triples come from."""
        ways = {}
        for names, some in ((("from", "froms"), self.origin), (("source", "sources"), self.source)):
            ways[names[0]] = lambda some=some: some.__setitem__(a, b)
            ways[names[1]] = lambda some=some: exchange(some, a, b)
            ways[names[0] + "_less"] = some.pop
            ways[names[0] + "_more"] = lambda some=some: some.append(a)
        return ways

    def of_triples(self, a=0, b=0):
        """Changes of one triple, or of two with a common edge."""
        def put(turned):
            """A triple from its second vertex on, or turned over."""
            x, y, z = self.triples[a]
            self.triples[a] = (x, z, y) if turned else (y, z, x)

        def double():
            """A triple once more, and turned over."""
            x, y, z = self.triples[a]
            self.triples += [(x, y, z), (x, z, y)]
            self.source += [self.source[a]] * 2
        return {"turn": lambda: put(False), "flip": lambda: put(True), "diagonal": lambda: self.exchange_diagonal(a, b),
                "drop": lambda: (self.triples.pop(a), self.source.pop(a)), "double": double}

    def exchange_diagonal(self, one, other):
        """Puts the other diagonal into two triples with a common edge."""
        first, second = self.triples[one], self.triples[other]
        for i in range(3):
            for j in range(3):
                (a, b, c), (end, start, d) = first[i:] + first[:i], second[j:] + second[:j]
                if (start, end) == (a, b):
                    self.triples[one], self.triples[other] = (c, a, d), (d, b, c)
                    return

    def of_order(self, a=0, b=0):
        """Changes of the order of triples, or of all of them."""
        def repeat():
            """All of it once more."""
            self.triples += [tuple(v + len(self.points) for v in t) for t in self.triples]
            self.source, self.points, self.origin = self.source * 2, self.points * 2, self.origin * 2
        return {"exchange": lambda: (exchange(self.triples, a, b), exchange(self.source, a, b)), "twice": repeat,
                "triples": lambda: exchange(self.triples, a, b),
                "whole_back": lambda: (self.triples.reverse(), self.source.reverse())}

    def of_points(self, a=0, b=0):
        """Changes of points and of the names of vertices."""
        def rename(change):
            """Other names for the vertices of all triples."""
            self.triples = [tuple(map(change, t)) for t in self.triples]

        def join():
            """One vertex of two."""
            kept, gone = min(a, b), max(a, b)
            rename(lambda v: kept if v == gone else v - (v > gone))
            del self.points[gone], self.origin[gone]

        def exchange_names():
            """Exchanges the names of two vertices."""
            rename(lambda v: b if v == a else a if v == b else v)

        def take_first():
            """The first mesh in place of the result."""
            self.points, self.triples = list(self.first.points), list(self.first.triples)
        return {"step": lambda: step(self.points, a, 2), "vertices": exchange_names, "join": join, "first": take_first,
                "rename": lambda: (exchange_names(), exchange(self.points, a, b), exchange(self.origin, a, b))}

    def outcome(self):
        """The changed outcome; none where its triples are no closed mesh."""
        if any(len(set(t)) < 3 or max(t) >= len(self.points) for t in self.triples):
            return None
        if {v for t in self.triples for v in t} != set(range(len(self.points))):
            return None
        try:
            mesh = checked(Mesh(self.points, self.triples))
        except OpenEdge:
            return None
        counts = dict(self.counts, kept=tuple(self.counts["kept"]))
        vertices = self.done.vertices._replace(origins=self.origins, points=self.places, **counts)
        return self.done._replace(mesh=mesh, vertices=vertices, origin=self.origin, source=self.source, forced=self.forced)


def exchange(some, a, b):
    """Exchanges two members of a list."""
    some[a], some[b] = some[b], some[a]


def step(points, place, axis):
    """Moves a point by one step of the grid."""
    points[place] = tuple(c + (i == axis) for i, c in enumerate(points[place]))


def audited(pair, row):
    """The row of a change of a pair of meshes with its answer."""
    operation, p, q = meshes_of(pair)
    words = row.split(" ")[1:]
    changed = Changed(combine(operation, p, q, Grid()), p)
    changed.change(words[0], *map(int, words[1:]))
    outcome = changed.outcome()
    answer = "none" if outcome is None else "yes" if audit(operation, p, q, Grid(), outcome) else "no"
    return " ".join([answer] + words)


TABLES = {"audits": ("operation_tests/src/audits/table.rt", ["CHANGES"], 1, audited)}
# The tables whose pairs the rows stand for, in their order.
PAIRS_OF = {"audits": ["solids", "loose parts"]}
