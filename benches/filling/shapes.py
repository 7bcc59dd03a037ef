"""Writes loops for the bench of filling, one shape a line: NAME;x,y x,y ..;x,y .. for each loop."""


def line(name, loops):
    print(";".join([name] + [" ".join("%d,%d" % place for place in loop) for loop in loops]))


def strip(length):
    """A strip between two zigzags, with so many places on each."""
    lower = [(2 * i, 7 * (i % 2)) for i in range(length)]
    upper = [(2 * i, 20 + 7 * (i % 2)) for i in reversed(range(length))]
    return [lower + upper]


def spiral(turns):
    """The wall of a square spiral: out along one side of it, and back along the other, one step apart."""
    x, y, corners = 0, 0, [(0, 0)]
    for k in range(4 * turns):
        way = 4 * (1 + k // 2)
        x, y = [(x + way, y), (x, y + way), (x - way, y), (x, y - way)][k % 4]
        corners.append((x, y))
    inner = [(0, 1)]
    for k in range(1, 4 * turns):
        x, y = corners[k]
        dx, dy = [(-1, 1), (-1, -1), (1, -1), (1, 1)][(k - 1) % 4]
        inner.append((x + dx, y + dy))
    x, y = corners[-1]
    inner.append((x + 1, y))
    return [corners + inner[::-1]]


def plate(side):
    """A square plate with a square hole in each of side times side fields."""
    edge = 10 * side
    loops = [[(0, 0), (edge, 0), (edge, edge), (0, edge)]]
    for i in range(side):
        for j in range(side):
            x, y = 10 * i + 3, 10 * j + 3
            loops.append([(x, y), (x, y + 4), (x + 4, y + 4), (x + 4, y)])
    return loops


for length in (15, 30, 60, 125, 1000, 4000):
    line("strip", strip(length))
for turns in (4, 250, 1001):
    line("spiral", spiral(turns))
for side in (10, 20, 40):
    line("plate with %d holes" % (side * side), plate(side))
