"""Makes scripts of outlines in the current folder, runs a program on each with and without its last operation, and prints a table: processor seconds of that
operation, of the whole script, and peak memory. Usage: outlines.py PROGRAM [JOB..]; all jobs where none is named."""
import math, sys

from operations import run


class Script:
    """Lines, and names that count up."""

    def __init__(self):
        self.lines, self.count = [], 0

    def name(self):
        self.count += 1
        return "n%d" % self.count

    def polygon(self, places):
        name = self.name()
        self.lines.append("polygon %s %s" % (name, " ".join("%d %d" % place for place in places)))
        return name

    def combined(self, command, left, right):
        name = self.name()
        self.lines.append("%s %s %s %s" % (command, name, left, right))
        return name

    def united(self, names):
        """One name of many, united in a tree of pairs."""
        while len(names) > 1:
            pairs = [self.combined("union2", a, b) for a, b in zip(names[::2], names[1::2])]
            names = pairs + (names[-1:] if len(names) % 2 else [])
        return names[0]


def rectangle(low, high):
    return [(low[0], low[1]), (high[0], low[1]), (high[0], high[1]), (low[0], high[1])]


def comb(script, teeth, x, y, up):
    """Teeth on a bar, up or down: each polygon has eight of them, and a bit of the bar that reaches into the next."""
    pitch, wide, high, eight = 400, 200, 3_000_000 * up, 8
    pieces = []
    for first in range(0, teeth, eight):
        count = min(eight, teeth - first)
        places = []
        for i in range(first, first + count):
            left = x + pitch * i
            places += [(left, y + 1000 * up), (left, y + high), (left + wide, y + high), (left + wide, y + 1000 * up)]
        end = x + pitch * (first + count) + (50 if first + count < teeth else 0)
        places += [(end, y + 1000 * up), (end, y), (x + pitch * first - 10, y), (x + pitch * first - 10, y + 1000 * up)]
        pieces.append(script.polygon(places[::-1] if up > 0 else places))
    return script.united(pieces)


def crossed_combs(script):
    """Two combs of 20,000 teeth, one from below and one from above, each tooth across one or two of the other."""
    script.combined("union2", comb(script, 20_000, 0, 0, 1), comb(script, 20_000, 130, 4_000_000, -1))


def rings(script, count, x, y):
    """Square rings, one in the other."""
    pieces = []
    for i in range(count):
        outer, inner = 200 * (i + 1), 200 * (i + 1) - 100
        pieces.append(script.combined("subtract2", script.polygon(rectangle((x - outer, y - outer), (x + outer, y + outer))),
                                      script.polygon(rectangle((x - inner, y - inner), (x + inner, y + inner)))))
    return script.united(pieces)


def nested(script):
    """10,000 squares, one in the other, against as many that lie 30 steps further on both axes."""
    script.combined("union2", rings(script, 5_000, 0, 0), rings(script, 5_000, 30, 30))


def tall_comb(script):
    """A comb of 25,000 teeth, 100,000 vertices, made a solid."""
    outline = comb(script, 25_000, 0, 0, 1)
    script.lines.append("extrude %s %s 0 1000" % (script.name(), outline))


def wheel(script):
    """A ring whose outer rim has 100,000 vertices, made a solid."""
    count, step, pieces = 100_000, 50, []
    at = lambda radius, i: (round(radius * math.cos(2 * math.pi * i / count)), round(radius * math.sin(2 * math.pi * i / count)))
    for first in range(0, count, step):
        rim = [at(200_000_000, i) for i in range(first, first + step + 1)]
        pieces.append(script.polygon(rim + [at(150_000_000, first + step), at(150_000_000, first)]))
    script.lines.append("extrude solid %s 0 1000" % script.united(pieces))


JOBS = {"crossed_combs": crossed_combs, "nested": nested, "tall_comb": tall_comb, "wheel": wheel}


def seconds(program, lines):
    with open("s.txt", "w") as file:
        file.write("\n".join(lines) + "\n")
    return min(run(program, ["run", "s.txt", "--digits", "0"]) for _ in range(3))


def table(program, names):
    print("| Job | Last operation, s | Whole script, s | MB | Lines |")
    print("|---|---|---|---|---|")
    for name in names:
        script = Script()
        JOBS[name](script)
        whole, memory = seconds(program, script.lines)
        before, _ = seconds(program, script.lines[:-1])
        print("| %s | %.2f | %.2f | %d | %d |" % (name, whole - before, whole, memory, len(script.lines)), flush=True)


if __name__ == "__main__":
    if len(sys.argv) < 2 or any(name not in JOBS for name in sys.argv[2:]):
        sys.exit("usage: outlines.py PROGRAM [JOB..]; jobs: " + " ".join(JOBS))
    table(sys.argv[1], sys.argv[2:] or list(JOBS))
