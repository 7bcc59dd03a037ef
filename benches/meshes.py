"""Made meshes, written as OBJ in whole numbers."""
import math

BOX = [(0, 3, 1), (0, 2, 3), (4, 5, 7), (4, 7, 6), (0, 1, 4), (1, 5, 4), (1, 3, 7), (1, 7, 5), (3, 2, 6), (3, 6, 7), (0, 4, 6), (0, 6, 2)]


def write_mesh(name, points, triangles):
    with open(name, "w") as file:
        for point in points:
            file.write("v %d %d %d\n" % tuple(round(c) for c in point))
        for a, b, c in triangles:
            file.write("f %d %d %d\n" % (a + 1, b + 1, c + 1))


def turned(point, angles):
    x, y, z = point
    for axis, angle in enumerate(angles):
        c, s = math.cos(angle), math.sin(angle)
        if axis == 0:
            y, z = c * y - s * z, s * y + c * z
        elif axis == 1:
            z, x = c * z - s * x, s * z + c * x
        else:
            x, y = c * x - s * y, s * x + c * y
    return x, y, z


def sphere(name, triangles, centre, angles):
    """A sphere of about so many triangles, by circles of latitude, turned and moved."""
    rings = max(2, round(math.sqrt(triangles / 4)))
    segments = 2 * rings
    points = [(0, 0, 1)]
    for i in range(1, rings):
        tilt = math.pi * i / rings
        for j in range(segments):
            turn = 2 * math.pi * j / segments
            points.append((math.sin(tilt) * math.cos(turn), math.sin(tilt) * math.sin(turn), math.cos(tilt)))
    points.append((0, 0, -1))
    last = len(points) - 1
    faces = []
    for j in range(segments):
        k = (j + 1) % segments
        faces.append((0, 1 + j, 1 + k))
        faces.append((last, last - segments + k, last - segments + j))
    for i in range(rings - 2):
        for j in range(segments):
            k = (j + 1) % segments
            a, b = 1 + i * segments + j, 1 + i * segments + k
            c, d = a + segments, b + segments
            faces.append((a, c, d))
            faces.append((a, d, b))
    radius = 300_000_000
    moved = [tuple(radius * u + m for u, m in zip(turned(p, angles), centre)) for p in points]
    write_mesh(name, moved, faces)
    return len(faces)


def strip(name, left, right, low, high):
    """A wall between two lines of as many points, from one height to another."""
    n = len(left)
    points = []
    for z in (low, high):
        points += [(x, y, z) for x, y in left]
        points += [(x, y, z) for x, y in right]
    faces = []
    for i in range(n - 1):
        a, b, c, d = i, i + 1, n + i, n + i + 1
        faces += [(a, b, d), (a, d, c)]
        faces += [(2 * n + a, 2 * n + d, 2 * n + b), (2 * n + a, 2 * n + c, 2 * n + d)]
        faces += [(a, 2 * n + b, b), (a, 2 * n + a, 2 * n + b)]
        faces += [(c, d, 2 * n + d), (c, 2 * n + d, 2 * n + c)]
    for a, b in ((0, n), (2 * n - 1, n - 1)):
        faces += [(a, b, 2 * n + b), (a, 2 * n + b, 2 * n + a)]
    write_mesh(name, points, faces)
    return len(faces)
