# An ASCII STL of a sphere or of a plate with a hole, by Python's own decimals. Usage: make_ascii.py sphere|plate
import math
import sys


def sphere(n):
    def at(i, j):
        u, v = math.pi * i / n, 2 * math.pi * (j % (2 * n)) / (2 * n)
        if i in (0, n):
            return (0.0, 0.0, 40.0 if i == 0 else -40.0)
        return (40 * math.sin(u) * math.cos(v), 40 * math.sin(u) * math.sin(v), 40 * math.cos(u))
    for i in range(n):
        for j in range(2 * n):
            a, b, c, d = at(i, j), at(i + 1, j), at(i + 1, j + 1), at(i, j + 1)
            if i < n - 1:
                yield a, b, c
            if i > 0:
                yield a, c, d


# A plate of 120 by 80 by 12 with a round hole of 64 sides
def plate(n=64):
    def rim(k, z):
        t = 2 * math.pi * (k % n) / n
        return (60 + 20 * math.cos(t), 40 + 20 * math.sin(t), z)

    def edge(k, z):
        t = 2 * math.pi * (k % n) / n
        c, s = math.cos(t), math.sin(t)
        m = min(60 / abs(c) if abs(c) > 1e-9 else 1e9, 40 / abs(s) if abs(s) > 1e-9 else 1e9)
        return (60 + m * c, 40 + m * s, z)
    for k in range(n):
        for z, turn in ((12.0, False), (0.0, True)):
            a, b, c, d = rim(k, z), edge(k, z), edge(k + 1, z), rim(k + 1, z)
            yield from (((a, c, b), (a, d, c)) if turn else ((a, b, c), (a, c, d)))
        for side, turn in ((rim, True), (edge, False)):
            a, b, c, d = side(k, 0.0), side(k + 1, 0.0), side(k + 1, 12.0), side(k, 12.0)
            yield from (((a, c, b), (a, d, c)) if turn else ((a, b, c), (a, c, d)))


print('solid ' + sys.argv[1])
for triangle in (sphere(60) if sys.argv[1] == 'sphere' else plate()):
    print('facet normal 0 0 0\nouter loop')
    for point in triangle:
        print('vertex %.9g %.9g %.9g' % point)
    print('endloop\nendfacet')
print('endsolid')
