# Binary STL files with what reading them answers, and meshes with the files that writing them gives, by Python's struct module.
# Usage: make_vectors.py FOLDER
# A file of records, each a row of numbers of 4 bytes, the least significant byte first; a double is two, the low half first.
#   read:  numbers in the record; the refusal's number, 0 of a mesh; bytes of the file; elements of the slices lent for vertices and triangles; vertices and
#          triangles of the mesh; the file, filled up to whole numbers; the mesh's coordinates, its triangles
#   write: numbers in the record; the refusal's number, 0 of a file; elements of the lists of coordinates and of vertex numbers; bytes lent; bytes of the file;
#          coordinates, vertex numbers; the file, filled up to whole numbers
import math
import random
import struct
import sys

NAN, INF = float('nan'), float('inf')


def numbers(*ns):
    return struct.pack('<%dI' % len(ns), *ns)


def padded(data):
    return data + bytes(-len(data) % 4)


def file_of(triangles, count=None, header=b'', normal=(0, 0, 0), attributes=0):
    out = header.ljust(80, b'\0') + struct.pack('<I', len(triangles) if count is None else count)
    for points in triangles:
        out += struct.pack('<3f', *normal)
        for point in points:
            out += struct.pack('<3f', *point)
        out += struct.pack('<H', attributes)
    return out


# What 02 says of reading: 40, 41, 42, 43 and 45 in that order, else the mesh. A dictionary has -0.0 and 0.0 for one key, and keeps the one that came first.
def read(data, vertex_slots, triangle_slots):
    if len(data) < 84:
        return 40, [], []
    count = struct.unpack_from('<I', data, 80)[0]
    if len(data) != 84 + 50 * count:
        return 41, [], []
    points = []
    for t in range(count):
        xs = struct.unpack_from('<12f', data, 84 + 50 * t)[3:]
        points += [xs[0:3], xs[3:6], xs[6:9]]
    if not all(math.isfinite(x) for p in points for x in p):
        return 42, [], []
    found, vertices, triangles = {}, [], []
    for p in points:
        if p not in found:
            found[p] = len(vertices)
            vertices.append(p)
        triangles.append(found[p])
    if len(vertices) > 65535 or count > 131070:
        return 43, [], []
    if vertex_slots < len(vertices) or triangle_slots < count:
        return 45, [], []
    return 0, [x for p in vertices for x in p], triangles


def read_record(data, lent_vertices=600, lent_triangles=600):
    answer, vertices, triangles = read(data, lent_vertices // 3, lent_triangles // 3)
    body = padded(data) + struct.pack('<%dd' % len(vertices), *vertices) + numbers(*triangles)
    return numbers(7 + len(body) // 4, answer, len(data), lent_vertices, lent_triangles, len(vertices) // 3, len(triangles) // 3) + body


def is_single(x):
    if not math.isfinite(x):
        return False
    try:
        return struct.unpack('<f', struct.pack('<f', x))[0] == x
    except OverflowError:
        return False


def write(vertices, triangles, lent):
    if len(vertices) % 3 or len(triangles) % 3 or len(vertices) // 3 > 65535 or len(triangles) // 3 > 131070:
        return 1, b''
    if any(a >= len(vertices) // 3 for a in triangles):
        return 2, b''
    if not all(is_single(x) for x in vertices):
        return 44, b''
    points = [tuple(vertices[3 * a:3 * a + 3]) for a in triangles]
    data = file_of([points[3 * t:3 * t + 3] for t in range(len(triangles) // 3)])
    if lent < len(data):
        return 45, b''
    return 0, data


def write_record(vertices, triangles, lent=2000):
    answer, data = write(vertices, triangles, lent)
    body = struct.pack('<%dd' % len(vertices), *vertices) + numbers(*triangles) + padded(data)
    return numbers(6 + len(body) // 4, answer, len(vertices), len(triangles), lent, len(data)) + body


def tetrahedron():
    a, b, c, d = (0.0, 0.0, 0.0), (1.5, 0.0, 0.0), (0.0, 2.25, 0.0), (0.0, 0.0, 0.1)
    return [(a, c, b), (a, b, d), (b, c, d), (c, a, d)]


def part(rng, triangles, spread):
    pool = [tuple(rng.choice((0.0, -0.0, rng.uniform(-spread, spread), float(rng.randint(-3, 3)))) for _ in range(3)) for _ in range(rng.randint(1, triangles + 2))]
    return [tuple(rng.choice(pool) for _ in range(3)) for _ in range(triangles)]


def reads():
    rng = random.Random(21)
    small = file_of(tetrahedron(), header=b'solid is no sign of ASCII here', normal=(NAN, INF, 1), attributes=65535)
    yield read_record(small)
    yield read_record(file_of([]))
    yield read_record(b'')
    for n in range(len(small)):  # cut at every length
        yield read_record(small[:n])
    for n in (1, 2, 49, 50, 51):
        yield read_record(small + bytes(n))
    for n in range(len(small)):  # single bytes damaged
        damaged = bytearray(small)
        damaged[n] ^= 1 << rng.randrange(8)
        yield read_record(bytes(damaged))
    for count in (0, 3, 5, 131070, 131071, 2 ** 31, 2 ** 32 - 1):
        yield read_record(file_of(tetrahedron(), count=count))
    for at in range(36):  # a coordinate that is not finite, at every place
        bad = bytearray(small)
        value = rng.choice((0x7f800000, 0xff800000, 0x7fc00000, 0xffc00001, 0x7f800001))
        struct.pack_into('<I', bad, 84 + 50 * (at // 9) + 12 + 4 * (at % 9), value)
        yield read_record(bytes(bad))
    # minus zero and zero are one vertex, of whichever came first
    for order in ((0.0, -0.0), (-0.0, 0.0)):
        x, y = order
        yield read_record(file_of([((x, 1.0, y), (y, 1.0, x), (x, 1.0, x)), ((y, 1.0, y), (x, 2.0, x), (x, 1.0, y))]))
    # subnormal, smallest, largest; one unit in the last place apart
    tiny, least, most = struct.unpack('<3f', numbers(1, 0x00800000, 0x7f7fffff))
    near = struct.unpack('<2f', numbers(0x3f800000, 0x3f800001))
    yield read_record(file_of([((tiny, least, most), (-tiny, -least, -most), (tiny, least, near[0])), ((tiny, least, near[1]), (tiny, -least, most), (near[0], near[1], tiny))]))
    # slices exactly as long as the mesh, and shorter by one
    for v, t in ((12, 12), (11, 12), (12, 11), (9, 12), (12, 9), (14, 14), (0, 0), (600, 11), (11, 600)):
        yield read_record(small, v, t)
    for _ in range(150):
        triangles = rng.randint(0, 40)
        yield read_record(file_of(part(rng, triangles, rng.choice((1.0, 1e-3, 1e30))), attributes=rng.randrange(65536)), rng.choice((600, 600, rng.randint(0, 130))), rng.choice((600, 600, rng.randint(0, 130))))


def writes():
    rng = random.Random(44)
    flat = [x for p in ((0.0, 0.0, 0.0), (1.5, 0.0, 0.0), (0.0, 2.25, 0.0), (0.0, 0.0, 0.125)) for x in p]
    faces = [0, 2, 1, 0, 1, 3, 1, 2, 3, 2, 0, 3]
    yield write_record(flat, faces)
    yield write_record([], [])
    yield write_record(flat, [])
    for cut in range(12):
        yield write_record(flat[:cut], faces)
        yield write_record(flat, faces[:cut])
    for lent in (0, 83, 84, 283, 284, 285):
        yield write_record(flat, faces, lent)
    for bad in (0.1, 1e300, -1e300, 1e-300, 5e-324, INF, -INF, NAN, 1.0 + 2.0 ** -24, 2.0 ** 128, 2.0 ** -150, 3 * 2.0 ** -150, 2.0 ** 128 - 2.0 ** 103, 16777217.0, 2.0 ** -127 + 2.0 ** -150):
        for at in (0, 5, 11):
            yield write_record(flat[:at] + [bad] + flat[at + 1:], faces)
        yield write_record(flat + [0.0, bad, 0.0], faces)  # of an unused vertex
    for good in (-0.0, 2.0 ** -149, -2.0 ** -149, 3 * 2.0 ** -149, 2.0 ** -126, 2.0 ** -126 - 2.0 ** -149, 2.0 ** 128 - 2.0 ** 104, -2.0 ** 127, 16777216.0, 1.0 + 2.0 ** -23, 2.0 ** -130):
        yield write_record(flat[:7] + [good] + flat[8:], faces)
    for a in (4, 5, 65535, 2 ** 32 - 1):
        yield write_record(flat, faces[:7] + [a] + faces[8:])
    yield write_record(flat[:9] + [0.1, 0.0, 0.0], faces[:11] + [4])  # 2 before 44
    yield write_record(flat[:11], faces[:11] + [4])  # 1 before 2
    yield write_record([0.1] + flat[1:], faces, 10)  # 44 before 45
    for _ in range(150):
        n = rng.randint(1, 30)
        points = [struct.unpack('<f', numbers(rng.choice((rng.randrange(2 ** 32), rng.randrange(2 ** 23), 0x3f800000 + rng.randrange(2 ** 26)))))[0] for _ in range(3 * n)]
        points = [x if math.isfinite(x) else 1.0 for x in points]
        yield write_record(points, [rng.randrange(n) for _ in range(3 * rng.randint(0, 30))])
    for _ in range(400):  # one double of any bits among singles
        x = struct.unpack('<d', struct.pack('<Q', (rng.randrange(860, 1170) << 52 | rng.randrange(2 ** 52) >> 1 << rng.randrange(53)) % 2 ** 63 | rng.randrange(2) << 63))[0]
        yield write_record([x, 0.0, 0.0], [0, 0, 0])


for name, records in (('read', reads), ('write', writes)):
    with open(sys.argv[1] + '/' + name, 'wb') as out:
        for record in records():
            out.write(record)
