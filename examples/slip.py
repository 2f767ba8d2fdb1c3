#!/usr/bin/env python3
"""A slip from plain text, and back.

    examples/slip.py write < job.txt > job.slip
    examples/slip.py read < job.slip > job.txt

A line of the text is one of: vertex X Y Z FLAG, triangle A B C, point FACE X Y Z, segment FACE X Y Z X Y Z, limit R.
Numbers are written so that they read back to the same double.
"""
import struct
import sys

WORDS = {"vertex": 4, "triangle": 3, "point": 4, "segment": 7, "limit": 1}


def write(text):
    vertices, flags, triangles, pieces, limit = b"", b"", b"", b"", None
    for number, line in enumerate(text.splitlines(), 1):
        words = line.split()
        if not words:
            continue
        if WORDS.get(words[0]) != len(words) - 1:
            sys.exit(f"line {number}: not understood: {line}")
        name, rest = words[0], words[1:]
        if name == "vertex":
            vertices += struct.pack("<3d", *map(float, rest[:3]))
            flags += bytes([int(rest[3])])
        elif name == "triangle":
            triangles += struct.pack("<3I", *map(int, rest))
        elif name == "limit":
            limit = struct.pack("<d", float(rest[0]))
        else:
            coords = [float(x) for x in rest[1:]]
            pieces += struct.pack(f"<BI{len(coords)}d", name == "segment", int(rest[0]), *coords)
    if limit is None:
        sys.exit("no limit")
    count = sum(line.split()[:1] in (["point"], ["segment"]) for line in text.splitlines())
    counts = struct.pack("<3I", len(flags), len(triangles) // 12, count)
    return counts + vertices + triangles + flags + pieces + limit


def read(slip):
    at = 0

    def take(form):
        nonlocal at
        values = struct.unpack_from("<" + form, slip, at)
        at += struct.calcsize("<" + form)
        return values

    vertex_count, triangle_count, piece_count = take("3I")
    vertices = [take("3d") for _ in range(vertex_count)]
    triangles = [take("3I") for _ in range(triangle_count)]
    flags = take(f"{vertex_count}B")
    rows = [("vertex", *v, f) for v, f in zip(vertices, flags)]
    rows += [("triangle", *t) for t in triangles]
    for _ in range(piece_count):
        kind, face = take("BI")
        rows.append(("segment" if kind else "point", face, *take("6d" if kind else "3d")))
    rows.append(("limit", *take("d")))
    return "".join(" ".join(map(str, row)) + "\n" for row in rows)


if sys.argv[1:] == ["write"]:
    sys.stdout.buffer.write(write(sys.stdin.read()))
elif sys.argv[1:] == ["read"]:
    sys.stdout.write(read(sys.stdin.buffer.read()))
else:
    sys.exit(__doc__)
