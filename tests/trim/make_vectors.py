#!/usr/bin/env python3
"""Makes the stored lists of candidates: make_vectors.py FILE.. > OUT

Each FILE is of the oracle's `vectors add`, `add-long` or `add-scope`; the answers are the oracle's. OUT is a file of records, one for each list, each a row
of numbers of 4 bytes, the least significant first; a double is two, the low half first, and a NaN is 7ff8000000000000:

    how many numbers the record has, this one among them
    vertices, edges, steps
    capacities: windows, events, entries of a cut list
    the refusal of the last step (12, 13, 14), or 0
    limit (a double)
    each vertex's flag
    each edge's two vertices
    each edge's length (a double)
    of each step four numbers: 0 (a candidate with a point), 1 (one with a line), 2 (a pop) or 3 (a touch); edge or vertex; into (ffffffff: none); queued
    of each step five doubles: b0, b1 and the source (x, y, s or ux, uy, c); or a touch's distance; zeros otherwise
    where no step was refused:
        windows made
        for each edge: live windows, and of each, in the order of the chain, 15 numbers: number, into, flags (1 a line, 2 alive, 4 queued), b0, b1, low, source (doubles)
        each vertex's distance (a double)
        events left, and of each, in the order of pops, its key (a double), number and kind (0 a window, 1 a vertex)

A live window that is popped is queued no more. Ends are numbers from 0 to the edge's length, not always in order.
"""
import struct
import sys


class Reader:
    def __init__(self, data):
        self.data, self.at = data, 0

    def u8(self):
        self.at += 1
        return self.data[self.at - 1]

    def u32(self):
        self.at += 4
        return struct.unpack_from("<I", self.data, self.at - 4)[0]

    def f64(self):
        return [self.u32(), self.u32()]

    def src(self):
        return [self.u8()] + self.f64() + self.f64() + self.f64()

    def chain(self):
        return [(self.u32(), self.f64(), self.f64()) for _ in range(self.u32())]


ZERO = [0, 0]


def step(r, detail):
    """The step's numbers and doubles, and its refusal."""
    kind = r.u8()
    if kind == 0:
        edge, into, queued = r.u32(), r.u32(), r.u8()
        ends = r.f64() + r.f64()
        src = r.src()
        refusal = r.u8()
        if detail and refusal == 0:
            r.chain()
        return [src[0], edge, into, queued], ends + src[1:], refusal
    if kind == 1:
        r.u8(), r.f64(), r.u32(), r.u8()
        return [2, 0, 0, 0], 5 * ZERO, 0
    vertex, distance, refusal = r.u32(), r.f64(), r.u8()
    r.f64()
    return [3, vertex, 0, 0], distance + 4 * ZERO, refusal


def state(r, edges, vertices):
    wins = []
    for _ in range(r.u32()):
        r.u32()
        into, alive, queued = r.u32(), r.u8(), r.u8()
        ends = [r.f64(), r.f64()]
        low = r.f64()
        src = r.src()
        wins.append((ends, [into, src[0] + 2 * alive + 4 * queued] + ends[0] + ends[1] + low + src[1:]))
    row = [len(wins)]
    for _ in range(edges):
        chain = r.chain()
        row.append(len(chain))
        for number, b0, b1 in chain:
            assert wins[number][0] == [b0, b1]
            row += [number] + wins[number][1]
        for _ in range(r.u32()):
            r.f64(), r.f64()
        r.u32()
    for _ in range(vertices):
        row += r.f64()
    events = r.u32()
    row.append(events)
    for _ in range(events):
        row += r.f64() + [r.u32(), r.u8()]
    return row


def record(r, tally):
    limit = r.f64()
    vertices = r.u32()
    flags = [r.u8() for _ in range(vertices)]
    edges = r.u32()
    ends, lengths = [], []
    for _ in range(edges):
        ends += [r.u32(), r.u32()]
        lengths += r.f64()
    capacities = [r.u32(), r.u32(), r.u32()]
    detail, steps = r.u8(), r.u32()
    ops, args, refusal = [], [], 0
    for _ in range(steps):
        numbers, doubles, refusal = step(r, detail)
        tally[max(numbers[0], 1) - 1] += 1
        ops += numbers
        args += doubles
    tally[3] += refusal != 0
    assert r.u8() == (refusal == 0)
    row = [vertices, edges, steps] + capacities + [refusal] + limit + flags + ends + lengths + ops + args
    if refusal == 0:
        row += state(r, edges, vertices)
    row = [1 + len(row)] + row
    return struct.pack("<%dI" % len(row), *row)


def main():
    lists, tally = 0, [0] * 4
    for path in sys.argv[1:]:
        r = Reader(open(path, "rb").read())
        for _ in range(r.u32()):
            sys.stdout.buffer.write(record(r, tally))
            lists += 1
        assert r.at == len(r.data)
    print("%d lists, %d candidates, %d pops, %d touches, %d refused" % (lists, *tally), file=sys.stderr)


if __name__ == "__main__":
    main()
