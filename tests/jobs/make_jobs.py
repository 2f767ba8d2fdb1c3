#!/usr/bin/env python3
"""Makes the stored jobs of crates/job_vectors; make_vectors.sh beside it makes both files.

    python3 tests/jobs/make_jobs.py > crates/job_vectors/data/jobs
    oracle vectors topology 1 400 > FILE; python3 tests/jobs/make_jobs.py FILE > crates/job_vectors/data/meshes

Without an argument: small jobs with every defect that document 01's refusals 1 to 9 name, alone and in pairs, and sound jobs. The refusal of each defect is
written down here by hand; of two defects document 01 tries the one with the lower number first.
With a file of the oracle's `vectors topology`: its meshes with the oracle's refusals. 10 is found after these checks, so here it counts as none.
tests/mesh/make_vectors.py adds the defects of refusal 10 and their pairs with these; it has the format of the records, here of detail 0.
"""
import copy
import itertools
import struct
import sys

NAN, INF = float("nan"), float("inf")
MAX_VERTICES = 96 // 3


class Job:
    """Two triangles over four vertices, a point and a segment."""

    def __init__(self):
        self.vertices = [0.0, 0.0, 0.0, 3.0, 0.0, 0.0, 0.0, 4.0, 0.0, 3.0, 4.0, 1.0]
        self.triangles = [0, 1, 2, 2, 1, 3]
        self.flags = [0, 1, 0, 1]
        self.kinds = [0, 1]
        self.faces = [0, 1]
        self.coords = [0.0, 0.0, 0.0, NAN, INF, 2e6, 1.0, 1.0, 0.5, 2.0, 2.0, 1.0]
        self.limit = 10.0
        # vertices, edges, faces round vertices, triangles, pieces, windows, two scratch rows
        self.buffers = [4, 6, 6, 2, 2, 5, 5, 5]


def put(name, at, value):
    def change(job):
        getattr(job, name)[at] = value

    return change


def append(name, *values):
    def change(job):
        getattr(job, name).extend(values)

    return change


def drop(name):
    def change(job):
        getattr(job, name).pop()

    return change


def limit(value):
    def change(job):
        job.limit = value

    return change


def after(value, steps):
    """The double that is some steps away from a positive one."""
    (bits,) = struct.unpack("<q", struct.pack("<d", value))
    return struct.unpack("<d", struct.pack("<q", bits + steps))[0]


def point(vertex, x, y, z):
    def change(job):
        job.vertices[3 * vertex : 3 * vertex + 3] = [x, y, z]

    return change


# Each defect with its refusal.
DEFECTS = [
    # 1: no whole records, lists that disagree, flags or kinds that are not 0 or 1
    (1, append("vertices", 0.0)),
    (1, append("vertices", 0.0, 0.0, 0.0)),
    (1, append("triangles", 0)),
    (1, append("triangles", 0, 1)),
    (1, append("flags", 0)),
    (1, drop("flags")),
    (1, put("flags", 3, 2)),
    (1, put("flags", 0, 255)),
    (1, put("kinds", 0, 2)),
    (1, append("kinds", 0)),
    (1, append("faces", 0)),
    (1, drop("faces")),
    (1, append("coords", 0.0)),
    (1, drop("coords")),
    # 2
    (2, put("triangles", 0, 4)),
    (2, put("triangles", 5, 4)),
    (2, put("triangles", 4, 4294967295)),
    # 3
    (3, put("triangles", 1, 0)),
    (3, put("triangles", 5, 1)),
    (3, put("triangles", 5, 2)),
    # 4
    (4, put("vertices", 11, after(1e6, 1))),
    (4, put("vertices", 11, -after(1e6, 1))),
    (4, put("vertices", 0, NAN)),
    (4, put("vertices", 5, INF)),
    (4, put("vertices", 5, -INF)),
    # 5: vertices that coincide, an edge just too short, three in a line
    (5, point(1, 0.0, 0.0, 0.0)),
    (5, point(1, 9.9e-4, 0.0, 0.0)),
    (5, point(2, 6.0, 0.0, 0.0)),
    (5, point(3, 1.5, 2.0, 0.0)),
    (5, point(2, 1.5, 9e-7, 0.0)),
    # 6
    (6, put("faces", 0, 2)),
    (6, put("faces", 1, 4294967295)),
    # 7: only what the piece uses
    (7, put("coords", 2, after(1e6, 1))),
    (7, put("coords", 0, NAN)),
    (7, put("coords", 6, -INF)),
    (7, put("coords", 11, -after(1e6, 1))),
    # 8
    (8, limit(-5e-324)),
    (8, limit(after(1e7, 1))),
    (8, limit(NAN)),
    (8, limit(INF)),
    (8, limit(-INF)),
    # 9: each buffer one slot short
    (9, put("buffers", 0, 3)),
    (9, put("buffers", 1, 5)),
    (9, put("buffers", 2, 5)),
    (9, put("buffers", 3, 1)),
    (9, put("buffers", 4, 1)),
    (9, put("buffers", 6, 4)),
    (9, put("buffers", 7, 4)),
]



def shared(*triangle):
    """A triangle three times more, and slots for them: its edges lie in three triangles and more, whatever becomes of the first two."""

    def change(job):
        job.triangles += 3 * list(triangle)
        for at, needed in (1, 15), (2, 15), (3, 5):
            job.buffers[at] = needed

    return change


# 10, which the checks of a job do not find: an edge in a third triangle
THIRD_FACE = [
    (10, shared(2, 1, 0)),
    (10, shared(3, 1, 2)),
]

# What is no defect.
SOUND = [
    lambda job: None,
    limit(0.0),
    limit(-0.0),
    limit(1e7),
    put("vertices", 11, 1e6),
    put("vertices", 11, -1e6),
    put("coords", 2, 1e6),
    put("coords", 11, -1e6),
    point(1, 1.1e-3, 0.0, 0.0),
    point(2, 1.5, 1.1e-6, 0.0),
    append("vertices", 7.0, 7.0, 7.0),
]


def empty():
    job = Job()
    job.vertices, job.triangles, job.flags, job.kinds, job.faces, job.coords = [], [], [], [], [], []
    job.buffers = [0] * 8
    return job


def numbers(data):
    return list(struct.unpack("<%dI" % (len(data) // 4), data))


def doubles(values):
    return numbers(struct.pack("<%dd" % len(values), *(NAN if x != x else x for x in values)))


def record(refusal, job, detail, answer):
    lists = [job.vertices, job.triangles, job.flags, job.kinds, job.faces, job.coords]
    row = list(map(len, lists)) + job.buffers + doubles([job.limit])
    for k, values in enumerate(lists):
        row += doubles(values) if k in (0, 5) else values
    row += answer
    row = [refusal, detail, 3 + len(row)] + row
    return struct.pack("<%dI" % len(row), *row)


def applied(*changes):
    job = copy.deepcopy(Job())
    for change in changes:
        change(job)
    return job


def oracle_meshes(path):
    """The oracle's meshes with their refusals, and where none, the numbers of their topology as bytes of the file."""
    data = open(path, "rb").read()
    at = 0

    def take(form):
        nonlocal at
        values = struct.unpack_from("<" + form, data, at)
        at += struct.calcsize("<" + form)
        return list(values)

    (count,) = take("I")
    for _ in range(count):
        job = empty()
        job.limit = 0.0
        (n,) = take("I")
        job.vertices = take("%dd" % n)
        (n,) = take("I")
        job.triangles = take("%dI" % n)
        (n,) = take("I")
        job.flags = take("%dB" % n)
        (refusal,) = take("I")
        start = at
        if refusal == 0:
            (edges,) = take("I")
            for _ in range(edges):
                take("4I4d")
            for _ in range(len(job.triangles) // 3):
                take("3I9d")
            for _ in range(len(job.vertices) // 3):
                (faces,) = take("I")
                take("%dI" % faces)
        triangles = len(job.triangles) // 3
        job.buffers = [len(job.flags), 3 * triangles, 3 * triangles, triangles, 0, 0, 0, 0]
        yield refusal, job, data[start:at]


def checked_meshes(path):
    for refusal, job, _ in oracle_meshes(path):
        if len(job.vertices) <= 3 * MAX_VERTICES and len(job.triangles) <= 96 and len(job.flags) <= 64:
            yield (0 if refusal == 10 else refusal), job


# At the bounds of refusal 5. The altitude of vertex 2 is the rounded root of the rounded sum of the squares of its y and z: with a z of 2 ** -46 the sum is the
# least double whose root is 1e-6, one below 1e-12.
AT_THE_BOUNDS = [
    (0, point(1, 0.001, 0.0, 0.0)),
    (5, point(1, after(0.001, -1), 0.0, 0.0)),
    (0, point(2, 1.5, 1e-6, 0.0)),
    (0, point(2, 1.5, after(1e-6, -1), 2.0**-46)),
    (5, point(2, 1.5, after(1e-6, -1), 0.0)),
]


def written_jobs():
    jobs = [(0, empty())]
    for change in SOUND[:-1]:
        jobs.append((0, applied(change)))
    nine_nine_one = applied()
    nine_nine_one.triangles = [9, 9, 1]
    nine_nine_one.kinds, nine_nine_one.faces, nine_nine_one.coords = [], [], []
    jobs.append((2, nine_nine_one))
    # a vertex more, with its flag and slot, named by no triangle
    more = applied(SOUND[-1], append("flags", 1), put("buffers", 0, 5))
    jobs.append((0, more))
    for refusal, change in DEFECTS + AT_THE_BOUNDS:
        jobs.append((refusal, applied(change)))
    # the defect that is tried first is made last, so that nothing undoes it
    for (r1, c1), (r2, c2) in itertools.combinations(DEFECTS, 2):
        if r1 != r2:
            jobs.append((r1, applied(c2, c1)))
    return jobs


def main():
    jobs = list(checked_meshes(sys.argv[1])) if len(sys.argv) > 1 else written_jobs()
    sys.stdout.buffer.write(b"".join(record(refusal, job, 0, []) for refusal, job in jobs))
    print(len(jobs), "jobs", file=sys.stderr)


if __name__ == "__main__":
    main()
