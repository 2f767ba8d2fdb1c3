#!/usr/bin/env python3
"""Makes the stored meshes of crates/mesh_vectors: make_vectors.py DIRECTORY SMALL LARGE..

SMALL and each LARGE are files of the oracle's `vectors topology`, `topology-large` or `topology-huge`. Written are three files of records, each a row of
numbers of 4 bytes, the least significant first; a double is two, the low half first:

    refusal (0 to 10), detail (0 to 2), how many numbers the record has
    lengths of vertices, triangles, flags, kinds, faces, coords
    slots of the buffers: vertices, edges, faces round vertices, triangles, pieces, windows, scratch, the other scratch
    limit (a double), the six lists
    detail 1: the edges' count; each edge's two vertices and two faces; each edge's length and unit vector; each triangle's three edges; each triangle's
        three normals; each vertex's count of faces, and they
    detail 2: the edges' count, and of these five lists a check sum each

A check sum s of numbers n1, n2, .. of 4 bytes begins at 0 and becomes (s * 65,599 + n) % 4,294,967,291 at each.

- jobs: each defect of tests/jobs/make_jobs.py alone, and each two of different refusals 1 to 10 in three ways; the refusals are document 01's, by hand.
- meshes: small meshes of the oracle with its refusals and, where none, every number.
- large: meshes of thousands of triangles with its refusals or check sums of its numbers.
"""
import itertools
import os
import sys

sys.path.insert(0, os.path.join(os.path.dirname(os.path.abspath(__file__)), "..", "jobs"))
import make_jobs
from make_jobs import numbers, record

LARGEST = 1_200  # bytes of a small mesh's topology


def check_sum(values):
    s = 0
    for n in values:
        s = (s * 65_599 + n) % 4_294_967_291
    return s


def parts(job, topology):
    """The edges' count and the five lists of a topology."""
    edges, at = topology[0], 1
    words, reals, sides, normals = [], [], [], []
    for _ in range(edges):
        words += topology[at : at + 4]
        reals += topology[at + 4 : at + 12]
        at += 12
    for _ in range(len(job.triangles) // 3):
        sides += topology[at : at + 3]
        normals += topology[at + 3 : at + 21]
        at += 21
    return edges, [words, reals, sides, normals, topology[at:]]


def in_full(job, topology):
    edges, lists = parts(job, topology)
    return [edges] + sum(lists, [])


def sums(job, topology):
    edges, lists = parts(job, topology)
    return [edges] + [check_sum(one) for one in lists]


def jobs():
    defects = make_jobs.DEFECTS + make_jobs.THIRD_FACE
    for change in make_jobs.SOUND[:-1]:
        yield 0, make_jobs.applied(change)
    yield 0, make_jobs.empty()
    nine_nine_one = make_jobs.applied()
    nine_nine_one.triangles = [9, 9, 1]
    nine_nine_one.kinds, nine_nine_one.faces, nine_nine_one.coords = [], [], []
    yield 2, nine_nine_one
    for refusal, change in defects:
        yield refusal, make_jobs.applied(change)
    for r1, r2 in itertools.combinations(range(1, 11), 2):
        firsts = [c for r, c in defects if r == r1]
        seconds = [c for r, c in defects if r == r2]
        if (r1, r2) == (6, 10):
            # there are five triangles then, and the first missing face is 5
            firsts = [make_jobs.put("faces", 0, 5), firsts[1]]
        for k in range(3):
            # the defect that is tried first is made last, so that nothing undoes it
            yield r1, make_jobs.applied(seconds[k % len(seconds)], firsts[k % len(firsts)])


def small_enough(job, topology):
    return len(topology) <= LARGEST and len(job.triangles) <= 96 and len(job.vertices) <= 96


def answered(meshes, detail, form):
    """Meshes of the oracle, with their topology in a form where they have one."""
    for refusal, job, topology in meshes:
        if refusal:
            yield record(refusal, job, 0, [])
        else:
            yield record(0, job, detail, form(job, numbers(topology)))


def write(path, records):
    records = list(records)
    with open(path, "wb") as out:
        out.write(b"".join(records))
    print("%s: %d records, %d bytes" % (path, len(records), os.path.getsize(path)), file=sys.stderr)


def main():
    directory, small, large = sys.argv[1], sys.argv[2], sys.argv[3:]
    write(directory + "/jobs", (record(refusal, job, 0, []) for refusal, job in jobs()))
    meshes = (one for one in make_jobs.oracle_meshes(small) if small_enough(one[1], one[2]))
    write(directory + "/meshes", answered(meshes, 1, in_full))
    meshes = itertools.chain(*map(make_jobs.oracle_meshes, large))
    write(directory + "/large", answered(meshes, 2, sums))


if __name__ == "__main__":
    main()
