#!/usr/bin/env python3
"""Prints what tests/insertion/profile.sh counted, and how it grows: profile.py FOLDER, with the names of the jobs and a file of callgrind for each call."""
import math
import sys
from pathlib import Path

COUNTS = [("instructions", ["Ir"]), ("misses of 32 KiB", ["D1mr", "D1mw"]), ("misses of 1 MiB", ["DLmr", "DLmw"])]


def counted(path):
    """The counts of a call, by COUNTS."""
    lines = path.read_text().splitlines()
    names = next(x for x in lines if x.startswith("events:")).split()[1:]
    numbers = next(x for x in lines if x.startswith("summary:")).split()[1:]
    of = dict(zip(names, map(int, numbers)))
    return [sum(of.get(n, 0) for n in group) for _, group in COUNTS]


def main():
    folder = Path(sys.argv[1])
    files = sorted(folder.glob("call.*"), key=lambda p: int(p.suffix[1:]))
    calls = [c for c in map(counted, files) if c[0]]
    rows = {}
    print("| pieces | how many | triangles | windows made | " + " | ".join(name for name, _ in COUNTS) + " |")
    print("|---|---:|---:|---:|" + "---:|" * len(COUNTS))
    for k, job in enumerate((folder / "jobs").read_text().splitlines()):
        name, pieces, triangles, windows = job.split("|")
        counts = [a - b for a, b in zip(calls[2 * k], calls[2 * k + 1])]
        rows.setdefault(name, []).append((int(pieces), counts))
        print(f"| {name} | {pieces} | {triangles} | {windows} | " + " | ".join(map(str, counts)) + " |")
    print("\nGrowth from the least to the most pieces, as a power of their number:\n")
    print("| pieces | " + " | ".join(name for name, _ in COUNTS) + " |")
    print("|---|" + "---:|" * len(COUNTS))
    for name, of in rows.items():
        (few, first), (many, last) = of[0], of[-1]
        powers = [math.log(b / a) / math.log(many / few) for a, b in zip(first, last)]
        print(f"| {name} | " + " | ".join(f"{p:.3f}" for p in powers) + " |")


if __name__ == "__main__":
    main()
