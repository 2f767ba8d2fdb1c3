"""Reads stored slips with their print-outs (oracle/README.md, `slips`) from standard input and gives each slip to the program named: compare.py PROGRAM"""
import struct
import subprocess
import sys
from collections import Counter

PRINTED = 5  # differences that are shown


def records(file):
    (count,) = struct.unpack("<I", file.read(4))
    for _ in range(2 * count):
        (length,) = struct.unpack("<I", file.read(4))
        yield file.read(length)


def main():
    answers, differences = Counter(), 0
    parts = records(sys.stdin.buffer)
    for slip, expected in zip(parts, parts):
        printed = subprocess.run([sys.argv[1]], input=slip, stdout=subprocess.PIPE).stdout
        words = expected.split()
        answers["refused by " + words[1].decode() if words[0] == b"refused" else "fields"] += 1
        if printed != expected:
            differences += 1
            if differences <= PRINTED:
                print(slip.hex(), printed, "and not", expected)
    for answer, count in sorted(answers.items()):
        print(f"{answer}: {count}")
    print(f"all: {sum(answers.values())} slips, {differences} differences")


main()
