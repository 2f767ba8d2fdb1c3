#!/usr/bin/env python3
"""Prints calls and shares of instructions by function, from a file of valgrind's callgrind: profile.py FILE"""
import re
import sys
from collections import Counter

LEAST = 0.5  # per cent of all instructions, with those of callees


def read(path):
    """Names by number; calls, own instructions and those with callees of each number."""
    names, calls, own, all_of = {}, Counter(), Counter(), Counter()

    def number(text):
        found = re.match(r"\((\d+)\)(?: (.*))?", text)
        if found[2]:
            names[found[1]] = found[2]
        return found[1]

    function = callee = None
    of_call = False
    for line in open(path):
        key, _, rest = line.rstrip("\n").partition("=")
        if key == "fn":
            function = number(rest)
        elif key == "cfn":
            callee = number(rest)
        elif key == "calls":
            calls[callee] += int(rest.split()[0])
            of_call = True
        elif re.match(r"[-+*\d]", line):
            cost = int(line.split()[1])
            if of_call:
                all_of[callee] += cost
            else:
                own[function] += cost
            of_call = False
    return names, calls, own, all_of


def main():
    names, calls, own, all_of = read(sys.argv[1])
    total = sum(own.values())
    print("| function | calls | own instructions, % | with callees, % |\n|---|---:|---:|---:|")
    for n in sorted(all_of, key=lambda n: -all_of[n]):
        share = 100 * all_of[n] / total
        if share >= LEAST and own[n] * 1000 >= total:
            print(f"| {names[n]} | {calls[n]} | {100 * own[n] / total:.1f} | {share:.1f} |")


if __name__ == "__main__":
    main()
