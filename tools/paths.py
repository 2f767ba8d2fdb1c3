#!/usr/bin/env python3
"""Counts the paths down the lists of crates.txt, each of which `rt` follows: tools/paths.py, at the top of the repository.

It prints the sum over all crates and the crates with most. Up to some millions cost `rt` seconds; some hundred millions keep it from beginning.
"""
import functools

lists = {}
with open("crates.txt", encoding="utf-8") as file:
    for line in file:
        head, colon, names = line.partition("#")[0].partition(":")
        if colon:
            lists[head.split()[0]] = names.split()


@functools.cache
def paths(crate):
    return 1 + sum(paths(it) for it in lists.get(crate, []))


print(f"{sum(map(paths, lists)):12,} in all")
for crate in sorted(lists, key=paths, reverse=True)[:5]:
    print(f"{paths(crate):12,} {crate}")
