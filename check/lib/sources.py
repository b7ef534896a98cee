#!/usr/bin/env python3
"""A sum over all that a crate is made of: its files, those of the crates below it, and the toolchain.

    check/lib/sources.py CRATE     prints it
"""
import hashlib
import os
import subprocess
import sys

TOP = os.path.dirname(os.path.dirname(os.path.dirname(os.path.abspath(__file__))))
# What is made by others, or is read by proofs alone.
LEFT_OUT = {"out", "proofs", "must-fail"}


def below(top=TOP):
    """The crates on which each crate stands, as the tree's crates.txt has them."""
    with open(f"{top}/crates.txt", encoding="utf-8") as file:
        lines = [line.partition("#")[0].partition(":") for line in file]
    return {name.split()[0]: words.split() for name, _, words in lines if name.strip()}


def with_those_below(crate):
    found, left, stands_on = set(), [crate], below()
    while left:
        one = left.pop()
        if one in stands_on and one not in found:
            found.add(one)
            left += stands_on[one]
    return sorted(found)


def files_of(crate):
    for folder, folders, files in os.walk(f"{TOP}/crates/{crate}"):
        folders[:] = sorted(it for it in folders if it not in LEFT_OUT)
        yield from (f"{folder}/{file}" for file in sorted(files))


def sum_of(crate):
    found = hashlib.sha256(subprocess.run(["rt", "version"], capture_output=True, check=True).stdout)
    for one in with_those_below(crate):
        found.update(f"{one}: {' '.join(below()[one])}\0".encode())
        for path in files_of(one):
            with open(path, "rb") as file:
                found.update(f"{os.path.relpath(path, TOP)}\0".encode() + hashlib.sha256(file.read()).digest())
    return found.hexdigest()[:16]


if __name__ == "__main__":
    if len(sys.argv) != 2 or sys.argv[1] not in below():
        sys.exit(__doc__)
    print(sum_of(sys.argv[1]))
