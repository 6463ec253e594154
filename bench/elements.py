#!/usr/bin/env python3
"""Writes a document of small elements of BYTES bytes to FILE, the same at each run: about 10 bytes each with the end of
their line, as the expressions of bench/list.py have.

usage: bench/elements.py BYTES FILE    at least 30
"""
import random
import sys


def main():
    if len(sys.argv) != 3 or not sys.argv[1].isdigit() or int(sys.argv[1]) < 30:
        sys.exit(__doc__.strip().split("\n")[-1])
    size, source = int(sys.argv[1]), random.Random(7)
    with open(sys.argv[2], "w", encoding="utf-8", newline="") as file:
        written = file.write("<l>")
        while written + 20 < size:
            written += file.write(f"<i>{source.randint(0, 999)}</i>\n")
        file.write(" " * (size - written - 4) + "</l>")


main()
