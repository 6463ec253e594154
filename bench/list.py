#!/usr/bin/env python3
"""Writes a query to FILE, the same at each run: a comma list of COUNT small expressions, about 10 bytes each with its
comma. It stands where it is never evaluated, so that a run of the query is little more than the reading of its text.

usage: bench/list.py COUNT FILE
"""
import random
import sys

FORMS = (
    lambda source: str(source.randint(10000000, 999999999)),
    lambda source: f'"{source.choice(NAMES)}"',
    lambda source: f"{source.randint(10, 999)} + {source.randint(10, 99)}",
    lambda source: f"{source.choice(NAMES)}/@k",
    lambda source: f"//{source.choice(NAMES)}",
    lambda source: f"a[{source.randint(1, 99)}]/b",
    lambda source: f"(1 to {source.randint(10, 99)})",
    lambda source: f"count({source.choice(NAMES)})",
    lambda source: f"@k = {source.randint(10, 99)}",
    lambda source: f"<a>{source.randint(0, 9)}</a>",
)
NAMES = ("lorem", "ipsum", "dolor", "amet", "elit", "\u00e9t\u00e9")


def main():
    if len(sys.argv) != 3 or not sys.argv[1].isdigit():
        sys.exit(__doc__.strip().split("\n")[-1])
    source = random.Random(7)
    with open(sys.argv[2], "w", encoding="utf-8", newline="") as file:
        file.write("if (1 = 1) then 1 else (\n0")
        for number in range(int(sys.argv[1])):
            file.write(",\n" if number % 8 == 0 else ", ")
            file.write(source.choice(FORMS)(source))
        file.write("\n)\n")


main()
