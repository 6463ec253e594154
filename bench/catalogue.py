#!/usr/bin/env python3
"""Writes a catalogue of books of about BYTES bytes to FILE, the same at each run: elements with attributes, mixed
content, comments, processing instructions, references and characters past ASCII.

usage: bench/catalogue.py BYTES FILE
"""
import random
import sys

WORDS = (
    "lorem ipsum dolor sit amet consectetur adipiscing elit sed do eiusmod tempor incididunt ut labore et dolore "
    "magna aliqua \u00e9t\u00e9 na\u00efve \u20ac"
).split()
HEAD = '<?xml version="1.0" encoding="UTF-8"?>\n<catalogue xmlns:p="urn:p">\n'


def words(source, fewest, most):
    return " ".join(source.choice(WORDS) for _ in range(source.randint(fewest, most)))


def note(source, number):
    return (
        f"{source.choice(WORDS)} <em>{source.choice(WORDS)}</em> {words(source, 5, 15)} &amp; "
        f'<p:ref id="a{source.randint(1, number)}"/>{source.choice(WORDS)} '
    )


def book(source, number):
    year, cents, author = source.randint(1950, 2020), source.randint(100, 9999), source.randint(1, 999)
    notes = "".join(note(source, number) for _ in range(source.randint(1, 4)))
    return (
        f'  <book id="b{number}" year="{year}" cents="{cents}" author="a{author}">\n'
        f"    <title>{words(source, 4, 9)}</title>\n    <!-- entry {number} -->\n    <note>{notes}</note>\n"
        f"    <?pi d{number}?>\n  </book>\n"
    )


def main():
    if len(sys.argv) != 3 or not sys.argv[1].isdigit():
        sys.exit(__doc__.strip().split("\n")[-1])
    size, source, number = int(sys.argv[1]), random.Random(7), 0
    with open(sys.argv[2], "w", encoding="utf-8", newline="") as file:
        written = file.write(HEAD)
        while written < size:
            number += 1
            text = book(source, number)
            written += len(text.encode())
            file.write(text)
        file.write("</catalogue>\n")


main()
