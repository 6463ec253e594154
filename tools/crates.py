#!/usr/bin/env python3
"""Writes the table of crates in docs/ARCHITECTURE.md, by layer, from crates.txt and the first sentence at each crate's root.

usage: tools/crates.py            writes the table anew
       tools/crates.py --check    tells whether it is as it would be written, and whether crates.txt and crates/ agree
"""
import os
import re
import sys

TOP = os.path.dirname(os.path.dirname(os.path.abspath(__file__)))
PAGE = f"{TOP}/docs/ARCHITECTURE.md"
BEGIN, END = "<!-- crates: tools/crates.py writes what follows -->\n", "<!-- crates: end -->\n"
CITED = re.compile(r" \([^()]*\d[^()]*\)")


def text_of(path):
    with open(path, encoding="utf-8") as it:
        return it.read()


def root_of(name):
    folder = f"{TOP}/crates/{name}/src"
    return text_of(f"{folder}/main.rt" if os.path.exists(f"{folder}/main.rt") else f"{folder}/lib.rt")


def first_sentence(name):
    """What the root says first, without the sections that it cites and without its full stop."""
    said = re.match(r"//! *([^\n]*(?:\n//! [^\n]+)*)", root_of(name))
    if not said:
        sys.exit(f"crates.py: the root of {name} has no comment")
    words = CITED.sub("", re.sub(r"\n//! *", " ", said[1]))
    return re.split(r"(?<=\.) ", words)[0].rstrip(".")


def modules(name):
    return re.findall(r"^pub mod (\w+);", root_of(name), re.M)


def layers():
    """Each layer of crates.txt with the names of its crates, in the order there."""
    found = []
    for line in text_of(f"{TOP}/crates.txt").split("\n"):
        title = re.fullmatch(r"# ([^(),]+)", line)
        if title:
            found.append((title[1], []))
        elif ":" in line and not line.startswith("#"):
            found[-1][1].append(line.split()[0].rstrip(":"))
    return [it for it in found if it[1]]


def table():
    lines = []
    for title, names in layers():
        lines += [f"**{title}**", "", "| crate | what it is | its modules with names of their own |", "|---|---|---|"]
        for name in names:
            lines.append(f"| `{name}` | {first_sentence(name)} | {' '.join(f'`{it}`' for it in modules(name))} |")
        lines.append("")
    return "\n".join(lines)


def main(words):
    listed = {name for _, names in layers() for name in names}
    folders = {it for it in os.listdir(f"{TOP}/crates") if os.path.isdir(f"{TOP}/crates/{it}/src")}
    for name in sorted(listed ^ folders):
        print(f"{name}: {'no folder' if name in listed else 'crates.txt has it not'}")
    page = text_of(PAGE)
    before, _, rest = page.partition(BEGIN)
    _, _, after = rest.partition(END)
    made = f"{before}{BEGIN}\n{table()}\n{END}{after}"
    if words == ["--check"]:
        if made != page:
            print("docs/ARCHITECTURE.md: the table of crates is not as crates.txt and the roots have it")
        return 0 if made == page and listed == folders else 1
    if words:
        print(__doc__.split("\n\n")[1])
        return 2
    with open(PAGE, "w", encoding="utf-8") as it:
        it.write(made)
    return 0


if __name__ == "__main__":
    sys.exit(main(sys.argv[1:]))
