#!/usr/bin/env python3
"""Compares the tables of crates in docs/ARCHITECTURE.md with crates.txt.

    bench/layers.py                       # tells what differs
    bench/layers.py --write               # makes the column "stands on" anew

The page has a table for each family of crates.txt, with a row for each of its crates, all in the order of crates.txt.
The column "stands on" has the nearest crates: those of a crate's line in crates.txt that no other crate of the line
stands on, directly or not. A table may leave that column out.
"""

import argparse
import pathlib
import re
import sys

TOP = pathlib.Path(__file__).resolve().parent.parent
PAGE = TOP / "docs" / "ARCHITECTURE.md"
ROW = re.compile(r"^\| (w(?:h_|anda)\w*) \|([^|\n]*)\|(?:([^|\n]*)\|)?$", re.M)


def read_families():
    """The families of crates.txt: of each its crates, and of each crate the words of its line."""
    families = []
    for block in (TOP / "crates.txt").read_text().split("\n\n"):
        parts = [line.partition("#")[0].partition(":") for line in block.splitlines()]
        family = {front.split()[0]: behind.split() for front, colon, behind in parts if colon}
        families += [family] if family else []
    return families


def crates_of(families):
    """All crates, each with the crates that its line has."""
    words = {name: listed for family in families for name, listed in family.items()}
    return {name: [it for it in listed if it in words] for name, listed in words.items()}


def tables_of(page):
    """The crates of each table of the page, in the order of its rows."""
    tables = []
    for block in re.split(r"\n\s*\n", page):
        names = [found[1] for found in ROW.finditer(block)]
        tables += [names] if names else []
    return tables


def below(crates, name, known):
    """All crates that this one stands on, also by others."""
    if name not in known:
        known[name] = set(crates[name]).union(*(below(crates, it, known) for it in crates[name]))
    return known[name]


def nearest(crates):
    """Of each crate those that it stands on, without what these stand on themselves."""
    known = {}
    for name in crates:
        below(crates, name, known)
    return {
        name: [it for it in listed if not any(it in known[other] for other in listed)]
        for name, listed in crates.items()
    }


def with_column(page, wanted):
    """The page with the column "stands on" made anew."""

    def row(found):
        name, does, old = found.groups()
        if old is None or name not in wanted:
            return found[0]
        listed = f" {', '.join(wanted[name])} " if wanted[name] else " "
        return f"| {name} |{does}|{listed}|"

    return ROW.sub(row, page)


def wrongs(tables, families):
    """What differs, a line each."""
    rows, crates = sum(tables, []), sum(map(list, families), [])
    for name in sorted(set(crates) ^ set(rows)):
        yield f"{name}: in crates.txt or in docs/ARCHITECTURE.md alone"
    for name in sorted({name for name in rows if rows.count(name) > 1}):
        yield f"{name}: more than one row"
    if sorted(rows) == sorted(crates):
        for table, family in zip(tables, map(list, families)):
            if table != family:
                yield f"the table with {table[0]}: its rows are not {', '.join(family)}, as in crates.txt"


def main():
    parser = argparse.ArgumentParser(description=__doc__, formatter_class=argparse.RawDescriptionHelpFormatter)
    parser.add_argument("--write", action="store_true", help='make the column "stands on" anew')
    options = parser.parse_args()
    families, page = read_families(), PAGE.read_text()
    told = list(wrongs(tables_of(page), families))
    new = with_column(page, nearest(crates_of(families)))
    if options.write:
        PAGE.write_text(new)
    elif new != page:
        told.append('docs/ARCHITECTURE.md: another column "stands on"; bench/layers.py --write puts it there')
    print(*told, sep="\n", end="\n" if told else "")
    return 1 if told else 0


if __name__ == "__main__":
    sys.exit(main())
