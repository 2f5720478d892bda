#!/usr/bin/env python3
"""Counts the lines of specs/ that docs/TRUST.md lists, and puts the counts into its table.

usage: python3 tools/count_specs.py     at the top of the repository

A row names files as `crate: File, File; crate: File`, or `Says, in each crate that has one`. All lines of a file count.
"""

import glob
import re

PAGE = "docs/TRUST.md"
ROW = re.compile(r"^(\| [^|]* \| )((?:\w+: [\w, ]+)(?:; \w+: [\w, ]+)*|Says, in each crate that has one)( \| )\d+( \|)$")


def files(named):
    if named.startswith("Says,"):
        return sorted(glob.glob("crates/*/specs/Says.antt"))
    parts = [part.split(": ") for part in named.split("; ")]
    return [f"crates/{crate}/specs/{name}.antt" for crate, names in parts for name in names.split(", ")]


def lines(path):
    with open(path, encoding="utf-8") as it:
        return sum(1 for _ in it)


def main():
    with open(PAGE, encoding="utf-8") as it:
        text = it.read()
    total, out = 0, []
    for line in text.split("\n"):
        row = ROW.match(line)
        if row:
            count = sum(map(lines, files(row[2])))
            total += count
            line = f"{row[1]}{row[2]}{row[3]}{count}{row[4]}"
        out.append(line)
    made = re.sub(r"In all [\d,]+ lines", f"In all {total:,} lines", "\n".join(out))
    with open(PAGE, "w", encoding="utf-8") as it:
        it.write(made)
    print(f"{total:,} lines")


main()
