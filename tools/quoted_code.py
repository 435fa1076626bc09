#!/usr/bin/env python3
"""Says which code that a document quotes is no part of the sources.

quoted_code.py DOCUMENT PLACE..: each block between ``` lines has to stand in one file of these crates, line for line, or in
one of a folder, if a place has a `/`.
Prints the first line of each block that doesn't, and ends with status 1; so it does where the document quotes nothing.
"""
import pathlib
import re
import sys

TOP = pathlib.Path(__file__).resolve().parent.parent
BLOCK = re.compile(r"^```\w+\n(.*?)^```$", re.M | re.S)


def files(place):
    """The files of a crate, or of a folder."""
    if "/" in place:
        return [path for path in (TOP / place).rglob("*") if path.is_file()]
    return [path for kind in ("*.rt", "*.antt") for path in (TOP / "crates" / place).rglob(kind) if "out" not in path.parts]


def main():
    document, *places = sys.argv[1:]
    sources = [path.read_text() for place in places for path in files(place)]
    blocks = BLOCK.findall((TOP / document).read_text())
    missing = [block for block in blocks if not any(block in source for source in sources)]
    for block in missing:
        print(f"{document} quotes code that no source of {', '.join(places)} has: {block.splitlines()[0].strip()}", file=sys.stderr)
    sys.exit(1 if missing or not blocks else 0)


main()
