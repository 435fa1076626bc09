#!/usr/bin/env python3
"""Lists the files of definitions that public clauses may cite, each with its first sentence and its definitions.

Each definition stands with the comment above it in its file; one without a comment goes with the definition before
it. After the names of crates only theirs are listed. With --check it prints each file that doesn't begin with a
sentence of its own.
"""
import re
import sys

from spec_files import CRATES, DEFINITION, MUTUAL, name_of


def files():
    """The files of definitions, by crates."""
    for path in sorted(CRATES.glob("*/specs/*.antt")):
        if path.name[0].isupper() and path.name != "Lib.antt":
            yield path


def first_sentence(path):
    """The comment with which a file begins."""
    head = re.match(r"(?:--.*\n)+", path.read_text())
    return " ".join(line.removeprefix("--").strip() for line in head.group().splitlines()) if head else ""


def definitions(path):
    """Each definition of a file, with the comment above it."""
    text = MUTUAL.sub(lambda block: re.sub(r"^  ", "", block.group(1), flags=re.M), path.read_text())
    comment = []
    for line in text.splitlines():
        found = DEFINITION.match(line)
        if line.startswith("--"):
            comment.append(line.removeprefix("--").strip())
        elif found and not line.startswith(" "):
            yield found[1], " ".join(comment)
            comment = []
        elif not line.strip():
            comment = []


def main():
    wanted = [word for word in sys.argv[1:] if not word.startswith("--")]
    if "--check" in sys.argv[1:]:
        bare = [path for path in files() if not first_sentence(path)]
        for path in bare:
            print(f"crates/{name_of(path)} doesn't begin with a comment that says what it defines", file=sys.stderr)
        sys.exit(1 if bare or not list(files()) else 0)
    for path in files():
        if wanted and path.parts[-3] not in wanted:
            continue
        print(f"{name_of(path)}: {first_sentence(path)}")
        for name, comment in definitions(path):
            print(f"    {name}: {comment}" if comment else f"    {name}")


main()
