#!/usr/bin/env python3
"""Lists the files of the definitions that the clauses of flow_main cite, and those that these cite.

With --check compares them with the files that docs/THEOREM.md names, and the lengths and sums of lines there with the
files, and prints a line for each difference. It is one that there are none. With --write writes those lengths and sums.
"""
import re
import sys

from spec_files import CRATES, TOP, definitions_in, imported, name_of, words

PAGE = TOP / "docs/THEOREM.md"
ROW = re.compile(r"^(\| .* \| `([a-z_]+/specs/[A-Za-z/]+\.antt)` \| )[0-9]+ \|$")
HEADING = re.compile(r"^\*\*(All commands|`(?:run|profile|judge|check|upgrade|generate)`.*?)[:*]")
SUMS = re.compile(r"In all they have [0-9,]+ lines; [^.]*\.")
COMMANDS = ("run", "profile", "judge", "check", "upgrade", "generate")


def cited_files():
    """The files of the definitions that the clauses of flow_main cite, and those that these cite."""
    paths = sorted(CRATES.glob("*/specs/**/*.antt"))
    texts = {(name_of(path), name): text for path in paths for name, text in definitions_in(path).items()}
    homes = {name_of(path): imported(path.read_text()) for path in paths}
    call = (CRATES / "flow_run/src/call.rt").read_text()
    clauses = re.search(r"pub fn flow_main.*?\n\{\n", call, re.S).group()
    home = imported(call)
    waiting = [home[word] for word in words(clauses) if home.get(word) in texts]
    cited = set()
    while waiting:
        key = waiting.pop()
        if key in cited:
            continue
        cited.add(key)
        for word in words(texts[key]):
            there = (key[0], word) if (key[0], word) in texts else homes[key[0]].get(word)
            if there in texts:
                waiting.append(there)
    return {file for file, _ in cited}


def measured(page):
    """The page with the length of each file that its tables name, and their sums by command."""
    lines, sums, commands = [], {"all": 0} | dict.fromkeys(COMMANDS, 0), ()
    for line in page.split("\n"):
        heading, row = HEADING.match(line), ROW.match(line)
        if heading:
            commands = [name for name in COMMANDS if heading[1] == "All commands" or f"`{name}`" in heading[1]]
        if row and (CRATES / row[2]).is_file():
            length = (CRATES / row[2]).read_text().count("\n")
            line = f"{row[1]}{length} |"
            for name in ("all", *commands):
                sums[name] += length
        lines.append(line)
    said = ", ".join(f"those for `{name}` {sums[name]:,}" for name in COMMANDS)
    return SUMS.sub(f"In all they have {sums['all']:,} lines; {said}.", "\n".join(lines))


def main():
    files = cited_files()
    page = PAGE.read_text()
    if "--write" in sys.argv[1:]:
        PAGE.write_text(measured(page))
        return
    if "--check" not in sys.argv[1:]:
        print("\n".join(sorted(files)))
        return
    named = {row[2] for row in map(ROW.match, page.split("\n")) if row}
    for file in sorted(files - named):
        print(f"docs/THEOREM.md doesn't name {file}, whose definitions the clauses of flow_main cite")
    for file in sorted(named - files):
        print(f"docs/THEOREM.md names {file}, of which the clauses of flow_main cite nothing")
    if not files:
        print("the clauses of flow_main cite no definitions")
    same = SUMS.search(page) is not None and measured(page) == page
    if not same:
        print("docs/THEOREM.md has other lengths or sums of lines than tools/list_theorem.py --write would")
    sys.exit(0 if files and files == named and same else 1)


main()
