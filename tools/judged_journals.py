#!/usr/bin/env python3
"""Gives the journals that the program prints to its judge, as they are and with one line changed.

    judged_journals.py PROGRAM [--count N | --seconds N] [--seed N]

Runs each of the examples and random graphs, half of them with semaphores, with `--journal`, and judges each journal:
that of a run that was kept must be complete, with the first line of either version (in version 1 an over-release and a
drop for want of a unit have no line). Then one line at a time is changed: two neighbours exchanged, a line left out or
put twice, a number made another, a word made another. What the judge says of it is compared with a slow judge, which is
written here from the rules alone, and with the slow reading of a line by a regular expression. With `--seconds` graphs
are made until so many seconds have passed or there is a difference. Prints a line for each difference and how many
journals were judged and what was said, and ends with status 1 where there was a difference.
"""
import argparse
import json
import pathlib
import random
import re
import shutil
import sys
import tempfile

from random_graphs import add_extent, branching_graph, call, cases, folder_of, plain_graph, random_text, with_units

TOP = pathlib.Path(__file__).resolve().parent.parent

NUMBER = "(?:0|[1-9][0-9]*)"
CAUSE = f"source|strong|weak:{NUMBER}"
LINES = [
    (f"start ({NUMBER}) ({CAUSE}) (-|(?:{NUMBER}|first|nothing)(?:,(?:{NUMBER}|first|nothing))*)", "start"),
    (f"end ({NUMBER}) (-|{NUMBER}(?:,{NUMBER})*) (plain|inner)", "end"),
    (f"fault ({NUMBER}) (inner|(?:long|wide|unmet|over):{NUMBER})", "fault"),
    (f"drop ({NUMBER}) ({CAUSE}) (halted|limit|stuck:{NUMBER})", "drop"),
]
VERSIONS = ("flow journal 1", "flow journal 2")
# What version 1 has no lines for.
UNITS = re.compile("over:|stuck:")

# The most starts of a run: the slow judge takes a time that grows with the square of a journal's length.
LIMIT = 30


# ---- a slow reading

def small(number, bits):
    return int(number) < 1 << bits


def entry_of(line):
    """The kind and fields of a line, or None where it isn't an entry's."""
    for pattern, kind in LINES:
        fields = re.fullmatch(pattern, line)
        if fields and fits(kind, fields.groups()):
            return kind, *fields.groups()
    return None


def fits(kind, fields):
    words = [word for field in fields[1:] for word in field.split(",")]
    named = [word.split(":") for word in words if ":" in word]
    wide = {"long", "wide", "unmet"}
    plain = [word for word in words if word.isdigit()]
    return (small(fields[0], 32 if kind in ("start", "drop") else 64)
            and all(small(number, 64 if name in wide else 32) for name, number in named)
            and all(small(number, 32 if kind == "end" else 64) for number in plain))


def listed(field):
    """The members of a list in a journal's line."""
    return [] if field == "-" else field.split(",")


def read_slowly(text):
    """The entries of a journal's text, or the number of the first bad line."""
    lines = text.split("\n")
    if len(lines) < 2 or lines[0] not in VERSIONS:
        return 1
    entries = []
    for number, line in enumerate(lines[1:-1], 2):
        entry = entry_of(line)
        if entry is None or (lines[0] == VERSIONS[0] and UNITS.search(line)):
            return number
        entries.append(entry)
    return entries if lines[-1] == "" else len(lines)


# ---- a slow judge

# What an operation makes of its task; the others make a plain task.
SHAPES = {"back": "choice", "ifmore": "choice", "ifhas": "choice", "route": "many", "spread": "nested", "module": "nested", "pipe": "nested"}


class Net:
    """The tasks, edges and semaphores of a graph file; conditions have weak edges out of them. No edge begins with a token."""

    def __init__(self, graph):
        names = [semaphore["name"] for semaphore in graph.get("semaphores", [])]
        self.most = [semaphore["max"] for semaphore in graph.get("semaphores", [])]
        self.takes, self.puts = ([[names.index(name) for name in task.get("holds", task.get(field, []))] for task in graph["tasks"]]
                                 for field in ("acquire", "release"))
        self.ops = [task["op"] for task in graph["tasks"]]
        places = {task["name"]: place for place, task in enumerate(graph["tasks"])}
        self.edges = [(place, places[name]) for place, task in enumerate(graph["tasks"]) for name in task.get("to", [])]
        self.tokens = [0] * len(self.edges)

    def shape(self, task):
        return SHAPES.get(self.ops[task], "plain")

    def is_weak(self, edge):
        return self.shape(self.edges[edge][0]) in ("choice", "many")

    def out(self, task):
        return [edge for edge, (source, _) in enumerate(self.edges) if source == task]

    def into(self, task):
        return [edge for edge, (_, target) in enumerate(self.edges) if target == task]


def breaks(net, limit, before, entry):
    """The rule that an entry breaks after others, the first in the judge's order, or None."""
    kind, number, *fields = entry
    number = int(number)
    if not is_in_range(net, entry):
        return "no such number"
    if stuck_at(entry) is None and any(stuck_at(other) is not None for other in before):
        return "after stuck"
    if kind in ("start", "drop"):
        edge = int(fields[0][5:]) if fields[0].startswith("weak:") else None
        if not is_released(net, before, number, fields[0], edge):
            return "not released"
        return start_breaks(net, limit, before, number) if kind == "start" else drop_breaks(net, before, entry)
    closed = any(other[0] in ("end", "fault") and int(other[1]) == number for other in before)
    if number >= len(before) or before[number][0] != "start" or closed:
        return "not open"
    task = int(before[number][1])
    if kind == "end":
        return end_breaks(net, before, task, entry)
    return "not over" if fields[0].startswith("over:") and not is_over(net, before, int(fields[0][5:]), number, task) else None


def is_in_range(net, entry):
    kind, number, *fields = entry
    if kind == "end":
        return fields[0] == "-" or all(int(edge) < len(net.edges) for edge in fields[0].split(","))
    named = [word.split(":") for word in fields if ":" in word]
    edges = [int(number) for name, number in named if name == "weak"]
    semaphores = [int(number) for name, number in named if name in ("over", "stuck")]
    return ((kind == "fault" or int(number) < len(net.ops)) and all(edge < len(net.edges) for edge in edges)
            and all(semaphore < len(net.most) for semaphore in semaphores))


def stuck_at(entry):
    """The semaphore for want of whose unit an entry drops a release, or None."""
    is_stuck = entry[0] == "drop" and entry[3].startswith("stuck:")
    return int(entry[3][6:]) if is_stuck else None


def start_breaks(net, limit, before, task):
    for semaphore in sorted(net.takes[task]):
        if not has_unit(net, before, semaphore):
            return f"over units {semaphore}"
    return "over limit" if sum(1 for other in before if other[0] == "start") >= limit else None


def end_breaks(net, before, task, entry):
    edges = [] if entry[2] == "-" else [int(edge) for edge in entry[2].split(",")]
    if not is_chosen(net, task, edges, entry[3] == "inner"):
        return "not chosen"
    for semaphore in sorted(net.puts[task]):
        if taken(net, before, semaphore) == back(net, before, semaphore):
            return f"nothing out {semaphore}"
    return None


def drop_breaks(net, before, entry):
    has_faulted = any(other[0] == "fault" for other in before)
    semaphore = stuck_at(entry)
    if entry[3] == "halted" and not has_faulted:
        return "not halted"
    if semaphore is None:
        return None
    may = not has_faulted and not open_starts(before) and semaphore in net.takes[int(entry[1])] and not has_unit(net, before, semaphore)
    return None if may else "not stuck"


def taken(net, before, semaphore):
    return sum(1 for other in before if other[0] == "start" and semaphore in net.takes[int(other[1])])


def back(net, before, semaphore):
    return sum(1 for other in before if other[0] == "end" and semaphore in net.puts[int(before[int(other[1])][1])])


def has_unit(net, before, semaphore):
    return taken(net, before, semaphore) < back(net, before, semaphore) + net.most[semaphore]


def is_over(net, before, semaphore, place, task):
    """Whether the start at a place, of this task, may fault for a unit that it would give back and that isn't out: at some
    moment since then the units that came from elsewhere were no more than what others were to give back."""
    if semaphore not in net.puts[task]:
        return False
    own = 1 if semaphore in net.takes[task] else 0
    return any(from_elsewhere(net, before[:end], semaphore) + own <= owed_elsewhere(net, before[:end], semaphore, place)
               for end in range(place + 1, len(before) + 1))


def from_elsewhere(net, before, semaphore):
    """How many starts are closed of tasks that take a unit and don't give it back."""
    closed = {int(other[1]) for other in before if other[0] in ("end", "fault")}
    return sum(1 for place in closed if semaphore in net.takes[int(before[place][1])] and semaphore not in net.puts[int(before[place][1])])


def owed_elsewhere(net, before, semaphore, place):
    """How many other starts there are of tasks that give a unit back and don't take it."""
    return sum(1 for at, other in enumerate(before) if other[0] == "start" and at != place
               and semaphore in net.puts[int(other[1])] and semaphore not in net.takes[int(other[1])])


def open_starts(entries):
    closed = {int(entry[1]) for entry in entries if entry[0] in ("end", "fault")}
    return [place for place, entry in enumerate(entries) if entry[0] == "start" and place not in closed]


def is_released(net, before, task, cause, edge):
    into = net.into(task)
    given = {e: net.tokens[e] + sum(other[2].split(",").count(str(e)) for other in before if other[0] == "end") for e in into}
    used = [other[2] for other in before if other[0] in ("start", "drop") and int(other[1]) == task]
    if cause == "source":
        return not into and not used
    if cause == "strong":
        strong = [e for e in into if not net.is_weak(e)]
        return bool(strong) and min(given[e] for e in strong) > used.count("strong")
    return edge in into and net.is_weak(edge) and given[edge] > used.count(cause)


def is_chosen(net, task, edges, inner):
    out = net.out(task)
    shape = net.shape(task)
    if inner and shape != "nested":
        return False
    if shape in ("plain", "nested"):
        return edges in (out, [])
    if shape == "choice":
        return len(edges) <= 1 and all(edge in out for edge in edges)
    return len(set(edges)) == len(edges) and all(edge in out for edge in edges)


def is_finished(net, limit, entries):
    left = any(is_released(net, entries, task, cause, edge) for task in range(len(net.ops))
               for cause, edge in [("source", None), ("strong", None)] + [(f"weak:{e}", e) for e in net.into(task)])
    at_limit = any(entry[0] == "drop" and entry[3] == "limit" for entry in entries)
    starts = sum(1 for entry in entries if entry[0] == "start")
    return not open_starts(entries) and not left and (not at_limit or starts == limit)


def judged_slowly(net, limit, text):
    """The code, output and notes that the judge is to have for a journal."""
    entries = read_slowly(text)
    if isinstance(entries, int):
        return 12, "", f"flow: bad journal line {entries}\n"
    for place, entry in enumerate(entries):
        broken = breaks(net, limit, entries[:place], entry)
        if broken:
            return 11, f"breaks at {place}: {broken}\n", f"flow: not legal at {place}\n"
    return 0, "complete\n" if is_finished(net, limit, entries) else "legal\n", ""


# ---- one line changed

MORE = (1, 2, 1 << 32, (1 << 64) - 1, 1 << 64)
WORDS = ("plain", "inner", "strong", "source", "weak:0", "start", "end", "fault", "drop", "halted", "limit", "stuck:0",
         "long:7", "wide:7", "unmet:7", "over:0", "first", "nothing", "-")


def in_version(dice, text):
    """The journal with the first line of a version that has it."""
    return dice.choice(VERSIONS[1:] if UNITS.search(text) else VERSIONS) + text[text.index("\n"):]


def changed(dice, text):
    """The journal with one line changed."""
    other = text
    while other == text:
        other = changed_once(dice, text)
    return other


def changed_once(dice, text):
    lines = text.split("\n")[:-1]
    place = dice.randrange(len(lines))
    how = dice.randrange(7)
    if how == 0 and place + 1 < len(lines):
        lines[place], lines[place + 1] = lines[place + 1], lines[place]
    elif how == 1:
        del lines[place]
    elif how == 2:
        lines.insert(place, lines[place])
    elif how == 3:
        lines[place] = at_some(dice, "[0-9]+", lines[place], lambda number: str(int(number) + dice.choice(MORE)))
    elif how == 4:
        lines[place] = at_some(dice, "[^ ,]+", lines[place], lambda word: dice.choice(WORDS))
    elif how == 5:
        lines[place] = at_some(dice, "[0-9]+", lines[place], lambda number: dice.choice(["0", "+", " ", "-", ","]) + number)
    elif dice.randrange(4) == 0:
        return text[:-1]
    return "".join(line + "\n" for line in lines)


def at_some(dice, pattern, line, other):
    """The line with one of the parts that have the pattern made another."""
    parts = list(re.finditer(pattern, line))
    if not parts:
        return line
    part = dice.choice(parts)
    return line[:part.start()] + other(part.group()) + line[part.end():]


# ---- the program

def judged(program, folder, text):
    pathlib.Path(folder, "journal.txt").write_text(text)
    return call(program, folder, "judge", "graph.json", "journal.txt", "--limit", str(LIMIT))


class Seen:
    def __init__(self):
        self.counts = {}
        self.faults = 0

    def say(self, what):
        self.counts[what] = self.counts.get(what, 0) + 1

    def fault(self, what):
        self.faults += 1
        print(what, file=sys.stderr)


def hold(program, folder, graph, dice, what, seen):
    """Judges the journal of a run of the graph in a folder, and journals that are made from it."""
    code, text, notes = call(program, folder, "run", "graph.json", "--journal", "--limit", str(LIMIT))
    if code not in (0, 8, 9, 10):
        return seen.say("graphs that aren't run")
    net = Net(graph)
    for version in VERSIONS:
        journal = version + text[text.index("\n"):]
        told = judged(program, folder, journal)
        wanted = judged_slowly(net, LIMIT, journal) if version == VERSIONS[0] and UNITS.search(text) else (0, "complete\n", "")
        if told != wanted:
            seen.fault(f"{what}: the journal of a run is judged as {told}\n{text}")
    seen.say("journals of runs, complete")
    for _ in range(6):
        other = changed(dice, in_version(dice, text))
        found = judged(program, folder, other)
        wanted = judged_slowly(net, LIMIT, other)
        if found != wanted:
            seen.fault(f"{what}: {found}, wanted {wanted}\n{json.dumps(graph)}\n{other}")
        seen.say(f"changed journals, code {wanted[0]} {wanted[1].split(':')[-1].strip()}")


def main():
    words = argparse.ArgumentParser(description=__doc__, formatter_class=argparse.RawDescriptionHelpFormatter)
    add_extent(words)
    asked = words.parse_args()
    seen = Seen()
    for example in sorted((TOP / "examples").iterdir()):
        with tempfile.TemporaryDirectory() as folder:
            shutil.copytree(example, folder, dirs_exist_ok=True)
            graph = json.loads(pathlib.Path(folder, "graph.json").read_text())
            hold(asked.program, folder, graph, random.Random(asked.seed), example.name, seen)
    for number, dice in cases(asked, lambda: seen.faults > 0):
        graph = branching_graph(dice) if number % 2 == 1 else plain_graph(dice)
        graph = with_units(dice, graph) if number % 4 > 1 else graph
        texts = {"one.txt": random_text(dice), "two.txt": random_text(dice)}
        with folder_of(graph, texts) as folder:
            hold(asked.program, folder, graph, dice, f"graph {number} of seed {asked.seed}", seen)
    for what, count in sorted(seen.counts.items()):
        print(f"{count} {what}")
    sys.exit(1 if seen.faults else 0)


if __name__ == "__main__":
    main()
