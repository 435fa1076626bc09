#!/usr/bin/env python3
"""Runs random graphs with modules and spreads by 1, 4 and 16 workers, and compares what they print.

    nested_graphs.py PROGRAM [--count N | --seconds N] [--seed N]

Modules run others, up to four deep, and tasks of each graph open spreads; some graphs have semaphores. Half of the files
have no conditions in any graph, and their tasks give back just what they take: a slow evaluation makes what they print,
run by run, which is compared for each number of workers, unless a run inside is cut short by the limit of starts. The
others have conditions, loops, and units that never come back: of these the code, the form of the report, and that its
last line is that of standard error are checked. The journal of each run is judged by the program. With `--seconds` files
are made until so many seconds have passed or there is a difference. A call that takes longer than a minute counts as one
that doesn't end. Prints a line for each difference and how many runs ended with which code, and ends with status 1 where
there was a difference.
"""
import argparse
import collections
import dataclasses
import json
import pathlib
import sys

from random_graphs import (ON_TEXT, add_extent, branching_graph, call, cases, fields_on_text, folder_of, has_form, lines_of,
                           plain_graph, random_text, report_of, sinks_of, slow_values, text_of, value_of, with_units)

WORKERS = (1, 4, 16)

# Without conditions each task starts once; a loop starts the runs inside it as often as the limit allows, at each depth.
PLAIN_LIMITS = (5, 1_000, 1_000)
LOOP_LIMITS = (1, 3, 10, 20)


# ---- files

def opening_task(dice, task, modules):
    """The task with a run as its work."""
    kept = {field: task[field] for field in ("name", "to") if field in task}
    if modules and dice.random() < 0.6:
        return kept | {"op": "module", "module": dice.choice(modules)}
    op = dice.choice(ON_TEXT)
    return kept | {"op": "spread", "n": dice.randint(1, 4), "each": {"op": op} | fields_on_text(dice, op)}


def with_runs(dice, graph, modules):
    chance = dice.choice([0.1, 0.3, 0.5])
    return {"tasks": [opening_task(dice, task, modules) if task["op"] in [*ON_TEXT, "match"] and dice.random() < chance
                      else task for task in graph["tasks"]]}


def made_graph(dice, modules, has_conditions, version):
    graph = with_runs(dice, branching_graph(dice) if has_conditions else plain_graph(dice), modules)
    return with_units(dice, graph, version) if dice.random() < 0.3 else graph


def made_module(dice, name, modules, has_conditions, version):
    graph = made_graph(dice, modules, has_conditions and dice.random() < 0.5, version)
    for task in graph["tasks"]:
        if task["name"] == "first":
            task.pop("text")
            task["op"] = "input"
    graph.pop("version", None)
    return {"name": name} | graph


def made_file(dice, has_conditions):
    version = dice.choice([1, 2]) if has_conditions else 1
    names = [f"m{k}" for k in range(dice.randint(0, 2 if has_conditions else 4))]
    modules = [made_module(dice, name, names[place + 1:], has_conditions, version) for place, name in enumerate(names)]
    return made_graph(dice, names, has_conditions, version) | {"version": version, "modules": modules}


# ---- what a file without conditions prints

class Cut(Exception):
    """A run would have more starts than the limit."""


@dataclasses.dataclass
class Evaluation:
    """A slow evaluation of the graphs of a file."""

    file: dict
    texts: dict
    limit: int

    def run(self, graph, text):
        """The values of a graph that is started with a text. A spread has a start for each part, whatever the limit."""
        values = slow_values(graph, lambda task, parts: self.value(task, parts, text))
        if len(values) > self.limit:
            raise Cut
        return values

    def value(self, task, parts, text):
        op = task["op"]
        if op == "input":
            return text_of(lines_of(text))
        if op == "module":
            return self.module(task["module"], "".join(parts))
        if op == "spread":
            return self.spread(task, lines_of("".join(parts)))
        return value_of(task, parts, self.texts)

    def module(self, name, text):
        graph = next(module for module in self.file["modules"] if module["name"] == name)
        values = self.run(graph, text)
        return "".join(values.get(name, "") for name in sinks_of(graph))

    def spread(self, task, lines):
        parts = [lines[at:at + task["n"]] for at in range(0, len(lines), task["n"])]
        return "".join(value_of(task["each"], [text_of(part)], self.texts) for part in parts)


def wanted_report(file, texts, limit):
    """The report, or None where a run is cut short."""
    try:
        return report_of(file, Evaluation(file, texts, limit).run(file, ""))
    except Cut:
        return None


# ---- the program

def report_fault(file, wanted, has_conditions, seen):
    code, out, notes = seen
    if wanted is not None:
        return None if seen == (0, wanted, "") else f"code {code}, {notes!r}, printed {out!r}, wanted {wanted!r}"
    if code not in ((0, 8, 9, 10) if has_conditions else (8,)) or not has_form(file, out):
        return f"code {code}, {notes!r}, or a report of another form: {out!r}"
    if code != 0 and out.split("\n")[-2].replace("!!", "flow:", 1) != notes.rstrip("\n"):
        return f"code {code}, {notes!r}, printed {out!r}"
    return None


def journal_fault(program, folder, options):
    """What is wrong with the journal of a run."""
    code, journal, notes = call(program, folder, "run", "graph.json", "--journal", *options)
    if code not in (0, 8, 9, 10):
        return f"a journal with code {code}, {notes!r}"
    pathlib.Path(folder, "journal.txt").write_text(journal)
    seen = call(program, folder, "judge", "graph.json", "journal.txt", *options[:2])
    return None if seen == (0, "complete\n", "") else f"judged {seen}: {journal!r}"


def faults_of(program, case, folder, codes):
    file, texts, limit, has_conditions = case
    wanted = None if has_conditions else wanted_report(file, texts, limit)
    for workers in WORKERS:
        options = ["--limit", str(limit), "--workers", str(workers)]
        seen = call(program, folder, "run", "graph.json", *options)
        codes[workers, has_conditions, str(seen[0])] += 1
        for what in (report_fault(file, wanted, has_conditions, seen), journal_fault(program, folder, options)):
            if what:
                yield f"{workers} workers, limit {limit}: {what[:2_000]}"


def run_case(program, case, what, codes):
    """How many faults the runs of a file have."""
    file, texts, _, _ = case
    with folder_of(file, texts) as folder:
        faults = list(faults_of(program, case, folder, codes))
    for fault in faults:
        print(f"{what}: {fault}\n{json.dumps(file)}\n{texts}", file=sys.stderr)
    return len(faults)


def made_case(dice, number):
    has_conditions = number % 2 == 1
    texts = {"one.txt": random_text(dice), "two.txt": random_text(dice)}
    return made_file(dice, has_conditions), texts, dice.choice(LOOP_LIMITS if has_conditions else PLAIN_LIMITS), has_conditions


def main():
    words = argparse.ArgumentParser(description=__doc__, formatter_class=argparse.RawDescriptionHelpFormatter)
    add_extent(words)
    asked = words.parse_args()
    files = faults = 0
    codes = collections.Counter()
    for number, dice in cases(asked, lambda: faults > 0):
        files += 1
        faults += run_case(asked.program, made_case(dice, number), f"file {number} of seed {asked.seed}", codes)
    for (workers, has_conditions, code), count in sorted(codes.items()):
        print(f"{workers} workers: {count} files {'with' if has_conditions else 'without'} conditions ended with code {code}")
    print(f"{files} files, {faults} faults")
    sys.exit(1 if faults else 0)


if __name__ == "__main__":
    main()
