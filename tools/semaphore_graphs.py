#!/usr/bin/env python3
"""Runs random graphs with semaphores by 1, 4 and 16 workers, and compares reports with journals by a slow evaluation.

    semaphore_graphs.py PROGRAM [--count N | --seconds N] [--seed N] [--tries N]

A unit may be given back by another task than that which took it, so a run may get stuck or give a unit back too often;
half of the graphs have conditions and loops, and limits of starts differ. Each run may go in any legal way. Its journal
has to be judged complete, by the program and by the slow judge of `judged_journals.py`. From it a slow evaluation makes
the value of each end, which edges a condition chooses, the report, and the code and the line of standard error, which
have to be those of that run. A report by one worker has to be that of the journal, which is the same in each run. A
report by more workers may be that of another run: it has to be that of a journal of theirs, of which up to N more are
made (`--tries`); where none has it, it is counted, and only its form and last line are compared. With `--seconds` graphs
are made until so many seconds have passed or there is a difference. A call that takes longer than a minute counts as one
that doesn't end. Prints a line for each difference and how many runs ended with which code, and ends with status 1 where
there was a difference.
"""
import argparse
import collections
import json
import pathlib
import sys

from judged_journals import Net, judged_slowly, listed, read_slowly
from random_graphs import add_extent, branching_graph, call, cases, folder_of, has_form, lines_of, plain_graph, random_text, value_of, with_units

WORKERS = (1, 4, 16)

# The slow judge takes a time that grows with the square of a journal's length.
LIMITS = (1, 10, 30, 30, 30)
CONDITIONS = ("back", "ifmore", "ifhas", "route")


# ---- what a journal comes to

def chosen(task, text):
    """The places in `to` of the successors that a task chooses, or None where it signals all."""
    lines = lines_of(text)
    if task["op"] == "back":
        return [0]
    if task["op"] == "ifmore":
        return [0 if len(lines) > task["n"] else 1]
    if task["op"] == "ifhas":
        return [0 if any(task["word"] in line for line in lines) else 1]
    if task["op"] == "route":
        return [place for place, word in enumerate(task["words"]) if any(word in line for line in lines)]
    return None


class Evaluation:
    """The values of a journal's ends, and what is wrong with what its starts found and its conditions chose."""

    def __init__(self, graph, texts, entries):
        self.graph, self.texts, self.entries = graph, texts, entries
        self.net = Net(graph)
        self.values, self.last, self.found = {}, {}, set()
        self.faults = []
        for place, entry in enumerate(entries):
            if entry[0] == "end":
                self.end(place, int(entry[1]), entry[2])

    def edges_of(self, start):
        """The edges at which a start finds its inputs."""
        task, cause = int(start[1]), start[2]
        if cause == "source":
            return []
        if cause == "strong":
            return [edge for edge in self.net.into(task) if not self.net.is_weak(edge)]
        return [int(cause.partition(":")[2])]

    def part(self, edge, part):
        """The value that a start finds at an edge: that of an end which signalled it, for the first time."""
        if not part.isdigit() or int(part) not in self.values:
            self.faults.append(f"{part} was found at edge {edge}")
            return ""
        if str(edge) not in listed(self.entries[int(part)][2]) or (edge, part) in self.found:
            self.faults.append(f"the end at {part} was found at edge {edge}, which it didn't signal once more")
        self.found.add((edge, part))
        return self.values[int(part)]

    def end(self, place, at, gives):
        start = self.entries[at]
        number, edges, ins = int(start[1]), self.edges_of(start), listed(start[3])
        task, out = self.graph["tasks"][number], self.net.out(number)
        if len(edges) != len(ins):
            self.faults.append(f"the start at {at} found {len(ins)} inputs at {len(edges)} edges")
            return
        parts = [self.part(edge, part) for edge, part in zip(edges, ins)]
        text = "".join(parts)
        is_condition = task["op"] in CONDITIONS
        self.values[place] = text if is_condition else value_of(task, parts, self.texts)
        self.last[number] = self.values[place]
        signalled = [out[choice] for choice in chosen(task, text) if choice < len(out)] if is_condition else out
        if listed(gives) != [str(edge) for edge in signalled]:
            self.faults.append(f"the end at {place} signals {gives}, not {signalled}")

    def reason(self, limit):
        """The exit code, and why the run was cut short: its first fault, else the limit, else the first that got stuck."""
        for entry in self.entries:
            if entry[0] == "fault":
                name = self.graph["tasks"][int(self.entries[int(entry[1])][1])]["name"]
                return 9, f"fault {name}: {entry[2].replace(':', ' ')}"
        if any(entry[0] == "drop" and entry[3] == "limit" for entry in self.entries):
            return 8, f"limit {limit}"
        for entry in self.entries:
            if entry[0] == "drop":
                return 10, f"stuck {self.graph['tasks'][int(entry[1])]['name']}"
        return 0, ""

    def seen(self, limit):
        """The code, the output and the notes of the run's report."""
        code, why = self.reason(limit)
        rows = [f"== {task['name']}\n{self.last[number]}" if number in self.last else f"-- {task['name']}\n"
                for number, task in enumerate(self.graph["tasks"]) if not task.get("to")]
        line = f"{why}\n" if why else ""
        return code, "".join(rows) + (f"!! {line}" if why else ""), f"flow: {line}" if why else ""


# ---- runs

class Case:
    """A graph with its texts and the limit of its runs, in a folder."""

    def __init__(self, program, folder, graph, texts, limit, counts):
        self.program, self.folder, self.graph, self.texts, self.limit, self.counts = program, folder, graph, texts, limit, counts

    def call(self, workers, *options):
        return call(self.program, self.folder, "run", "graph.json", "--workers", str(workers), "--limit", str(self.limit), *options)

    def evaluated(self, workers):
        """What is wrong with the journal of a run, and what that run's report is."""
        code, journal, notes = self.call(workers, "--journal")
        entries = read_slowly(journal) if code in (0, 8, 9, 10) else 0
        if isinstance(entries, int):
            return [f"a journal with code {code}, {notes!r}: {journal!r}"], None
        pathlib.Path(self.folder, "journal.txt").write_text(journal)
        judged = call(self.program, self.folder, "judge", "graph.json", "journal.txt", "--limit", str(self.limit))
        slowly = judged_slowly(Net(self.graph), self.limit, journal)
        made = Evaluation(self.graph, self.texts, entries)
        report = made.seen(self.limit)
        faults = [f"judged {what}: {journal!r}" for what in (judged, slowly) if what != (0, "complete\n", "")]
        faults += [f"{fault}: {journal!r}" for fault in made.faults]
        if (code, notes) != (report[0], report[2]):
            faults.append(f"code {code}, {notes!r}, by its journal {report[0]}, {report[2]!r}: {journal!r}")
        return faults, report

    def faults(self, workers, tries):
        """What is wrong with two runs, of which one prints its journal and one its report."""
        faults, wanted = self.evaluated(workers)
        seen = self.call(workers)
        self.counts[f"by {workers} workers ended with code {seen[0]}"] += 1
        if faults or seen == wanted:
            return faults
        if workers == 1:
            return [f"reported {seen}, by the journal {wanted}"]
        for _ in range(tries):
            faults, wanted = self.evaluated(workers)
            if faults or seen == wanted:
                return faults
        self.counts["were of no journal that was made"] += 1
        code, out, notes = seen
        last = out.split("\n")[-2].replace("!!", "flow:", 1) + "\n" if code else ""
        is_fit = code in (0, 8, 9, 10) and has_form(self.graph, out) and last == notes
        return [] if is_fit else [f"reported {seen}"]


def made_graph(dice, number):
    """A graph with semaphores and a task without predecessors."""
    while True:
        graph = with_units(dice, branching_graph(dice) if number % 2 == 1 else plain_graph(dice))
        targets = {name for task in graph["tasks"] for name in task.get("to", [])}
        if any(task["name"] not in targets for task in graph["tasks"]):
            return graph


def main():
    words = argparse.ArgumentParser(description=__doc__, formatter_class=argparse.RawDescriptionHelpFormatter)
    add_extent(words, 1_000)
    words.add_argument("--tries", type=int, default=20)
    asked = words.parse_args()
    faults, graphs, counts = 0, 0, collections.Counter()
    for number, dice in cases(asked, lambda: faults > 0):
        graphs += 1
        graph, limit = made_graph(dice, number), dice.choice(LIMITS)
        texts = {"one.txt": random_text(dice), "two.txt": random_text(dice)}
        with folder_of(graph, texts) as folder:
            case = Case(asked.program, folder, graph, texts, limit, counts)
            for workers in WORKERS:
                for fault in case.faults(workers, asked.tries):
                    faults += 1
                    print(f"graph {number} of seed {asked.seed}, {workers} workers, limit {limit}: {fault[:2_000]}\n{json.dumps(graph)}\n{texts}", file=sys.stderr)
    for what, count in sorted(counts.items()):
        print(f"{count} reports {what}")
    print(f"{graphs} graphs with semaphores of seed {asked.seed}, {faults} faults")
    sys.exit(1 if faults else 0)


if __name__ == "__main__":
    main()
