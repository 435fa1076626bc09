#!/usr/bin/env python3
"""Runs random graphs by 1, 4 and 16 workers, and has the program's judge look at each journal.

    many_workers.py PROGRAM [--count N | --seconds N] [--seed N]

Of a graph without conditions whose run is fine each number of workers has to print the same bytes, those of a slow
evaluation; such a run has to be fine where no text is long and the limit isn't below the number of tasks. Of each other
run the report has to have its form, and its last line has to be that of standard error. Each run is made once more with
`--journal`, and its journal has to be judged complete. The limits of starts differ, so that runs meet them, and in each
twenty-fifth graph a text is so long that two of them together are too long for a value. With `--seconds` graphs are made until
so many seconds have passed or there is a difference. A call that takes longer than a minute counts as one that doesn't
end. Prints a line for each difference and how many runs ended with which code, and ends with status 1 where there was a
difference.
"""
import argparse
import json
import pathlib
import sys

from random_graphs import add_extent, branching_graph, call, cases, difference, folder_of, has_form, plain_graph, random_text

# None asks for no number.
WORKERS = (1, 4, 16, None)
LIMITS = (1, 3, 10, 40, 1_000)

# More than half of the longest value.
LONG_TEXT = "a b\n" * 2_200_000


def options(limit, workers):
    return ["--limit", str(limit)] + (["--workers", str(workers)] if workers else [])


def made_case(dice, number):
    """A graph, its texts, the limit of its run, and whether it has conditions."""
    has_conditions = number % 2 == 1
    graph = branching_graph(dice) if has_conditions else plain_graph(dice)
    texts = {"one.txt": random_text(dice), "two.txt": random_text(dice)}
    if number % 25 == 6:
        texts["one.txt"] = LONG_TEXT
        readers = [task for task in graph["tasks"] if task.get("text") == "one.txt" and task.get("to")]
        for task in readers:
            task["to"].append(task["to"][0])
    return graph, texts, dice.choice(LIMITS), has_conditions


def journal_fault(program, folder, limit, workers, reported):
    """What is wrong with the journal of a run by so many workers, of which the report's call ended with this code."""
    code, journal, notes = call(program, folder, "run", "graph.json", "--journal", *options(limit, workers))
    if code == 4 and reported == 4:
        return None
    if code not in (0, 8, 9):
        return f"a journal with code {code}, {notes!r}"
    pathlib.Path(folder, "journal.txt").write_text(journal)
    seen = call(program, folder, "judge", "graph.json", "journal.txt", "--limit", str(limit))
    return None if seen == (0, "complete\n", "") else f"judged {seen}: {journal!r}"


def report_fault(case, seen, alone):
    """What is wrong with the report of a run; `alone` is what was seen of one worker."""
    graph, texts, limit, has_conditions = case
    code, out, notes = seen
    if code in (8, 9):
        if not has_form(graph, out) or out.split("\n")[-2].replace("!!", "flow:", 1) != notes.rstrip("\n"):
            return f"code {code}, {notes!r}, printed {out!r}"
        if has_conditions or limit < len(graph["tasks"]) or LONG_TEXT in texts.values():
            return None
    if code == 0 and not has_conditions and alone[0] == 0 and seen is not alone:
        return None if seen == alone else f"printed {seen!r}, one worker {alone!r}"
    return difference(graph, texts, has_conditions, seen)


def faults_of(program, case, folder, codes):
    graph, texts, limit, has_conditions = case
    alone = None
    for workers in WORKERS:
        seen = call(program, folder, "run", "graph.json", *options(limit, workers))
        alone = alone or seen
        key = (workers or 0, has_conditions, str(seen[0]))
        codes[key] = codes.get(key, 0) + 1
        for what in (report_fault(case, seen, alone), journal_fault(program, folder, limit, workers, seen[0])):
            if what:
                yield f"{workers} workers, limit {limit}: {what[:2_000]}"


def run_case(program, case, what, codes):
    """How many faults the runs of a graph have."""
    graph, texts, _, _ = case
    with folder_of(graph, texts) as folder:
        faults = list(faults_of(program, case, folder, codes))
    for fault in faults:
        print(f"{what}: {fault}\n{json.dumps(graph)}", file=sys.stderr)
    return len(faults)


def main():
    words = argparse.ArgumentParser(description=__doc__, formatter_class=argparse.RawDescriptionHelpFormatter)
    add_extent(words)
    asked = words.parse_args()
    graphs = faults = 0
    codes = {}
    for number, dice in cases(asked, lambda: faults > 0):
        graphs += 1
        faults += run_case(asked.program, made_case(dice, number), f"graph {number} of seed {asked.seed}", codes)
    for (workers, has_conditions, code), count in sorted(codes.items()):
        kind = "with" if has_conditions else "without"
        by = f"{workers} workers" if workers else "no number"
        print(f"{by}: {count} graphs {kind} conditions ended with code {code}")
    print(f"{graphs} graphs, {faults} faults")
    sys.exit(1 if faults else 0)


if __name__ == "__main__":
    main()
