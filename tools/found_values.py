#!/usr/bin/env python3
"""Runs graphs with conditions by several numbers of workers, and looks in their journals for what each start found.

    found_values.py PROGRAM [--count N | --seconds N] [--seed N] [--runs N] [--queue N]

At no edge that was signalled may a start find nothing, and each end that signalled an edge may be found there once. So
of the ends that signalled an edge as many aren't found as tokens were dropped or left there. By one worker, where no
token was dropped, they are found in the order of the journal. Besides random graphs three are run N times (`--runs`) by
each number of workers: the three branches of a `route` that come together again, a loop that two texts go round, and
four reads before a loop before a join. In two more graphs, run once by each number of workers, a loop signals one edge
50,000 times (`--queue`), whose target starts whenever a worker gets to it, or has to wait for a second loop. Prints a
line for each difference, how many inputs were found, and how many values waited at one edge at most, and ends with
status 1 where there was a difference.
"""
import argparse
import collections
import json
import sys

from judged_journals import listed
from random_graphs import add_extent, branching_graph, call, cases, folder_of, random_text

WORKERS = (1, 2, 4, 16)
LIMITS = (10, 40, 400)

LOG = "".join(f"{kind} line {number}\n" for number in range(12) for kind in ("a", "b", "c"))


def task(name, op, to=(), **fields):
    return {"name": name, "op": op, **fields, "to": list(to)}


ROUTE = [
    task("log", "read", ["triage"], text="one.txt"),
    task("triage", "route", ["as", "bs", "cs"], words=["a", "b", "c"]),
    *(task(f"{word}s", "keep", [f"{word}-back"], word=word) for word in "abc"),
    *(task(f"{word}-back", "back", ["merge"]) for word in "abc"),
    task("merge", "sort", ["n", "all"]),
    task("n", "count"),
    task("all", "head", n=2),
]
LOOP = [
    *(task(f"read-{name}", "read", [f"{name}-in"], text=f"{name}.txt") for name in ("one", "two")),
    *(task(f"{name}-in", "back", ["trim"]) for name in ("one", "two")),
    task("trim", "skip", ["more"], n=1),
    task("more", "ifmore", ["trim", "last"], n=3),
    task("last", "pass", ["n", "all"]),
    task("n", "count"),
    task("all", "head", n=2),
]
JOIN = [
    *(task(f"read-{number}", "read", [f"in-{number}"], text="one.txt") for number in range(4)),
    *(task(f"in-{number}", "back", ["trim"]) for number in range(4)),
    task("trim", "skip", ["more"], n=5),
    task("more", "ifmore", ["trim", "last"], n=8),
    task("last", "pass", ["left", "right"]),
    task("left", "count", ["join"]),
    task("right", "head", ["join"], n=1),
    task("join", "match"),
]
FIXED = {"route": ROUTE, "loop": LOOP, "join": JOIN}
# The loop signals the edge from `more` to `taken` once for each line.
QUEUE = [
    task("read", "read", ["more"], text="long.txt"),
    task("more", "route", ["trim", "taken"], words=["x", "x"]),
    task("trim", "skip", ["again"], n=1),
    task("again", "back", ["more"]),
    task("taken", "pass"),
]
# A first loop signals the edge from `tick` to `pair` once for each line, and `pair` waits. A second loop then signals it
# as often again, and each time the other edge into `pair`, so that a value is put there and one taken.
POOL = [
    task("read", "read", ["more"], text="long.txt"),
    task("more", "ifmore", ["round", "second"], n=0),
    task("round", "pass", ["trim", "tick"]),
    task("trim", "skip", ["again"], n=1),
    task("again", "back", ["more"]),
    task("tick", "head", ["pair"], n=1),
    task("second", "read", ["more-2"], text="long.txt"),
    task("more-2", "ifmore", ["round-2", "end"], n=0),
    task("round-2", "pass", ["trim-2", "tick-again", "tock"]),
    task("trim-2", "skip", ["again-2"], n=1),
    task("again-2", "back", ["more-2"]),
    task("tick-again", "back", ["tick"]),
    task("tock", "head", ["pair"], n=1),
    task("pair", "pass"),
    task("end", "pass"),
]
QUEUES = {"queue": QUEUE, "pool": POOL}


# ---- graphs and journals

class Edges:
    """The edges of a graph, which are numbered in the order of the file."""

    def __init__(self, graph):
        number = {row["name"]: place for place, row in enumerate(graph["tasks"])}
        is_choice = [row["op"] in ("back", "ifmore", "ifhas", "route") for row in graph["tasks"]]
        pairs = [(number[row["name"]], number[name]) for row in graph["tasks"] for name in row.get("to", [])]
        self.strong_in = collections.defaultdict(list)
        for edge, (source, target) in enumerate(pairs):
            if not is_choice[source]:
                self.strong_in[target].append(edge)

    def of(self, task_number, cause):
        """The edges whose tokens a release uses."""
        if cause == "source":
            return []
        return self.strong_in[task_number] if cause == "strong" else [int(cause.partition(":")[2])]


class Found:
    """What the entries of a journal say of each edge: the ends that signalled it, what was found there, and how many tokens
    were dropped."""

    def __init__(self, edges, journal):
        self.given = collections.defaultdict(list)
        self.found = collections.defaultdict(list)
        self.dropped = collections.Counter()
        self.most = 0
        waiting = collections.Counter()
        for place, line in enumerate(journal.splitlines()[1:]):
            words = line.split(" ")
            if words[0] == "start":
                for edge, part in zip(edges.of(int(words[1]), words[2]), listed(words[3]), strict=True):
                    self.found[edge].append(part)
                    waiting[edge] -= 1
            elif words[0] == "end":
                for edge in listed(words[2]):
                    self.given[int(edge)].append(str(place))
                    waiting[int(edge)] += 1
                    self.most = max(self.most, waiting[int(edge)])
            elif words[0] == "drop":
                self.dropped.update(edges.of(int(words[1]), words[2]))

    def faults(self, workers):
        for edge, parts in self.found.items():
            given = self.given[edge]
            if "nothing" in parts:
                yield f"nothing was found at edge {edge}, {parts.count('nothing')} times"
            elif len(set(parts)) < len(parts) or not set(parts) <= set(given):
                yield f"edge {edge} was signalled by {given}, and {parts} were found"
            elif len(parts) + self.dropped[edge] > len(given):
                yield f"edge {edge} was signalled {len(given)} times, and used more often"
            elif workers == 1 and not self.dropped[edge] and parts != given[:len(parts)]:
                yield f"edge {edge} was signalled by {given}, and found in the order {parts}"

    def count(self):
        return sum(map(len, self.found.values()))


# ---- runs

def run_once(program, folder, edges, limit, workers, counts):
    """What is wrong with what a run's starts found."""
    code, journal, notes = call(program, folder, "run", "graph.json", "--journal", "--limit", str(limit), "--workers", str(workers))
    if code == 4:
        return []
    if code not in (0, 8, 9):
        return [f"code {code}, {notes!r}"]
    found = Found(edges, journal)
    counts["inputs"] += found.count()
    counts["runs"] += 1
    counts["most"] = max(counts["most"], found.most)
    counts["nothing"] += sum(parts.count("nothing") for parts in found.found.values())
    return list(found.faults(workers))


def run_graph(program, graph, texts, what, limit, runs, counts):
    """How many faults the runs of a graph have; the first of each number of workers is printed."""
    edges, faults = Edges(graph), 0
    with folder_of(graph, texts) as folder:
        for workers in WORKERS:
            of_workers = [fault for _ in range(runs) for fault in run_once(program, folder, edges, limit, workers, counts)]
            faults += len(of_workers)
            if of_workers:
                print(f"{what}, {workers} workers, limit {limit}: {len(of_workers)} faults, first: {of_workers[0]}\n{json.dumps(graph)}", file=sys.stderr)
    return faults


def main():
    words = argparse.ArgumentParser(description=__doc__, formatter_class=argparse.RawDescriptionHelpFormatter)
    add_extent(words)
    words.add_argument("--runs", type=int, default=10)
    words.add_argument("--queue", type=int, default=50_000)
    asked = words.parse_args()
    counts, faults, graphs = collections.Counter(), 0, 0
    for name, tasks in FIXED.items():
        faults += run_graph(asked.program, {"tasks": tasks}, {"one.txt": LOG, "two.txt": LOG[:200]}, name, 100_000, asked.runs, counts)
    for name, tasks in QUEUES.items():
        faults += run_graph(asked.program, {"tasks": tasks}, {"long.txt": "x\n" * asked.queue}, name, 1_000_000, 1, counts)
    for number, dice in cases(asked, lambda: faults > 0):
        graph = branching_graph(dice)
        texts = {"one.txt": random_text(dice), "two.txt": random_text(dice)}
        faults += run_graph(asked.program, graph, texts, f"graph {number} of seed {asked.seed}", dice.choice(LIMITS), 1, counts)
        graphs += 1
    print(f"{len(FIXED)} graphs {asked.runs} times, two long queues and {graphs} random graphs by each of {WORKERS} workers: {counts['runs']} runs found {counts['inputs']} inputs, {counts['nothing']} of them nothing, at most {counts['most']} values at one edge; {faults} faults")
    sys.exit(1 if faults else 0)


if __name__ == "__main__":
    main()
