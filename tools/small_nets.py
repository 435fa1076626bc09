#!/usr/bin/env python3
"""Of how many runs of small nets what is to be said, computed by this program alone.

It prints the table `RUNS` of crates/test_nets/src/exhaustive_steps.rt: a row for each of its nets, with how many runs of up to
five steps, each but the last of which may be taken, are legal, complete, or break each rule. The nets and the steps are
those of that file; the rules are those of the slow judge in judged_journals.py. `--check` says whether that file has this
table.
"""
import os
import re
import sys

from judged_journals import Net, breaks, is_finished

FILE = os.path.join(os.path.dirname(__file__), "..", "crates/test_nets/src/exhaustive_steps.rt")

# How many steps a run takes at most, and how many starts.
DEPTH = 5
LIMIT = 2

# What a verdict may be, in the order of a row.
KINDS = ["legal", "complete", "no such number", "after stuck", "not released", "over units 0", "over limit", "not open", "not chosen",
         "nothing out 0", "not over", "not halted", "not stuck"]

# The shape of a task, what it does with the one unit, and what is around it.
NETS = [
    ("plain", "none", "chain"), ("plain", "taken", "begun chain"), ("plain", "put", "chain"), ("plain", "held", "begun chain"),
    ("nested", "none", "begun chain"), ("nested", "taken", "chain"), ("nested", "put", "begun chain"), ("nested", "held", "chain"),
    ("choice", "none", "loop"), ("choice", "taken", "begun loop"), ("choice", "put", "loop"), ("choice", "held", "begun loop"),
    ("many", "none", "begun loop"), ("many", "taken", "loop"), ("many", "put", "begun loop"), ("many", "held", "loop"),
    ("choice", "none", "pair"), ("choice", "taken", "begun pair"), ("choice", "put", "begun pair"), ("choice", "held", "pair"),
    ("many", "none", "begun pair"), ("plain", "taken", "beside"),
]

# Around a task: the tasks, the edges, and those after them that begin with a token.
LINKS = {
    "chain": (["plain none", "task", "plain held"], [(0, 1), (1, 2)], []),
    "begun chain": (["plain none", "task", "plain held"], [(0, 1), (1, 2)], [(0, 0)]),
    "loop": (["plain none", "task", "plain held"], [(0, 1), (1, 2), (1, 1)], []),
    "begun loop": (["plain none", "task", "plain held"], [(0, 1), (1, 2), (1, 1)], [(0, 0)]),
    "pair": (["task", "plain held"], [(0, 1), (0, 1)], []),
    "begun pair": (["task", "plain held"], [(0, 0), (0, 1)], [(1, 0)]),
    "beside": (["task", "plain taken"], [], []),
}

CAUSES = ["source", "strong"] + [f"weak:{edge}" for edge in range(5)]

GIVES = ["-", "0", "1", "2", "3", "4", "0,0", "1,1", "2,2", "0,1", "1,0", "0,2", "2,0", "0,3", "3,0", "1,2", "2,1"]


class SmallNet(Net):
    def __init__(self, shape, units, links):
        tasks, edges, rings = LINKS[links]
        rows = [(f"{shape} {units}" if task == "task" else task).split() for task in tasks]
        self.most = [1]
        self.ops = [shape for shape, _ in rows]
        self.takes = [[0] if units in ("taken", "held") else [] for _, units in rows]
        self.puts = [[0] if units in ("put", "held") else [] for _, units in rows]
        self.edges = edges + rings
        self.tokens = [0] * len(edges) + [1] * len(rings)

    def shape(self, task):
        return self.ops[task]


def steps():
    """Every step: of four tasks, five edges, two semaphores and the first five entries, some of which a net hasn't."""
    releases = [(str(task), cause) for task in range(4) for cause in CAUSES]
    yield from (("start", *release, "-") for release in releases)
    yield from (("drop", *release, why) for release in releases for why in ("halted", "limit", "stuck:0", "stuck:1"))
    for start in map(str, range(DEPTH)):
        yield from (("fault", start, why) for why in ("inner", "over:0", "over:1"))
        yield "end", start, "-", "inner"
        yield from (("end", start, gives, "plain") for gives in GIVES)


STEPS = list(steps())


def count_runs(net, counts, before):
    for step in STEPS:
        broken = breaks(net, LIMIT, before, step)
        after = before + [step]
        counts[broken or ("complete" if is_finished(net, LIMIT, after) else "legal")] += 1
        if not broken and len(after) < DEPTH:
            count_runs(net, counts, after)


def row_of(net):
    counts = dict.fromkeys(KINDS, 0)
    count_runs(SmallNet(*net), counts, [])
    return list(counts.values())


def main():
    rows = [row_of(net) for net in NETS]
    if sys.argv[1:] == ["--check"]:
        table = re.search(r"const RUNS\b.*?= \[(.*?)\n\];", open(FILE).read(), re.DOTALL)
        same = [int(number) for number in re.findall("[0-9]+", table[1].replace("_", ""))] == sum(rows, [])
        sys.exit(0 if same else f"{os.path.normpath(FILE)} has another table")
    print("\n".join(f"    {row}," for row in rows))


if __name__ == "__main__":
    main()
