#!/usr/bin/env python3
"""Runs the program on random graphs and compares what it prints with a slow evaluation of the same graphs.

    random_graphs.py PROGRAM [--count N | --seconds N] [--seed N] [-- OPTION ...]

Half of the graphs have no conditions: what they print is computed here, task by task, from the definitions of the
operations alone. The others have conditions and loops, whose values depend on the order of the run: of these the
exit code and the form of the report are checked. With `--seconds` graphs are made until so many seconds have passed or
there is a difference. A call that takes longer than a minute counts as one that doesn't end. Prints a line for each
difference and how many graphs of each kind were run, and ends with status 1 where there was a difference.
"""
import argparse
import contextlib
import itertools
import json
import pathlib
import random
import subprocess
import sys
import tempfile
import time

WORDS = ["", "a", "b", "error", "10", " x"]
ON_TEXT = ["pass", "keep", "without", "head", "tail", "skip", "sort", "uniq", "count", "tally"]


# ---- graphs

def random_text(dice):
    lines = [" ".join(dice.choice(["a", "b", "error", "10", "x", "", "zz"]) for _ in range(dice.randint(0, 3)))
             for _ in range(dice.randint(0, 9))]
    text = "\n".join(lines)
    return text + "\n" if dice.random() < 0.7 and text else text


def fields_on_text(dice, op):
    if op in ("keep", "without"):
        return {"word": dice.choice(WORDS)}
    if op in ("head", "tail", "skip"):
        return {"n": dice.randint(0, 5)}
    return {}


def plain_task(dice, name, starts):
    op = dice.choice(["read", "input"]) if starts else dice.choice(ON_TEXT + ["match", "read"])
    task = {"name": name, "op": op}
    if op == "read":
        task["text"] = dice.choice(["one.txt", "two.txt"])
    return task | fields_on_text(dice, op)


def plain_graph(dice):
    """A graph without conditions; now and then with a circle, whose tasks never run."""
    count = dice.randint(1, 12)
    names = [f"t{k}" for k in range(count)]
    order = names[:]
    dice.shuffle(order)
    tasks = {name: plain_task(dice, name, place == 0) for place, name in enumerate(order)}
    for place, name in enumerate(order):
        later = order[place + 1:]
        to = [dice.choice(later) for _ in range(dice.randint(0, 3))] if later else []
        if place and dice.random() < 0.03:
            to.append(order[dice.randint(1, place)])
        if to or dice.random() < 0.5:
            tasks[name]["to"] = to
    return {"tasks": [tasks[name] for name in names]}


def branching_task(dice, name, names):
    op = dice.choice(["back", "ifmore", "ifhas", "route", "skip", "pass", "head"])
    task = {"name": name, "op": op, "to": [dice.choice(names) for _ in range(dice.randint(0, 3))]}
    if op == "ifmore":
        task["n"] = dice.randint(0, 5)
    elif op == "ifhas":
        task["word"] = dice.choice(WORDS)
    elif op == "route":
        task["words"] = [dice.choice(WORDS) for _ in range(dice.randint(0, 4))]
    return task | fields_on_text(dice, op)


def branching_graph(dice):
    names = [f"t{k}" for k in range(dice.randint(2, 9))]
    first = {"name": "first", "op": "read", "text": "one.txt", "to": [dice.choice(names)]}
    return {"tasks": [first] + [branching_task(dice, name, names) for name in names]}


def some_of(dice, names, chance):
    return [name for name in names if dice.random() < chance]


def with_units(dice, graph, version=None):
    """The graph with semaphores of a few units each. In version 1 tasks hold them. In version 2 a task gives back what it
    takes, or one of its successors does, or nobody; now and then a task gives back a unit that it didn't take."""
    names = [f"s{k}" for k in range(dice.randint(1, 3))]
    version, chance = version or dice.choice([1, 2, 2, 2]), dice.choice([0.1, 0.3, 0.5])
    tasks = [dict(task) for task in graph["tasks"]]
    by_name = {task["name"]: task for task in tasks}
    for task in tasks:
        taken = some_of(dice, names, chance)
        if version == 1:
            task["holds"] = taken
            continue
        givers = [task] + [by_name[name] for name in task.get("to", [])]
        returned = some_of(dice, names, 0.05)
        if dice.random() < 0.8:
            give_back(dice.choice(givers), taken)
        give_back(task, returned)
        task["acquire"] = taken
    semaphores = [{"name": name, "max": dice.choice([1, 1, 2, 3])} for name in names]
    return {"version": version, "tasks": tasks, "semaphores": semaphores}


def give_back(task, names):
    """Adds to what a task gives back."""
    given = task.setdefault("release", [])
    given.extend(name for name in names if name not in given)


# ---- what a graph without conditions prints

def lines_of(text):
    return text.split("\n")[:-1] if text.endswith("\n") or not text else text.split("\n")


def text_of(lines):
    return "".join(line + "\n" for line in lines)


def tally(lines):
    return [f"{lines.count(line)} {line}" for line in sorted(set(lines))]


def match(parts):
    first_with = {}
    for line in lines_of("".join(parts[1:])):
        key, space, rest = line.partition(" ")
        first_with.setdefault(key, space + rest)
    left = lines_of(parts[0]) if parts else []
    return [line + first_with[line.split(" ")[0]] for line in left if line.split(" ")[0] in first_with]


def value_of(task, parts, texts):
    op = task["op"]
    lines = lines_of("".join(parts))
    if op == "read":
        return text_of(lines_of(texts[task["text"]]))
    number = task.get("n", 0)
    made = {
        "input": lambda: [],
        "pass": lambda: lines,
        "keep": lambda: [line for line in lines if task["word"] in line],
        "without": lambda: [line for line in lines if task["word"] not in line],
        "head": lambda: lines[:number],
        "tail": lambda: lines[len(lines) - number:] if number < len(lines) else lines,
        "skip": lambda: lines[number:],
        "sort": lambda: sorted(lines),
        "uniq": lambda: [line for place, line in enumerate(lines) if place == 0 or lines[place - 1] != line],
        "count": lambda: [str(len(lines))],
        "tally": lambda: tally(lines),
        "match": lambda: match(parts),
    }
    return text_of(made[op]())


def slow_values(graph, value):
    """What each task ends with, by its name: each runs once, when all its predecessors have; `value` is of a task and its parts."""
    edges = [(task["name"], name) for task in graph["tasks"] for name in task.get("to", [])]
    values = {}
    waiting = list(graph["tasks"])
    while waiting:
        ready = [task for task in waiting if all(source in values for source, to in edges if to == task["name"])]
        if not ready:
            break
        for task in ready:
            parts = [values[source] for source, to in edges if to == task["name"]]
            values[task["name"]] = value(task, parts)
            waiting.remove(task)
    return values


def sinks_of(graph):
    return [task["name"] for task in graph["tasks"] if not task.get("to")]


def report_of(graph, values):
    return "".join(f"== {name}\n{values[name]}" if name in values else f"-- {name}\n" for name in sinks_of(graph))


def slow_report(graph, texts):
    """What the graph prints."""
    return report_of(graph, slow_values(graph, lambda task, parts: value_of(task, parts, texts)))


# ---- cases, also for the other tools

def add_extent(words, count=200):
    """The program, and the options that say how many cases there are, and which."""
    words.add_argument("program", type=lambda name: pathlib.Path(name).resolve())
    if count:
        words.add_argument("--count", type=int, default=count)
    words.add_argument("--seconds", type=float)
    words.add_argument("--seed", type=int, default=1)


def cases(asked, has_fault):
    """The number of each case with dice of its own."""
    begun = time.monotonic()
    for number in itertools.count():
        is_over = number >= asked.count if asked.seconds is None else has_fault() or time.monotonic() - begun >= asked.seconds
        if is_over:
            return
        yield number, random.Random(asked.seed * 1_000_003 + number)


@contextlib.contextmanager
def folder_of(graph, texts):
    """A folder with a graph and its texts."""
    with tempfile.TemporaryDirectory() as folder:
        for name, text in texts.items():
            pathlib.Path(folder, name).write_text(text)
        pathlib.Path(folder, "graph.json").write_text(json.dumps(graph))
        yield folder


def call(program, folder, *words):
    """The code, the output and the notes of a call."""
    try:
        done = subprocess.run([program, *words], cwd=folder, capture_output=True, timeout=60)
    except subprocess.TimeoutExpired:
        return "no end", "", ""
    return done.returncode, done.stdout.decode(), done.stderr.decode()


# ---- the program


def has_form(graph, out):
    """Whether the report has a line for each task without a successor, in order."""
    heads = [line for line in out.split("\n") if line.startswith(("== t", "-- t"))]
    return [head[3:] for head in heads] == sinks_of(graph)


def difference(graph, texts, has_conditions, seen):
    code, out, notes = seen
    starts = any(all(task["name"] not in other.get("to", []) for other in graph["tasks"]) for task in graph["tasks"])
    if not starts:
        return None if (code, notes) == (4, "flow: no source\n") else f"code {code}, {notes!r} without a source"
    if has_conditions:
        return None if code in (0, 8, 9) and has_form(graph, out) else f"code {code}, {notes!r}, or a report of another form"
    wanted = slow_report(graph, texts)
    return None if (code, out) == (0, wanted) else f"code {code}, printed {out!r}, wanted {wanted!r}"


def main():
    words = argparse.ArgumentParser(description=__doc__, formatter_class=argparse.RawDescriptionHelpFormatter)
    add_extent(words)
    words.add_argument("options", nargs="*", help="options of the program, behind --")
    asked = words.parse_args()
    faults = 0
    codes = {}
    for number, dice in cases(asked, lambda: faults > 0):
        has_conditions = number % 2 == 1
        graph = branching_graph(dice) if has_conditions else plain_graph(dice)
        texts = {"one.txt": random_text(dice), "two.txt": random_text(dice)}
        with folder_of(graph, texts) as folder:
            seen = call(asked.program, folder, "run", "graph.json", *asked.options)
        codes[(has_conditions, seen[0])] = codes.get((has_conditions, seen[0]), 0) + 1
        what = difference(graph, texts, has_conditions, seen)
        if what:
            faults += 1
            print(f"graph {number} of seed {asked.seed}: {what}\n{json.dumps(graph)}\n{texts}", file=sys.stderr)
    for (has_conditions, code), count in sorted(codes.items(), key=str):
        print(f"{count} graphs {'with' if has_conditions else 'without'} conditions ended with code {code}")
    sys.exit(1 if faults else 0)


if __name__ == "__main__":
    main()
