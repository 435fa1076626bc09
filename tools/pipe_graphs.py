#!/usr/bin/env python3
"""Runs random graphs with pipelines by 1, 4 and 16 workers, and compares what they print.

    pipe_graphs.py PROGRAM [--count N | --seconds N] [--seed N]

Pipelines of 1 to 8 lines and 1 to 5 pipes stand in the top graph and in its modules, several in one graph, some beside
spreads, and some in tasks that hold units. Tokens are deferred: behind later ones, one behind the other, in circles, and
behind tokens that never come. In three of four files no graph has conditions: a slow evaluation makes what these print.
At each place of a pipeline's order it looks at all tokens that wait. If each token passes, the report has to be that of
the evaluation for each number of workers, and a profile has to count as many spans. Else the run has to end with a fault
that the evaluation finds, and each value that is printed has to be the evaluation's. A run that the limit of starts may
cut short, and a file with conditions, is looked at as by `nested_graphs.py`. The journal of each run is judged by the
program, and one file in three is run as the program upgrades it. With `--seconds` files are made until so many seconds
have passed or there is a difference. A call that takes longer than a minute counts as one that doesn't end. Prints a line
for each difference and how many runs ended with which code, and ends with status 1 where there was a difference.
"""
import argparse
import collections
import contextlib
import dataclasses
import json
import pathlib
import sys

from nested_graphs import WORKERS, Cut, Evaluation, journal_fault, made_file, report_fault
from random_graphs import (ON_TEXT, add_extent, call, cases, fields_on_text, folder_of, lines_of, random_text, report_of,
                           sinks_of, slow_values, text_of, value_of)

PLAIN_LIMITS = (5, 1_000, 1_000, 1_000)
LOOP_LIMITS = (1, 3, 10, 20)

# Most texts have fewer lines, and so fewer tokens.
TOKENS = 14
NEVER = 1_000_000
PART_LIMIT = 65_536
TEXTS = ("one.txt", "two.txt")


# ---- files

def row_of(token, *targets):
    return {"token": token, "to": list(targets)}


def behind_later(dice):
    return [row_of(token, *(token + dice.randint(1, 6) for _ in range(dice.randint(1, 3))))
            for token in dice.sample(range(TOKENS), dice.randint(1, 6))]


def behind_any(dice):
    tokens = [*range(TOKENS), NEVER] if dice.random() < 0.3 else range(TOKENS)
    return [row_of(token, *(dice.choice(tokens) for _ in range(dice.randint(1, 8))))
            for token in dice.sample([*range(TOKENS), 65_535], dice.randint(1, 8))]


def in_an_order(dice):
    """Tokens that wait for some of those before them in an order, so that none waits for itself."""
    order = list(range(dice.randint(2, 8)))
    dice.shuffle(order)
    return [row_of(token, *dice.sample(order[:place], dice.randint(1, place)))
            for place, token in enumerate(order) if place and dice.random() < 0.7]


def in_a_chain(dice):
    first, length = dice.randint(0, 4), dice.randint(1, 6)
    return [row_of(token, token + 1) for token in range(first, first + length)]


def in_a_circle(dice):
    tokens = dice.sample(range(6), dice.randint(1, 4))
    return [row_of(token, tokens[place - 1]) for place, token in enumerate(tokens)]


def made_rows(dice):
    rows = dice.choice([in_an_order, in_an_order, behind_later, behind_any, in_a_chain, in_a_circle])(dice)
    dice.shuffle(rows)
    return rows


def made_pipe(dice, is_first):
    is_serial = is_first or dice.random() < 0.5
    op = dice.choice([*ON_TEXT, *["pass", "number"] * 3, *["stamp"] * (3 if is_serial else 0)])
    return {"serial": is_serial, "op": op} | fields_on_text(dice, op)


def bare(task):
    """The task without its operation."""
    return {field: task[field] for field in ("name", "to", "holds", "acquire", "release") if field in task}


def piping_task(dice, task):
    """The task with a pipeline as its work."""
    pipes = [made_pipe(dice, place == 0) for place in range(dice.randint(1, 5))]
    made = bare(task) | {"op": "pipe", "lines": dice.randint(1, 8), "pipes": pipes}
    if dice.random() < 0.7:
        made["n"] = dice.choice([1, 1, 1, 2, 3, 5])
    if dice.random() < 0.6:
        made["defer"] = made_rows(dice) if dice.random() < 0.9 else []
    return made


def with_pipelines(dice, graph):
    chance = dice.choice([0.2, 0.5, 0.8])
    tasks = [piping_task(dice, task) if task["op"] in [*ON_TEXT, "match"] and dice.random() < chance else task
             for task in graph["tasks"]]
    return graph | {"tasks": tasks}


def source_of(dice, is_module):
    return {"op": "input"} if is_module and dice.random() < 0.7 else {"op": "read", "text": dice.choice(TEXTS)}


def with_texts(dice, graph, is_module):
    """The graph with texts for most tasks to which no edge leads, and which would have none."""
    targets = {name for task in graph["tasks"] for name in task.get("to", [])}
    tasks = [bare(task) | source_of(dice, is_module) if task["name"] not in targets and dice.random() < 0.9 else task
             for task in graph["tasks"]]
    return graph | {"tasks": tasks}


def made_texts(dice):
    return {name: "".join(text_of(lines_of(random_text(dice))) for _ in range(dice.randint(1, 4)))
            for name in TEXTS}


@dataclasses.dataclass
class Case:
    file: dict
    texts: dict
    limit: int
    has_conditions: bool
    is_upgraded: bool


def made_case(dice, number):
    has_conditions = number % 4 == 3
    file = made_file(dice, has_conditions)
    modules = [with_texts(dice, with_pipelines(dice, module), True) for module in file["modules"]]
    file = with_texts(dice, with_pipelines(dice, file), False) | {"modules": modules}
    limit = dice.choice(LOOP_LIMITS if has_conditions else PLAIN_LIMITS)
    return Case(file, made_texts(dice), limit, has_conditions, number % 3 == 0)


# ---- what a file without conditions prints

def is_free(targets, places):
    return all(target in places for target in targets)


def freed_at(targets, places):
    """The place at which the last of some tokens passed."""
    return max(places[target] for target in targets)


def passing_order(count, rows):
    """So many tokens in the order in which they pass the first pipe, and those that never do."""
    places, waiting, new = {}, [], 0
    while True:
        free = [token for token in waiting if is_free(rows[token], places)]
        if free:
            token = min(free, key=lambda token: (freed_at(rows[token], places), token))
            waiting.remove(token)
            places[token] = len(places)
        elif new == count:
            return list(places), waiting
        else:
            if is_free(rows.get(new, []), places):
                places[new] = len(places)
            else:
                waiting.append(new)
            new += 1


def with_number(number, text):
    return text_of([f"{number} {line}" for line in lines_of(text)])


def through_pipe(pipe, token, place, text):
    if pipe["op"] == "number":
        return with_number(token, text)
    return with_number(place, text) if pipe["op"] == "stamp" else value_of(pipe, [text], {})


class PipeEvaluation(Evaluation):
    """A slow evaluation of the graphs of a file. A task that faults, and each that waits for it, has no value. Collects
    the faults in which the run may end, and counts the ends of all tasks, parts and cells."""

    def __init__(self, file, texts, limit):
        super().__init__(file, texts, limit)
        self.path, self.faults, self.spans = [], set(), 0

    def run(self, graph, text):
        values = slow_values(graph, lambda task, parts: None if None in parts else self.at(task, parts, text))
        if len(values) > self.limit:
            raise Cut
        self.spans += len(values)
        return {name: value for name, value in values.items() if value is not None}

    def at(self, task, parts, text):
        with self.below(task["name"]):
            return self.value(task, parts, text)

    @contextlib.contextmanager
    def below(self, name):
        self.path.append(name)
        yield
        self.path.pop()

    def value(self, task, parts, text):
        if task["op"] == "pipe":
            return self.pipeline(task, lines_of("".join(parts)))
        return super().value(task, parts, text)

    def module(self, name, text):
        faults = len(self.faults)
        value = super().module(name, text)
        return value if len(self.faults) == faults else None

    def fault(self, inside, why):
        self.faults.add(f"fault {'/'.join(self.path)}{inside}: {why}\n")

    def spread(self, task, lines):
        parts = -(-len(lines) // task["n"])
        self.spans += parts
        return super().spread(task, lines) if parts <= PART_LIMIT else self.fault("", f"wide {parts}")

    def pipeline(self, task, lines):
        size, pipes = task.get("n", 1), task["pipes"]
        parts = [text_of(lines[at:at + size]) for at in range(0, len(lines), size)]
        rows = {row["token"]: row["to"] for row in task.get("defer", [])}
        if len(parts) > PART_LIMIT:
            return self.fault("", f"wide {len(parts)}")
        passed, waiting = passing_order(len(parts), rows)
        if waiting:
            return self.fault(f"/{len(passed) % task['lines']}.0", f"unmet {min(waiting)}")
        self.spans += len(parts) * len(pipes) + 1
        for place, token in enumerate(passed):
            for pipe in pipes:
                parts[token] = through_pipe(pipe, token, place, parts[token])
        return "".join(parts[token] for token in passed)


def evaluated(case):
    """The values of the top graph and the evaluation that made them; or None where the order of the run decides."""
    if case.has_conditions:
        return None
    made = PipeEvaluation(case.file, case.texts, case.limit)
    try:
        return made.run(case.file, ""), made
    except Cut:
        return None


# ---- the program

def last_line(graph, values, out):
    """What follows the tasks in a report of some of these values, or None where it has another value or form."""
    for name in sinks_of(graph):
        whole = f"== {name}\n{values[name]}" if name in values else None
        head = whole if whole and out.startswith(whole) else f"-- {name}\n"
        if not out.startswith(head):
            return None
        out = out[len(head):]
    return out


def wrong_report(case, evaluation, seen):
    """What is wrong with a report."""
    if evaluation is None:
        return report_fault(case.file, None, True, seen)
    values, made = evaluation
    if not made.faults:
        return report_fault(case.file, report_of(case.file, values), False, seen)
    code, out, notes = seen
    last = last_line(case.file, values, out)
    if code == 9 and last and last.removeprefix("!! ") in made.faults and notes == last.replace("!!", "flow:", 1):
        return None
    return f"code {code}, {notes!r}, printed {out!r}, wanted some of {values!r} and one of {made.faults!r}"


def wrong_spans(program, folder, evaluation, options):
    """What is wrong with the number of spans in a profile of a run that isn't cut short."""
    if evaluation is None or evaluation[1].faults:
        return None
    code, table, notes = call(program, folder, "profile", "graph.json", *options)
    is_fit = (code, notes) == (0, "") and table.endswith(f"\n{'spans':20}{evaluation[1].spans:9}\n")
    return None if is_fit else f"a profile with code {code}, {notes!r}: {table!r}, wanted {evaluation[1].spans} spans"


def wrong_upgrade(program, folder):
    """What is wrong with the upgraded file, which takes the place of the file."""
    code, out, notes = call(program, folder, "upgrade", "graph.json")
    if (code, notes) != (0, ""):
        return f"an upgrade with code {code}, {notes!r}"
    pathlib.Path(folder, "graph.json").write_text(out)
    again = call(program, folder, "upgrade", "graph.json")
    return None if again == (0, out, "") else f"the second upgrade of {out!r} is {again!r}"


def faults_of(program, case, folder, codes):
    evaluation = evaluated(case)
    what = wrong_upgrade(program, folder) if case.is_upgraded else None
    if what:
        yield what[:2_000]
    for workers in WORKERS:
        options = ["--limit", str(case.limit), "--workers", str(workers)]
        seen = call(program, folder, "run", "graph.json", *options)
        codes[workers, case.has_conditions, str(seen[0])] += 1
        for what in (wrong_report(case, evaluation, seen), wrong_spans(program, folder, evaluation, options),
                     journal_fault(program, folder, options)):
            if what:
                yield f"{workers} workers, limit {case.limit}: {what[:2_000]}"


def run_case(program, case, what, codes):
    """How many faults the runs of a file have."""
    with folder_of(case.file, case.texts) as folder:
        faults = list(faults_of(program, case, folder, codes))
    for fault in faults:
        print(f"{what}: {fault}\n{json.dumps(case.file)}\n{case.texts}", file=sys.stderr)
    return len(faults)


def main():
    words = argparse.ArgumentParser(description=__doc__, formatter_class=argparse.RawDescriptionHelpFormatter)
    add_extent(words)
    asked = words.parse_args()
    files = faults = 0
    codes = collections.Counter()
    for number, dice in cases(asked, lambda: faults > 0):
        files += 1
        faults += run_case(asked.program, made_case(dice, number), f"file {number} of seed {asked.seed}", codes)
    for (workers, has_conditions, code), count in sorted(codes.items()):
        print(f"{workers} workers: {count} files {'with' if has_conditions else 'without'} conditions ended with code {code}")
    print(f"{files} files, {faults} faults")
    sys.exit(1 if faults else 0)


if __name__ == "__main__":
    main()
