#!/usr/bin/env python3
"""Runs the program on examples with one allocation failing, each in turn, until a run needs no more.

    failing_memory.py PROGRAM [EXAMPLE..] [--workers N] [--all-later] [--past N]
    failing_memory.py PROGRAM --seconds N [--seed N] [--past N]

The program is loaded over a `malloc` that counts the calls for memory and refuses one of them: the first, then the
second, and so on; with `--all-later` that one and each after it. Which call is the Nth differs between runs by several
workers, so the runs end only after so many (`--past`) that came to no Nth call. A run has to end within ten seconds
with what it prints with ample memory, or with the same code and output and no line on standard error, for which there
was no memory, or with code 13 and the line of it, or without that line where each later allocation fails, and a prefix
of the output. An example has the options that its file options.txt says; where it is run in rounds, some of its runs
have to end without memory behind a whole first round. Without an example it takes ten. With `--seconds` it takes random
graphs in their place, of which one in four is upgraded; those with conditions or semaphores are run by one worker and
others by 1, 4 or 16, until so many seconds have passed or a run ended in another way. It needs a C compiler and prints
for each example how many runs ended in which way, of random graphs for all together, and ends with status 1 where one
ended in another.
"""
import argparse
import collections
import os
import pathlib
import subprocess
import sys
import tempfile
import time

from random_graphs import add_extent, branching_graph, cases, folder_of, plain_graph, random_text, with_units

EXAMPLES = pathlib.Path(__file__).resolve().parent.parent / "examples"
CHOSEN = ("count-lines", "log-triage", "trim-until-it-fits", "words-by-file", "join-orders", "two-tallies-at-a-time", "never-given-back", "log-join", "three-tickets-a-week", "deferral")
NO_MEMORY = (13, b"flow: no memory\n")
# What comes before the report of the second round.
SECOND_ROUND = b"## round 2\n"
BEHIND_A_ROUND = "out of memory behind a whole round"

# The calls for memory, all of which the C library's own names serve. The refused one leaves a byte in a pipe.
COUNTING_MALLOC = r"""
#include <errno.h>
#include <stdatomic.h>
#include <stddef.h>
#include <stdlib.h>
#include <unistd.h>

extern void *__libc_malloc(size_t);
extern void *__libc_calloc(size_t, size_t);
extern void *__libc_realloc(void *, size_t);
extern void *__libc_memalign(size_t, size_t);

static long first, last;
static int seen;
static atomic_long calls;

__attribute__((constructor)) static void ask(void) {
    seen = atoi(getenv("REFUSED_SEEN"));
    last = atol(getenv("REFUSED_LAST"));
    first = atol(getenv("REFUSED_FIRST"));
    atomic_store(&calls, 0);
}

static int refuses(void) {
    if (first == 0) return 0;
    long call = atomic_fetch_add(&calls, 1) + 1;
    if (call < first || call > last) return 0;
    if (call == first && write(seen, "!", 1) != 1) _exit(99);
    errno = ENOMEM;
    return 1;
}

void *malloc(size_t size) { return refuses() ? NULL : __libc_malloc(size); }
void *calloc(size_t count, size_t size) { return refuses() ? NULL : __libc_calloc(count, size); }
void *realloc(void *old, size_t size) { return refuses() ? NULL : __libc_realloc(old, size); }
void *memalign(size_t align, size_t size) { return refuses() ? NULL : __libc_memalign(align, size); }
void *aligned_alloc(size_t align, size_t size) { return memalign(align, size); }

int posix_memalign(void **block, size_t align, size_t size) {
    void *made = memalign(align, size);
    if (!made) return ENOMEM;
    *block = made;
    return 0;
}
"""

# Later than any call.
NEVER = 2 ** 62


def built_malloc(folder):
    source = pathlib.Path(folder, "counting_malloc.c")
    library = pathlib.Path(folder, "counting_malloc.so")
    source.write_text(COUNTING_MALLOC)
    subprocess.run(["cc", "-O2", "-shared", "-fPIC", "-o", library, source], check=True)
    return library


def call(program, words, folder, library, first, last):
    """What a call ends with whose allocations from the first to the last of these fail, and whether it came to them."""
    read, write = os.pipe()
    try:
        names = {"LD_PRELOAD": str(library), "REFUSED_SEEN": str(write),
                 "REFUSED_FIRST": str(first), "REFUSED_LAST": str(last)}
        child = subprocess.Popen([program, *words], cwd=folder, env={**os.environ, **names}, pass_fds=[write],
                                 stdin=subprocess.DEVNULL, stdout=subprocess.PIPE, stderr=subprocess.PIPE)
        try:
            out, notes = child.communicate(timeout=10)
        except subprocess.TimeoutExpired:
            child.kill()
            child.communicate()
            return ("no end", b"", b""), True
    finally:
        os.close(write)
        refused = os.read(read, 1) == b"!"
        os.close(read)
    return (child.returncode, out, notes), refused


def kind_of(ended, ample, all_later):
    """How a call ended in which allocations failed, beside one with ample memory; `None` is no way to end."""
    code, out, notes = ended
    if ended == ample:
        return "the same answer"
    if (code, out, notes) == (ample[0], ample[1], b""):
        return "the same answer without its line"
    noted = notes == NO_MEMORY[1] or all_later and NO_MEMORY[1].startswith(notes)
    if code == NO_MEMORY[0] and noted and ample[1].startswith(out):
        first, second, _ = ample[1].partition(SECOND_ROUND)
        return BEHIND_A_ROUND if second and out.startswith(first) else "out of memory"
    return None


class Trial:
    """What came of runs in which allocations failed."""

    def __init__(self, program, library, past, until):
        self.program = program
        self.library = library
        self.past = past
        self.until = until
        self.kinds = collections.Counter()

    def runs(self):
        return sum(self.kinds.values())

    def faults(self):
        return self.kinds["in another way"]

    def run(self, what, folder, words, all_later):
        """Has each allocation of a call fail in turn, and tells the code with ample memory and the last that came."""
        ample, _ = call(self.program, words, folder, self.library, 0, 0)
        number = greatest = 0
        while number < greatest + self.past and time.monotonic() < self.until:
            number += 1
            ended, refused = call(self.program, words, folder, self.library, number, NEVER if all_later else number)
            if refused:
                greatest = number
            kind = kind_of(ended, ample, all_later)
            self.kinds[kind or "in another way"] += 1
            if kind is None:
                print(f"{what}, allocation {number}: {ended!r}", file=sys.stderr)
        return ample[0], greatest

    def ways(self):
        return ", ".join(f"{count} times {kind}" for kind, count in sorted(self.kinds.items()))


def options_of(example):
    """The options with which an example is run, a line of its file options.txt each."""
    file = example / "options.txt"
    return file.read_text().splitlines() if file.is_file() else []


def try_examples(asked, library):
    """Prints what came of the runs of each example, and answers how many ended in a way that they must not."""
    faults = 0
    for example in asked.examples:
        options = options_of(EXAMPLES / example)
        words = ["run", "graph.json", "--workers", str(asked.workers), *options]
        trial = Trial(asked.program, library, asked.past, float("inf"))
        code, greatest = trial.run(example, EXAMPLES / example, words, asked.all_later)
        if options and not trial.kinds[BEHIND_A_ROUND]:
            print(f"{example}: no run ended without memory behind a whole round", file=sys.stderr)
            faults += 1
        print(f"{example}: code {code} with ample memory; {trial.runs()} runs, none of which came to a call after "
              f"{greatest}: {trial.ways()}")
        faults += trial.faults()
    return faults


def try_random_graphs(asked, library):
    """The same of random graphs."""
    trial = Trial(asked.program, library, asked.past, time.monotonic() + asked.seconds)
    graphs = 0
    for number, dice in cases(asked, lambda: trial.faults() > 0):
        has_conditions, has_units = number % 2 == 1, number % 3 == 0
        graph = branching_graph(dice) if has_conditions else plain_graph(dice)
        graph = with_units(dice, graph) if has_units else graph
        texts = {"one.txt": random_text(dice), "two.txt": random_text(dice)}
        workers = 1 if has_conditions or has_units else dice.choice((1, 4, 16))
        all_later = dice.random() < 0.5
        words = ["run", "graph.json", "--limit", "30", "--workers", str(workers)] if number % 4 else ["upgrade", "graph.json"]
        with folder_of(graph, texts) as folder:
            graphs += 1
            what = f"graph {number} of seed {asked.seed}, {' '.join(words)}{', each later' * all_later}"
            trial.run(what, folder, words, all_later)
    print(f"{graphs} graphs, {trial.runs()} runs: {trial.ways()}")
    return trial.faults()


def main():
    words = argparse.ArgumentParser(description=__doc__, formatter_class=argparse.RawDescriptionHelpFormatter)
    add_extent(words, count=None)
    words.add_argument("examples", nargs="*", default=CHOSEN)
    words.add_argument("--workers", type=int, default=4)
    words.add_argument("--all-later", action="store_true")
    words.add_argument("--past", type=int, default=20)
    asked = words.parse_intermixed_args()
    with tempfile.TemporaryDirectory() as folder:
        library = built_malloc(folder)
        faults = try_examples(asked, library) if asked.seconds is None else try_random_graphs(asked, library)
    sys.exit(1 if faults else 0)


if __name__ == "__main__":
    main()
