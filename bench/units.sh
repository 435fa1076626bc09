#!/usr/bin/env bash
# Measures what a semaphore costs, and whether workers that find no unit stay idle: a read of a small text and 9,998
# tasks behind it that pass it on, without a semaphore and with one of one unit that each of them holds, by 1, 4 and 16
# workers; 4,999 pairs of tasks, of which the first takes the unit and the second gives it back; and 9,995 tasks that
# wait for two units, of which one comes back and the other never does, so that the run gets stuck. All calls are made
# in turn, fifteen of each or as many as the argument says. Of the times and of the processor time of all threads it
# prints the median and the least, and their ratios: of the graph with the semaphore to the one without, by as many
# workers, and of the processor time by 16 workers to that by one. It needs python3, says the load before and after, and
# is run as `bash bench/units.sh`, from any folder, on a machine with four idle processors.
set -euo pipefail
flow=$(cd "$(dirname "${BASH_SOURCE[0]}")/.." && pwd)/crates/flow/out/flow
[ -x "$flow" ] || { echo "build the program first: make program" >&2; exit 1; }

folder=$(mktemp -d)
trap 'rm -rf "$folder"' EXIT
cd "$folder"

uptime
python3 - "$flow" "${1:-15}" <<'PYTHON'
import json, os, statistics, subprocess, sys, time

FLOW, CALLS = sys.argv[1], int(sys.argv[2])
TASKS = 9_998
WORKERS = (1, 4, 16)


def fan(fields):
    """A read and tasks behind it, each with these fields."""
    names = [f"k{k}" for k in range(TASKS)]
    return [{"name": "r", "op": "read", "text": "small.txt", "to": names}] + [{"name": name, "op": "pass", **fields} for name in names]


def pairs():
    """A read and pairs of tasks behind it, of which the first takes the unit and the second gives it back."""
    half = range(TASKS // 2)
    rows = [{"name": "r", "op": "read", "text": "small.txt", "to": [f"a{k}" for k in half]}]
    for k in half:
        rows += [{"name": f"a{k}", "op": "pass", "to": [f"b{k}"], "acquire": ["s"]}, {"name": f"b{k}", "op": "pass", "release": ["s"]}]
    return rows


def stuck():
    """Tasks that need both units: the second comes back after they are parked for it, and the first one never does."""
    both = {"op": "pass", "acquire": ["s", "u"], "release": ["s", "u"]}
    names = [f"t{k}" for k in range(TASKS - 3)]
    rows = [{"name": "h", "op": "read", "text": "small.txt", "to": [*names, "g"], "acquire": ["u"]}]
    rows += [{"name": name, **both} for name in names]
    return rows + [{"name": "g", "op": "pass", "to": ["f"], "acquire": ["s"]}, {"name": "f", "op": "pass", "release": ["u"]}]


def write(name, **file):
    with open(f"{name}.json", "w") as out:
        json.dump(file, out)


SEMAPHORES = [{"name": "s", "max": 1}]
write("without", tasks=fan({}))
write("held", tasks=fan({"holds": ["s"]}), semaphores=SEMAPHORES)
write("pairs", version=2, tasks=pairs(), semaphores=SEMAPHORES)
write("stuck", version=2, tasks=stuck(), semaphores=[*SEMAPHORES, {"name": "u", "max": 1}])
open("small.txt", "w").write("x\ny\n")
NAMES = {
    "without": "without a semaphore",
    "held": "each holds the one unit",
    "pairs": "pairs that take it and give it back",
    "stuck": "each waits for two, of which one never comes back",
}
CODES = {"stuck": 10}


class Call:
    """A run of a graph by so many workers: its time, and the processor time of its threads."""

    def __init__(self, graph, workers):
        start = time.perf_counter()
        program = subprocess.Popen([FLOW, "run", f"{graph}.json", "--workers", str(workers)], stdout=subprocess.DEVNULL, stderr=subprocess.DEVNULL)
        _, status, usage = os.wait4(program.pid, 0)
        self.seconds = time.perf_counter() - start
        self.processor = usage.ru_utime + usage.ru_stime
        code = os.waitstatus_to_exitcode(status)
        if code != CODES.get(graph, 0):
            sys.exit(f"{graph}.json by {workers} workers ended with code {code}")


def milliseconds(figures):
    return f"{1000 * statistics.median(figures):.1f} ms (least {1000 * min(figures):.1f})"


def ratio(figures, others):
    """The median of the ratios turn by turn, and the ratio of the least."""
    each = statistics.median(figure / other for figure, other in zip(figures, others))
    return f"{each:.2f} (of the least {min(figures) / min(others):.2f})"


turns = [{(graph, workers): Call(graph, workers) for workers in WORKERS for graph in NAMES} for _ in range(CALLS)]


def of(graph, workers, figure):
    return [getattr(turn[graph, workers], figure) for turn in turns]


print(f"a read and {TASKS:,} tasks, {CALLS} turns")
for workers in WORKERS:
    print(f"by {workers} {'worker' if workers == 1 else 'workers'}")
    for graph, name in NAMES.items():
        seconds, processor = of(graph, workers, "seconds"), of(graph, workers, "processor")
        print(f"  {name}: {milliseconds(seconds)}, {ratio(seconds, of('without', workers, 'seconds'))} times the first; "
              f"processor {milliseconds(processor)}, {ratio(processor, of(graph, 1, 'processor'))} times one worker's")
PYTHON
uptime
