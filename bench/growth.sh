#!/usr/bin/env bash
# How the program's work grows: instructions by `valgrind --tool=callgrind`, which are the same on a busy machine, for
# tasks, edges, starts, names of texts and bytes of a text, each doubled five times within the limits, by one worker.
# Below the figures is the slope, which is 1 where twice as many take twice as long: by how much the logarithm of what a
# call takes more than one on an empty graph rises with that of the number, over all sizes (least squares) and at the
# last doubling. Then the processor time of a fan of 10,000 tasks by 1 to 16 workers, the least and the median of so
# many calls as the first argument says, or eleven. It needs valgrind and python3; run it as `bash bench/growth.sh`,
# from any folder.
set -euo pipefail
flow=$(cd "$(dirname "${BASH_SOURCE[0]}")/.." && pwd)/crates/flow/out/flow
[ -x "$flow" ] || { echo "build the program first: make" >&2; exit 1; }

folder=$(mktemp -d)
trap 'rm -rf "$folder"' EXIT
cd "$folder"

python3 - "$flow" "${1:-11}" <<'PYTHON'
import json, math, random, re, resource, statistics, subprocess, sys

FLOW, TURNS = sys.argv[1], int(sys.argv[2])
DOUBLINGS = 6


def read(name, to=(), text="small.txt"):
    return {"name": name, "op": "read", "text": text, "to": list(to)}


def write_graph(tasks):
    with open("graph.json", "w") as file:
        json.dump({"tasks": tasks}, file)


def write_text(name, lines):
    with open(name, "w") as file:
        file.writelines(f"{dice.getrandbits(24):06x}\n" for _ in range(lines))


def tasks(count):
    """A chain of so many."""
    chain = [read("t0", ["t1"])]
    chain += [{"name": f"t{k}", "op": "keep", "word": "x", "to": [f"t{k + 1}"]} for k in range(1, count - 1)]
    write_graph(chain + [{"name": f"t{count - 1}", "op": "count"}])


def edges(count):
    """So many from 1,000 tasks at random to later ones of these."""
    ends = {}
    while len(ends) < count:
        low, high = sorted(dice.sample(range(1000), 2))
        ends[low, high] = None
    out = [[] for _ in range(1000)]
    for low, high in ends:
        out[low].append(f"t{high}")
    write_graph([read("t0", out[0], "empty.txt")] + [{"name": f"t{k}", "op": "pass", "to": out[k]} for k in range(1, 1000)])


def starts(count):
    """A condition that chooses itself so often."""
    write_graph([read("a", ["c"]), {"name": "c", "op": "ifmore", "n": 1, "to": ["c", "d"]}, {"name": "d", "op": "pass"}])
    return ["--limit", str(count)]


def texts(count):
    """Reads of so many different texts."""
    write_graph([read(f"r{k}", text=f"s{k}.txt") for k in range(count)])


def sorts(count):
    """A sort of so many lines."""
    write_text("lines.txt", count)
    write_graph([read("r", ["s"], "lines.txt"), {"name": "s", "op": "sort"}])


def instructions(words):
    call = ["valgrind", "--tool=callgrind", "--callgrind-out-file=/dev/null", FLOW, "run", "graph.json", "--workers", "1", *words]
    said = subprocess.run(call, stdout=subprocess.DEVNULL, stderr=subprocess.PIPE, text=True).stderr
    return int(re.search(r"Collected : (\d+)", said)[1])


def slope(points):
    logs = [(math.log(number), math.log(taken)) for number, taken in points]
    xs, ys = zip(*logs)
    mean_x, mean_y = statistics.mean(xs), statistics.mean(ys)
    return sum((x - mean_x) * (y - mean_y) for x, y in logs) / sum((x - mean_x) ** 2 for x in xs)


def grow(name, write, first):
    sizes = [first << k for k in range(DOUBLINGS)]
    points = []
    for size in sizes:
        words = write(size) or []
        points.append((size, instructions(words) - none))
    row = "  ".join(f"{size:,}: {taken / size:,.0f}" for size, taken in points)
    print(f"{name}\n  instructions each  {row}\n  slope {slope(points):.3f}, at the last {slope(points[-2:]):.3f}", flush=True)


def processor_time():
    """What all ended children took."""
    used = resource.getrusage(resource.RUSAGE_CHILDREN)
    return used.ru_utime + used.ru_stime


def processor_times(workers):
    times = []
    for _ in range(TURNS):
        before = processor_time()
        subprocess.run([FLOW, "run", "graph.json", "--workers", str(workers)], stdout=subprocess.DEVNULL, check=True)
        times.append(processor_time() - before)
    return times


dice = random.Random(11)
open("empty.txt", "w").close()
write_text("small.txt", 2)
for k in range(1024):
    write_text(f"s{k}.txt", 2)
write_graph([])
none = instructions([])
grow("tasks of a chain", tasks, 312)
grow("edges among 1,000 tasks", edges, 3125)
grow("starts of a task", starts, 15625)
grow("texts that are read", texts, 32)
grow("lines of 7 bytes that are sorted", sorts, 62500)
print("processor time of a fan of 10,000 tasks, in milliseconds")
names = [f"c{k}" for k in range(9999)]
write_graph([read("t", names)] + [{"name": name, "op": "count"} for name in names])
for workers in (1, 2, 4, 8, 16):
    times = processor_times(workers)
    print(f"  {workers:2} workers: least {min(times) * 1000:.0f}, median {statistics.median(times) * 1000:.0f}")
PYTHON
