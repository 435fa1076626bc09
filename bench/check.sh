#!/usr/bin/env bash
# Measures `flow check` beside `ninja -n` on the same graph of 10,000 tasks and 100,000 edges, without conditions and
# circles: the best of fifteen calls of each, taken in turn, in milliseconds, and their ratio. Each of the two reads its
# own file, ninja the commands that it would run, flow the graph; what they print goes into a file. It needs ninja
# (Debian's package ninja-build) and python3. Run it as `bash bench/check.sh`, from any folder.
set -euo pipefail
flow=$(cd "$(dirname "${BASH_SOURCE[0]}")/.." && pwd)/crates/flow/out/flow
[ -x "$flow" ] || { echo "build the program first: make" >&2; exit 1; }
command -v ninja >/dev/null || { echo "ninja isn't there" >&2; exit 1; }

folder=$(mktemp -d)
trap 'rm -rf "$folder"' EXIT
cd "$folder"

# Different edges from tasks to later ones, drawn at random from a fixed seed; ninja's targets are the tasks.
python3 - 10000 100000 <<'PYTHON'
import json, random, sys
tasks, edges = int(sys.argv[1]), int(sys.argv[2])
draw = random.Random(1)
pairs = set()
while len(pairs) < edges:
    a, b = draw.randrange(tasks), draw.randrange(tasks)
    if a != b:
        pairs.add((min(a, b), max(a, b)))
after, before = ([[] for _ in range(tasks)] for _ in range(2))
for a, b in sorted(pairs):
    after[a].append(f"t{b}")
    before[b].append(f"t{a}")
rows = [{"name": f"t{k}", "op": "pass", "to": after[k]} for k in range(tasks)]
json.dump({"tasks": rows}, open("graph.json", "w"))
with open("build.ninja", "w") as file:
    file.write("rule pass\n  command = true\n")
    for k in range(tasks):
        file.write(f"build t{k}: pass {' '.join(before[k])}\n")
PYTHON

[ "$("$flow" check graph.json)" = 'findings 0' ] || { echo "the graph has findings" >&2; exit 1; }
python3 - "$flow" <<'PYTHON'
import os, subprocess, sys, time
calls = {"flow check": [sys.argv[1], "check", "graph.json"], "ninja -n": ["ninja", "-n"]}
best = dict.fromkeys(calls, float("inf"))
for _ in range(15):
    for name, words in calls.items():
        with open("printed.txt", "wb") as printed:
            start = time.perf_counter()
            subprocess.run(words, stdout=printed, check=True)
            best[name] = min(best[name], time.perf_counter() - start)
for name, seconds in best.items():
    print(f"{name}: {1000 * seconds:.1f} ms")
print(f"ratio {best['flow check'] / best['ninja -n']:.2f}, load {os.getloadavg()[0]:.1f}")
print(f"graph.json has {os.path.getsize('graph.json')} bytes, build.ninja {os.path.getsize('build.ninja')}")
PYTHON
