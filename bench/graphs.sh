#!/usr/bin/env bash
# Measures the reading and the writing of graph files, by `bench graphs`. First the instructions, counted
# by valgrind, of the JSON alone, of reading a graph with its JSON, and of writing it after that: of a chain, of a read
# with counts behind it, and of tasks with ten edges each, as many a task with its edges. Then the seconds of reading
# beside those of `jq -c .`, the best of seven. It builds the program first, and needs python3, valgrind and jq. Run it
# as `bash bench/graphs.sh`, from any folder.
set -euo pipefail
crate=$(cd "$(dirname "${BASH_SOURCE[0]}")/.." && pwd)/crates/bench
(cd "$crate" && rt run > /dev/null)
program=$crate/out/bench

folder=$(mktemp -d)
trap 'rm -rf "$folder"' EXIT
cd "$folder"

python3 - <<'PYTHON'
import json, random
def write(name, tasks):
    json.dump({"tasks": tasks}, open(f"{name}.json", "w"))
def chain(count):
    tasks = [{"name": "t0", "op": "read", "text": "small.txt"}]
    tasks += [{"name": f"t{k}", "op": "keep", "word": "x"} for k in range(1, count)]
    for k in range(count - 1):
        tasks[k]["to"] = [f"t{k + 1}"]
    write(f"chain-{count}", tasks)
def fan(count):
    names = [f"c{k}" for k in range(1, count)]
    tasks = [{"name": "t", "op": "read", "text": "small.txt", "to": names}]
    tasks += [{"name": name, "op": "count"} for name in names]
    write(f"fan-{count}", tasks)
def ten(count):
    draw = random.Random(1)
    ends = lambda: [f"task{draw.randrange(count)}" for _ in range(10)]
    write(f"ten-{count}", [{"name": f"task{k}", "op": "keep", "word": "x", "to": ends()} for k in range(count)])
for make in chain, fan, ten:
    make(1000)
    make(10000)
PYTHON

# The instructions of a run with this word.
instructions() {
    valgrind --tool=callgrind --callgrind-out-file=/dev/null "$program" graphs "$1" "$2" 2>&1 | sed -n 's/.*Collected : //p'
}

for name in chain fan ten; do
    for count in 1000 10000; do
        file=$name-$count.json
        none=$(instructions none $file)
        json=$(($(instructions json $file) - none))
        read=$(($(instructions read $file) - none))
        write=$(($(instructions write $file) - none - read))
        echo "$name of $count tasks: $((json / count)) instructions a task for the JSON alone, $((read / count)) to read, $((write / count)) to write"
    done
done

# The least seconds of a command.
seconds() {
    python3 - "$@" <<'PYTHON'
import subprocess, sys, time
best = float("inf")
for _ in range(7):
    with open("printed.txt", "wb") as printed:
        start = time.perf_counter()
        subprocess.run(sys.argv[1:], stdout=printed, check=True)
        best = min(best, time.perf_counter() - start)
print(best)
PYTHON
}

for name in chain fan ten; do
    file=$name-10000.json
    awk -v name="$name of 10000 tasks" -v read="$(seconds "$program" graphs read $file)" -v write="$(seconds "$program" graphs write $file)" -v jq="$(seconds jq -c . $file)" 'BEGIN {
        printf "%s: read %.1f ms, read and written %.1f ms, jq %.1f ms, ratio %.2f\n", name, read * 1000, write * 1000, jq * 1000, read / jq
    }'
done
