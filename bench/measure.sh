#!/usr/bin/env bash
# Measures the built program beside `grep -F` and `wc -l` on the same text, on chains of 1,000 and 10,000 tasks, and on
# a read with 9,999 counts behind it. It says seconds and the most memory in use (13 MB are the measuring script's own).
# Run it as `bash bench/measure.sh`, from any folder.
set -euo pipefail
flow=$(cd "$(dirname "${BASH_SOURCE[0]}")/.." && pwd)/crates/flow/out/flow
[ -x "$flow" ] || { echo "build the program first: make" >&2; exit 1; }

folder=$(mktemp -d)
trap 'rm -rf "$folder"' EXIT
cd "$folder"

# A log of 16 MB; one line in about 50 has the word.
seq 1 320000 | awk '{ print ($1 % 50 == 0 ? "ERROR" : "info"), "request", $1, "answered by the server at last" }' > log.txt
echo '{"tasks":[{"name":"log","op":"read","text":"log.txt","to":["errors"]},{"name":"errors","op":"keep","word":"ERROR"}]}' > keep.json
echo '{"tasks":[{"name":"log","op":"read","text":"log.txt","to":["lines"]},{"name":"lines","op":"count"}]}' > count.json

# A read and then keeps one after another.
chain() {
    python3 - "$1" <<'PYTHON'
import json, sys
count = int(sys.argv[1])
tasks = [{"name": "t0", "op": "read", "text": "small.txt"}]
tasks += [{"name": f"t{k}", "op": "keep", "word": "x"} for k in range(1, count)]
for k in range(count - 1):
    tasks[k]["to"] = [f"t{k + 1}"]
json.dump({"tasks": tasks}, open(f"chain{count}.json", "w"))
PYTHON
}
printf 'x\ny\n' > small.txt
chain 1000
chain 10000

# A read and so many counts of it.
fan() {
    python3 - "$1" <<'PYTHON'
import json, sys
count = int(sys.argv[1])
names = [f"c{k}" for k in range(count)]
tasks = [{"name": "t", "op": "read", "text": "small.txt", "to": names}]
tasks += [{"name": name, "op": "count"} for name in names]
json.dump({"tasks": tasks}, open(f"fan{count}.json", "w"))
PYTHON
}
fan 9999

# The best of five: seconds, and the most memory in use.
measure() {
    python3 - "$@" <<'PYTHON'
import resource, subprocess, sys, time
best = float("inf")
for _ in range(5):
    with open("printed.txt", "wb") as printed:
        start = time.perf_counter()
        subprocess.run(sys.argv[1:], stdout=printed, check=True)
        best = min(best, time.perf_counter() - start)
print(f"{best:.4f} {resource.getrusage(resource.RUSAGE_CHILDREN).ru_maxrss // 1024}")
PYTHON
}

# Prints a figure, and its ratio to another's seconds where one is given.
tell() {
    awk -v name="$1" -v seconds="$2" -v memory="$3" -v other="${4:-}" 'BEGIN {
        printf "%-13s %8.4f s %5d MB", name, seconds, memory
        if (other != "") printf "   %.1f times the other", seconds / other
        printf "\n"
    }'
}

read -r grep_seconds grep_memory < <(measure grep -F ERROR log.txt)
read -r keep_seconds keep_memory < <(measure "$flow" run --workers 1 keep.json)
read -r wc_seconds wc_memory < <(measure wc -l log.txt)
read -r count_seconds count_memory < <(measure "$flow" run --workers 1 count.json)
read -r thousand_seconds thousand_memory < <(measure "$flow" run --workers 1 chain1000.json)
read -r most_seconds most_memory < <(measure "$flow" run --workers 1 chain10000.json)
read -r fan_seconds fan_memory < <(measure "$flow" run --workers 1 fan9999.json)

tell "grep -F" "$grep_seconds" "$grep_memory"
tell "flow keep" "$keep_seconds" "$keep_memory" "$grep_seconds"
tell "wc -l" "$wc_seconds" "$wc_memory"
tell "flow count" "$count_seconds" "$count_memory" "$wc_seconds"
tell "1,000 tasks" "$thousand_seconds" "$thousand_memory"
tell "10,000 tasks" "$most_seconds" "$most_memory" "$thousand_seconds"
tell "9,999 counts" "$fan_seconds" "$fan_memory"
