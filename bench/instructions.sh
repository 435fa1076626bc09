#!/usr/bin/env bash
# Counts the instructions of the built program by `valgrind --tool=callgrind`, which are the same on a busy machine: for
# each task of files of 10,000 tasks, and for each start of a task that starts itself again and again, whose memory is
# measured too. Run it as `bash bench/instructions.sh`, from any folder; it needs valgrind and python3.
set -euo pipefail
flow=$(cd "$(dirname "${BASH_SOURCE[0]}")/.." && pwd)/crates/flow/out/flow
[ -x "$flow" ] || { echo "build the program first: make" >&2; exit 1; }

folder=$(mktemp -d)
trap 'rm -rf "$folder"' EXIT
cd "$folder"

# The files: a chain of keeps; a read with counts behind it; reads of a thousand texts with a count behind each; a
# condition that chooses itself.
python3 - <<'PYTHON'
import json

def write(name, tasks):
    with open(name, "w") as file:
        json.dump({"tasks": tasks}, file)

COUNT = 10_000
chain = [{"name": "t0", "op": "read", "text": "small.txt", "to": ["t1"]}]
chain += [{"name": f"t{k}", "op": "keep", "word": "x", "to": [f"t{k + 1}"]} for k in range(1, COUNT - 1)]
chain += [{"name": f"t{COUNT - 1}", "op": "keep", "word": "x"}]
write("chain.json", chain)

names = [f"c{k}" for k in range(COUNT - 1)]
write("fan.json", [{"name": "t", "op": "read", "text": "small.txt", "to": names}]
      + [{"name": name, "op": "count"} for name in names])

reads = [{"name": f"r{k}", "op": "read", "text": f"s{k % 1000}.txt", "to": [f"c{k}"]} for k in range(COUNT // 2)]
write("reads.json", reads + [{"name": f"c{k}", "op": "count"} for k in range(COUNT // 2)])
for k in range(1000):
    with open(f"s{k}.txt", "w") as file:
        file.write("x\ny\n")

write("loop.json", [{"name": "a", "op": "read", "text": "small.txt", "to": ["c"]},
                    {"name": "c", "op": "ifmore", "n": 1, "to": ["c", "d"]},
                    {"name": "d", "op": "pass"}])
PYTHON
printf 'x\ny\n' > small.txt

# The instructions of a call.
instructions() {
    valgrind --tool=callgrind --callgrind-out-file=/dev/null "$flow" run --workers 1 "$@" 2>&1 >/dev/null \
        | awk '/Collected/ { print $4 }' || true
}

# The most memory of a call, in kilobytes.
memory() {
    python3 - "$flow" run --workers 1 "$@" <<'PYTHON'
import os, sys
child = os.fork()
if child == 0:
    os.dup2(os.open("/dev/null", os.O_WRONLY), 1)
    os.dup2(1, 2)
    os.execv(sys.argv[1], sys.argv[1:])
print(os.wait4(child, 0)[2].ru_maxrss)
PYTHON
}

echo '{"tasks":[]}' > empty.json
none=$(instructions empty.json)
for file in chain fan reads; do
    awk -v name="$file" -v all="$(instructions "$file.json")" -v none="$none" \
        'BEGIN { printf "%-6s %7.0f instructions a task\n", name, (all - none) / 10000 }'
done
few=$(instructions loop.json --limit 100000)
many=$(instructions loop.json --limit 200000)
few_memory=$(memory loop.json --limit 100000)
many_memory=$(memory loop.json --limit 1000000)
awk -v few="$few" -v many="$many" -v fewer="$few_memory" -v more="$many_memory" \
    'BEGIN { printf "loop   %7.0f instructions and %.0f bytes a start\n", (many - few) / 100000, (more - fewer) * 1024 / 900000 }'
