#!/usr/bin/env bash
# Counts the instructions of small tasks by `valgrind --tool=callgrind`, in the built program and in an unverified Rust
# program (bench/peers/graphs.rs) on the same files: for each task of a chain, a tree, a fan and reads of a thousand
# texts, of 10,000 tasks each, run by one worker. The peer keeps all values and a journal, or frees what no task needs
# any more; the ratios to both end the line. Run it as `bash bench/tasks.sh`, from any folder, after `make`; it needs
# valgrind, python3 and rustc.
set -euo pipefail
bench=$(cd "$(dirname "${BASH_SOURCE[0]}")" && pwd)
flow=$bench/../crates/flow/out/flow
[ -x "$flow" ] || { echo "build the program first: make" >&2; exit 1; }
for tool in valgrind python3 rustc; do
    command -v $tool > /dev/null || { echo "$tool isn't there" >&2; exit 1; }
done

folder=$(mktemp -d)
trap 'rm -rf "$folder"' EXIT
cd "$folder"
rustc --edition 2021 -O -o peer "$bench/peers/graphs.rs"

python3 - <<'PYTHON'
import json

COUNT = 10_000


def write(name, tasks):
    with open(name + ".json", "w") as file:
        json.dump({"tasks": tasks}, file)


def keep(number, to):
    return {"name": f"t{number}", "op": "keep", "word": "x", "to": [f"t{it}" for it in to if it < COUNT]}


first = {"name": "t0", "op": "read", "text": "small.txt"}
write("chain", [first | {"to": ["t1"]}] + [keep(k, [k + 1]) for k in range(1, COUNT)])
write("tree", [first | {"to": ["t1", "t2"]}] + [keep(k, [2 * k + 1, 2 * k + 2]) for k in range(1, COUNT)])
names = [f"c{k}" for k in range(1, COUNT)]
write("fan", [first | {"to": names}] + [{"name": name, "op": "count"} for name in names])
reads = [{"name": f"r{k}", "op": "read", "text": f"s{k % 1000}.txt", "to": [f"c{k}"]} for k in range(COUNT // 2)]
write("reads", reads + [{"name": f"c{k}", "op": "count"} for k in range(COUNT // 2)])
write("empty", [])
for name in ["small.txt", *(f"s{k}.txt" for k in range(1000))]:
    with open(name, "w") as file:
        file.write("x\ny\n")
PYTHON

# The instructions of a call that ends well.
instructions() {
    valgrind --tool=callgrind --callgrind-out-file=/dev/null "$@" 2> said > made || { cat said >&2; exit 1; }
    awk '/Collected/ { print $4 }' said
}

empty=$(instructions "$flow" run --workers 1 empty.json)
peer_empty=$(instructions ./peer shares empty.json)
for file in chain tree fan reads; do
    flow_count=$(instructions "$flow" run --workers 1 $file.json)
    mv made wanted
    keeps=$(instructions ./peer keeps $file.json)
    cmp made wanted
    shares=$(instructions ./peer shares $file.json)
    cmp made wanted
    awk -v name=$file -v flow="$flow_count" -v empty="$empty" -v peer_empty="$peer_empty" -v keeps="$keeps" \
        -v shares="$shares" 'BEGIN {
            flow = (flow - empty) / 10000; keeps = (keeps - peer_empty) / 10000; shares = (shares - peer_empty) / 10000
            printf "%-6s %6.0f instructions a task; a peer that keeps all %6.0f (%.2f), that shares %6.0f (%.2f)\n",
                name, flow, keeps, flow / keeps, shares, flow / shares }'
done
