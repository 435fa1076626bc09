#!/usr/bin/env bash
# Measures `flow count` on texts of 16 MB with lines of random hexadecimal digits, of 7, 16 and 100 bytes with their
# ends: the lines in which `abcd` occurs, by one worker, and by four in chunks of the default and of one line at least,
# beside `grep -Fc` and `flow run` with a keep and a count by one worker; and the same command on an empty text, which is
# what a call takes besides. The kinds of calls are taken in turn, eleven of each or as many as the first argument says. It
# prints the median and the least time of each and says the load before and after. It needs python3; run it as `bash
# bench/count.sh`, from any folder, on a machine with four idle processors.
set -euo pipefail
flow=$(cd "$(dirname "${BASH_SOURCE[0]}")/.." && pwd)/crates/flow/out/flow
[ -x "$flow" ] || { echo "build the program first: make" >&2; exit 1; }

folder=$(mktemp -d)
trap 'rm -rf "$folder"' EXIT
cd "$folder"

uptime
python3 - "$flow" "${1:-11}" <<'PYTHON'
import json, os, random, statistics, subprocess, sys, time

FLOW, TURNS = sys.argv[1], int(sys.argv[2])
SIZE = 16_000_000
dice = random.Random(7)


def write_text(name, width):
    """Lines of random digits, of this width with their ends."""
    count, own = SIZE // width, width - 1
    digits = f"{dice.getrandbits(4 * count * own):0{count * own}x}"
    with open(name, "w") as file:
        file.writelines(digits[k * own:(k + 1) * own] + "\n" for k in range(count))


def write_graph(name, text):
    with open(name, "w") as file:
        json.dump({"tasks": [{"name": "r", "op": "read", "text": text, "to": ["k"]},
                             {"name": "k", "op": "keep", "word": "abcd", "to": ["n"]}, {"name": "n", "op": "count"}]}, file)


def seconds(words):
    start = time.perf_counter()
    subprocess.run(words, stdout=subprocess.PIPE, check=True, env={**os.environ, "LC_ALL": "C"})
    return time.perf_counter() - start


def measure(calls):
    times = {name: [] for name in calls}
    for _ in range(TURNS):
        for name, words in calls.items():
            times[name].append(seconds(words))
    for name, taken in times.items():
        print(f"  {name:34} {statistics.median(taken) * 1000:8.1f} ms, least {min(taken) * 1000:8.1f}")
    return {name: min(taken) for name, taken in times.items()}


open("empty.txt", "w").close()
for width in (7, 16, 100):
    text, graph = f"text{width}.txt", f"graph{width}.json"
    write_text(text, width)
    write_graph(graph, text)
    print(f"lines of {width} bytes")
    least = measure({
        "empty text": [FLOW, "count", "abcd", "empty.txt", "--workers", "1"],
        "grep -Fc": ["grep", "-Fc", "abcd", text],
        "run, one worker": [FLOW, "run", graph, "--workers", "1"],
        "count, one worker": [FLOW, "count", "abcd", text, "--workers", "1"],
        "count, four workers": [FLOW, "count", "abcd", text, "--workers", "4"],
        "count, four workers, chunks of one": [FLOW, "count", "abcd", text, "--workers", "4", "--grain", "1"],
    })
    one, four = least["count, one worker"], least["count, four workers"]
    print(f"  of grep {one / least['grep -Fc']:.2f}, of run {one / least['run, one worker']:.2f}; "
          f"four workers {one / four:.2f} times as fast; "
          f"in chunks of one line {least['count, four workers, chunks of one'] / four:.2f} of theirs")
PYTHON
uptime
