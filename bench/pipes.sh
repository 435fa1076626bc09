#!/usr/bin/env bash
# Measures pipelines. By instructions, one worker: a start in 65,000 tokens that go through three pipes, beside a start
# of a graph of 10,000 tasks in a row, of whole calls, and without what reading the files takes; and the order of tokens
# of which 256 wait for others, for 8,192, 16,384 and 65,536 of them. By the clock: 254 parts of 5,000 lines that a
# parallel pipe sorts, by four workers, beside four programs at once that each do a quarter of it. All timed calls are
# made in turn, nine of each or as many as the argument says. It needs python3 and valgrind, says the load before and
# after, and is run as `bash bench/pipes.sh`, from any folder, on a machine with four idle processors.
set -euo pipefail
flow=$(cd "$(dirname "${BASH_SOURCE[0]}")/.." && pwd)/crates/flow/out/flow
[ -x "$flow" ] || { echo "build the program first: make program" >&2; exit 1; }

folder=$(mktemp -d)
trap 'rm -rf "$folder"' EXIT
cd "$folder"

uptime
python3 - "$flow" "${1:-9}" <<'PYTHON'
import json, random, re, statistics, subprocess, sys, time

FLOW, CALLS = sys.argv[1], int(sys.argv[2])
TOKENS, TASKS = 65_000, 10_000
PARTS, LINES = 254, 5_000


def write(name, tasks):
    with open(f"{name}.json", "w") as out:
        json.dump({"tasks": tasks}, out)


def pipe(lines, pipes, **fields):
    return {"op": "pipe", "lines": lines, "pipes": [{"serial": serial, "op": op} for serial, op in pipes]} | fields


def reading(text, *tasks):
    return [{"name": "r", "op": "read", "text": text, "to": ["t"]}, *tasks]


def instructions(*words):
    """How many instructions a call takes."""
    done = subprocess.run(["valgrind", "--tool=callgrind", "--callgrind-out-file=/dev/null", FLOW, *words], capture_output=True, text=True, check=True)
    return int(re.search(r"Collected : (\d+)", done.stderr)[1])


def seconds(calls):
    """How long these calls take, made at once."""
    start = time.perf_counter()
    running = [subprocess.Popen([FLOW, *words], stdout=subprocess.DEVNULL) for words in calls]
    if any(call.wait() for call in running):
        sys.exit("a call failed")
    return time.perf_counter() - start


one = ("--workers", "1")

# ---- a start
open("tokens.txt", "w").write("x\n" * TOKENS)
write("pipes", reading("tokens.txt", {"name": "t"} | pipe(4, [(True, "pass"), (False, "pass"), (True, "pass")])))
write("no-pipes", reading("tokens.txt", {"name": "t", "op": "pass"}))
open("line.txt", "w").write("x\n")
names = ["r", "t"] + [f"k{k}" for k in range(TASKS - 2)]
write("row", [{"name": "r", "op": "read", "text": "line.txt", "to": ["t"]}]
      + [{"name": name, "op": "pass", "to": [after]} for name, after in zip(names[1:], names[2:])] + [{"name": names[-1], "op": "pass"}])
pipes, row = instructions("run", "pipes.json", *one), instructions("run", "row.json", *one)
print(f"{TOKENS:,} tokens through three pipes, one worker: {pipes / (3 * TOKENS + 1):,.0f} instructions a start; {TASKS:,} tasks in a row: {row / TASKS:,.0f}; "
      f"ratio {pipes / (3 * TOKENS + 1) / (row / TASKS):.2f}")
piped = (pipes - instructions("run", "no-pipes.json", *one)) / (3 * TOKENS + 1)
plain = (row - instructions("check", "row.json")) / TASKS
print(f"  without reading files: {piped:,.0f} and {plain:,.0f}; ratio {piped / plain:.2f}")

# ---- the order of tokens
for tokens in (8_192, 16_384, 65_536):
    open("many.txt", "w").write("x\n" * tokens)
    dice = random.Random(tokens)
    waiting = dice.sample(range(tokens), 256)
    others = sorted(set(range(tokens)) - set(waiting))
    defer = [{"token": token, "to": dice.sample(others, 8)} for token in waiting]
    write("waiting", reading("many.txt", {"name": "t"} | pipe(4, [(True, "pass")], defer=defer)))
    write("free", reading("many.txt", {"name": "t"} | pipe(4, [(True, "pass")])))
    both = [instructions("run", f"{name}.json", *one) for name in ("waiting", "free")]
    print(f"{tokens:,} tokens, 256 rows of eight targets: {both[0] / tokens:,.0f} instructions a token, {both[1] / tokens:,.0f} without rows")

# ---- parts side by side
dice = random.Random(1)
open("parts.txt", "w").write("".join(f"{dice.getrandbits(48):012x}\n" for _ in range(PARTS * LINES)))
quarter = PARTS * LINES // 4
open("quarter.txt", "w").write("".join(f"{dice.getrandbits(48):012x}\n" for _ in range(quarter)))
write("parts", reading("parts.txt", {"name": "t", "to": ["c"]} | pipe(8, [(True, "pass"), (False, "sort"), (False, "count")], n=LINES), {"name": "c", "op": "count"}))
write("quarter", reading("quarter.txt", {"name": "t", "to": ["c"]} | pipe(8, [(True, "pass"), (False, "sort"), (False, "count")], n=LINES), {"name": "c", "op": "count"}))
times = {"one": [], "four": [], "alone": []}
for _ in range(CALLS):
    times["one"].append(seconds([("run", "parts.json", *one)]))
    times["four"].append(seconds([("run", "parts.json", "--workers", "4")]))
    times["alone"].append(seconds([("run", "quarter.json", *one)] * 4))
one_, four, alone = (statistics.median(times[name]) for name in ("one", "four", "alone"))
print(f"{PARTS} parts of {LINES:,} lines, sorted by a parallel pipe: one worker {one_:.3f} s, four {four:.3f} s, four programs at once, a quarter each, {alone:.3f} s; "
      f"four workers come to {alone / four:.2f} of these")
PYTHON
uptime
