#!/usr/bin/env bash
# Measures what runs inside runs cost. By instructions, one worker: a read of one line and 9,999 counts of it, a spread
# of 65,536 parts of one line each with a count each, and a read and 2,000 tasks that each run a module of one count; of
# each the instructions a start, those of the runs inside included, and their ratio to the first. By the clock: 66 sorts
# in a spread of a text of 8 MB by one worker and by four, beside four programs at once that do a quarter each by one
# worker; the median and the least time, and how the speed of the four workers compares with that of the four programs.
# By memory: spreads of 16,384, 32,768 and 65,536 parts, and how many bytes a part they need at most. All timed calls
# are made in turn, fifteen of each or as many as the argument says. It needs python3, valgrind and GNU time, says the
# load before and after, and is run as `bash bench/nested.sh`, from any folder, on a machine with four idle processors.
set -euo pipefail
flow=$(cd "$(dirname "${BASH_SOURCE[0]}")/.." && pwd)/crates/flow/out/flow
[ -x "$flow" ] || { echo "build the program first: make program" >&2; exit 1; }

folder=$(mktemp -d)
trap 'rm -rf "$folder"' EXIT
cd "$folder"

uptime
python3 - "$flow" "${1:-15}" <<'PYTHON'
import json, random, re, statistics, subprocess, sys, time

FLOW, CALLS = sys.argv[1], int(sys.argv[2])
FLAT, PARTS, RUNS, SORTS = 9_999, 65_536, 2_000, 66
dice = random.Random(7)


def write(name, tasks, **more):
    with open(f"{name}.json", "w") as out:
        json.dump({"tasks": tasks, **more}, out)


def fan(count, fields):
    """A read of one line and tasks behind it, each with these fields."""
    names = [f"k{k}" for k in range(count)]
    return [{"name": "r", "op": "read", "text": "line.txt", "to": names}] + [{"name": name, **fields} for name in names]


def spread(text, lines, op):
    return [{"name": "r", "op": "read", "text": text, "to": ["s"]}, {"name": "s", "op": "spread", "n": lines, "each": {"op": op}, "to": ["c"]},
            {"name": "c", "op": "count"}]


def random_lines(count):
    return "".join(f"{dice.getrandbits(24):06x}\n" for _ in range(count))


open("line.txt", "w").write("x\n")
for parts in (PARTS // 4, PARTS // 2, PARTS):
    open(f"lines{parts}.txt", "w").write("x\n" * parts)
    write(f"parts{parts}", spread(f"lines{parts}.txt", 1, "count"))
write("flat", fan(FLAT, {"op": "count"}))
write("modules", fan(RUNS, {"op": "module", "module": "m"}), modules=[{"name": "m", "tasks": [{"name": "c", "op": "count"}]}])
part_lines = 8_000_000 // 7 // SORTS
parts = [random_lines(part_lines) for _ in range(SORTS)]
open("sorts.txt", "w").write("".join(parts))
write("sorts", spread("sorts.txt", part_lines, "sort"))
for k in range(4):
    open(f"sorts{k}.txt", "w").write("".join(parts[k::4]))
    write(f"sorts{k}", spread(f"sorts{k}.txt", part_lines, "sort"))


def instructions(graph):
    """How many instructions a run by one worker takes."""
    done = subprocess.run(["valgrind", "--tool=callgrind", "--callgrind-out-file=/dev/null", FLOW, "run", f"{graph}.json", "--workers", "1"],
                          capture_output=True, text=True, check=True)
    return int(re.search(r"Collected : (\d+)", done.stderr)[1])


def timed(graphs, workers):
    """The seconds of programs that are started at once."""
    start = time.perf_counter()
    programs = [subprocess.Popen([FLOW, "run", f"{graph}.json", "--workers", str(workers)], stdout=subprocess.DEVNULL) for graph in graphs]
    for program in programs:
        if program.wait():
            sys.exit(f"{program.args} ended with code {program.returncode}")
    return time.perf_counter() - start


def memory_of(graph):
    """The most memory of a run by one worker, in bytes."""
    done = subprocess.run(["/usr/bin/time", "-f", "%M", FLOW, "run", f"{graph}.json", "--workers", "1"], capture_output=True, text=True, check=True)
    return int(done.stderr) * 1024


flat = instructions("flat") / (FLAT + 1)
print(f"a read and {FLAT:,} counts: {flat:.0f} instructions a start")
for graph, name, starts in ((f"parts{PARTS}", f"a spread of {PARTS:,} counts", PARTS + 3), ("modules", f"{RUNS:,} tasks that run a module of one count", 2 * RUNS + 1)):
    each = instructions(graph) / starts
    print(f"{name}: {each:.0f} instructions a start, {each / flat:.2f} times the first")

kinds = (("one worker", ["sorts"], 1), ("four workers", ["sorts"], 4), ("four programs at once", [f"sorts{k}" for k in range(4)], 1))
turns = [[timed(graphs, workers) for _, graphs, workers in kinds] for _ in range(CALLS)]
print(f"{SORTS} sorts in a spread, {CALLS} turns")
for place, (name, _, _) in enumerate(kinds):
    seconds = [turn[place] for turn in turns]
    print(f"  {name}: {1000 * statistics.median(seconds):.0f} ms (least {1000 * min(seconds):.0f})")
print(f"  speed of four workers to that of four programs: {statistics.median(turn[2] / turn[1] for turn in turns):.2f}")

memory = {parts: memory_of(f"parts{parts}") for parts in (PARTS // 4, PARTS // 2, PARTS)}
for parts, most in memory.items():
    print(f"a spread of {parts:,} parts: {most / 1e6:.0f} MB")
print(f"  {(memory[PARTS] - memory[PARTS // 2]) / (PARTS // 2):.0f} bytes a part more from {PARTS // 2:,} to {PARTS:,}, "
      f"{(memory[PARTS // 2] - memory[PARTS // 4]) / (PARTS // 4):.0f} from {PARTS // 4:,} to {PARTS // 2:,}")
PYTHON
uptime
