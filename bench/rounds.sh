#!/usr/bin/env bash
# Measures what rounds and a profile cost. By instructions, one worker: 1,000 rounds of a graph of four tasks beside one
# run of a loop that makes as many starts; and a profile of a graph of 10,000 tasks beside its run. By the clock: 1,000
# rounds of the four tasks by one worker and by four, and what a round by four costs more; beside it 1,000 runs of four
# threads that do nothing. By memory: 250, 500 and 1,000 rounds, and how many bytes a round they need at most. All timed
# calls are made in turn, fifteen of each or as many as the argument says. It needs python3, gcc, valgrind and GNU time,
# says the load before and after, and is run as `bash bench/rounds.sh`, from any folder, on a machine with four idle
# processors.
set -euo pipefail
flow=$(cd "$(dirname "${BASH_SOURCE[0]}")/.." && pwd)/crates/flow/out/flow
[ -x "$flow" ] || { echo "build the program first: make program" >&2; exit 1; }

folder=$(mktemp -d)
trap 'rm -rf "$folder"' EXIT
cd "$folder"

# Four threads made and joined, a thousand times.
cat >threads.c <<'C'
#include <pthread.h>
static void *nothing(void *_) { return 0; }
int main(void) {
    for (int round = 0; round < 1000; round++) {
        pthread_t threads[4];
        for (int k = 0; k < 4; k++) pthread_create(&threads[k], 0, nothing, 0);
        for (int k = 0; k < 4; k++) pthread_join(threads[k], 0);
    }
}
C
gcc -O2 -pthread threads.c -o threads

uptime
python3 - "$flow" "${1:-15}" <<'PYTHON'
import json, re, statistics, subprocess, sys, time

FLOW, CALLS = sys.argv[1], int(sys.argv[2])
ROUNDS, TASKS = 1_000, 10_000


def write(name, tasks):
    with open(f"{name}.json", "w") as out:
        json.dump({"tasks": tasks}, out)


# Four tasks in a row; the same in a loop, which goes round until its text, a line shorter each time, is used up.
open("line.txt", "w").write("x\n")
open("lines.txt", "w").write("x\n" * ROUNDS)
write("row", [{"name": "r", "op": "read", "text": "line.txt", "to": ["a"]}, {"name": "a", "op": "pass", "to": ["b"]},
              {"name": "b", "op": "pass", "to": ["c"]}, {"name": "c", "op": "pass"}])
write("loop", [{"name": "r", "op": "read", "text": "lines.txt", "to": ["start"]}, {"name": "start", "op": "back", "to": ["a"]},
               {"name": "a", "op": "skip", "n": 1, "to": ["b"]}, {"name": "b", "op": "pass", "to": ["c"]}, {"name": "c", "op": "pass", "to": ["d"]},
               {"name": "d", "op": "ifmore", "n": 0, "to": ["a", "e"]}, {"name": "e", "op": "pass"}])
names = [f"k{k}" for k in range(TASKS - 1)]
write("wide", [{"name": "r", "op": "read", "text": "line.txt", "to": names}] + [{"name": name, "op": "count"} for name in names])


def instructions(*words):
    """How many instructions a call takes."""
    done = subprocess.run(["valgrind", "--tool=callgrind", "--callgrind-out-file=/dev/null", FLOW, *words], capture_output=True, text=True, check=True)
    return int(re.search(r"Collected : (\d+)", done.stderr)[1])


def seconds(*words):
    start = time.perf_counter()
    subprocess.run(words, stdout=subprocess.DEVNULL, check=True)
    return time.perf_counter() - start


def memory_of(rounds):
    """The most memory of so many rounds by one worker, in bytes."""
    done = subprocess.run(["/usr/bin/time", "-f", "%M", FLOW, "run", "row.json", "--workers", "1", "--times", str(rounds)],
                          capture_output=True, text=True, check=True)
    return int(done.stderr) * 1024


one = ("--workers", "1")
nothing = instructions("run", "row.json", *one, "--times", "0")
rounds = instructions("run", "row.json", *one, "--times", str(ROUNDS)) - nothing
loop = instructions("run", "loop.json", *one) - nothing
starts = 4 * ROUNDS
print(f"{ROUNDS:,} rounds of four tasks, one worker: {rounds / starts:.0f} instructions a start; one loop of {starts:,} starts: {loop / starts:.0f}; "
      f"{rounds / loop:.2f} times")
run, profile = instructions("run", "wide.json", *one), instructions("profile", "wide.json", *one)
print(f"a profile of {TASKS:,} tasks, one worker: {profile / run:.3f} times its run")

kinds = [("one worker", [FLOW, "run", "row.json", *one, "--times", str(ROUNDS)]),
         ("four workers", [FLOW, "run", "row.json", "--workers", "4", "--times", str(ROUNDS)]),
         ("four threads that do nothing", ["./threads"])]
turns = [[seconds(*words) for _, words in kinds] for _ in range(CALLS)]
print(f"{ROUNDS:,} rounds, {CALLS} turns")
for place, (name, _) in enumerate(kinds):
    each = [1e6 * turn[place] / ROUNDS for turn in turns]
    print(f"  {name}: {statistics.median(each):.0f} microseconds a round (least {min(each):.0f})")
print(f"  a round by four workers more than by one: {statistics.median(1e6 * (turn[1] - turn[0]) / ROUNDS for turn in turns):.0f} microseconds")

memory = {count: memory_of(count) for count in (ROUNDS // 4, ROUNDS // 2, ROUNDS)}
for count, most in memory.items():
    print(f"{count:,} rounds: {most / 1e6:.1f} MB")
print(f"  {(memory[ROUNDS] - memory[ROUNDS // 2]) / (ROUNDS // 2):.0f} bytes a round more from {ROUNDS // 2:,} to {ROUNDS:,}, "
      f"{(memory[ROUNDS // 2] - memory[ROUNDS // 4]) / (ROUNDS // 4):.0f} from {ROUNDS // 4:,} to {ROUNDS // 2:,}")
PYTHON
uptime
