#!/usr/bin/env bash
# Measures books of async tasks. The processor time of all threads for a task where two callers add 50,000 tasks each,
# every one after the caller's last, beside two workers; and how long one worker and four take for 100,000 tasks of
# about two microseconds that wait for nothing, and how long their work takes alone. The kinds of calls are taken in
# turn, eleven of each or as many as the argument says; it prints the median and the least of each figure, and the ratio
# of the turns and of the least times.
# It builds the program first, and says the load before and after. It needs python3; run it as `bash bench/async.sh`,
# from any folder, on a machine with four idle processors.
set -euo pipefail
crate=$(cd "$(dirname "${BASH_SOURCE[0]}")/.." && pwd)/crates/bench
(cd "$crate" && rt run > /dev/null)

uptime
python3 - "$crate/out/bench" "${1:-11}" <<'PYTHON'
import os, statistics, subprocess, sys

PROGRAM, TURNS = sys.argv[1], int(sys.argv[2])
CHAINED = 100_000


def processor_micros():
    """The processor time of all threads for a task of the two chains."""
    _, status, used = os.wait4(os.spawnv(os.P_NOWAIT, PROGRAM, [PROGRAM, "asyncs", "chains"]), 0)
    if status:
        sys.exit("the chains failed")
    return 1e6 * (used.ru_utime + used.ru_stime) / CHAINED


def milliseconds(word):
    """How long so many workers take for the tasks that wait for nothing, or their work alone."""
    printed = subprocess.run([PROGRAM, "asyncs", word], capture_output=True, check=True, text=True).stdout
    return int(printed.split()[-2]) / 1000


chains, alone, one, four = [], [], [], []
for _ in range(TURNS):
    chains.append(processor_micros())
    alone.append(milliseconds("work"))
    one.append(milliseconds("1"))
    four.append(milliseconds("4"))
print(f"two chains of 50,000 tasks, {TURNS} turns: {statistics.median(chains):.2f} microseconds of processor time a task, least {min(chains):.2f}")
for name, taken in (("their work alone", alone), ("one worker", one), ("four workers", four)):
    print(f"100,000 tasks of two microseconds, {name}: {statistics.median(taken):.0f} ms, least {min(taken):.0f}")
ratio = statistics.median(a / b for a, b in zip(one, four))
print(f"  four workers {ratio:.2f} times as fast, of the least times {min(one) / min(four):.2f}")
PYTHON
uptime
