#!/usr/bin/env bash
# Measures what a desk costs. Four callers ask 10,000 times together, each time for one round of a graph without tasks,
# beside four that serve and sleep for 100 microseconds where no ask may be taken; and one team runs 10,000 rounds of
# the same graph by itself. The two are called in turn, eleven times or as often as the argument says. It prints the
# processor time of all threads for a round, the median and the least of each, what an ask costs more, and how often
# the threads of a call went to sleep. It builds the program first, and says the load before and after. It needs
# python3; run it as `bash bench/desk.sh`, from any folder, on a machine with four idle processors.
set -euo pipefail
crate=$(cd "$(dirname "${BASH_SOURCE[0]}")/.." && pwd)/crates/bench
(cd "$crate" && rt run > /dev/null)

uptime
python3 - "$crate/out/bench" "${1:-11}" <<'PYTHON'
import os, statistics, sys

PROGRAM, TURNS = sys.argv[1], int(sys.argv[2])
ROUNDS = 10_000


def measured(kind):
    """The microseconds of processor time for a round, and how often a thread of the call went to sleep."""
    _, status, used = os.wait4(os.spawnv(os.P_NOWAIT, PROGRAM, [PROGRAM, "desk", kind]), 0)
    if status:
        sys.exit(f"{kind} failed")
    return 1e6 * (used.ru_utime + used.ru_stime) / ROUNDS, used.ru_nvcsw


turns = [(measured("asks"), measured("rounds")) for _ in range(TURNS)]
for place, name in enumerate(("asked of a desk", "by one team")):
    micros, sleeps = zip(*(turn[place] for turn in turns))
    print(f"10,000 rounds {name}, {TURNS} turns: {statistics.median(micros):.2f} microseconds of processor time a round, "
          f"least {min(micros):.2f}; {statistics.median(sleeps):.0f} voluntary context switches, least {min(sleeps)}, most {max(sleeps)}")
more = [asks[0] - rounds[0] for asks, rounds in turns]
print(f"  an ask costs {statistics.median(more):.2f} microseconds more, least {min(more):.2f}, most {max(more):.2f}")
PYTHON
uptime
