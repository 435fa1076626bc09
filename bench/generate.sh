#!/usr/bin/env bash
# Measures `flow generate 900` by one and by four workers beside the same graph over oneTBB's flow graph with plain
# std::string operations (bench/peers/generate_tbb.cpp), which has to print the same. All calls are made in turn, nine
# of each or as many as the argument says. It needs python3, g++ and oneTBB (Debian's libtbb-dev), says the load before
# and after, and is run as `bash bench/generate.sh`, from any folder, on a machine with four idle processors.
set -euo pipefail
bench=$(cd "$(dirname "${BASH_SOURCE[0]}")" && pwd)
flow=$bench/../crates/flow/out/flow
[ -x "$flow" ] || { echo "build the program first: make program" >&2; exit 1; }

folder=$(mktemp -d)
trap 'rm -rf "$folder"' EXIT
g++ -O2 -std=c++17 "$bench/peers/generate_tbb.cpp" -ltbb -o "$folder/peer"

uptime
python3 - "$flow" "$folder/peer" "${1:-9}" <<'PYTHON'
import resource, statistics, subprocess, sys, time

FLOW, PEER, CALLS = sys.argv[1], sys.argv[2], int(sys.argv[3])
LAYERS = "900"


def flow(workers):
    return [FLOW, "generate", LAYERS, "--workers", workers]


def peer(workers):
    return [PEER, LAYERS, workers]


def measured(call):
    """How long a call takes, by the clock and of all processors, and what it prints."""
    before, start = resource.getrusage(resource.RUSAGE_CHILDREN), time.perf_counter()
    done = subprocess.run(call, capture_output=True, text=True, check=True)
    after = resource.getrusage(resource.RUSAGE_CHILDREN)
    return time.perf_counter() - start, after.ru_utime + after.ru_stime - before.ru_utime - before.ru_stime, done.stdout


calls = {(name, workers): make(workers) for name, make in (("flow", flow), ("peer", peer)) for workers in ("1", "4")}
seen = {key: [] for key in calls}
for _ in range(CALLS):
    for key, call in calls.items():
        seen[key].append(measured(call))
if len({printed for rows in seen.values() for _, _, printed in rows}) != 1:
    sys.exit("the calls print different numbers")
clock = {key: statistics.median(row[0] for row in rows) for key, rows in seen.items()}
processor = {key: statistics.median(row[1] for row in rows) for key, rows in seen.items()}
for workers in ("1", "4"):
    ours, theirs = ("flow", workers), ("peer", workers)
    print(f"generate {LAYERS}, {workers} worker{'s' if workers != '1' else ''}: {clock[ours]:.3f} s ({processor[ours]:.3f} s of processors); oneTBB {clock[theirs]:.3f} s ({processor[theirs]:.3f} s); "
          f"ratio {clock[ours] / clock[theirs]:.2f}")
print(f"four workers are {clock['flow', '1'] / clock['flow', '4']:.2f} times as fast as one; those of oneTBB {clock['peer', '1'] / clock['peer', '4']:.2f} times")
PYTHON
uptime
