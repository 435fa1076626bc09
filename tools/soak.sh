#!/usr/bin/env bash
# Runs random graphs with limits, faults, semaphores, modules, spreads and pipelines by 1, 4 and 16 workers on the built
# program while it is stopped, continued and held to one processor (`tools/disturbed_flow`): fifteen minutes of each of
# four tools, or as many seconds as the second argument says. The first argument is a number of which the cases follow;
# without one it is drawn. Stops at the first fault, with status 1.
set -euo pipefail
cd "$(dirname "${BASH_SOURCE[0]}")/.."
[ -x crates/flow/out/flow ] || { echo "build the program first: make program" >&2; exit 1; }
seed=${1:-$((RANDOM * 32768 + RANDOM))}
seconds=${2:-900}

for tool in many_workers semaphore_graphs nested_graphs pipe_graphs; do
    echo "== tools/$tool.py, $seconds seconds, seed $seed"
    if ! python3 -B "tools/$tool.py" tools/disturbed_flow --seed "$seed" --seconds "$seconds"; then
        echo "soak: tools/$tool.py found a fault or broke off; again with: make soak SEED=$seed" >&2
        exit 1
    fi
done
