#!/usr/bin/env bash
# Asks other programs of the schema, the manual page and the completion. Then runs the tools that make cases at random on
# the built program, five minutes of each or as many seconds as the second argument says. The first argument is a number of
# which the cases follow; without one it is drawn. Stops at the first fault, with status 1.
set -euo pipefail
cd "$(dirname "${BASH_SOURCE[0]}")/.."
flow=crates/flow/out/flow
[ -x "$flow" ] || { echo "build the program first: make program" >&2; exit 1; }
seed=${1:-$((RANDOM * 32768 + RANDOM))}
seconds=${2:-300}

echo "== tools/check_surface.sh"
bash tools/check_surface.sh
for tool in random_graphs many_workers semaphore_graphs nested_graphs pipe_graphs found_values judged_journals failing_memory; do
    echo "== tools/$tool.py, $seconds seconds, seed $seed"
    if ! python3 -B "tools/$tool.py" "$flow" --seed "$seed" --seconds "$seconds"; then
        echo "fuzz: tools/$tool.py found a fault or broke off; again with: make fuzz SEED=$seed" >&2
        exit 1
    fi
done
