#!/usr/bin/env bash
# Measures parts of the program by themselves: five calls of `bench SUBJECT`, each with a line for each figure, of which
# the least of the five counts. The subjects are the arguments, without any `machine` (steps of a machine, the judge),
# `frames` (runs of jobs by one thread and by crews) and `pitfalls` (the check of large nets). It builds the program
# first, and says the load before and after. Run it as `bash bench/parts.sh`, from any folder, on a machine with four
# idle processors.
set -euo pipefail
cd "$(dirname "${BASH_SOURCE[0]}")/../crates/bench"
rt run > /dev/null
(($# > 0)) || set -- machine frames pitfalls
uptime
for subject in "$@"; do
    for _ in 1 2 3 4 5; do
        ./out/bench "$subject"
    done
done
uptime
